/* A bound for dcmdump of small elements: the lines of a data set in explicit little endian that has texts, UI, US and SQ alone,
 * by a plain loop in C. It looks for no fault and reads the whole file at once, so it is what a program with no duties takes.
 *
 *     cc -O2 -o dump_bound dump_bound.c && ./dump_bound FILE KEYWORDS > LINES
 *
 * KEYWORDS has a line for each element of the dictionary, in tag order: eight hexadecimal digits, a space and the keyword. */
#include <fcntl.h>
#include <stdint.h>
#include <stdio.h>
#include <stdlib.h>
#include <string.h>
#include <sys/stat.h>
#include <unistd.h>

#define UNDEFINED 0xffffffffu
#define ITEM_END 0xfffee00du
#define SEQUENCE_END 0xfffee0ddu

static uint8_t *input;
static size_t size;

static char out[1 << 18];
static size_t used;

static struct {
    uint32_t tag;
    char name[64];
    int length;
} keywords[200];
static int keyword_count;

static void flush(void) {
    for (size_t done = 0; done < used;) {
        ssize_t written = write(1, out + done, used - done);
        if (written <= 0)
            exit(4);
        done += written;
    }
    used = 0;
}

static void put(const char *text, size_t length) {
    memcpy(out + used, text, length);
    used += length;
}

static void put_text(const char *text) {
    put(text, strlen(text));
}

static void put_spaces(int count) {
    while (count-- > 0)
        out[used++] = ' ';
}

static void put_tag(uint32_t tag) {
    out[used++] = '(';
    for (int shift = 28; shift >= 0; shift -= 4) {
        out[used++] = "0123456789abcdef"[tag >> shift & 15];
        if (shift == 16)
            out[used++] = ',';
    }
    out[used++] = ')';
}

static void put_number(uint32_t number, int width) {
    char digits[12];
    int first = sizeof digits;
    do
        digits[--first] = '0' + number % 10;
    while (number /= 10);
    int length = sizeof digits - first;
    put_spaces(width - length);
    put(digits + first, length);
}

static void put_keyword(uint32_t tag) {
    int low = 0, high = keyword_count;
    while (low < high) {
        int middle = (low + high) / 2;
        if (keywords[middle].tag < tag)
            low = middle + 1;
        else
            high = middle;
    }
    uint32_t element = tag & 0xffff;
    if (low < keyword_count && keywords[low].tag == tag)
        put(keywords[low].name, keywords[low].length);
    else if (element == 0)
        put_text("GenericGroupLength");
    else if ((tag >> 16 & 1) && element >= 0x10 && element <= 0xff)
        put_text("PrivateCreator");
    else
        put_text("Unknown Tag & Data");
}

static void begin_line(int level, uint32_t tag, const char *vr) {
    if (used > sizeof out - 65536)
        flush();
    put_spaces(2 * level);
    put_tag(tag);
    out[used++] = ' ';
    put(vr, 2);
    out[used++] = ' ';
}

/* Ends a line whose display begins there. Where there is no keyword, it is that of the tag. */
static void end_line(size_t display, uint32_t tag, uint32_t length, uint32_t count, const char *keyword) {
    put_spaces(40 - (int)(used - display));
    put(" # ", 3);
    if (length == UNDEFINED)
        put("u/l", 3);
    else
        put_number(length, 3);
    put(", ", 2);
    put_number(count, 0);
    out[used++] = ' ';
    if (keyword)
        put_text(keyword);
    else
        put_keyword(tag);
    out[used++] = '\n';
}

static void put_line(int level, uint32_t tag, const char *vr, const char *display, uint32_t length, uint32_t count,
                     const char *keyword) {
    begin_line(level, tag, vr);
    size_t begin = used;
    put_text(display);
    end_line(begin, tag, length, count, keyword);
}

static uint32_t number_16(size_t at) {
    return input[at] | input[at + 1] << 8;
}

static uint32_t number_32(size_t at) {
    return number_16(at) | number_16(at + 2) << 16;
}

static uint32_t tag_at(size_t at) {
    return number_16(at) << 16 | number_16(at + 2);
}

static int is_long(const char *vr) {
    return strstr("OB OW OD OF OL OV SQ UC UR UT UN SV UV", vr) != NULL;
}

static size_t put_set(size_t at, size_t end, int level);

static size_t put_sequence(size_t at, size_t end, int level, uint32_t declared) {
    while (at < end) {
        uint32_t tag = tag_at(at), length = number_32(at + 4);
        int is_open = length == UNDEFINED;
        at += 8;
        if (tag == SEQUENCE_END)
            break;
        put_line(level + 1, tag, "na", is_open ? "(Item with undefined length)" : "(Item with explicit length)", length, 1, "Item");
        at = put_set(at, is_open ? size : at + length, level + 2);
        put_line(level + 1, ITEM_END, "na", is_open ? "(ItemDelimitationItem)" : "(ItemDelimitationItem for re-encoding)", 0, 0,
                 "ItemDelimitationItem");
    }
    put_line(level, SEQUENCE_END, "na",
             declared == UNDEFINED ? "(SequenceDelimitationItem)" : "(SequenceDelimitationItem for re-encod.)", 0, 0,
             "SequenceDelimitationItem");
    return at;
}

static uint32_t put_numbers(size_t at, uint32_t length) {
    for (uint32_t i = 0; i < length / 2; i++) {
        if (i > 0)
            out[used++] = '\\';
        put_number(number_16(at + 2 * i), 0);
    }
    return length / 2;
}

static uint32_t put_value_text(size_t at, uint32_t length, char pad) {
    size_t begin = used;
    uint32_t count = 1, shown = length;
    if (length % 2 == 0 && input[at + length - 1] == pad)
        shown--;
    for (uint32_t i = 0; i < length; i++)
        count += input[at + i] == '\\';
    out[used++] = '[';
    for (uint32_t i = 0; i < shown; i++) {
        uint8_t byte = input[at + i];
        if (byte < 32 || byte == 127 || byte == '%' || byte == ']') {
            out[used++] = '%';
            out[used++] = "0123456789ABCDEF"[byte >> 4];
            out[used++] = "0123456789ABCDEF"[byte & 15];
        } else {
            out[used++] = byte;
        }
    }
    out[used++] = ']';
    if (used - begin > 66) {
        used = begin + 63;
        put("...", 3);
    }
    return count;
}

static size_t put_set(size_t at, size_t end, int level) {
    while (at < end) {
        uint32_t tag = tag_at(at);
        if (tag == ITEM_END)
            return at + 8;
        char vr[3] = {input[at + 4], input[at + 5], 0};
        uint32_t length = is_long(vr) ? number_32(at + 8) : number_16(at + 6);
        at += is_long(vr) ? 12 : 8;
        if (strcmp(vr, "SQ") == 0) {
            int is_open = length == UNDEFINED;
            put_line(level, tag, vr, is_open ? "(Sequence with undefined length)" : "(Sequence with explicit length)", length, 1, NULL);
            at = put_sequence(at, is_open ? size : at + length, level, length);
            continue;
        }
        begin_line(level, tag, vr);
        size_t display = used;
        uint32_t count = 0;
        if (length == 0)
            put_text("(no value available)");
        else if (strcmp(vr, "US") == 0)
            count = put_numbers(at, length);
        else
            count = put_value_text(at, length, strcmp(vr, "UI") == 0 ? 0 : ' ');
        end_line(display, tag, length, count, NULL);
        at += length;
    }
    return at;
}

static void read_keywords(const char *path) {
    FILE *file = fopen(path, "r");
    if (!file)
        exit(4);
    while (keyword_count < 200 && fscanf(file, "%x %63s", &keywords[keyword_count].tag, keywords[keyword_count].name) == 2) {
        keywords[keyword_count].length = strlen(keywords[keyword_count].name);
        keyword_count++;
    }
    fclose(file);
}

static void read_input(const char *path) {
    int file = open(path, O_RDONLY);
    struct stat is;
    if (file < 0 || fstat(file, &is) != 0)
        exit(4);
    size = is.st_size;
    input = malloc(size + 16);
    for (size_t done = 0; done < size;) {
        ssize_t read_now = read(file, input + done, size - done);
        if (read_now <= 0)
            exit(4);
        done += read_now;
    }
}

int main(int count, char **words) {
    if (count != 3)
        return 1;
    read_keywords(words[2]);
    read_input(words[1]);
    put_text("# Dicom-Data-Set\n");
    size_t at = 132;
    while (at + 8 <= size && number_16(at) == 2) {
        char vr[3] = {input[at + 4], input[at + 5], 0};
        at += is_long(vr) ? 12 + number_32(at + 8) : 8 + number_16(at + 6);
    }
    put_set(at, size, 0);
    flush();
    return 0;
}
