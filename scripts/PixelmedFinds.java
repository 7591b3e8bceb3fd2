import com.pixelmed.dicom.Attribute;
import com.pixelmed.dicom.AttributeList;
import com.pixelmed.dicom.ClinicalTrialsAttributes;
import com.pixelmed.dicom.SequenceAttribute;
import com.pixelmed.dicom.SequenceItem;
import java.util.Iterator;
import java.util.Map;
import java.util.TreeMap;

/** Prints what PixelMed's own removal of identity would still change in files: `read FILE`, and `would change FILE TAG VALUE`. */
public class PixelmedFinds {
    private static final int PIXELS = 0x7FE0;

    private static void values(AttributeList list, String path, Map<String, String> into) throws Exception {
        for (Object each : list.values()) {
            Attribute attribute = (Attribute) each;
            String place = path + attribute.getTag();
            if (attribute instanceof SequenceAttribute) {
                SequenceAttribute sequence = (SequenceAttribute) attribute;
                into.put(place, "items: " + sequence.getNumberOfItems());
                int number = 0;
                for (Iterator items = sequence.iterator(); items.hasNext(); number++) {
                    values(((SequenceItem) items.next()).getAttributeList(), place + "[" + number + "].", into);
                }
            } else if (attribute.getVL() > 0 && attribute.getTag().getGroup() != PIXELS) {
                into.put(place, attribute.getDelimitedStringValuesOrEmptyString());
            }
        }
    }

    private static void judge(String file) throws Exception {
        AttributeList list = new AttributeList();
        list.read(file);
        Map<String, String> before = new TreeMap<>();
        values(list, "", before);
        ClinicalTrialsAttributes.removeOrNullIdentifyingAttributes(list, ClinicalTrialsAttributes.HandleUIDs.keep, false,
            false, false, false, false, false, ClinicalTrialsAttributes.HandleDates.remove, null, null,
            ClinicalTrialsAttributes.HandleStructuredContent.keep);
        list.removeUnsafePrivateAttributes();
        Map<String, String> after = new TreeMap<>();
        values(list, "", after);
        System.out.println("read\t" + file);
        for (Map.Entry<String, String> entry : before.entrySet()) {
            if (!entry.getValue().equals(after.get(entry.getKey()))) {
                System.out.println("would change\t" + file + "\t" + entry.getKey() + "\t" + entry.getValue());
            }
        }
    }

    public static void main(String[] files) {
        for (String file : files) {
            try {
                judge(file);
            } catch (Throwable unread) {
                System.out.println("not read\t" + file);
            }
        }
    }
}
