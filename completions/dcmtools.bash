# Completion of dcmtools for bash: source this file, or install it as
# /usr/share/bash-completion/completions/dcmtools, with dcmtools.keywords beside it.

# Adds to COMPREPLY the files and directories that begin with $1, but those whose names would be options.
_dcmtools_files() {
    local path
    compopt -o filenames 2>/dev/null
    while IFS= read -r path; do
        [[ $path == [-+]* ]] || COMPREPLY+=("$path")
    done < <(compgen -f -- "$1")
}

# Adds to COMPREPLY the lists that begin with $1, which begins with `@`, and the directories on their way.
_dcmtools_lists() {
    local path
    while IFS= read -r path; do
        if [[ -d $path ]]; then
            path+=/
            compopt -o nospace 2>/dev/null
        fi
        COMPREPLY+=("@$(printf %q "$path")")
    done < <(compgen -f -- "${1#@}")
}

# Adds to COMPREPLY those of the words in $1 that begin with $2.
_dcmtools_words() {
    local word
    while IFS= read -r word; do
        COMPREPLY+=("$word")
    done < <(compgen -W "$1" -- "$2")
}

# The tools, the options of each, and the keywords of the extract that an edit may name: those of values, and those of sequences.
# tables: written by scripts/make_completions.py
_dcmtools_tools='dcmdump dcmconv dump2dcm dcmodify dcmdeid dcm2csv'
_dcmtools_of_dcmdump='-L +L +u8 +P +p -p +fo -f -ti -te -tb -dict +dict +F'
_dcmtools_of_dcmconv='+t= +ti +te +tb -e +fo -dict +dict +ow +r +c +part +nh +v'
_dcmtools_of_dump2dcm='+l -e +ow'
_dcmtools_of_dcmodify='-i -m -e -ma -ea -ep -dict +dict +ow +r +c +part +nh +v'
_dcmtools_of_dcmdeid='+ru +rd +ri +rp +rl +rm +pi +bi +k +ow +r +c +part +nh +v +kn'
_dcmtools_of_dcm2csv='-k +nh +by +u8'
_dcmtools_values='
    SpecificCharacterSet ImageType InstanceCreationDate InstanceCreationTime SOPClassUID SOPInstanceUID StudyDate
    SeriesDate AcquisitionDate ContentDate AcquisitionDateTime StudyTime SeriesTime AcquisitionTime ContentTime
    AccessionNumber Modality Manufacturer InstitutionName ReferringPhysicianName CodeValue CodingSchemeDesignator
    CodeMeaning StudyDescription SeriesDescription ManufacturerModelName ReferencedSOPClassUID ReferencedSOPInstanceUID
    PatientName PatientID PatientBirthDate PatientSex PatientAge PatientSize PatientWeight PatientComments
    BodyPartExamined SliceThickness KVP SoftwareVersions ProtocolName PatientPosition DiffusionBValue StudyInstanceUID
    SeriesInstanceUID StudyID SeriesNumber AcquisitionNumber InstanceNumber ImagePositionPatient ImageOrientationPatient
    FrameOfReferenceUID SliceLocation SamplesPerPixel PhotometricInterpretation PlanarConfiguration NumberOfFrames
    FrameIncrementPointer Rows Columns PixelSpacing BitsAllocated BitsStored HighBit PixelRepresentation WindowCenter
    WindowWidth RescaleIntercept RescaleSlope ValueType TextValue PixelData
'
_dcmtools_sequences='
    ReferencedStudySequence ReferencedPerformedProcedureStepSequence ReferencedSeriesSequence ReferencedImageSequence
    ReferencedSOPSequence SourceImageSequence ConceptNameCodeSequence ContentSequence
'
# end of tables

# The file of the keywords of the whole dictionary, one a line after `v ` (a value), `s ` (a sequence) or `c ` (for columns alone).
_dcmtools_keywords=$(cd "$(dirname "${BASH_SOURCE[0]}")" && pwd)/dcmtools.keywords

# Prints the keywords of the whole dictionary of the kinds in $1; where its file is missing, the words in $2.
_dcmtools_standard() {
    if [[ -r $_dcmtools_keywords ]]; then
        sed -n "s/^[$1] //p" "$_dcmtools_keywords"
    else
        printf '%s\n' "$2"
    fi
}

# Lets the keywords of values and of sequences be those that the dictionary on the command line has.
_dcmtools_read_dictionary() {
    local word
    for word in "${COMP_WORDS[@]}"; do
        case $word in
            +dict) values=$(_dcmtools_standard v "$_dcmtools_values") sequences=$(_dcmtools_standard s "$_dcmtools_sequences") ;;
            -dict) values=$_dcmtools_values sequences=$_dcmtools_sequences ;;
        esac
    done
}

# Adds to COMPREPLY the paths of an edit that begin with $1. A path to a value ends in $2, which is '=' where a value follows.
_dcmtools_paths() {
    local keyword before='' words=()
    [[ $1 == *.* ]] && before=${1%.*}.
    for keyword in $values; do
        words+=("$keyword$2")
    done
    for keyword in $sequences; do
        words+=("${keyword}[")
        [[ $2 ]] || words+=("$keyword")
    done
    compopt -o nospace 2>/dev/null
    while IFS= read -r keyword; do
        COMPREPLY+=("$keyword")
    done < <(compgen -P "$before" -W "${words[*]}" -- "${1##*.}")
}

# Adds to COMPREPLY the keywords of values that begin with $1, each with a '=' after it.
_dcmtools_replaced() {
    local keyword words=()
    for keyword in $values; do
        words+=("$keyword=")
    done
    compopt -o nospace 2>/dev/null
    _dcmtools_words "${words[*]}" "$1"
}

# The words that are answered with usage or the version, as the first word or as the only word after a tool's name.
_dcmtools_answered='help version -h --help --version'

_dcmtools() {
    local current=${COMP_WORDS[COMP_CWORD]} switches values=$_dcmtools_values sequences=$_dcmtools_sequences
    COMPREPLY=()
    if ((COMP_CWORD == 1)); then
        _dcmtools_words "$_dcmtools_tools $_dcmtools_answered" "$current"
        return
    fi
    if [[ $COMP_CWORD == 2 && ${COMP_WORDS[1]} == *help ]]; then
        _dcmtools_words "$_dcmtools_tools" "$current"
        return
    fi
    [[ " $_dcmtools_tools " == *" ${COMP_WORDS[1]} "* ]] || return
    switches=_dcmtools_of_${COMP_WORDS[1]}
    switches=${!switches}
    [[ ${COMP_WORDS[1]} != dcmodify ]] || _dcmtools_read_dictionary
    case ${COMP_WORDS[1]}${COMP_WORDS[COMP_CWORD - 1]} in
        dcmodify-i | dcmodify-m) _dcmtools_paths "$current" '='; return ;;
        dcmodify-e) _dcmtools_paths "$current" ''; return ;;
        dcmodify-ma) _dcmtools_replaced "$current"; return ;;
        dcmdeid+k) _dcmtools_files "$current"; return ;;
        dcmdeid+rm) _dcmtools_words 'key' "$current"; return ;;
        dcm2csv-k) _dcmtools_words "$(_dcmtools_standard vc "$values")" "$current"; return ;;
        dcmdump+P) _dcmtools_words "$(_dcmtools_standard vcs "$values $sequences")" "$current"; return ;;
        dcmconv+part | dcmodify+part | dcmdeid+part) return ;;
        dcmdump@ | dcm2csv@ | dcmconv@ | dcmodify@ | dcmdeid@) current=@$current ;; # a word is cut at `@`, and what is offered replaces both parts
        dcmodify-ea) _dcmtools_words "$values $sequences" "$current"; return ;;
    esac
    if [[ ${COMP_WORDS[1]} =~ ^(dcmdump|dcm2csv|dcmconv|dcmodify|dcmdeid)$ && $current == @* ]]; then
        _dcmtools_lists "$current"
        return
    fi
    case $current in
        [-+]*) _dcmtools_words "$switches" "$current" ;;
        *) _dcmtools_files "$current" ;;
    esac
    if ((COMP_CWORD == 2 && ${#COMP_WORDS[@]} == 3)); then
        _dcmtools_words "$_dcmtools_answered" "$current"
    fi
}

complete -F _dcmtools dcmtools
