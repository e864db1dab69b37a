# The cases of the command kaaravizhe in which it writes. Read by tests/tool, whose folder and ways of running it they use.
equals=$(printf %35s '' | tr ' ' =)
new=(--notes new-notes --returned new-list --m8 new-m8 --out new-forwarded)
old=(--notes old-notes --returned old-list --m8 old-m8 --out old-forwarded)
new_pair=(--notes new-notes --out new-forwarded)
old_pair=(--notes old-notes --out old-forwarded)
silent='kaaravizhe: standard output cannot be written'

# The files of all cases that are no samples, in target/tests.
make_files() {
    local i
    payments 1 >target/tests/one
    payments 2000 >target/tests/many
    payments 9999 >target/tests/most
    { cat target/tests/most && printf 0; } >target/tests/longer
    name_with '\xC4' >target/tests/name-iso
    name_with '\x5B' >target/tests/name-din
    # record 1's account, T4b, ends at 281: mistyped in digits, all others come back; with a letter, all do
    payments 10 >target/tests/ten-alike
    file_with 5 281 target/tests/ten-alike >target/tests/ten
    file_with 5 281 target/tests/most >target/tests/most-returned
    sample_with O 281 >target/tests/all-returned
    # T14b's last digit in record 3; XX is no country for T10a, and record 2 has another T3 than record 1, which comes back too
    sample_with 5 $((1792 + 474)) >target/tests/half-cent
    sample_with XX $((256 + 207)) >target/tests/first-wrong
    file_with 1 $((1024 + 12)) target/tests/first-wrong >target/tests/first-returned
    file_with XX $((256 + 207)) target/tests/one >target/tests/only-payment
    # record 2 has no payee, and record 3 no amount, so Z3 is 199
    sample_with "$(printf %35s '')" $((1024 + 210)) >target/tests/no-payee
    file_with "$(printf %017d 0)" $((1792 + 458)) target/tests/no-payee >target/tests/no-amount
    file_with 0199 $((2560 + 16)) target/tests/no-amount >target/tests/blank-payee
    # a letter in an amount; record 2 comes back
    sample_with O $((1024 + 471)) >target/tests/no-digit
    sample_with XX $((1024 + 207)) >target/tests/second-wrong
    # both payments come back; all of 9,999 do, and there is no room for one more
    payments 2 >target/tests/two
    file_with XX $((256 + 207)) target/tests/two >target/tests/first-of-two
    file_with "$(printf %35s '')" $((1024 + 210)) target/tests/first-of-two >target/tests/half-returned
    cut_country target/tests/most >target/tests/most-wrong
    # 140 characters of T15 that are changed, more notes than 1,024 bytes hold
    sample_with "$equals$equals$equals$equals" $((256 + 475)) >target/tests/many-notes
    # eleven payments of which the sum has sixteen digits
    payments 11 >target/tests/rich-0
    for i in $(seq 11); do
        file_with 99999999999999 $((256 + (i - 1) * 768 + 458)) "target/tests/rich-$((i - 1))" >"target/tests/rich-$i"
    done
    cp target/tests/rich-11 target/tests/too-rich
}

# cut_country FILE: the file, in which no payee has a country: all have that of the sample's first payment
cut_country() {
    LC_ALL=C sed 's/BR A\. MUSTERMANN/XX A. MUSTERMANN/g' "$1"
}

# bytes FILE RECORD FIELD: that field's bytes
bytes() {
    tail -c +$(($(begin "$2") + first[$3])) "$1" | head -c $((last[$3] - first[$3] + 1))
}

# goes_on FILE RECORD..: what goes on of a file where these records are kept
goes_on() {
    local record sums
    head -c 256 "$1"
    for record in "${@:2}"; do
        tail -c +$(($(begin "$record") + 1)) "$1" | head -c 768
    done
    sums=$(amounts "$@")
    printf '0256Z%015d%015d%221s' "${sums#* }" "${sums% *}" ''
}

# back FILE PAGE RECORD NUMBER FIELD MARKED [VERB]: what is told of a payment that comes back, or would, with the code and its
# meaning by docs/M8-CODES.md
back() {
    local code euros thousandths kind=cheque
    euros=$((10#$(bytes "$1" "$3" T14a)))
    thousandths=$(bytes "$1" "$3" T14b)
    [ "$(bytes "$1" "$3" T22)" != 00 ] || kind=transfer
    code=$(sed -n "s/^| $4 | \([A-Z0-9]\{6\}\) | .*/\1/p" docs/M8-CODES.md)
    bytes "$1" "$3" T10b | head -c 35 | shown "$2" | sed 's/ *$//' >target/tests/payee-line
    echo "record $3 ${7:-comes back}: $kind, $euros,${thousandths%0} euros to \"$(cat target/tests/payee-line)\""
    echo "    $(rule "$4" "$3" "$5")"
    fault "$1" "$2" "$3" "$5" "$6"
    echo "    M8 code $code: $(sed -n "s/^| $code | [^|]* | \([^|]*\) | .*/\1/p" docs/M8-CODES.md)"
}

# changed_line PAGE RECORD FIELD FIRST LAST: what is told of a line, where characters are changed in it
changed_line() {
    if is_replaced "$1" "$3"; then
        echo "record $2, $3, $(columns "$4" "$5")"
        echo "    \"$(shown "$1" <target/tests/bytes | sed 's/ *$//')\""
        echo "    \"$(sed 's/ *$//' target/tests/read)\""
    fi
}

# changed FILE PAGE RECORD..: what is told of all lines of Q and of these records in which characters are changed
changed() {
    local record field
    each_line "$1" 0 Q5 changed_line "$2" 0 Q5
    for record in "${@:3}"; do
        for field in T8 T9b T10b T12 T15 T20 T23 T24; do
            each_line "$1" "$record" $field changed_line "$2" "$record" $field
        done
    done
}

# texts FILE RECORD..: all text fields of Q and of these records
texts() {
    local record field
    bytes "$1" 0 Q5
    for record in "${@:2}"; do
        for field in T8 T9b T10b T12 T15 T20 T23 T24; do
            bytes "$1" "$record" $field
        done
    done
}

# changes FILE PAGE RECORD..: how many characters are changed in them, and how many of these become spaces here and letters on
# the other page
changes() {
    local other=$((1 - $2))
    texts "$1" "${@:3}" >target/tests/whole
    replaced "$2" <target/tests/whole >target/tests/whole-here
    replaced $other <target/tests/whole >target/tests/whole-there
    paste -d ' ' <(codes target/tests/whole) <(codes target/tests/whole-here) <(codes target/tests/whole-there) |
        awk '$1 != $2 { count++ } $1 != $2 && $2 == 32 && $3 != 32 { elsewhere++ } END { print count + 0, elsewhere + 0 }'
}

# codes FILE: its bytes as numbers, one to a line
codes() {
    od -An -v -w1 -tu1 "$1" | tr -d ' '
}

# due_of FILE PAGE 'KEPT..' [RECORD NUMBER FIELD MARKED]..: makes what is due of that file of target/tests or of the folder
# where these records are kept and those come back: what is told (told-FILE-PAGE), the list (list-FILE-PAGE), and what goes on
# (goes-on-FILE)
due_of() {
    local name=$1-$2 page=$2 file count submitted going returned sums kept=() records=()
    file=$(named "$1")
    read -ra kept <<<"$3"
    shift 3
    : >target/tests/comes-back
    while [ $# -gt 0 ]; do
        records+=("$1")
        back "$file" "$page" "${@:1:4}" >>target/tests/comes-back
        shift 4
    done
    goes_on "$file" "${kept[@]}" >"target/tests/goes-on-${name%-*}"
    submitted=$(amounts "$file" "${kept[@]}" "${records[@]}")
    going=$(amounts "$file" "${kept[@]}")
    returned="${#records[@]} $((${submitted#* } - ${going#* }))"
    sums=$(changes "$file" "$page" "${kept[@]}")
    count=${sums% *}
    {
        echo "comes back of file number $(file_number "$file"): $(figures_of "$returned")"
        cat target/tests/comes-back
    } >"target/tests/list-$name"
    {
        echo "prepared on ${pages[$page]}"
        echo "submitted:  $(figures_of "$submitted")"
        echo "goes on:    $(figures_of "$going")"
        echo "comes back: $(figures_of "$returned")"
        cat target/tests/comes-back
        echo "$(counted "$count" character) changed in what goes on"
        changed "$file" "$page" "${kept[@]}"
        elsewhere "$page" "${sums#* }"
        echo "notes: new-notes, $((531 + 11 * count)) bytes"
        echo "list of what comes back: new-list, $(wc -c <"target/tests/list-$name") bytes"
        echo "M8 records: new-m8, $((124 * ${#records[@]})) bytes"
        echo "forwarded file: new-forwarded, $((512 + 768 * ${#kept[@]})) bytes"
        [ ${#records[@]} = 0 ] ||
            echo 'keep the submitted file: what comes back is in it alone, and needs a new file number'
    } >"target/tests/told-$name"
}

# figures_of 'PAYMENTS EUROS': as they are told
figures_of() {
    echo "$(counted "${1% *}" payment), $(counted "${1#* }" 'whole euro')"
}

# file_number FILE: Q4, Q6 and Q7 as one number
file_number() {
    echo $((10#$(bytes "$1" 0 Q4)$(bytes "$1" 0 Q6)$(bytes "$1" 0 Q7)))
}

# named FILE: where a file of target/tests or of the folder lies
named() {
    if [ -e "target/tests/$1" ]; then echo "target/tests/$1"; else echo "$folder.new/$1"; fi
}

# What is due of all files that are prepared. The samples' places of changed characters are stored, in tests/cases/forwarded-*.
make_dues() {
    local page sample
    for page in 0 1; do
        for sample in sound din; do
            due_of $sample $page '1 2 3'
        done
        due_of cheques $page '1 2'
        due_of returned $page '1 3 5' 2 28 T10a 208-209 4 29 T10b 281-315
    done
    due_of half-cent 1 '1 2' 3 33 T14b 475
    due_of first-returned 1 3 1 28 T10a 208-209 2 21 T3 13
    due_of blank-payee 1 1 2 29 T10b 211-245 3 33 T14a all
}

# sum FILE: its SHA-256
sum() {
    sha256sum <"$1" | cut -d ' ' -f 1
}

# known FILE: how a notes file names it
known() {
    printf '%07d %s\n' "$(wc -c <"$1")" "$(sum "$1")"
}

# summed: standard input, and behind it the line of its SHA-256
summed() {
    cat >target/tests/unsummed
    cat target/tests/unsummed
    echo "SHA-256 $(sum target/tests/unsummed)"
}

# list_sum FILE: the sum of a country list: of its countries in the order of the alphabet, each once
list_sum() {
    tr -s ' ' '\n' <"$1" | sort -u | tr -d '\n' | sha256sum | cut -d ' ' -f 1
}

# notes_due PAGE LISTS SUBMITTED RETURNED ORIGINAL FORWARDED: the notes file, by docs/NOTES-FILE.md, with that folder's lists
notes_due() {
    local place byte
    cmp -l "$5" "$6" >target/tests/noted || :
    {
        echo 'KAARAVIZHE NOTES 1'
        echo "PAGE $1"
        echo "TRANSFER-LIST $(list_sum "$2/transfer.txt")"
        echo "CHEQUE-LIST $(list_sum "$2/cheque.txt")"
        echo "SUBMITTED $(known "$3")"
        printf 'RETURNED %04d\n' "$4"
        echo "ORIGINAL $(known "$5")"
        echo "FORWARDED $(known "$6")"
        printf 'NOTES %07d\n' "$(wc -l <target/tests/noted)"
        while read -r place byte _; do
            printf '%07d %02X\n' $((place - 1)) $((8#$byte))
        done <target/tests/noted
    } | summed
}

# m8_due FILE PAGE: the M8 records; in the case, if there is one, bars and line ends part fields and records
m8_due() {
    local name
    for name in "$1-$2" "$1"; do
        [ ! -e "tests/cases/m8-$name" ] || tr -d '|\n' <"tests/cases/m8-$name"
    done
}

# forwarded_due FILE PAGE: what goes on, with the characters replaced of the stored case: place from 1, both bytes octal
forwarded_due() {
    local place byte
    cp "target/tests/goes-on-$1" target/tests/forwarded
    while read -r place _ byte; do
        printf "\\$byte" | dd of=target/tests/forwarded bs=1 seek=$((place - 1)) conv=notrunc status=none
    done <"tests/cases/$(stored "forwarded-$1-$2")"
    cat target/tests/forwarded
}

# stored NAME: the name of the stored case, which the hosts have too, or the command alone
stored() {
    if [ -e "tests/cases/$1" ]; then echo "$1"; else echo "tool-$1"; fi
}

# stands CASE DUE PATH: what stands at that path of the folder is what is due
stands() {
    held "$1" "$2" 0 out cat "$folder/$3"
}

# wrote FILE PAGE [NAME]: the four files, new- or NAME-, are those due of that file on that page, and nothing else is in the
# folder that was not there
wrote() {
    local name=${3:-new} returned
    returned=$(grep -c '^record ' "target/tests/list-$1-$2" || :)
    forwarded_due "$1" "$2" >target/tests/due-forwarded
    stands "forwarded file of $1" target/tests/due-forwarded "$name-forwarded"
    notes_due "$2" $folder.new/lists "$(named "$1")" "$returned" "target/tests/goes-on-$1" target/tests/due-forwarded \
        >target/tests/due-notes
    stands "notes of $1" target/tests/due-notes "$name-notes"
    stands "list of $1" "target/tests/list-$1-$2" "$name-list"
    m8_due "$1" "$2" >target/tests/due-m8
    stands "M8 records of $1" target/tests/due-m8 "$name-m8"
    both_ways rm -f "$name-forwarded" "$name-notes" "$name-list" "$name-m8"
    as_it_was "prepare $1"
}

# prepares FILE PAGE WORD..: prepare with these words tells what is due of that file on that page, and writes the four files
prepares() {
    new_folder
    held "prepare $1 on page $2" "target/tests/told-$1-$2" 0 out tool prepare "${@:3}" "${new[@]}"
    wrote "$1" "$2"
}

# prepares_whole SAMPLE PAGE WORD..: the same strictly: there is no list, and there are no M8 records
prepares_whole() {
    sed '/^list of/d;/^M8 records/d' "target/tests/told-$1-$2" >target/tests/due
    new_folder
    held "prepare --strict $1 on page $2" target/tests/due 0 out tool prepare "${@:3}" --strict "${new_pair[@]}"
    cp "target/tests/list-$1-$2" $folder/new-list
    : >$folder/new-m8
    wrote "$1" "$2"
}

# in_folder PATTERN: the names in the folder that fit it
in_folder() (
    cd $folder
    # shellcheck disable=SC2086
    echo $1
)

# What prepare tells and writes.
does_prepare() {
    local page sample
    for page in 0 1; do
        for sample in sound din cheques returned; do
            prepares $sample $page $sample --page $page
        done
        for sample in sound din cheques; do
            prepares_whole $sample $page $sample --page $page
        done
    done
    prepares sound 1 ./-sample
    prepares sound 1 link
    prepares returned 1 returned --lists lists
    prepares half-cent 1 ../half-cent
    prepares first-returned 1 ../first-returned
    prepares blank-payee 1 ../blank-payee
    new_folder
    held 'prepare from standard input' target/tests/told-returned-1 0 out fed samples/returned.dtazv tool prepare - "${new[@]}"
    wrote returned 1
    # the notes that docs/NOTES-FILE.md shows
    new_folder
    makes prepare sound "${new_pair[@]}"
    sed -n '/^    KAARAVIZHE NOTES 1/,/^    SHA-256/s/^    //p' docs/NOTES-FILE.md >target/tests/due
    stands 'the notes of the page' target/tests/due new-notes
    # of the list and the M8 records each is written where it is asked for
    new_folder
    makes prepare returned "${new_pair[@]}" --returned new-list
    stands 'list without M8' target/tests/list-returned-1 new-list
    tells 'new-forwarded new-list new-notes' 0 in_folder 'new-*'
    new_folder
    makes prepare returned "${new_pair[@]}" --m8 new-m8
    tells 'new-forwarded new-m8 new-notes' 0 in_folder 'new-*'
    # what comes back of 9,999 payments, of which the first has another account
    new_folder
    makes prepare ../most-returned "${new[@]}"
    tr -d '|\n' <tests/cases/m8-first-alone >target/tests/m8-record
    printf 'target/tests/m8-record%.0s\n' $(seq 9998) | xargs cat >target/tests/due
    stands 'M8 records of the most' target/tests/due new-m8
    tells 49991 0 sed -n '$=' $folder/new-list
}

# declines FILE WORDS LINE..: prepare refuses that file of target/tests, tells those lines, and writes nothing, also where it
# may write over older files
declines() {
    lines "${@:3}" 'nothing goes on, and nothing is written' >target/tests/due
    # shellcheck disable=SC2086
    {
        spares held "prepare $1 $2" target/tests/due 1 out tool prepare "../$1" $2 "${new_pair[@]}"
        spares held "prepare $1 $2 --force" target/tests/due 1 out tool prepare "../$1" $2 "${old_pair[@]}" --force
    }
}

# declines_though FILE PLACE TEXT NUMBER RECORD FIELD MARKED [LINE]: that is so of a file in which record 2 would come back, and
# which breaks a rule that refuses it by that text at that place
declines_though() {
    file_with "$3" "$2" "target/tests/$1" >target/tests/refused-though
    declines refused-though '' "$(refusal target/tests/refused-though 1 "${@:4}")" "first broken: $(rule 28 2 T10a)"
}

# What prepare refuses, in both ways: where every payment would come back, it is told why each would, if the desk can be asked
# that; and an amount that is no number, or a wrong Z, refuses the file although a payment would come back.
refuses_prepare() {
    local all="refused on ${pages[1]}: number 43: ${words[43]}" would='would come back'
    local total strict
    total=$(kept 1199 Z3)
    for strict in '' --strict; do
        declines folder/refused "$strict" "$(refusal $folder/refused 1 42 4 Z3 18-20 "$total")"
        declines no-digit "$strict" "$(refusal target/tests/no-digit 1 33 2 T14a 472)"
        declines cut "$strict" "$(refusal target/tests/cut 1 2 1)"
        declines longer "$strict" "$(refusal - 1 1 0)"
        declines name-din "$strict" "$(refusal target/tests/name-din 1 12 0 Q5 24-58)"
        declines name-iso "$strict --page 0" "$(refusal target/tests/name-iso 0 12 0 Q5 24-58)"
    done
    declines folder/returned --strict "$(refusal $folder/returned 1 28 2 T10a 208-209)"
    declines all-returned --strict "$(refusal target/tests/all-returned 1 20 1 T4b 26)"
    declines all-returned '' "$all" "first broken: $(rule 20 1 T4b)"
    declines only-payment '' "$all" "$(back target/tests/only-payment 1 1 28 T10a 208-209 "$would")"
    declines half-returned '' "$all" "$(back target/tests/half-returned 1 1 28 T10a 208-209 "$would")" \
        "$(back target/tests/half-returned 1 2 29 T10b 211-245 "$would")"
    declines most-wrong '' "$all" "first broken: $(rule 28 1 T10a)"
    declines_though second-wrong $((1792 + 474)) X 33 3 T14b 475
    declines_though second-wrong $((1792 + 470)) OX 33 3 T14a all
    declines_though folder/returned $((4096 + 19)) 9 42 6 Z3 20 "$(kept 1548 Z3)"
    declines_though folder/returned $((4096 + 34)) 3 41 6 Z4 35 "$(kept 5 Z4)"
    declines_though folder/returned $((4096 + 5)) ' ' 40 6 Z3 6
    declines_though folder/returned $((4096 + 34)) X 40 6 Z4 35
    declines_though folder/returned $((4096 + 100)) = 40 6 Z5 101
    spares json '[.command, .prepared, .refusal.number, .refusal.record, .first_broken, .fault.due, .written]' \
        '["prepare",false,42,4,null,1199,null]' 1 tool prepare refused "${new[@]}" --json
    spares json '[.prepared, .refusal.number, .first_broken.number, .first_broken.record]' '[false,43,20,1]' 1 \
        tool prepare ../all-returned "${new[@]}" --json
    spares json '[.prepared, .refusal.number, [.returned[] | [.record, .refusal.number]]]' '[false,43,[[1,28],[2,29]]]' 1 \
        tool prepare ../half-returned "${new[@]}" --json
}

# What prepare tells for machines, with the sums of what it writes.
prepares_json() {
    local path
    new_folder
    json '[.command, .file, .page, .prepared, .file_number, .changes]' '["prepare","returned",1,true,1226111603,5]' 0 \
        tool prepare returned "${new[@]}" --json
    cp $out target/tests/told-json
    tells '[[5,1548],[3,1219],[2,329]]' 0 \
        jq -c '[.submitted, .goes_on, .comes_back | [.payments, .euros]]' target/tests/told-json
    tells '[[2,"transfer",79,75,"SCHÄFER & SÖHNE",28,"T10a","LW0101"],[4,"cheque",250,0,"J. MÜLLER",29,"T10b","TX0107"]]' 0 \
        jq -c '[.returned[] | [.record, .kind, .euros, .cents, .payee, .refusal.number, .fault.field, .m8_code]]' \
        target/tests/told-json
    tells '[[0,"Q5",24,58],[3,"T10b",211,245],[5,"T10b",211,245]]' 0 \
        jq -c '[.changed[] | [.record, .field, .first_column, .last_column]]' target/tests/told-json
    tells '["GROß & COMPAÑIA                    ","GROS + COMPA IA                    "]' 0 \
        jq -c '.changed[2] | [.before, .after]' target/tests/told-json
    for path in notes list m8 forwarded; do
        tells "$(wc -c <$folder/new-$path) $(sum $folder/new-$path)" 0 \
            jq -r ".written[] | select(.path == \"new-$path\") | \"\\(.bytes) \\(.sha256)\"" target/tests/told-json
    done
    new_folder
    json '[.returned, .comes_back.payments, (.written | keys)]' '[[],0,["m8","notes","out","returned"]]' 0 \
        tool --json prepare sound "${new[@]}"
}

# targets OPTION PATH: the four targets, with that path for that option, are what the words 'targets' name
targets() {
    local i
    targets=("${new[@]}")
    for i in 0 2 4 6; do
        [ "${new[i]}" != "$1" ] || targets[i + 1]=$2
    done
}

# keeps PATH OPTION: prepare says that something is at that path, which is named for that option
keeps() {
    targets "$2" "$1"
    spares says "kaaravizhe: $1: is there already, and is not written over without --force" 2 \
        tool prepare returned "${targets[@]}"
}

# never PATH OPTION SAMPLE: nor is that path, the sample by another name, written over with --force
never() {
    targets "$2" "$1"
    spares says "kaaravizhe: $1: is a file that is read, and is never written over" 2 tool prepare "$3" "${targets[@]}"
    spares says "kaaravizhe: $1: is a file that is read, and is never written over" 2 tool prepare "$3" "${targets[@]}" --force
}

# What prepare refuses before it reads: targets that are there, that are what is read, by whatever name, or that are one.
asks() {
    local option path
    rm -f target/tests/fifo
    mkfifo target/tests/fifo
    for option in --out --notes --returned --m8; do
        for path in old-notes ./old-notes inner/../old-notes; do
            keeps $path $option
        done
        for path in inner inner/ null lost ../fifo /dev/null; do
            targets $option $path
            spares says "kaaravizhe: $path: is no regular file, and is not written over" 2 \
                tool prepare returned "${targets[@]}"
            spares says "kaaravizhe: $path: is no regular file, and is not written over" 2 \
                tool prepare returned "${targets[@]}" --force
        done
        for path in sound ./sound link hard inner/../sound; do
            never $path $option sound
        done
        never sound $option link
        never hard $option ./sound
        targets $option sound
        spares says 'kaaravizhe: sound: is a file that is read, and is never written over' 2 \
            fed $folder/sound tool prepare - "${targets[@]}" --force
        spares says 'kaaravizhe: sound: is a file that is read, and is never written over' 2 \
            fed $folder/sound tool prepare /dev/stdin "${targets[@]}" --force
        for path in transfer.txt cheque.txt; do
            targets $option lists/$path
            spares says "kaaravizhe: lists/$path: is a file that is read, and is never written over" 2 \
                tool prepare sound --lists lists "${targets[@]}" --force
        done
        asks_beside $option
    done
    never_lists
    asks_names
    asks_strange_names
}

# asks_beside OPTION: what ended runs left beside a target stays, whatever is asked for; a target has to be in a folder
asks_beside() {
    local left='is there already: another run is at work, or was ended; if none is at work, remove it' force
    local kept='is there already: a run that was ended left it, which was replacing it; move it away'
    for force in '' --force; do
        targets "$1" ended
        # shellcheck disable=SC2086
        spares says "kaaravizhe: ended.new: $left" 2 tool prepare returned "${targets[@]}" $force
        targets "$1" replaced
        # shellcheck disable=SC2086
        spares says "kaaravizhe: replaced.old: $kept" 2 tool prepare returned "${targets[@]}" $force
    done
    targets "$1" none/new
    spares says 'kaaravizhe: none/new: No such file or directory' 2 tool prepare returned "${targets[@]}"
    targets "$1" sound/new
    spares says 'kaaravizhe: sound/new: Not a directory' 2 tool prepare returned "${targets[@]}"
    targets "$1" -
    spares says 'kaaravizhe: -: is standard input; a file of that name is ./-' 2 tool prepare returned "${targets[@]}"
}

# A list file by other names is a file that is read, too.
never_lists() {
    new_folder
    both_ways ln lists/transfer.txt same-list
    both_ways ln -s lists/cheque.txt linked-list
    as_before says 'kaaravizhe: same-list: is a file that is read, and is never written over' 2 \
        tool prepare sound --lists lists --notes same-list --out new-forwarded --force
    as_before says 'kaaravizhe: linked-list: is a file that is read, and is never written over' 2 \
        tool prepare sound --lists lists --notes new-notes --out linked-list --force
}

# same ONE OTHER NOTES OUT: prepare says that these two would be the same file, also with --force
same() {
    spares says "kaaravizhe: $1 and $2 are the same file" 2 tool prepare returned --notes "$3" --out "$4"
    spares says "kaaravizhe: $1 and $2 are the same file" 2 tool prepare returned --notes "$3" --out "$4" --force
}

# Targets that are one, by whatever names, or of which one is what stands beside the other while it is written.
asks_names() {
    same new new new new
    same new ./new new ./new
    same new inner/../new new inner/../new
    same new.new new.new new new.new
    same new.new new.new new.new new
    same new.old new.old new new.old
    spares says 'kaaravizhe: new and new are the same file' 2 tool prepare returned "${new_pair[@]}" --returned new --m8 new
    spares says 'kaaravizhe: new-notes and new-notes are the same file' 2 tool prepare returned "${new_pair[@]}" --m8 new-notes
}

# A link that leads nowhere, beside a target; no name; one to which .new cannot be added; one that is no text.
asks_strange_names() {
    misused "error: The argument '--out <F>' requires a value but none was supplied" prepare sound --notes new-notes --out ''
    new_folder
    both_ways ln -s nowhere new-notes.new
    as_before objects 'kaaravizhe: new-notes.new: is there already' tool prepare sound "${new_pair[@]}"
    spares says "kaaravizhe: $(printf %0252d 0).new: File name too long" 2 \
        tool prepare sound --notes "$(printf %0252d 0)" --out new-forwarded
    new_folder
    makes prepare sound --notes $'\xC4 notes' --out $'\xC4'
    makes restore $'\xC4' --notes $'\xC4 notes' --out $'\xC4 again'
    stands 'a name that is no text' samples/sound.dtazv $'\xC4 again'
    spares says 'kaaravizhe: �: No such file or directory' 2 tool prepare $'\xC4' "${new_pair[@]}"
    spares says 'kaaravizhe: �[1m�: No such file or directory' 2 tool prepare $'\x1B[1m\n' "${new_pair[@]}"
}

# of_files FORMAT PATH..: what stat tells in that format of these files of the folder
of_files() (
    cd $folder
    stat -c "$@" | xargs
)

# With --force older files are written over, all of them or one; the new ones have their permissions.
forces() {
    local i path
    sed 's/new-/old-/' target/tests/told-returned-1 >target/tests/due-told
    new_folder
    held 'prepare --force' target/tests/due-told 0 out tool prepare returned "${old[@]}" --force
    tells '600 444 660 640' 0 of_files %a old-notes old-list old-m8 old-forwarded
    wrote returned 1 old
    for i in 0 2 4 6; do
        path=${new[i + 1]#new-}
        targets "${new[i]}" "old-$path"
        sed "s/new-$path/old-$path/" target/tests/told-returned-1 >target/tests/due
        new_folder
        held "prepare --force ${new[i]}" target/tests/due 0 out tool prepare returned "${targets[@]}" --force
        mv "$folder/old-$path" "$folder/new-$path"
        rm "$folder.before/old-$path"
        wrote returned 1
    done
    # nothing comes back, and the older list and M8 records are no longer there
    new_folder
    makes prepare sound "${old[@]}" --force
    tells "$(wc -c <target/tests/list-sound-1) 0" 0 of_files %s old-list old-m8
    # one older file by two names becomes two files; with nothing to be written over, --force changes nothing
    new_folder
    both_ways ln -f old-notes old-forwarded
    makes prepare returned "${old[@]}" --force
    wrote returned 1 old
    prepares returned 1 returned --force
}

# overtaken PATH WORD..: prepare, with a pipe as FILE. It has found its targets free, and reads: a pipe does not hold so much.
# Then another file gets that path, and only then comes the rest
overtaken() (
    rm -f target/tests/pipe
    mkfifo target/tests/pipe
    (
        status=0
        tool prepare ../pipe "${@:2}" || status=$?
        [ ! -p target/tests/pipe ] || : <target/tests/pipe # one that never reads there is not waited for
        exit $status
    ) &
    exec 8>target/tests/pipe
    rm target/tests/pipe
    head -c 1400000 target/tests/many >&8
    both_ways put 'of another program' "$1"
    tail -c +1400001 target/tests/many >&8
    exec 8>&-
    wait $!
)
put() {
    echo "$1" >"$2"
}

# Where something cannot be written or told, one line says so, and all is as it was: new files are gone, and older ones have
# their bytes and permissions.
cannot_write() {
    local path to
    for path in notes list m8 forwarded; do
        spares says "kaaravizhe: new-$path.new: No space left on device" 2 \
            faulty full=new-$path.new prepare returned "${new[@]}"
        spares says "kaaravizhe: old-$path.new: No space left on device" 2 \
            faulty full=old-$path.new prepare returned "${old[@]}" --force
        spares fails "kaaravizhe: new-$path: Device or resource busy" faulty new-$path prepare returned "${new[@]}"
        spares fails "kaaravizhe: old-$path: Device or resource busy" faulty old-$path prepare returned "${old[@]}" --force
        spares fails "kaaravizhe: old-$path: Device or resource busy" \
            faulty old-$path.old prepare returned "${old[@]}" --force
        spares fails "kaaravizhe: old-$path: Device or resource busy" \
            faulty no-links,old-$path.old prepare returned "${old[@]}" --force
        spares fails "kaaravizhe: new-$path: is there already, and is not written over without --force" \
            overtaken new-$path "${new[@]}"
        spares fails "kaaravizhe: new-$path: Device or resource busy" \
            faulty no-free-names,kept=new-$path.new prepare returned "${new[@]}"
    done
    spares fails 'kaaravizhe: new-notes: Operation not permitted' faulty no-free-names,no-links prepare returned "${new[@]}"
    spares says 'kaaravizhe: new-notes.new: File too large' 2 limited tool prepare ../many-notes "${new_pair[@]}"
    spares says 'kaaravizhe: new-list.new: File too large' 2 limited tool prepare ../ten "${new[@]}"
    spares says 'kaaravizhe: new-m8.new: File too large' 2 limited tool prepare ../ten "${new_pair[@]}" --m8 new-m8
    spares says 'kaaravizhe: old-forwarded.new: File too large' 2 limited tool prepare sound "${old_pair[@]}" --force
    for to in to_full to_closed to_no_reader; do
        spares says "$silent" 2 $to tool prepare returned "${new[@]}"
        spares says "$silent" 2 $to tool prepare returned "${old[@]}" --force
        spares says "$silent" 2 $to tool prepare sound "${new[@]}" --json
        spares says "$silent" 2 $to tool prepare refused "${new[@]}"
    done
    cannot_by_permissions
}

# The same by permissions, and of what cannot be read.
cannot_by_permissions() {
    new_folder
    chmod 555 $folder $folder.before
    as_before says 'kaaravizhe: new-notes.new: Permission denied' 2 obedient prepare sound "${new[@]}"
    as_before says 'kaaravizhe: old-notes.new: Permission denied' 2 obedient prepare sound "${old[@]}" --force
    chmod 755 $folder $folder.before
    both_ways chmod 555 inner
    as_before says 'kaaravizhe: inner/new.new: Permission denied' 2 obedient prepare sound --notes new-notes --out inner/new
    as_before says 'kaaravizhe: inner/new.new: Permission denied' 2 obedient prepare sound --notes inner/new --out new-forwarded
    both_ways chmod 755 inner
    both_ways chmod 0 sound
    as_before says 'kaaravizhe: sound: Permission denied' 2 obedient prepare sound "${new[@]}"
    spares says 'kaaravizhe: none: No such file or directory' 2 tool prepare none "${new[@]}"
    spares says 'kaaravizhe: inner: Is a directory' 2 tool prepare inner "${new[@]}"
    spares says 'kaaravizhe: standard input: is closed' 2 without_input tool prepare - "${new[@]}"
    spares says 'kaaravizhe: standard input: Bad file descriptor' 2 for_writing tool prepare - "${new[@]}"
}

# Where the file system lacks a step, it is done by others.
does_without() {
    local fault
    for fault in no-free-names no-links; do
        new_folder
        held "prepare with $fault" target/tests/told-returned-1 0 out faulty $fault prepare returned "${new[@]}"
        wrote returned 1
        new_folder
        held "prepare --force with $fault" target/tests/due-told 0 out faulty $fault prepare returned "${old[@]}" --force
        wrote returned 1 old
    done
}

# What goes wrong when all is in place: it stays, and it is said what is wrong.
fails_late() {
    local path
    new_folder
    fails 'kaaravizhe: all is written, but a power cut may undo it: new-notes: No space left on device' \
        faulty full=. prepare returned "${new[@]}"
    wrote returned 1
    for path in old-notes old-forwarded; do
        new_folder
        fails "kaaravizhe: all is written, but what was replaced is still there: $path.old: Device or resource busy" \
            faulty stays=$path.old prepare returned "${old[@]}" --force
        cp -a $folder.new/$path $folder.before/$path.old
        wrote returned 1 old
    done
    # an older file that cannot be put back keeps its bytes beside its place, and that is said
    new_folder
    faulty old-forwarded,unmoved=old-notes.old prepare returned "${old[@]}" --force >/dev/null 2>target/tests/said || :
    stands 'what cannot be put back' $folder.new/old-notes old-notes.old
    tells 'old-notes.old' 0 all_of 'old-notes\.old' target/tests/said
}

# What shows that the desk's answer cannot be right: nothing is written.
distrusts() {
    local back='kaaravizhe: what goes on was not restored from its notes: nothing is written'
    spares says "$back" 2 faulty restore prepare sound "${new[@]}"
    spares says "$back" 2 faulty restore prepare sound --strict "${new_pair[@]}"
    spares says "$back" 2 faulty restore prepare returned "${old[@]}" --force
    spares says "$back" 2 faulty list prepare returned "${new[@]}"
    spares says 'kaaravizhe: M8 records are missing: nothing is written' 2 faulty m8 prepare returned "${new[@]}"
    spares says 'kaaravizhe: M8 records are missing: nothing is written' 2 faulty m8 prepare returned "${old[@]}" --force
}

# whole NAME: each of the four files, new- or old-, is wholly the older or the new one; beside them .new is new, and .old older
whole() {
    local path end file wrong=
    for path in notes list m8 forwarded; do
        for end in '' .new .old; do
            file=$folder/$1-$path$end
            [ -e "$file" ] || continue
            [ "$end" != .new ] && cmp -s "$file" "$folder.new/$1-$path" && continue
            [ "$end" != .old ] && cmp -s "$file" "target/tests/good/$path" && continue
            wrong="$1-$path$end is neither the older nor the new file"
        done
    done
    result "killed, $1 files" 'whole' "$wrong"
}

# killed FAULT LINE WORD..: a run that is killed there leaves whole files, and nothing else is changed; the next one says that
# line, and leaves everything as it is
killed() {
    local got=0 name=new
    [[ $* != *old-* ]] || name=old
    new_folder
    faulty "$1" prepare returned "${@:3}" >/dev/null || got=$?
    [ $got = 137 ] || result "$1" '' "ends with status $got, not 137"
    whole $name
    rm -rf $folder.before
    cp -a $folder $folder.before
    as_before says "kaaravizhe: $2" 2 tool prepare returned "${@:3}"
    both_ways rm -f {old,new}-{notes,list,m8,forwarded}{,.new,.old}
    rm -rf $folder.rest
    cp -a $folder.new $folder.rest
    rm -f $folder.rest/old-*
    held 'nothing else' /dev/null 0 out diff -r --no-dereference $folder.rest $folder
}

# Runs that are killed when a file is to get its name, or an older one is to be removed.
is_killed() {
    local path here='is there already, and is not written over without --force'
    local left='is there already: another run is at work, or was ended; if none is at work, remove it'
    local kept='is there already: a run that was ended left it, which was replacing it; move it away'
    rm -rf target/tests/good
    mkdir target/tests/good
    new_folder
    makes prepare returned "${new[@]}"
    for path in notes list m8 forwarded; do
        mv $folder/new-$path target/tests/good/$path
    done
    killed killed=new-notes "new-notes.new: $left" "${new[@]}"
    killed killed=old-notes.old "old-notes.new: $left" "${old[@]}" --force
    killed killed=old-notes "old-notes.new: $left" "${old[@]}" --force
    for path in list m8 forwarded; do
        killed killed=new-$path "new-notes: $here" "${new[@]}"
        killed killed=new-$path "new-$path.new: $left" "${new[@]}" --force
        killed killed=old-$path.old "old-notes.old: $kept" "${old[@]}" --force
        killed killed=old-$path "old-notes.old: $kept" "${old[@]}" --force
        killed no-links,killed=old-$path "old-notes.old: $kept" "${old[@]}" --force
    done
    killed killed-off=old-notes.old "old-notes.old: $kept" "${old[@]}" --force
    killed killed-off=old-forwarded.old "old-forwarded.old: $kept" "${old[@]}" --force
}

# restored PAGE COUNT PATH ORIGINAL [SUBMITTED RETURNED]: what restore tells of that original
restored() {
    echo "restored on ${pages[$1]}: $(counted "$2" character) put back"
    if [ $# = 4 ]; then
        echo "$3 is the submitted file"
    else
        echo "$3 is what went on of the submitted file; $(counted "$6" payment) came back and stayed in that alone"
    fi
    echo "$(wc -c <"$4") bytes, SHA-256 $(sum "$4")"
    [ $# = 4 ] || echo "the submitted file has $(wc -c <"$5") bytes, SHA-256 $(sum "$5")"
}

# round FILE PAGE WORD..: what prepare writes of that file, restore makes into what went on of it; the pair is kept
round() {
    local count came_back=()
    count=$(sed -n 's/ characters* changed in what goes on$//p' "target/tests/told-$1-$2")
    ! grep -q '^record ' "target/tests/list-$1-$2" ||
        came_back=("$(named "$1")" "$(grep -c '^record ' "target/tests/list-$1-$2")")
    new_folder
    makes prepare "${@:3}" --page "$2" "${new_pair[@]}"
    restored "$2" "$count" inner/new "target/tests/goes-on-$1" "${came_back[@]}" >target/tests/due
    held "restore $1 on page $2" target/tests/due 0 out tool restore new-forwarded --notes new-notes --out inner/new
    stands "restored $1" "target/tests/goes-on-$1" inner/new
    mv $folder/new-forwarded "target/tests/$1-$2-forwarded"
    mv $folder/new-notes "target/tests/$1-$2-notes"
    rm -f $folder/inner/new
    as_it_was "restore $1 on page $2"
}

# What restore gives back: what went on, of every sample on both pages and in both ways; of as many changed characters as a file
# can have; and by other lists.
does_restore() {
    local page sample
    for page in 0 1; do
        for sample in sound din cheques; do
            round $sample $page $sample --strict
        done
        for sample in sound din cheques returned; do
            round $sample $page $sample
        done
    done
    round half-cent 1 ../half-cent
    round first-returned 1 ../first-returned
    round blank-payee 1 ../blank-payee
    restored 1 3 new samples/sound.dtazv >target/tests/due
    with_pair sound-1
    held 'restore from standard input' target/tests/due 0 out fed $folder/forwarded tool restore - --notes notes --out new
    rm $folder/new
    held 'restore with notes from standard input' target/tests/due 0 out \
        fed $folder/notes tool restore forwarded --notes - --out new
    rm $folder/new
    held 'restore by the lists that are built in' target/tests/due 0 out \
        tool restore forwarded --notes notes --out new --lists lists
    restored 1 5 new target/tests/goes-on-returned samples/returned.dtazv 2 >target/tests/due
    with_pair returned-1
    held 'restore --force' <(sed 's/^new /old-list /' target/tests/due) 0 out \
        tool restore forwarded --notes notes --out old-list --force
    stands 'restored over an older file' target/tests/goes-on-returned old-list
    tells 444 0 of_files %a old-list
    json '[.command, .forwarded, .notes, .restored, .page, .bytes, .changes, .returned, .submitted_bytes]' \
        '["restore","forwarded","notes","new",1,2816,5,2,4352]' 0 tool restore forwarded --notes notes --out new --json
    json '[.sha256, .submitted_sha256]' "[\"$(sum target/tests/goes-on-returned)\",\"$(sum samples/returned.dtazv)\"]" 0 \
        tool restore forwarded --notes notes --out new-too --json
    restores_by_lists
    restores_most
}

# By other lists, by which record 2 of the sample goes on; they may stand in another order, with a country twice.
restores_by_lists() {
    local kept=target/tests/goes-on-otherwise
    goes_on samples/returned.dtazv 1 2 3 5 >$kept
    with_lists 'AT BR CL' 'PE VE'
    makes prepare returned --lists lists "${new_pair[@]}"
    notes_due 1 $folder/lists samples/returned.dtazv 1 $kept $folder/new-forwarded >target/tests/due
    stands 'notes with other lists' target/tests/due new-notes
    cp $folder/new-* $folder.before
    as_before tells "refused: $(other_list transfer)" 1 tool restore new-forwarded --notes new-notes --out new
    both_ways put_lists 'AT BR CL' 'PE VE US'
    as_before tells "refused: $(other_list cheque)" 1 tool restore new-forwarded --notes new-notes --out new --lists lists
    both_ways put_lists '# again\nCL\r\nBR AT CL' 'VE PE'
    local sums
    sums=$(changes samples/returned.dtazv 1 1 2 3 5)
    restored 1 "${sums% *}" new $kept samples/returned.dtazv 1 >target/tests/due
    held 'restore by other lists' target/tests/due 0 out \
        tool restore new-forwarded --notes new-notes --out new --lists lists
    stands 'restored by other lists' $kept new
}
other_list() {
    echo "another $1 list than the file was prepared with: name the folder of that one by --lists"
}

# As many changed characters as a file can have but one in each T12, which begins with a slash: all of them are &.
restores_most() {
    local place count=$((9999 * 552 + 1)) field record=target/tests/full-record
    tail -c +257 target/tests/one | head -c 768 >$record
    for field in T8 T9b T10b T12 T15 T20 T23 T24; do
        place=$((first[$field] - 1))
        file_with "$(printf "%$((last[$field] - place))s" '' | tr ' ' '&')" $place $record >$record.new
        mv $record.new $record
    done
    file_with AU 64 $record >$record.new
    file_with / 420 $record.new >$record
    { head -c 256 target/tests/most && printf "$record%.0s\n" $(seq 9999) | xargs cat && tail -c 256 target/tests/most; } \
        >target/tests/full
    new_folder
    makes prepare ../full "${new_pair[@]}"
    tells $((531 + 11 * count)) 0 of_files %s new-notes
    restored 1 $count new target/tests/full >target/tests/due
    held 'restore the most characters' target/tests/due 0 out tool restore new-forwarded --notes new-notes --out new
    stands 'the most characters' target/tests/full new
    # a note more than there can be, and bytes behind what is read of a file that is too long
    { cat $folder/new-notes && head -c 1000 /dev/zero; } >target/tests/longest
    rm -f $folder/new
    tells "refused: ../longest: line $((count + 11)): something stands behind the end of the notes" 1 \
        tool restore new-forwarded --notes ../longest --out new
}

# with_pair NAME: a new folder with a pair that prepare wrote, forwarded and notes
with_pair() {
    new_folder
    both_ways put_pair "$1" "$root/target/tests/$1-notes"
}
put_pair() {
    cp "$root/target/tests/$1-forwarded" forwarded
    cp "$2" notes
}

# with_notes NAME EDIT: the same with notes that sed has edited; with_summed_notes NAME EDIT: and their last line is right again
with_notes() {
    new_folder
    sed "$2" "target/tests/$1-notes" >target/tests/edited
    both_ways put_pair "$1" "$root/target/tests/edited"
}
with_summed_notes() {
    new_folder
    sed "\$d" "target/tests/$1-notes" | sed "$2" | summed >target/tests/edited
    both_ways put_pair "$1" "$root/target/tests/edited"
}

# refuses_pair WHY: restore refuses the folder's pair with these words and writes nothing, also where it may write over a file
refuses_pair() {
    as_before tells "refused: $1" 1 tool restore forwarded --notes notes --out new
    as_before tells "refused: $1" 1 tool restore forwarded --notes notes --out old-notes --force
}

# refuses_notes NAME EDIT WHY, refuses_summed NAME EDIT WHY: that is so of notes that are edited
refuses_notes() {
    with_notes "$1" "$2"
    refuses_pair "notes: $3"
}
refuses_summed() {
    with_summed_notes "$1" "$2"
    refuses_pair "$3"
}

# Notes that are lost, added or changed. Those of the sound sample are lines 10 to 12: an Ü, an ampersand and an Ö.
refuses_other_notes() {
    local foreign='a note is missing or foreign: these notes do not give back the file that went on'
    local no_pair="number 70: ${words[70]}" changed='the lines before it were changed: they have another SHA-256'
    local line
    for line in 10 11 12; do
        refuses_notes sound-1 ${line}d 'line 12: notes are missing: 3 are due, and 2 are there'
        refuses_notes sound-1 "9s/3/2/;${line}d" "line 12: $changed"
        refuses_summed sound-1 "9s/3/2/;${line}d" "$foreign"
    done
    refuses_summed sound-1 '9s/3/0/;10,12d' "$foreign"
    # a space of Q5, at 57, that would have been an equals sign; a letter that no character becomes
    refuses_notes sound-1 '10a0000057 3D' 'line 13: a note too many: 3 are due'
    refuses_notes sound-1 '9s/3/4/;10a0000057 3D' "line 14: $changed"
    refuses_summed sound-1 '9s/3/4/;10a0000057 3D' "$foreign"
    refuses_summed sound-1 '9s/3/4/;10a0000041 4E' "$no_pair"
    refuses_summed sound-1 '9s/3/4/;10a0000040 DC' "$no_pair"
    refuses_summed sound-1 '9s/3/4/;10a0000001 DC' "$no_pair"
    refuses_summed sound-1 '9s/3/4/;12a9999999 DC' "$no_pair"
    refuses_summed sound-1 '10{h;d};11{G}' "$no_pair"
    # other bytes: one that does not become what is there, and * or = for the Ñ, which becomes a space, too
    refuses_notes returned-1 '14s/D1/2A/' "line 15: $changed"
    refuses_summed returned-1 '10s/DC/D6/' "$no_pair"
    refuses_summed returned-1 '14s/D1/2A/' "$foreign"
    refuses_summed returned-1 '14s/D1/3D/' "$foreign"
    # for the desk alone that is the pair of another file: with its sum in line 7 it is this one that comes back
    file_with '*' 2014 target/tests/goes-on-returned >target/tests/other-original
    with_summed_notes returned-1 "14s/D1/2A/;7s/ .*/ $(known target/tests/other-original)/"
    restored 1 5 new target/tests/other-original samples/returned.dtazv 2 >target/tests/due
    held 'notes of another file' target/tests/due 0 out tool restore forwarded --notes notes --out new
    stands 'another file' target/tests/other-original new
    # on another page; where none of the eight bytes is changed, the pages read alike
    refuses_summed sound-1 '2s/1/0/' "$no_pair"
    refuses_summed din-0 '2s/0/1/' "$no_pair"
}

# refuses_instead NAME FILE WHY: that is so of the notes of a pair with that file of target/tests in place of the forwarded one
refuses_instead() {
    local known
    known=$(known "target/tests/$1-forwarded")
    with_pair "$1"
    both_ways cp "$root/target/tests/$2" forwarded
    refuses_pair "$3; the forwarded file has $((10#${known% *})) bytes and SHA-256 ${known#* }"
}

# Notes of other files, lists and layouts.
refuses_other_files() {
    local forwarded
    file_with 1 700 target/tests/sound-1-forwarded >target/tests/touched
    for forwarded in sound-0-forwarded din-1-forwarded cheques-1-forwarded touched longer empty; do
        refuses_instead sound-1 $forwarded 'another file than the one that was forwarded'
    done
    refuses_instead sound-1 goes-on-sound 'this is the file that went on as it was written'
    refuses_instead returned-1 goes-on-returned 'this is the file that went on as it was written'
    refuses_instead returned-1 folder.new/returned 'this is the submitted file'
    refuses_summed sound-1 "3s/ .*/ $(printf %064d 0)/" "$(other_list transfer)"
    refuses_summed sound-1 "4s/ .*/ $(printf %064d 0)/" "$(other_list cheque)"
    # with the sum of another original: what comes back is not that one
    refuses_summed sound-1 "7s/ .*/ $(known samples/din-66003.dtazv)/" \
        'a note is missing or foreign: these notes do not give back the file that went on'
}

# Files that are no notes: cut short at each line, and in it; of another form, version or kind.
refuses_no_notes() {
    local line end='and a line end (LF)' sum known note cut='the notes are cut short here'
    sum="64 hex digits (0 to 9, a to f) $end"
    known="7 digits, a space and $sum"
    note="malformed; due is a note: 7 digits, a space, 2 hex digits $end"
    local none='this is no notes file of the desk'
    for line in $(seq 12); do
        refuses_notes sound-1 "$((line + 1)),\$d" "line $((line + 1)): $cut"
    done
    for line in $(seq 13); do
        with_pair sound-1
        head -n $line target/tests/sound-1-notes | head -c -1 >target/tests/edited
        both_ways cp "$root/target/tests/edited" notes
        refuses_pair "notes: line $line: $cut"
    done
    refuses_notes sound-1 '1,$d' "line 1: $none"
    refuses_notes sound-1 '1s/KA/KO/' "line 1: $none"
    refuses_notes sound-1 '1s/NOTES/BOOK/' "line 1: $none"
    refuses_notes sound-1 's/$/\r/' "line 1: malformed; due is KAARAVIZHE NOTES 1 $end"
    refuses_notes sound-1 '1s/$/x/' "line 1: malformed; due is KAARAVIZHE NOTES 1 $end"
    refuses_summed sound-1 '1s/1/2/' 'notes: line 1: another version of the layout; this desk reads version 1'
    refuses_summed sound-1 '1s/1/10/' 'notes: line 1: another version of the layout; this desk reads version 1'
    refuses_summed sound-1 '2s/1/2/' "notes: line 2: malformed; due is PAGE and then 0 or 1 $end"
    refuses_summed sound-1 '2s/PAGE/Page/' "notes: line 2: malformed; due is PAGE and then 0 or 1 $end"
    refuses_summed sound-1 '3s/a/A/g' "notes: line 3: malformed; due is TRANSFER-LIST and then $sum"
    refuses_summed sound-1 '4s/.$//' "notes: line 4: malformed; due is CHEQUE-LIST and then $sum"
    refuses_summed sound-1 '5s/ 0/ /' "notes: line 5: malformed; due is SUBMITTED and then $known"
    refuses_summed sound-1 '6s/0$//' "notes: line 6: malformed; due is RETURNED and then 4 digits $end"
    refuses_summed sound-1 '7s/ 0/  /' "notes: line 7: malformed; due is ORIGINAL and then $known"
    refuses_summed sound-1 '8s/$/0/' "notes: line 8: malformed; due is FORWARDED and then $known"
    refuses_summed sound-1 '9s/3/x/' "notes: line 9: malformed; due is NOTES and then 7 digits $end"
    refuses_summed sound-1 '10s/DC/dc/' "notes: line 10: $note"
    refuses_summed sound-1 '11s/^0//' "notes: line 11: $note"
    refuses_summed sound-1 '12s/ /  /' "notes: line 12: $note"
    refuses_summed sound-1 '9s/3/9999999/;9s/0*9/9/' 'notes: line 13: notes are missing: 9999999 are due, and 3 are there'
    refuses_notes sound-1 '13s/$/0/' "line 13: malformed; due is SHA-256 and then $sum"
    refuses_notes sound-1 '5s/./s/' "line 5: malformed; due is SUBMITTED and then $known"
    refuses_notes sound-1 '3s/0/1/' 'line 13: the lines before it were changed: they have another SHA-256'
    refuses_notes sound-1 '$a\\' 'line 14: something stands behind the end of the notes'
    refuses_notes sound-1 '3s/0/1/;$a\\' 'line 14: something stands behind the end of the notes'
    with_pair sound-1
    as_before tells "refused: sound: line 1: $none" 1 tool restore forwarded --notes sound --out new
    as_before tells "refused: forwarded: line 1: $none" 1 tool restore notes --notes forwarded --out new
    as_before tells "refused: /dev/zero: line 1: $none" 1 tool restore forwarded --notes /dev/zero --out new
    as_before json '[.command, .restored, .why]' "[\"restore\",null,\"sound: line 1: $none\"]" 1 \
        tool restore forwarded --notes sound --out new --json
    # line 1 begins with less than its name
    printf KAARAVIZHE >target/tests/edited
    both_ways cp "$root/target/tests/edited" notes
    refuses_pair "notes: line 1: $none"
}

# never_restored PATH WORD..: restore does not write over that path, not even with --force, for it is read
never_restored() {
    as_before says "kaaravizhe: $1: is a file that is read, and is never written over" 2 \
        tool restore forwarded --notes notes --out "$1" "${@:2}"
    as_before says "kaaravizhe: $1: is a file that is read, and is never written over" 2 \
        tool restore forwarded --notes notes --out "$1" --force "${@:2}"
}

# Where restore writes nothing: over what is there, over what it reads, over the submitted file, and where it cannot.
cannot_restore() {
    local path to pair=(forwarded --notes notes --out)
    with_pair returned-1
    both_ways ln -s forwarded linked
    both_ways ln notes same
    for path in forwarded ./forwarded linked notes same; do
        never_restored $path
    done
    never_restored lists/transfer.txt --lists lists
    for path in returned old-notes; do
        as_before says "kaaravizhe: $path: is there already, and is not written over without --force" 2 \
            tool restore "${pair[@]}" $path
    done
    for path in inner null lost; do
        as_before says "kaaravizhe: $path: is no regular file, and is not written over" 2 \
            tool restore "${pair[@]}" $path
        as_before says "kaaravizhe: $path: is no regular file, and is not written over" 2 \
            tool restore "${pair[@]}" $path --force
    done
    as_before says 'kaaravizhe: none/new: No such file or directory' 2 tool restore "${pair[@]}" none/new
    as_before says 'kaaravizhe: -: is standard input; a file of that name is ./-' 2 tool restore "${pair[@]}" -
    as_before says 'kaaravizhe: none: No such file or directory' 2 tool restore none --notes notes --out new
    as_before says 'kaaravizhe: none: No such file or directory' 2 tool restore forwarded --notes none --out new
    as_before says 'kaaravizhe: inner: Is a directory' 2 tool restore inner --notes notes --out new
    as_before says 'kaaravizhe: inner: Is a directory' 2 tool restore forwarded --notes inner --out new
    as_before says 'kaaravizhe: standard input: is closed' 2 without_input tool restore - --notes notes --out new
    as_before objects 'kaaravizhe: ' fed $folder/notes tool restore - --notes - --out new
    for to in to_full to_closed to_no_reader; do
        as_before says "$silent" 2 $to tool restore "${pair[@]}" new
        as_before says "$silent" 2 $to tool restore "${pair[@]}" old-notes --force
    done
    as_before says 'kaaravizhe: new.new: No space left on device' 2 faulty full=new.new restore "${pair[@]}" new
    as_before fails 'kaaravizhe: new: Device or resource busy' faulty new restore "${pair[@]}" new
    as_before fails 'kaaravizhe: old-notes: Device or resource busy' faulty old-notes restore "${pair[@]}" old-notes --force
    as_before says 'kaaravizhe: new.new: File too large' 2 limited tool restore "${pair[@]}" new
    as_before tells 'refused: a note is missing or foreign: these notes do not give back the file that went on' 1 \
        faulty restore restore "${pair[@]}" new
    # the submitted file is the original, and what came back is in it alone
    as_before objects 'kaaravizhe: returned: ' tool restore "${pair[@]}" returned --force
}

# host BOOK WORD.., host --page PAGE BOOK WORD..: the words of the book examples, as the command has them, which asks for one
# more where a day is far ahead. What it says has its name before it.
host() {
    local page=() book word status=0
    if [ "$1" = --page ]; then
        page=(--page "$2")
        shift 2
    fi
    book=$1 word=$2
    shift 2
    [ "$word" != take ] || page+=(--jump)
    tool book "$word" "$book" "$@" "${page[@]}" 2>target/tests/said || status=$?
    sed 's/^kaaravizhe: //;t;s/^/without its name: /' target/tests/said >&2
    return $status
}

# obedient_host WORD..: the same, and permissions hold for it
obedient_host() (
    under=(obeying)
    host "$@"
)

# taken PAYMENTS EUROS RETURNED NUMBER DAY FREE HELD: what it tells of a number that is taken now; and how many are forgotten,
# by what the folder's book holds before
taken() {
    local forgotten go=go come=come
    forgotten=$((10#$(sed -n '3s/HELD //p' $folder/book) + 1 - $7))
    [ "$1" != 1 ] || go=goes
    [ "$3" != 1 ] || come=comes
    echo "on ${pages[1]} $(counted "$1" payment) $go on, $3 $come back"
    number "$4" "$5" "$1" "$2" "$6"
    [ $forgotten = 0 ] || echo "$(counted $forgotten 'earlier file number') forgotten by this day"
    on "$5" "$7"
}

# The cases of tests/books.sh that the command has in common with the book examples.
keeps_book() {
    local way=host
    make_books
    make_no_books
    make_no_old_books
    figures
    takes
    takes_at_last
    takes_no_more
    refuses_books
    refuses_old_books
    waits
    cannot_keep
    permissions
    takes_at_once kaaravizhe kaaravizhe
}

# A day far ahead would make the book forget all that it holds, and has to be confirmed; not so in a book that holds nothing.
asks_for_jump() {
    local far="is 21 days after the book's, which would forget all that it holds; if it is right, add --jump"
    spares_book one says "kaaravizhe: day 28 $far" 2 tool book take book 28 sound
    spares_book one says "kaaravizhe: day 28 $far" 2 tool book take book 28 returned --json
    with_book one
    tells "$(taken 3 1199 0 1226111601 27 32 1)" 0 tool book take book 27 sound
    holds 27 1226111601 27 3 1199
    tells "$(taken 3 1219 2 1226111603 48 53 1)" 0 tool book take book 48 returned --jump
    holds 48 1226111603 48 3 1219
    new_folder
    makes book new book
    tells "$(taken 3 1199 0 1226111601 20410 20415 1)" 0 tool book take book 20410 sound
    holds 20410 1226111601 20410 3 1199
}

# without_figures COUNT: what totals say where so many files were taken before the book had figures
without_figures() {
    echo "without the figures of $(counted "$1" file), taken before the book had any"
}

# A book of version 1: whenever it is read that is said, and the totals say how many files they lack.
takes_from_version_1() {
    local notice="kaaravizhe: book: $no_figures" first
    first=$(number 1226111601 7 0 0 12)
    with_book old
    as_before tells_and_says "$(on 7 1; echo "$first")" "$notice" 0 tool book list book
    as_before tells_and_says "$(totals 7 1 0 0; without_figures 1)" "$notice" 0 tool book totals book
    as_before tells_and_says "$(refused 11 50 "$first" "$(on 7 1)")" "$notice" 1 tool book take book 11 sound
    tells_and_says "$(taken 3 1219 2 1226111603 11 16 2)" "$notice" 0 tool book take book 11 returned
    holds 11 1226111601 7 0 0 1226111603 11 3 1219
    as_before tells "$(totals 11 2 3 1219; without_figures 1)" 0 tool book totals book
    as_before json '[.held, .payments, .euros, .without_figures]' '[2,3,1219,1]' 0 tool book totals book --json
    tells "$(taken 3 1199 0 1226111601 12 17 2)" 0 tool book take book 12 sound
    as_before_but_book tells "$(totals 12 2 6 2418)" 0 tool book totals book
    json '[.held, .without_figures]' '[2,0]' 0 tool book totals book --json
    spares_book old-full tells_and_says "$(totals 3 200 0 0; without_figures 200)" "$notice" 0 tool book totals book
}

# as_before_but_book CHECK..: nothing but the book is another one than before, and the check leaves it
as_before_but_book() {
    cp $folder/book $folder.before/book
    as_before "$@"
}

# The most payments and whole euros of a file, and what is left where all payments but one come back.
takes_largest() {
    new_folder
    makes book new book
    tells "$(taken 9999 1199880 0 1226111601 7 12 1)" 0 tool book take book 7 ../most
    holds 7 1226111601 7 9999 1199880
    tells "$(taken 11 999999999999999 0 1226111601 12 17 1)" 0 tool book take book 12 ../rich
    holds 12 1226111601 12 11 999999999999999
    tells "$(taken 1 120 9998 1226111601 17 22 1)" 0 piped target/tests/most-returned tool book take book 17 -
    holds 17 1226111601 17 1 120
    spares_book full-of-most tells "$(totals 3 200 1999800 199999999999999800)" 0 tool book totals book
}

# takes_none FILE WORDS LINE..: nothing goes on of that file of target/tests: that is told, and no book is looked for
takes_none() {
    lines "${@:3}" >target/tests/due
    # shellcheck disable=SC2086
    {
        spares_book one held "book take $1 $2" target/tests/due 1 out tool book take book 12 "../$1" $2
        spares held "book take $1 $2, without a book" target/tests/due 1 out tool book take none 12 "../$1" $2
    }
}

# Files of which nothing goes on, by the way, the page and the lists that are named.
takes_no_refused() {
    local total path
    total=$(kept 1199 Z3)
    takes_none folder/refused '' "$(refusal $folder/refused 1 42 4 Z3 18-20 "$total")"
    takes_none folder/returned --strict "$(refusal $folder/returned 1 28 2 T10a 208-209)"
    takes_none all-returned '' "refused on ${pages[1]}: number 43: ${words[43]}" "first broken: $(rule 20 1 T4b)"
    takes_none cut '' "$(refusal target/tests/cut 1 2 1)"
    takes_none longer '' "$(refusal - 1 1 0)"
    takes_none name-iso '--page 0' "$(refusal target/tests/name-iso 0 12 0 Q5 24-58)"
    with_book one
    tells "$(taken 3 1199 0 1226111601 12 17 1 | sed "1s/^on .*) /on ${pages[0]} /")" 0 \
        tool book take book 12 ../name-din --page 0 --strict
    holds 12 1226111601 12 3 1199
    with_book one
    both_ways put_lists 'BR CL' 'PE VE'
    as_before tells "$(refusal samples/sound.dtazv 1 26 2 T9a all)" 1 tool book take book 12 sound --lists lists --strict
    tells "$(taken 2 1120 1 1226111601 12 17 1)" 0 tool book take book 12 sound --lists lists
    holds 12 1226111601 12 2 1120
    # what is no book, and what is no file
    for path in link lost null inner; do
        spares says "kaaravizhe: $path: is not a regular file; a symbolic link is not followed" 2 tool book list $path
        spares says "kaaravizhe: $path: is not a regular file; a symbolic link is not followed" 2 tool book totals $path
        spares says "kaaravizhe: $path: is not a regular file; a symbolic link is not followed" 2 tool book take $path 7 sound
        spares says "kaaravizhe: $path: is there already, and is not written over" 2 tool book new $path
    done
    spares says 'kaaravizhe: sound: line 1: not a book file' 2 tool book take sound 7 sound
    spares says 'kaaravizhe: none: No such file or directory' 2 tool book list none
    spares says 'kaaravizhe: none: No such file or directory' 2 tool book take none 7 sound
    spares says 'kaaravizhe: none/book: No such file or directory' 2 tool book new none/book
    spares says 'kaaravizhe: sound: is there already, and is not written over' 2 tool book new sound
    spares says "kaaravizhe: ended.new: $at_work" 2 tool book new ended
    spares says "kaaravizhe: ended.new: $at_work" 2 tool book take ended 7 sound
    spares_book one says 'kaaravizhe: none: No such file or directory' 2 tool book take book 12 none
    spares_book one says 'kaaravizhe: inner: Is a directory' 2 tool book take book 12 inner
    spares_book one says 'kaaravizhe: standard input: is closed' 2 without_input tool book take book 12 -
    spares_book one says 'kaaravizhe: what goes on was not restored from its notes: nothing is written' 2 \
        faulty restore book take book 12 sound
}

# What is told of a book for machines.
keeps_book_json() {
    local one='{"file_number":1226111601,"day":7,"payments":3,"euros":1199,"free_from":12}'
    new_folder
    json '[.command, .book, .day, .held, .payments, .euros]' '["book new","book",0,0,0,0]' 0 tool book new book --json
    json '[.command, .taken, .returned, .forgotten, .day, .held, .file]' "[\"book take\",true,0,0,7,1,$one]" 0 \
        tool book take book 7 sound --json
    holds 7 1226111601 7 3 1199
    as_before json '[.command, .taken, .refusal.number, .refusal.words, .in_the_way]' \
        "[\"book take\",false,50,\"${words[50]}\",$one]" 1 tool book take book 8 sound --json
    as_before json '[.taken, .refusal.number, .day, .file.day, .in_the_way]' '[false,52,7,6,null]' 1 \
        tool --json book take book 6 returned
    as_before json '[.command, .taken, .refusal.number, .fault.due]' '["book take",false,42,1199]' 1 \
        tool book take book 8 refused --json
    as_before json '[.command, .day, .held, .files]' "[\"book list\",7,1,[$one]]" 0 tool book list book --json
    as_before json '[.command, .day, .held, .payments, .euros]' '["book totals",7,1,3,1199]' 0 tool book totals book --json
    spares_book full json '[.refusal.number, .in_the_way.free_from]' '[51,8]' 1 tool book take book 7 sound --json
    spares_book full-at-last json '[.refusal.number, .in_the_way.free_from]' '[51,null]' 1 \
        tool book take book 4294967295 sound --json
}
