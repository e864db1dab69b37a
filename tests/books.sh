# The cases of both book examples. Read by tests/hosts, whose folder and ways of running a host they use. What has to be
# printed and written is by docs/RULES.md and docs/BOOK-FILE.md; each CRC is gzip's.
books=target/tests/books

# tells_and_says TEXT LINE STATUS COMMAND..: the command ends with that status, prints that text, and says that line on
# standard error
tells_and_says() {
    lines "$1" "$2" >target/tests/told
    held "'$2'" target/tests/told "$3" both "${@:4}"
}

lines() {
    printf '%s\n' "$@"
}

# crc FILE: its CRC-32, which gzip has before its last four bytes
crc() {
    printf '%08X\n' "0x$(gzip -c "$1" | tail -c 8 | head -c 4 | od -An -tx4 --endian=little | tr -d ' ')"
}

# sealed: standard input, and behind it the line of its CRC
sealed() {
    cat >target/tests/unsealed
    cat target/tests/unsealed
    echo "CRC $(crc target/tests/unsealed)"
}

# book DAY [NUMBER DAY PAYMENTS EUROS]..: a book on that day that holds those files
book() {
    {
        printf 'KAARAVIZHE BOOK 2\nDAY %010d\nHELD %03d\n' "$1" $((($# - 1) / 4))
        [ $# = 1 ] || printf '%020d %010d %04d %015d\n' "${@:2}"
    } | sealed
}

# old_book DAY [NUMBER DAY]..: the same in version 1 of the layout, which has no payments and euros
old_book() {
    {
        printf 'KAARAVIZHE BOOK 1\nDAY %010d\nHELD %03d\n' "$1" $((($# - 1) / 2))
        [ $# = 1 ] || printf '%020d %010d\n' "${@:2}"
    } | sealed
}

# so_many COUNT DAY [PAYMENTS EUROS]: so many numbers from 1 on, each with that day and those figures
so_many() {
    seq "$1" | sed "s/\$/ ${*:2}/"
}

# with_book NAME: a new folder with that book
with_book() {
    new_folder
    cp "$books/$1" $folder/book
    cp "$books/$1" $folder.before/book
}

# spares_book NAME CHECK..: one of the checks, in a new folder with that book, which is then as it was
spares_book() {
    with_book "$1"
    "${@:2}"
    as_it_was "$3"
}

# holds DAY [NUMBER DAY PAYMENTS EUROS]..: the folder's book is that one, and nothing else is changed, missing or new
holds() {
    book "$@" >target/tests/due
    held "book on day $1" target/tests/due 0 out cat $folder/book
    cp target/tests/due $folder.before/book
    as_it_was "book on day $1"
}

# on DAY HELD: what a host tells of the book
on() {
    echo "the book is on day $1, with $2 of 200 places held"
}

# totals DAY FILES PAYMENTS EUROS: what it tells of the totals of a book on that day
totals() {
    echo "totals on day $1: files $2, payments $3, whole euros $4"
}

# number NUMBER DAY PAYMENTS EUROS FREE: what it tells of a number, which is free from that day on, or as the words say
number() {
    local free="free from day $5 on"
    [[ $5 == [0-9]* ]] || free=$5
    echo "file number $1: taken on day $2, $3 payments, $4 whole euros, $free"
}
never='not free on any day that is left'

# taken PAYMENTS EUROS RETURNED NUMBER DAY FREE HELD: what it tells of a number that is taken now, with those figures
taken() {
    echo "on page 1 (ISO 8859-1) $1 payments go on, $3 come back"
    number "$4" "$5" "$1" "$2" "$6"
    on "$5" "$7"
}

# refused DAY NUMBER [LINE..]: what it tells of one that is not taken on that day
refused() {
    local words
    words=$(sed -n "s/^| $2 | \([^|]*\) | .* |\$/\1/p" docs/WORDS.md)
    lines "refused on day $1: number $2: $words" "${@:3}"
}

# amounts FILE RECORD..: how many records these are, and the sum of their T14a: 14 digits from place 458 on
amounts() {
    local record sum=0
    for record in "${@:2}"; do
        sum=$((sum + 10#$(tail -c +$((256 + (record - 1) * 768 + 458 + 1)) "$1" | head -c 14)))
    done
    echo $(($# - 1)) $sum
}

# The figures of the cases are those of the bytes. Of 'returned' records 2 and 4 come back. The first payment of 'sound' is
# all that stands in 'most', and all that is kept of 'most-returned'.
figures() {
    tells '3 1199' 0 amounts samples/sound.dtazv 1 2 3
    tells '2 349' 0 amounts samples/cheques.dtazv 1 2
    tells '3 1219' 0 amounts samples/returned.dtazv 1 3 5
    tells '1 120' 0 amounts target/tests/most 1
    # shellcheck disable=SC2046
    tells '11 999999999999999' 0 amounts target/tests/rich $(seq 11)
}

# What a book host does, day by day. The number of a sample is its Q4, Q6 and Q7: 12, 261116, and 01, 02 or 03.
takes() {
    local first
    first=$(number 1226111601 7 3 1199 12)
    new_folder
    tells "$(on 0 0)" 0 host book new
    holds 0
    tells "$(on 0 0)" 0 host book list
    tells "$(totals 0 0 0 0)" 0 host book totals
    tells "$(taken 3 1199 0 1226111601 7 12 1)" 0 host book take 7 sound
    holds 7 1226111601 7 3 1199
    tells "$(refused 7 50 "$first" "$(on 7 1)")" 1 host book take 7 sound
    tells "$(refused 11 50 "$first" "$(on 7 1)")" 1 host book take 11 sound
    tells "$(refused 6 52 "$(on 7 1)")" 1 host book take 6 returned
    tells "$(totals 7 1 3 1199)" 0 host book totals
    holds 7 1226111601 7 3 1199
    tells "$(taken 3 1219 2 1226111603 11 16 2)" 0 host book take 11 returned
    holds 11 1226111601 7 3 1199 1226111603 11 3 1219
    tells "$(lines "$(on 11 2)" "$first" "$(number 1226111603 11 3 1219 16)")" 0 host book list
    tells "$(totals 11 2 6 2418)" 0 host book totals
    tells "$(taken 3 1199 0 1226111601 12 17 2)" 0 host book take 0012 sound
    holds 12 1226111603 11 3 1219 1226111601 12 3 1199
    tells "$(refused 6 52 "$(on 12 2)")" 1 host book take 6 sound
    tells "$(refused 11 52 "$(on 12 2)")" 1 host book take 11 returned
    tells "$(totals 12 2 6 2418)" 0 host book totals
    holds 12 1226111603 11 3 1219 1226111601 12 3 1199
    tells "$(taken 2 349 0 1226111602 17 22 1)" 0 host book take 17 ../../../samples/cheques.dtazv
    holds 17 1226111602 17 2 349
    tells "$(lines "$(on 17 1)" "$(number 1226111602 17 2 349 22)")" 0 host book list
    tells "$(totals 17 1 2 349)" 0 host book totals
}

# The most payments and the most whole euros that a file has, and what is left where all payments but one come back.
takes_most() {
    new_folder
    host book new >/dev/null
    tells "$(taken 9999 1199880 0 1226111601 7 12 1)" 0 host book take 7 ../most
    holds 7 1226111601 7 9999 1199880
    tells "$(taken 11 999999999999999 0 1226111601 12 17 1)" 0 host book take 12 ../rich
    holds 12 1226111601 12 11 999999999999999
    tells "$(totals 12 1 11 999999999999999)" 0 host book totals
    tells "$(taken 1 120 9998 1226111601 17 22 1)" 0 host book take 17 ../most-returned
    holds 17 1226111601 17 1 120
    spares_book highest tells "$(on 7 1; number 18446744073709551615 7 9999 999999999999999 12)" 0 host book list
    spares_book highest tells "$(totals 7 1 9999 999999999999999)" 0 host book totals
    spares_book full-of-most tells "$(totals 3 200 1999800 199999999999999800)" 0 host book totals
    # no file has more payments; where one had, that would come before the day
    spares_book one tells "$(refused 12 53 "$(on 7 1)")" 1 faulty large book take 12 sound
    spares_book one tells "$(refused 6 53 "$(on 7 1)")" 1 faulty large book take 6 sound
}

# What it does on the last days: a number that is taken on day 4294967290 is free on the last one, and later ones never.
takes_at_last() {
    with_book one
    tells "$(taken 3 1199 0 1226111601 4294967290 4294967295 1)" 0 host book take 4294967290 sound
    tells "$(taken 3 1219 2 1226111603 4294967291 "$never" 2)" 0 host book take 4294967291 returned
    holds 4294967291 1226111601 4294967290 3 1199 1226111603 4294967291 3 1219
    tells "$(taken 3 1199 0 1226111601 4294967295 "$never" 2)" 0 host book take 4294967295 sound
    holds 4294967295 1226111603 4294967291 3 1219 1226111601 4294967295 3 1199
    tells "$(refused 4294967295 50 "$(number 1226111603 4294967291 3 1219 "$never")" "$(on 4294967295 2)")" 1 \
        host book take 4294967295 returned
    tells "$(lines "$(on 4294967295 2)" "$(number 1226111603 4294967291 3 1219 "$never")" \
        "$(number 1226111601 4294967295 3 1199 "$never")")" 0 host book list
    tells "$(totals 4294967295 2 6 2418)" 0 host book totals
}

# What it does where all places are held.
takes_no_more() {
    local i
    with_book nearly-full
    tells "$(taken 3 1199 0 1226111601 7 12 200)" 0 host book take 7 sound
    # shellcheck disable=SC2046
    holds 7 $(so_many 199 3 2 50) 1226111601 7 3 1199
    tells "$(refused 7 51 'the next place is free from day 8 on' "$(on 7 200)")" 1 host book take 7 returned
    tells "$(refused 7 50 "$(number 1226111601 7 3 1199 12)" "$(on 7 200)")" 1 host book take 7 sound
    tells "$(totals 7 200 401 11149)" 0 host book totals
    as_it_was full
    tells "$(taken 3 1219 2 1226111603 8 13 2)" 0 host book take 8 returned
    holds 8 1226111601 7 3 1199 1226111603 8 3 1219
    tells "$(totals 8 2 6 2418)" 0 host book totals
    spares_book full-at-last tells "$(refused 4294967295 51 "the next place is $never" "$(on 4294967295 200)")" 1 \
        host book take 4294967295 sound
    spares_book full tells "$(on 3 200; for i in $(seq 200); do number "$i" 3 2 50 8; done)" 0 host book list
}

no_figures='line 1: version 1 of the layout has no payments and euros; those of the files in it count as 0'

# What it does with a book of version 1: the numbers count, their figures are 0, and that is said whenever it is read. It
# stays as it is until a number is taken; then it is one of version 2.
takes_from_old() {
    local i first
    first=$(number 1226111601 7 0 0 12)
    with_book old
    tells_and_says "$(on 7 1; echo "$first")" "book: $no_figures" 0 host book list
    tells_and_says "$(totals 7 1 0 0)" "book: $no_figures" 0 host book totals
    tells_and_says "$(refused 11 50 "$first" "$(on 7 1)")" "book: $no_figures" 1 host book take 11 sound
    tells_and_says "$(refused 6 52 "$(on 7 1)")" "book: $no_figures" 1 host book take 6 returned
    as_it_was old
    tells_and_says "$(taken 3 1219 2 1226111603 11 16 2)" "book: $no_figures" 0 host book take 11 returned
    holds 11 1226111601 7 0 0 1226111603 11 3 1219
    tells "$(lines "$(on 11 2)" "$first" "$(number 1226111603 11 3 1219 16)")" 0 host book list
    tells "$(totals 11 2 3 1219)" 0 host book totals
    tells "$(taken 3 1199 0 1226111601 12 17 2)" 0 host book take 12 sound
    holds 12 1226111603 11 3 1219 1226111601 12 3 1199
    with_book old-new
    tells_and_says "$(totals 0 0 0 0)" "book: $no_figures" 0 host book totals
    tells_and_says "$(taken 3 1199 0 1226111601 0 5 1)" "book: $no_figures" 0 host book take 0 sound
    holds 0 1226111601 0 3 1199
    spares_book old-full tells_and_says "$(on 3 200; for i in $(seq 200); do number "$i" 3 0 0 8; done)" \
        "book: $no_figures" 0 host book list
    spares_book old-full tells_and_says "$(refused 7 51 'the next place is free from day 8 on' "$(on 3 200)")" \
        "book: $no_figures" 1 host book take 7 sound
}

# What it does with a file of which nothing goes on: it tells why, and touches no book, not even one that is not there. On
# the page of its name a file goes on.
refuses_files() {
    spares_book one check example-refused 1 out host book take 12 refused
    spares_book one check host-all-returned 1 out host book take 12 ../all-returned
    spares_book one check host-no-digit-later 1 out host none take 12 ../no-digit-later
    spares_book one check host-blank-iso-0 1 out host --page 0 book take 12 ../name-iso
    spares_book one check host-blank-din-1 1 out host --page 1 book take 12 ../name-din
    spares_book one check host-too-long 1 out host book take 12 ../longer
    with_book one
    tells "$(taken 3 1199 0 1226111601 12 17 1 | sed '1s/1 (ISO 8859-1)/0 (DIN 66003)/')" 0 \
        host --page 0 book take 12 ../name-din
    holds 12 1226111601 12 3 1199
}

# The sound books of all cases, and a file of eleven payments that has the most whole euros: no more fit into Z3.
make_books() {
    local i
    rm -rf $books
    mkdir $books
    book 7 1226111601 7 3 1199 >$books/one
    old_book 7 1226111601 7 >$books/old
    old_book 0 >$books/old-new
    # shellcheck disable=SC2046
    {
        book 3 $(so_many 199 3 2 50) >$books/nearly-full
        book 3 $(so_many 200 3 2 50) >$books/full
        book 3 $(so_many 200 3 9999 999999999999999) >$books/full-of-most
        book 4294967295 $(so_many 200 4294967295 2 50) >$books/full-at-last
        old_book 3 $(so_many 200 3) >$books/old-full
    }
    sed '4s/.*/18446744073709551615 0000000007 9999 999999999999999/;$d' $books/one | sealed >$books/highest
    payments 11 >target/tests/rich-1
    for i in $(seq 10); do
        file_with 99999999999999 $((256 + (i - 1) * 768 + 458)) "target/tests/rich-$i" >"target/tests/rich-$((i + 1))"
    done
    file_with 00000000000009 $((256 + 10 * 768 + 458)) target/tests/rich-11 >target/tests/rich-12
    file_with 999999999999999 $((256 + 11 * 768 + 5)) target/tests/rich-12 >target/tests/rich
}

# Every kind of file that is no book.
make_no_books() {
    : >$books/empty
    head -c 17 $books/one >$books/cut-1
    head -c 18 $books/one >$books/cut-2
    head -c 94 $books/one >$books/cut-4
    head -c 107 $books/one >$books/cut-5
    cp samples/sound.dtazv $books/sample
    sed '1s/2/3/;$d' $books/one | sealed >$books/other-version
    sed '1s/1/0/;$d' $books/old-new | sealed >$books/version-0
    sed 's/$/\r/;$d' $books/one | sealed >$books/with-cr
    sed '2s/0//;$d' $books/one | sealed >$books/short-day
    sed '2s/0000000007/4294967296/;$d' $books/one | sealed >$books/high-day
    sed '3s/001/201/;$d' $books/one | sealed >$books/too-many
    sed '3s/001/002/;$d' $books/one | sealed >$books/one-missing
    sed '3s/001/000/;$d' $books/one | sealed >$books/one-too-many
    sed '4s/[0-9]* /18446744073709551616 /;$d' $books/one | sealed >$books/high-number
    sed '4s/ 0003 / 10000 /;$d' $books/one | sealed >$books/high-payments
    sed '4s/ 0\([0-9]*\)$/ 10\1/;$d' $books/one | sealed >$books/high-euros
    sed '4s/ 0003 /    3 /;$d' $books/one | sealed >$books/blank-payments
    sed '1s/2/1/;$d' $books/one | sealed >$books/figures-in-old
    sed '1s/1/2/;$d' $books/old | sealed >$books/no-figures
    sed '5s/.*/CRC abcdef01/' $books/one >$books/small-hex
    { cat $books/one && echo; } >$books/behind
    { cat $books/full && seq 1000; } >$books/behind-full
    sed '4s/601/602/' $books/one >$books/changed
    sed '4s/0003/0004/' $books/one >$books/changed-figure
    book 7 1 5 0 0 1 7 0 0 >$books/twice
    book 7 1 7 0 0 2 6 0 0 >$books/falling
    book 7 1 2 0 0 2 7 0 0 >$books/forgotten
    book 8 1 7 0 0 >$books/later-day
    book 7 >$books/day-alone
}

# The same of version 1.
make_no_old_books() {
    head -c 73 $books/old >$books/old-cut-4
    head -c 86 $books/old >$books/old-cut-5
    sed '4s/[0-9]* /18446744073709551616 /;$d' $books/old | sealed >$books/old-high-number
    sed '1s/1/2/' $books/old-new >$books/old-renamed
    { cat $books/old && echo; } >$books/old-behind
    { cat $books/old-full && seq 1000; } >$books/old-behind-full
    sed '4s/601/602/' $books/old >$books/old-changed
    old_book 7 1 5 1 7 >$books/old-twice
    old_book 7 1 7 2 6 >$books/old-falling
    old_book 7 1 2 2 7 >$books/old-forgotten
    old_book 8 1 7 >$books/old-later-day
}

# refuses_book NAME MESSAGE: that book cannot be read, neither for list, totals nor take, and is left as it is
refuses_book() {
    spares_book "$1" says "book: $2" 2 host book list
    spares_book "$1" says "book: $2" 2 host book totals
    spares_book "$1" says "book: $2" 2 host book take 12 sound
}

cut='the book is cut short here'
none='no desk leaves such a book; '
line_end='and a line end (LF)'
pair='malformed; due is 20 digits (at most 18446744073709551615), a space, 10 digits (at most 4294967295)'
last_day='its day is that of the last number in it, and 0 where there is none'

# refuses_changed NAME BOOK LINE: that book is the other one but for a change, and its CRC in that line does not fit
refuses_changed() {
    head -n $(($3 - 1)) "$books/$1" >target/tests/unsealed
    refuses_book "$1" "line $3: damaged; the stored CRC is $(tail -c 9 "$books/$2"), and the lines before it have \
$(crc target/tests/unsealed)"
}

# Every kind of file that is no book. Line 4 is that of the first number; where there is one, line 5 has the CRC.
refuses_books() {
    local day="malformed; due is DAY, a space, 10 digits (at most 4294967295) $line_end"
    local entry="$pair, a space, 4 digits, a space, 15 digits $line_end"
    local sum="malformed; due is CRC, a space, 8 hex digits (0 to 9, A to F) $line_end" name
    refuses_book empty "line 1: $cut"
    refuses_book cut-1 "line 1: $cut"
    refuses_book cut-2 "line 2: $cut"
    refuses_book cut-4 "line 4: $cut"
    refuses_book cut-5 "line 5: $cut"
    refuses_book sample 'line 1: not a book file'
    refuses_book other-version 'line 1: another version of the layout; this desk reads versions 1 and 2'
    refuses_book with-cr "line 1: malformed; due is KAARAVIZHE BOOK, a space, 1 or 2, $line_end"
    refuses_book short-day "line 2: $day"
    refuses_book high-day "line 2: $day"
    refuses_book too-many "line 3: malformed; due is HELD, a space, 3 digits (at most 200) $line_end"
    refuses_book one-missing "line 5: $entry"
    refuses_book one-too-many "line 4: $sum"
    for name in high-number high-payments high-euros blank-payments no-figures; do
        refuses_book $name "line 4: $entry"
    done
    refuses_book small-hex "line 5: $sum"
    refuses_book behind 'line 6: bytes behind the end of the book'
    refuses_book behind-full 'line 205: bytes behind the end of the book'
    refuses_changed changed one 5
    refuses_changed changed-figure one 5
    refuses_book twice "line 5: ${none}the number stands in an earlier line too"
    refuses_book falling "line 5: ${none}the day is earlier than in the line before"
    refuses_book forgotten "line 5: ${none}by this day a number of an earlier line is forgotten"
    refuses_book later-day "line 2: $none$last_day"
    refuses_book day-alone "line 2: $none$last_day"
}

# The same of version 1: it is read as strictly, and of what is refused nothing is said but why.
refuses_old_books() {
    refuses_book old-cut-4 "line 4: $cut"
    refuses_book old-cut-5 "line 5: $cut"
    refuses_book old-high-number "line 4: $pair $line_end"
    refuses_book figures-in-old "line 4: $pair $line_end"
    refuses_book version-0 'line 1: another version of the layout; this desk reads versions 1 and 2'
    refuses_book old-behind 'line 6: bytes behind the end of the book'
    refuses_book old-behind-full 'line 205: bytes behind the end of the book'
    refuses_changed old-changed old 5
    refuses_changed old-renamed old-new 4
    refuses_book old-twice "line 5: ${none}the number stands in an earlier line too"
    refuses_book old-falling "line 5: ${none}the day is earlier than in the line before"
    refuses_book old-forgotten "line 5: ${none}by this day a number of an earlier line is forgotten"
    refuses_book old-later-day "line 2: $none$last_day"
}

at_work='is there already: another program is at work on the book, or was killed; if none is at work, remove this file'

# Where no book file is made: something is there already, or comes there meanwhile, or nothing can be there.
makes_none() {
    local path
    for path in sound ./sound link hard inner null lost; do
        keeps $path $path new
    done
    spares says "taken.new: $at_work" 2 host taken new
    spares says 'none/book: No such file or directory' 2 host none/book new
    spares says 'sound/book: Not a directory' 2 host sound/book new
    spares says ': No such file or directory' 2 host '' new
    spares tells_and_says "$(on 0 0)" 'book: Device or resource busy' 2 faulty book book new
    spares tells_and_says "$(on 0 0)" 'book.new: Device or resource busy' 2 faulty kept=book.new book new
}

# What is no book file: a link to another file, or to nothing, or to a device; a directory; and what is not there. Before
# it is looked for, the new file has to be made.
finds_none() {
    local path
    for path in link lost null inner; do
        spares says "$path: is not a regular file; a symbolic link is not followed" 2 host $path list
        spares says "$path: is not a regular file; a symbolic link is not followed" 2 host $path totals
        spares says "$path: is not a regular file; a symbolic link is not followed" 2 host $path take 7 sound
    done
    spares says 'none: No such file or directory' 2 host none list
    spares says 'none: No such file or directory' 2 host none totals
    spares says 'none: No such file or directory' 2 host none take 7 sound
    spares says "taken.new: $at_work" 2 host taken take 7 sound
    spares says 'none/book: No such file or directory' 2 host none/book take 7 sound
    spares says ': No such file or directory' 2 host '' take 7 sound
    spares_book one says 'none: No such file or directory' 2 host book take 12 none
    spares_book one says 'inner: Is a directory' 2 host book take 12 inner
}

# A run that is killed when all was told: the number is not taken, and what the run left stops every other one but list and
# totals, until somebody removes it.
waits() {
    with_book one
    tells "$(taken 3 1199 0 1226111601 12 17 1)" 137 faulty killed book take 12 sound
    book 12 1226111601 12 3 1199 >$folder.before/book.new
    says "book.new: $at_work" 2 host book take 12 sound
    says "book.new: $at_work" 2 host book take 12 returned
    tells "$(on 7 1; number 1226111601 7 3 1199 12)" 0 host book list
    tells "$(totals 7 1 3 1199)" 0 host book totals
    as_it_was killed
    rm $folder/book.new $folder.before/book.new
    tells "$(taken 3 1199 0 1226111601 12 17 1)" 0 host book take 12 sound
    holds 12 1226111601 12 3 1199
}

# without_streams COMMAND..: all its standard streams are closed
without_streams() {
    "$@" <&- >&- 2>&-
}

# What a book host cannot print or write: no number is taken, unless it says so.
cannot_keep() {
    local to silent='standard output cannot be written' told
    told=$(taken 3 1199 0 1226111601 12 17 1)
    for to in to_full to_closed to_no_reader; do
        spares says "$silent" 2 $to host book new
        spares_book one says "$silent" 2 $to host book take 12 sound
        spares_book one says "$silent" 2 $to host book take 11 sound
        spares_book one says "$silent" 2 $to host book take 12 refused
        spares_book one says "$silent" 2 $to host book list
        spares_book one says "$silent" 2 $to host book totals
        spares_book old says "book: $no_figures"$'\n'"$silent" 2 $to host book totals
        spares_book old says "book: $no_figures"$'\n'"$silent" 2 $to host book take 12 sound
    done
    spares_book one held 'all closed' /dev/null 2 out without_streams host book take 12 sound
    spares_book one held 'all closed' /dev/null 2 out without_streams host book take 11 sound
    spares says 'book.new: No space left on device' 2 faulty full=book.new book new
    spares_book one says 'book.new: No space left on device' 2 faulty full=book.new book take 12 sound
    spares_book nearly-full says 'book.new: File too large' 2 limited host book take 7 sound
    spares_book one tells_and_says "$told" 'book: Device or resource busy' 2 faulty book book take 12 sound
    with_book one
    tells_and_says "$told" 'book: the new book is in place, but a power cut may undo it: No space left on device' 2 \
        faulty full=. book take 12 sound
    holds 12 1226111601 12 3 1199
}

# obeying COMMAND..: permissions hold for it, even where root runs it
obeying() {
    if [ "$(id -u)" = 0 ]; then
        setpriv --bounding-set -dac_override,-dac_read_search --inh-caps -dac_override,-dac_read_search "$@"
    else
        "$@"
    fi
}

# obedient_host WORD..: such a host, run in the folder
obedient_host() (
    cd $folder
    obeying "$root/target/tests/$program" "$@"
)

# What it cannot read or write by permissions; those of a book stay.
permissions() {
    with_book one
    chmod 555 $folder
    says 'book.new: Permission denied' 2 obedient_host book take 12 sound
    says 'new-book.new: Permission denied' 2 obedient_host new-book new
    tells "$(on 7 1; number 1226111601 7 3 1199 12)" 0 obedient_host book list
    tells "$(totals 7 1 3 1199)" 0 obedient_host book totals
    chmod 755 $folder
    chmod 0 $folder/book
    says 'book: Permission denied' 2 obedient_host book list
    says 'book: Permission denied' 2 obedient_host book take 12 sound
    chmod 640 $folder/book
    as_it_was permissions
    tells "$(taken 3 1199 0 1226111601 12 17 1)" 0 host book take 12 sound
    holds 12 1226111601 12 3 1199
    tells 640 0 stat -c %a $folder/book
}

# What it refuses before it reads: words that it does not understand.
understands_book() {
    local words day path
    local usage='usage: book BOOK new, or book [--page 0|1] BOOK take DAY FILE, or book BOOK list, or book BOOK totals'
    local pages='there is page 0 (DIN 66003) and page 1 (ISO 8859-1)'
    for words in '' '--page 1' book 'book forget' 'book List' 'book total' 'new-book new more' 'book list more' \
        'book totals more' 'book take 12' 'book take 12 sound more' '--page 1 book list' '--page 1 book totals' \
        '--page 1 new-book new' 'book --page 1 take 12 sound'; do
        # shellcheck disable=SC2086
        spares_book one says "$usage" 2 host $words
    done
    spares_book one says "--page names no page: $pages" 2 host --page
    spares_book one says "page 2: $pages" 2 host --page 2 book take 12 sound
    for day in '' x 7x x7 -7 +7 ' 7' '7 ' 7.0 0x7 4294967296 4294967303 18446744073709551623 99999999999999999999999; do
        spares_book one says "day $day: a day is a number from 0 to 4294967295, in digits" 2 host book take "$day" sound
    done
    for path in -book - --strict; do
        spares_book one says "$path: no option in this place; a file of that name is ./$path" 2 host book take 12 $path
        spares_book one says "$path: no option in this place; a file of that name is ./$path" 2 host $path take 12 sound
        spares_book one says "$path: no option in this place; a file of that name is ./$path" 2 host $path list
        spares_book one says "$path: no option in this place; a file of that name is ./$path" 2 host $path totals
        spares_book one says "$path: no option in this place; a file of that name is ./$path" 2 host $path new
    done
    new_folder
    tells "$(on 0 0)" 0 host ./-book new
    tells "$(taken 3 1199 0 1226111601 7 12 1)" 0 host ./-book take 7 ./-sample
    tells "$(totals 7 1 3 1199)" 0 host ./-book totals
}

# by PROGRAM WORD..: that host
by() (
    program=$1
    host "${@:2}"
)

# goes_across PROGRAM PROGRAM: a book that the one writes is read by the other, and both tell the same
goes_across() {
    new_folder
    tells "$(on 0 0)" 0 by "$1" book new
    tells "$(taken 3 1199 0 1226111601 7 12 1)" 0 by "$2" book take 7 sound
    tells "$(taken 3 1219 2 1226111603 8 13 2)" 0 by "$1" book take 8 returned
    tells "$(taken 2 349 0 1226111602 9 14 3)" 0 by "$2" book take 9 ../../../samples/cheques.dtazv
    holds 9 1226111601 7 3 1199 1226111603 8 3 1219 1226111602 9 2 349
    by "$1" book list >target/tests/due
    held 'the same list' target/tests/due 0 out by "$2" book list
    tells "$(totals 9 3 8 2767)" 0 by "$1" book totals
    tells "$(totals 9 3 8 2767)" 0 by "$2" book totals
}

# takes_in_turn PROGRAM NUMBER: it takes the number of a file, and tries again where another program is at work
takes_in_turn() {
    for _ in $(seq 400); do
        ! by "$1" book take 7 "../file-$2" || return 0
        sleep 0.02
    done
}

# Twelve programs of both languages take a number each at the same time, and none gets lost.
takes_at_once() {
    local programs=("$@") i waiting=()
    with_book one
    for i in $(seq 10 21); do
        sample_with "$i" 169 >"target/tests/file-$i"
    done
    for i in $(seq 10 21); do
        takes_in_turn "${programs[i % 2]}" "$i" >/dev/null 2>&1 &
        waiting+=($!)
    done
    wait "${waiting[@]}"
    { on 7 13 && for i in 01 $(seq 10 21); do number "12261116$i" 7 3 1199 12; done; } | sort >target/tests/due
    by "$1" book list | sort >target/tests/listed
    held 'all that were taken at once' target/tests/due 0 out cat target/tests/listed
    tells "$(totals 7 13 39 15587)" 0 by "$1" book totals
    cp $folder/book $folder.before/book
    as_it_was 'taken at once'
}
