# What the scripts share that hold programs to what they have to print. Read by them in the folder of the repository.
failed=0
mkdir -p target/tests
out=target/tests/out
err=target/tests/err
both=target/tests/both

# check NAME STATUS STREAM COMMAND..: the command ends with that status and prints what is stored in tests/cases/NAME on
# that stream (out or err), and nothing on the other; with both, first the one's and then the other's
check() {
    held "$1" "tests/cases/$1" "${@:2}"
}

# says LINE STATUS COMMAND..: the command ends with that status and says that line on standard error, and no more
says() {
    echo "$1" >target/tests/line
    held "'$1'" target/tests/line "$2" err "${@:3}"
}

# tells TEXT STATUS COMMAND..: the command ends with that status and prints that text, and nothing on standard error
tells() {
    echo "$1" >target/tests/told
    held "'${1%%$'\n'*}'" target/tests/told "$2" out "${@:3}"
}

# held NAME FILE STATUS STREAM COMMAND..: what these three have in common; the file is what has to be printed
held() {
    local name=$1 due=$2 status=$3 stream=$4 printed=$out silent=$err got=0 wrong=
    shift 4
    "$@" >$out 2>$err || got=$?
    cat $out $err >$both
    if [ "$stream" = err ]; then printed=$err silent=$out; fi
    if [ "$stream" = both ]; then printed=$both silent=/dev/null; fi
    cmp -s "$printed" "$due" || wrong="differs from $due: $(head -n 1 "$printed")"
    [ ! -s "$silent" ] || wrong="prints on the wrong stream: $(head -n 1 "$silent")"
    [ "$got" = "$status" ] || wrong="ends with status $got, not $status"
    result "$name" "as stored, status $status" "$wrong"
}

# result NAME RIGHT WRONG: says what is wrong with a case, or, where that is empty, what is right
result() {
    if [ -n "$3" ]; then
        echo "program case $1: $3" >&2
        failed=1
    else
        echo "program case $1: $2"
    fi
}

# to_full COMMAND.., to_closed COMMAND..: its standard output takes nothing
to_full() {
    "$@" >/dev/full
}
to_closed() {
    "$@" >&-
}

# fed FILE COMMAND.., piped FILE COMMAND..: its standard input is the file, or a pipe through which the file comes
fed() {
    "${@:2}" <"$1"
}
piped() {
    cat "$1" | "${@:2}"
}

# in_pieces BYTES FILE COMMAND..: the file through a pipe, in pieces of so many bytes, with a pause after each in which it
# is read
in_pieces() {
    local piece last=$((($(wc -c <"$2") - 1) / $1))
    for piece in $(seq 0 "$last"); do
        dd if="$2" bs="$1" skip="$piece" count=1 status=none
        sleep 0.2
    done | "${@:3}"
}

# endless COMMAND..: its standard input has no end; one that reads on for a minute gets an end, and it is said
endless() {
    timeout 60 yes | "$@"
    local ended=("${PIPESTATUS[@]}")
    [ "${ended[0]}" != 124 ] || echo 'it read on for a minute'
    return "${ended[1]}"
}

# without_input COMMAND..: its standard input is closed
without_input() {
    "$@" <&-
}

# peak FILE COMMAND..: the most memory in kB that the command had when all of the file was written to its standard input.
# What a pipe holds may be unread then.
peak() {
    local pipe=target/tests/pipe reader
    rm -f $pipe
    mkfifo $pipe
    "${@:2}" <$pipe >/dev/null &
    reader=$!
    exec 7>$pipe
    cat "$1" >&7 && awk '/^VmHWM:/ { print $2 }' /proc/$reader/status || return
    exec 7>&-
    wait $reader
}

# holds_no_file NAME COMMAND..: 9,999 payments on its standard input, which are 7,500 kB, take no more of the command's
# memory than 200, which are more than a pipe holds. Some pages more or less are chance.
holds_no_file() {
    local few many wrong=
    payments 200 >target/tests/few
    payments 9999 >target/tests/many
    few=$(peak target/tests/few "${@:2}") || wrong='ends too early'
    many=$(peak target/tests/many "${@:2}") || wrong='ends too early'
    [ $((many - few)) -lt 1000 ] || wrong="takes $few kB for 200 payments and $many kB for 9,999"
    result "$1" "$few kB for 200 payments, $many kB for 9,999" "$wrong"
}

# payments N: a sound file, the sample's first payment N times. The shell reads none of its bytes: whether it keeps those
# above 127 is a matter of its locale.
payments() {
    local payment=target/tests/payment
    tail -c +257 samples/sound.dtazv | head -c 768 >$payment
    head -c 256 samples/sound.dtazv
    printf "$payment%.0s\n" $(seq "$1") | xargs cat
    printf '0256Z%015d%015d%221s' $((120 * $1)) "$1" ''
}

# file_with TEXT PLACE FILE: the file with that text from that place on, which counts from 0. A byte above 127 is written as
# printf's %b reads it, as '\xC4'.
file_with() {
    local text=target/tests/text
    printf %b "$1" >$text
    head -c "$2" "$3"
    cat $text
    tail -c +$(($2 + $(wc -c <$text) + 1)) "$3"
}

# sample_with TEXT PLACE: the sound sample with that text from that place on
sample_with() {
    file_with "$1" "$2" samples/sound.dtazv
}

# name_with BYTE: the sound sample whose name, the first line of Q5, is that byte and 34 spaces
name_with() {
    sample_with "$1$(printf %34s '')" 23
}

# as_it_was CASE: nothing in the folder is changed, missing or new
as_it_was() {
    if ! diff -r --no-dereference $folder.before $folder >$out; then
        echo "program case $1: the folder is not as it was: $(head -n 1 $out)" >&2
        failed=1
    fi
}

# to_no_reader COMMAND..: its standard output is a pipe that nobody reads any more
to_no_reader() (
    rm -f target/tests/pipe
    mkfifo target/tests/pipe
    exec 8<>target/tests/pipe 9>target/tests/pipe 8>&-
    "$@" >&9 9>&-
)

# for_writing COMMAND..: its standard input is a file that is open for writing alone
for_writing() {
    "$@" 0>target/tests/written
}
