#!/bin/sh
# Calls the built program on real files, pipes and outputs, and compares what it answers. Prints one line a case.
# The program is the first word, and without one that which ./stateflow has built.
here=$(CDPATH= cd -- "$(dirname -- "$0")/.." && pwd) || exit 1
program=${1:-$here/crates/stateflow/out/stateflow}
if [ ! -x "$program" ]; then
    echo "real_devices: there is no program at $program: ./stateflow builds it" >&2
    exit 2
fi
room=$(mktemp -d) || exit 2
trap 'rm -rf "$room"' EXIT
cd "$room" || exit 2
# A program that ends early leaves a pipe without a reader.
trap '' PIPE
failed=0

# A call that doesn't end is stopped.
stateflow() {
    timeout 30 "$program" "$@"
}

# compare NAME STATUS: the last call answered STATUS, and wrote what the files wanted.out and wanted.err have.
compare() {
    if [ "$status" = "$2" ] && cmp -s out wanted.out && cmp -s err wanted.err; then
        echo "ok: $1"
    else
        echo "FAILED: $1 (status $status, wanted $2)"
        failed=1
    fi
    : >out
    : >err
}

# wants OUT ERR: what the next call is to write.
wants() {
    printf '%s' "$1" >wanted.out
    printf '%s' "$2" >wanted.err
}

line='
'
read_fault="stateflow: read fault$line"
write_fault="stateflow: write fault$line"
first='{"id":"a","class":"Counter","new":["x",3]}'
second='{"id":"b","class":"Counter","key":"x","method":"add","args":[4]}'
first_reply='{"id":"a","ok":"x","seq":1}'
second_reply='{"id":"b","ok":7,"seq":2}'
both_replies="$first_reply$line$second_reply$line"
: >out
: >err

cp "$here/examples/counter/counter.py" counter.py

# A class stands in the first piece of the file and one in the last.
{
    cat counter.py
    head -c 40000 /dev/zero | tr '\0' '\n'
    sed -n '/^@entity/,$p' counter.py | sed 's/Counter/Second/'
} >long.py
wants "ok: 2 classes, 2 methods$line" ""
stateflow check long.py >out 2>err
status=$?
compare "a file of several pieces is checked" 0

wants "" "$read_fault"
stateflow check missing.py >out 2>err
status=$?
compare "a missing file is a read fault" 3

mkdir folder.py
stateflow check folder.py >out 2>err
status=$?
compare "a folder in place of a file is a read fault" 3

mkfifo pipe.py
cat counter.py >pipe.py 2>/dev/null &
stateflow check pipe.py >out 2>err
status=$?
kill $! 2>/dev/null
wait $! 2>/dev/null
compare "a pipe in place of a file is a read fault" 3

wants "$both_replies" ""
{
    printf '%s\n%s' "$first" '{"id":"b","class":"Counter",'
    sleep 1
    printf '%s\n' '"key":"x","method":"add","args":[4]}'
} | {
    stateflow local counter.py >out 2>err
    echo $? >status
}
status=$(cat status)
compare "an input that comes in parts is served" 0

{
    printf '%s\n' "$first"
    head -c 10000 /dev/zero | tr '\0' '\n'
    printf '%s' "$second"
} >input
stateflow run counter.py --batch 1 <input >out 2>err
status=$?
compare "an input of several pieces is served" 0

# The second line is sent only once the first is answered.
mkfifo requests replies
stateflow local counter.py <requests >replies 2>err &
exec 3>requests 4<replies
printf '%s\n' "$first" >&3
read -r reply <&4
printf '%s\n' "$reply" >out
printf '%s\n' "$second" >&3
exec 3>&-
cat <&4 >>out
exec 4<&-
wait $!
status=$?
compare "a line is answered before the next is sent" 0

wants "" "$read_fault"
stateflow local counter.py <&- >out 2>err
status=$?
compare "a closed input is a read fault" 3

stateflow local counter.py <. >out 2>err
status=$?
compare "a folder as the input is a read fault" 3

wants "" "$write_fault"
stateflow local counter.py <input >/dev/full 2>err
status=$?
compare "a full output is a write fault" 4

stateflow check counter.py >/dev/full 2>err
status=$?
compare "a full output of check is a write fault" 4

stateflow local counter.py <input >&- 2>err
status=$?
compare "a closed output is a write fault" 4

wants "" ""
stateflow check missing.py >out 2>/dev/full
status=$?
compare "a full error stream is a write fault" 4

stateflow check missing.py >out 2>&-
status=$?
compare "a closed error stream is a write fault" 4

# A word has to be a text in UTF-8, and the name that the program is called by doesn't.
wants "" "usage: stateflow check FILE | compile FILE | local FILE | run FILE [options] | gen [options] | audit FILE RUN | export FILE --store DIR$line"
stateflow check "$(printf '\377')" >out 2>err
status=$?
compare "a word that is no text is told the usage line" 2

stateflow run counter.py "--store=$(printf '\377')" >out 2>err
status=$?
compare "a folder's name that is no text is told the usage line" 2

wants "ok: 1 classes, 1 methods$line" ""
elsewhere=$(printf 'folder\377')
mkdir "$elsewhere"
ln -s "$program" "$elsewhere/stateflow"
timeout 30 "$elsewhere/stateflow" check counter.py >out 2>err
status=$?
compare "a program in a folder whose name is no text is called as any other" 0

exit $failed
