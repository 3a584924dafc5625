#!/bin/sh
# Runs the program `capture` on every tests/capture/NAME.in and compares what it writes with NAME.out, and what it tells with
# NAME.errors or, where there is no such file, with nothing; so too on examples. Then on what no file can show: long input, and
# standard input or output that is closed, full or cannot be read.
# Prints 'capture: N passed, M failed', and fails where M is not 0.
set -u
cd "$(dirname "$0")/.." || exit 1
program=crates/capture/out/capture
suite=capture
. tests/common.sh
is_built "$program" capture

# The capture of so many status reads, made apart from the program: the first fall at this stamp, each later one so much after
# the one before it.
captures_of() {
    awk -v count="$1" -v stamp="$2" -v step="$3" 'BEGIN {
        print "$timescale 1 us $end"
        split("RS RW E DB0 DB1 DB2 DB3 DB4 DB5 DB6 DB7", name, " ")
        for (i = 1; i <= 11; i++) printf "$var wire 1 %s %s $end\n", substr("abcdefghijk", i, 1), name[i]
        print "$enddefinitions $end"
        for (i = 1; i <= count; i++) {
            printf "#%.0f\n0a\n1b\n0d\n0e\n0f\n0g\n0h\n0i\n0j\n0k\n1c\n#%.0f\n0c\n", stamp - 1, stamp
            stamp += step
        }
    }'
}

# A session, the capture that it must have, and what must be told of it.
captures() {
    timeout 20 "$program" < "$1" > "$work/got" 2> "$work/errors"
    same "$1" "$work/got" "$2"
    same "$1: what is told" "$work/errors" "${3:-/dev/null}"
}

# The same with what is stored under this name.
is_stored() {
    if [ -e "tests/capture/$2.errors" ]; then
        captures "$1" "tests/capture/$2.out" "tests/capture/$2.errors"
    else
        captures "$1" "tests/capture/$2.out"
    fi
}

for input in tests/capture/*.in; do
    name=${input##*/}
    is_stored "$input" "${name%.in}"
done
for name in p11 hello; do
    is_stored "examples/$name.session" "$name"
done

# Of every example without a bad line: definitions first, of the eleven signals, then stamps and changes of one of the eleven
# codes alone.
for input in examples/*.session; do
    [ ! -e "${input%.session}.errors" ] || continue
    timeout 20 "$program" < "$input" 2> /dev/null | awk '
        NR == 1 { wrong += $0 != "$timescale 1 us $end" }
        NR > 1 && NR < 13 { wrong += !/^\$var wire 1 [a-k] (RS|RW|E|DB[0-7]) \$end$/ }
        NR == 13 { wrong += $0 != "$enddefinitions $end" }
        NR == 14 { wrong += !/^#/ }
        NR > 13 { wrong += !/^(#[0-9]+|[01][a-k])$/ }
        END { exit NR < 13 || wrong > 0 }'
    count "$input: its form" $?
done

# The longest capture: 9,361 lines in 65,536 bytes, the first with a wait of ten digits, so that all stamps have ten.
awk 'BEGIN { printf "S\t00\t4000000000\n"; for (i = 2; i <= 9361; i++) printf "S\t00\t9\n" }' > "$work/full"
[ "$(wc -c < "$work/full")" -eq 65536 ]
count 'the full session has 65,536 bytes' $?
captures_of 9361 4000000001 9 > "$work/full_capture"
[ "$(wc -c < "$work/full_capture")" -eq 561951 ]
count 'its capture has 561,951 bytes' $?
captures "$work/full" "$work/full_capture"
# A pipe is wanted here, and not the file.
# shellcheck disable=SC2002
cat "$work/full" | timeout 20 "$program" > "$work/got"
same '9,361 lines through a pipe' "$work/got" "$work/full_capture"

# 4,096 lines of 16 bytes, the longest, whose stamps start again from 0 at each: each fall is one before the fall before it.
awk 'BEGIN { for (i = 1; i <= 4096; i++) printf "S\t00\t4294967295\n" }' > "$work/wide"
captures_of 4096 4294967296 -1 | sed 's/^#4294967296$/#0/' > "$work/want"
captures "$work/wide" "$work/want"

# One byte more than 65,536, and far more, from a file and from a pipe: nothing is written.
: > "$work/want"
echo 'capture: the session is longer than 65,536 bytes, the most that is taken. Nothing was written.' > "$work/told"
{ cat "$work/full"; printf 'S'; } > "$work/long"
captures "$work/long" "$work/want" "$work/told"
cat "$work/full" "$work/full" "$work/full" | timeout 20 "$program" > "$work/got" 2> "$work/errors"
same '196,608 bytes through a pipe'
same '196,608 bytes through a pipe: what is told' "$work/errors" "$work/told"

# A session that comes in pieces, none of them a line.
{ printf 'I\t3'; sleep 0.1; printf '8\t'; sleep 0.1; printf '1\nS\t00'; sleep 0.1; printf '\t2\n'; } \
    | timeout 20 "$program" > "$work/got"
same 'input in pieces' "$work/got" tests/capture/first_wait.out

unreadable 'capture: standard input could not be read to its end. Nothing was written.'
unwritable "$work/full"
unwritable tests/capture/close.in tests/capture/close.errors

# A closed pipe ends it quietly.
closed_pipe "$work/full" "$program" 2> "$work/errors"
[ ! -s "$work/errors" ]
count 'a closed pipe: nothing is told' $?

# A pipe that is read slowly gets the whole capture.
timeout 20 "$program" < "$work/full" | { sleep 0.3; cat; } > "$work/got"
same 'a slow reader' "$work/got" "$work/full_capture"

finish
