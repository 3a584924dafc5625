#!/bin/sh
# Runs the program `session` on every tests/session/NAME.in and compares what it writes with NAME.out, and standard error with
# NAME.errors where there is one; then on what no file can show: long input, input in pieces, and standard input or output that is
# closed, full or cannot be read.
# Prints 'session: N passed, M failed', and fails where M is not 0.
set -u
cd "$(dirname "$0")/.." || exit 1
program=crates/session/out/session
suite=session
. tests/common.sh
is_built "$program" session

# A session and the report that it must have; what is told on standard error is in the third file, where there is one.
: > "$work/nothing"
plays() {
    timeout 20 "$program" < "$1" > "$work/got" 2> "$work/errors"
    same "$1" "$work/got" "$2"
    told=$work/nothing
    [ ! -f "$3" ] || told=$3
    same "$1: what is told" "$work/errors" "$told"
}

# A bad line has its words, with a hint where a typist needs one, in NAME.errors.
for input in tests/session/*.in; do
    plays "$input" "${input%.in}.out" "${input%.in}.errors"
done

# Every number of a bad line is among them, and for each there are words.
for number in 16 17 18 19; do
    grep -lq "	$number	00	" tests/session/*.out
    count "a session ends with $number" $?
done
for report in tests/session/*.out; do
    ! grep -qE '	1[6-9]	00	' "$report" || [ -f "${report%.out}.errors" ]
    count "$report: a bad line has words" $?
done

# Each example beside its report, and what is told of it where something is.
for input in examples/*.session; do
    plays "$input" "${input%.session}.report" "${input%.session}.errors"
done

# A bad line in words, written out once.
printf 'I\t38\t15000\nS\t00\t0\nD\t4g\t0\nS\t00\t0\n' > "$work/bad"
printf 'no\tanswer\tbyte\tbusy\n1\t0\t00\t40\n2\t0\t80\t40\n3\t17\t00\t40\n' > "$work/bad_report"
echo 'session: line 3, column 4: a byte is two hex digits in capitals, 00 for S and R, then a tab' > "$work/bad_told"
plays "$work/bad" "$work/bad_report" "$work/bad_told"

# At another frequency: a newer module is ready for letters every 38 microseconds, and one at 250 kHz loses every second one.
timeout 20 "$program" --khz 270 < examples/newer_module.session > "$work/got" 2> "$work/errors"
same '--khz 270' "$work/got" tests/session/khz_270.report
timeout 20 "$program" --khz 250 < examples/newer_module.session > "$work/got" 2>> "$work/errors"
same '--khz 250' "$work/got" examples/newer_module.report
[ ! -s "$work/errors" ]
count '--khz: nothing is told' $?

# Words that cannot be followed: what is allowed is told on standard error, and nothing is played.
echo "session: these words cannot be followed. Allowed is --khz N, the oscillator's frequency, 190 to 350; without it 250." \
    > "$work/allowed"
for words in '--khz' '--khz 189' '--khz 351' '--khz 0' '--khz 27' '--khz 0270' '--khz 2700' '--khz 27O' '--khz -270' '270' \
    '--hz 270' '--khz 270 1' '--khz 270 --khz 270' '-' '--until 7'; do
    # shellcheck disable=SC2086
    timeout 20 "$program" $words < examples/p11.session > "$work/got" 2> "$work/errors"
    same "told of: $words" "$work/errors" "$work/allowed"
    same "not played: $words" "$work/got" "$work/nothing"
done

# 9,362 lines in 65,536 bytes: status reads at once after reset, and the last one after 100 microseconds.
awk 'BEGIN { for (i = 1; i < 9362; i++) printf "S\t00\t0\n"; printf "S\t00\t100\n" }' > "$work/full"
[ "$(wc -c < "$work/full")" -eq 65536 ]
count 'the full session has 65,536 bytes' $?
awk 'BEGIN {
    print "no\tanswer\tbyte\tbusy"
    for (i = 1; i < 9362; i++) print i "\t0\t80\t10000"
    print "9362\t0\t80\t9900"
}' > "$work/full_report"
plays "$work/full" "$work/full_report" none
# A pipe is wanted here, and not the file.
# shellcheck disable=SC2002
cat "$work/full" | timeout 20 "$program" > "$work/got"
same '9,362 lines through a pipe' "$work/got" "$work/full_report"

# 4,096 lines of 16 bytes, the longest, in 65,536 bytes.
awk 'BEGIN { for (i = 1; i <= 4096; i++) printf "D\t41\t4294967295\n" }' > "$work/wide"
awk 'BEGIN { print "no\tanswer\tbyte\tbusy"; for (i = 1; i <= 4096; i++) print i "\t0\t00\t40" }' > "$work/want"
plays "$work/wide" "$work/want" none

# One byte more than 65,536, and far more, from a file and from a pipe: one line, and nothing else.
echo 'too long' > "$work/want"
echo 'session: the session is longer than 65,536 bytes, the most that is taken. Nothing was played.' > "$work/told"
{ cat "$work/full"; printf 'S'; } > "$work/long"
timeout 20 "$program" < "$work/long" > "$work/got" 2> "$work/errors"
same '65,537 bytes'
same '65,537 bytes: what is told' "$work/errors" "$work/told"
cat "$work/full" "$work/full" "$work/full" | timeout 20 "$program" > "$work/got" 2> "$work/errors"
same '196,608 bytes through a pipe'
same '196,608 bytes through a pipe: what is told' "$work/errors" "$work/told"

# A session that comes in pieces, one of them empty and none of them a line.
{
    printf 'I\t3'; sleep 0.1; printf '8\t150'; sleep 0.1; printf ''; sleep 0.1; printf '00\nS\t00'; sleep 0.1; printf '\t0\n'
} | timeout 20 "$program" > "$work/got"
printf 'no\tanswer\tbyte\tbusy\n1\t0\t00\t40\n2\t0\t80\t40\n' > "$work/want"
same 'input in pieces'

unreadable 'session: standard input could not be read to its end. Nothing was played.'
unwritable "$work/full"
unwritable "$work/bad" "$work/bad_told"

# A closed pipe ends it quietly.
closed_pipe "$work/full" "$program" 2> "$work/errors"
[ ! -s "$work/errors" ]
count 'a closed pipe: nothing is told' $?

# A pipe that is read slowly gets the whole report.
timeout 20 "$program" < "$work/full" | { sleep 0.3; cat; } > "$work/got"
same 'a slow reader' "$work/got" "$work/full_report"

finish
