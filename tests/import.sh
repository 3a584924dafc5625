#!/bin/sh
# Runs the program `import` on every tests/import/NAME.in and compares what it writes with NAME.out, and what it tells with
# NAME.errors or, where there is no such file, with nothing; and on the captures of examples/. Then on what no file can show: long
# input, and standard input or output that is closed, full or cannot be read; and on what the program `capture` makes of sessions.
# Prints 'import: N passed, M failed', and fails where M is not 0.
set -u
cd "$(dirname "$0")/.." || exit 1
program=crates/import/out/import
suite=import
. tests/common.sh
capture=crates/capture/out/capture
is_built "$program" import
is_built "$capture" capture

# A capture, the session that it must have, and what must be told of it.
imports() {
    timeout 20 "$program" < "$1" > "$work/got" 2> "$work/errors"
    same "$1" "$work/got" "$2"
    same "$1: what is told" "$work/errors" "${3:-/dev/null}"
}

for input in tests/import/*.in; do
    name=${input%.in}
    if [ -e "$name.errors" ]; then
        imports "$input" "$name.out" "$name.errors"
    else
        imports "$input" "$name.out"
    fi
done
for input in examples/*.vcd; do
    imports "$input" "${input%.vcd}.session"
done

# The definitions of the example, which the longer captures have too.
sed '/^#/,$d' examples/pod_p11.vcd > "$work/head"

# So many status reads, a microsecond up and a microsecond down.
reads() {
    awk -v count="$1" 'BEGIN { print "0a 1b"; for (i = 1; i <= count; i++) printf "#%d 1c #%d 0c\n", 2 * i, 2 * i + 1 }'
}

# 2,097,152 bytes, the longest that is taken: what the reads leave is blank.
{ cat "$work/head"; reads 80000; } > "$work/full"
rest=$((2097152 - $(wc -c < "$work/full")))
awk -v rest="$rest" 'BEGIN { for (i = 1; i <= rest; i++) printf " " }' >> "$work/full"
[ "$(wc -c < "$work/full")" -eq 2097152 ]
count 'the full capture has 2,097,152 bytes' $?
awk 'BEGIN { print "S\t00\t0"; for (i = 2; i <= 80000; i++) print "S\t00\t2" }' > "$work/want"
imports "$work/full" "$work/want"
# A pipe is wanted here, and not the file.
# shellcheck disable=SC2002
cat "$work/full" | timeout 20 "$program" > "$work/got"
same 'the full capture through a pipe'

# The longest session of the longest capture: 12 bytes of capture and 16 of session a transfer. Stamps step back by one.
{
    cat "$work/head"
    awk 'BEGIN { print "0a 0b 1d 1e 1f 1g 1h 1i 1j 1k"; for (i = 1; i <= 58000; i++) print "#9 1c #8 0c\n#9 1c #7 0c" }'
} > "$work/dense"
awk 'BEGIN { print "I\tFF\t0"; print "I\tFF\t4294967295"; for (i = 2; i <= 58000; i++) print "I\tFF\t1\nI\tFF\t4294967295" }' \
    > "$work/want"
imports "$work/dense" "$work/want"

# One byte more than is taken: nothing is written.
: > "$work/want"
echo 'import: the capture is longer than 2,097,152 bytes, the most that is taken. Nothing was imported.' > "$work/told"
{ cat "$work/full"; echo; } > "$work/long"
imports "$work/long" "$work/want" "$work/told"

unreadable 'import: standard input could not be read to its end. Nothing was imported.'
unwritable "$work/full"
closed_pipe "$work/full" "$program" 2> "$work/errors"
same 'a closed pipe: nothing is told' "$work/errors" /dev/null

# A session, captured and imported, is itself, but for its first wait; no later wait of it is 1.
for name in hello notice_board pattern too_early accounts_before accounts_after pod_p11 pod_wires; do
    input=examples/$name.session
    timeout 20 "$capture" < "$input" 2> /dev/null | timeout 20 "$program" > "$work/got"
    sed '1s/[0-9]*$/0/' "$input" > "$work/want"
    same "$input, captured and imported"
done
finish
