#!/bin/sh
# Runs the program `glass` on every tests/glass/NAME.words, whose first word is the session and the others are the program's,
# and compares what it writes with NAME.out, and standard error with NAME.errors where there is one; then on words that it must
# turn down, and on input and output that are too long or closed.
# Prints 'glass: N passed, M failed', and fails where M is not 0.
set -u
cd "$(dirname "$0")/.." || exit 1
program=crates/glass/out/glass
suite=glass
. tests/common.sh
is_built "$program" glass

for words in tests/glass/*.words; do
    name=$(basename "$words" .words)
    # The words are parted by blanks and hold nothing that the shell would read.
    # shellcheck disable=SC2046
    set -- $(cat "$words")
    session=$1
    shift
    timeout 20 "$program" "$@" < "$session" > "$work/got" 2> "$work/errors"
    same "$name" "$work/got" "tests/glass/$name.out"
    if [ -f "tests/glass/$name.errors" ]; then
        same "$name: standard error" "$work/errors" "tests/glass/$name.errors"
    else
        [ ! -s "$work/errors" ]
        count "$name: nothing on standard error" $?
    fi
done

# Words that cannot be followed: what is allowed is told on standard error, and nothing is drawn.
cat > "$work/allowed" << 'EOF'
glass: these words cannot be followed. Allowed are COLUMNS LINES (1 to 40, 1 or 2; 20 4; without them 16 2) or --divided,
glass: --until TRANSFERS (0 to 99999), --khz N (190 to 350; without it 250)
glass: and one of --dots, --blocks, --text, --cells and --pbm
EOF
: > "$work/empty"
for words in '0 1' '41 2' '16 0' '16 3' '20 3' '20 5' '16 4' '21 4' '16' '20 2 1' '20 4 1' '--divided 16 1' '16 1 --divided' \
    '--divided 16' '20 4 --divided' '--divided --divided' '--dividedd' '-1 2' '1a 2' '016 2' 'x' '--bmp' '--pbm --cellss' \
    '--pbm --cells' '--cells --cells' '--dots --dots' '--text --blocks' '20 2 --cells --' '--until' '--until x' '--until 7x' \
    '--until 100000' '--until 999999999' '--until --text' '--until 1 --until 2' '--khz' '--khz 189' '--khz 351' '--khz 27' \
    '--khz 2700' '--khz 0250' '--khz 25a' '--khz --text' '--khz 250 --khz 250' '--until 1 --khz'; do
    # shellcheck disable=SC2086
    timeout 20 "$program" $words < examples/hello.session > "$work/got" 2> "$work/errors"
    same "told of: $words" "$work/errors" "$work/allowed"
    same "not drawn: $words" "$work/got" "$work/empty"
done
timeout 20 "$program" '' < examples/hello.session > "$work/got" 2> "$work/errors"
same 'told of an empty word' "$work/errors" "$work/allowed"
same 'not drawn: an empty word' "$work/got" "$work/empty"

# A bad line with a bitmap: the row and the words stand on standard error, and the bitmap alone on standard output.
timeout 20 "$program" 8 1 --pbm < tests/glass/bad_line.session > "$work/got" 2> "$work/errors"
printf 'no\tanswer\tbyte\tbusy\n4\t17\t00\t40\n' | cat - tests/glass/bad_line.errors > "$work/want"
same 'a bad line beside a bitmap' "$work/errors" "$work/want"
head -c 13 "$work/got" > "$work/head"
printf 'P4\n0392 0080\n' > "$work/want"
same "a bitmap's head" "$work/head" "$work/want"
[ "$(wc -c < "$work/got")" -eq 3933 ]
count 'a bitmap of 8 x 1 has 3,933 bytes' $?

# The bitmaps of the panels of fixed size.
timeout 20 "$program" 20 4 --pbm < examples/four_rows.session > "$work/got"
head -c 13 "$work/got" > "$work/head"
printf 'P4\n0968 0296\n' > "$work/want"
same 'the head of four rows' "$work/head" "$work/want"
[ "$(wc -c < "$work/got")" -eq 35829 ]
count 'a bitmap of 20 x 4 has 35,829 bytes' $?
timeout 20 "$program" --divided --pbm < examples/hall_sign.session > "$work/got"
[ "$(wc -c < "$work/got")" -eq 7773 ]
count 'a bitmap of the divided row has 7,773 bytes' $?

# Refusals beside a bitmap are told on standard error; where there are none, nothing is told.
timeout 20 "$program" 8 1 --pbm < examples/too_early.session > "$work/got" 2> "$work/errors"
echo '7 transfers, 2 refused, the first in line 1: busy' > "$work/want"
same 'refusals beside a bitmap' "$work/errors" "$work/want"
[ "$(wc -c < "$work/got")" -eq 3933 ]
count 'a bitmap beside refusals has 3,933 bytes' $?

# On a terminal the usual form is that of block characters.
if command -v script > /dev/null; then
    script -qc "timeout 20 $program < examples/hello.session" /dev/null < /dev/null | tr -d '\r' > "$work/got"
    same 'block characters on a terminal' "$work/got" tests/glass/hello_blocks.out
    script -qc "timeout 20 $program --dots < examples/hello.session" /dev/null < /dev/null | tr -d '\r' > "$work/got"
    same 'dots on a terminal' "$work/got" tests/glass/hello.out
else
    echo 'glass: no script is found, so nothing is drawn on a terminal'
fi

# 65,537 bytes: one line, and nothing else.
awk 'BEGIN { for (i = 1; i <= 9362; i++) printf "S\t00\t0\n"; printf "S\t0" }' > "$work/long"
[ "$(wc -c < "$work/long")" -eq 65537 ]
count 'the long session has 65,537 bytes' $?
timeout 20 "$program" < "$work/long" > "$work/got" 2> "$work/errors"
echo 'too long' > "$work/want"
same '65,537 bytes' "$work/got" "$work/want"
echo 'glass: the session is longer than 65,536 bytes, the most that is taken. Nothing was played.' > "$work/words"
same '65,537 bytes: standard error' "$work/errors" "$work/words"
timeout 20 "$program" --pbm < "$work/long" > "$work/got" 2> "$work/errors"
cat "$work/want" "$work/words" > "$work/both"
same '65,537 bytes beside a bitmap' "$work/errors" "$work/both"
same '65,537 bytes: no bitmap' "$work/got" "$work/empty"

unreadable 'glass: standard input could not be read to its end. Nothing was played.'
unwritable examples/hello.session
# A pipe that nobody reads ends the program.
closed_pipe examples/hello.session "$program" 40 2 --pbm

finish
