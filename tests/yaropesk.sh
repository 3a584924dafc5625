#!/bin/sh
# Runs the script ./yaropesk: sessions from a file and from standard input, from this folder and from another, what it must turn
# down, its help, and what README.md prints. Then, on stand-ins for the programs and for the command rt, what these do too seldom:
# programs complain, are killed or wait, and proofs fail or are stopped.
# Prints 'yaropesk: N passed, M failed', and fails where M is not 0.
set -u
cd "$(dirname "$0")/.." || exit 1
root=$(pwd)
suite=yaropesk
. tests/common.sh
for name in session glass capture import; do
    is_built "crates/$name/out/$name" "$name"
done

# The script that is run.
script=$root/yaropesk

# Runs the script with these words: what it writes, and its status.
run() {
    timeout 60 "$script" "$@" > "$work/got" 2> "$work/errors"
    status=$?
}

# The last run ended with this status.
ends_with() {
    [ "$status" -eq "$2" ]
    count "$1: status $2, and not $status" $?
}

# The last run wrote these lines to standard output or, told, to standard error.
wrote() {
    printf '%s\n' "$2" > "$work/want"
    same "$1: written"
}
told() {
    printf '%s\n' "$2" > "$work/want"
    same "$1: told" "$work/errors"
}

# The last run was quiet on standard error.
quiet() {
    [ ! -s "$work/errors" ]
    count "$1: nothing on standard error" $?
}

# The last run wrote this file, and nothing to standard error.
writes() {
    same "$1" "$work/got" "$2"
    quiet "$1"
    ends_with "$1" 0
}

# The last run wrote nothing, ended with status 2, and told this in its first line; the rest, if any, is the usage.
turns_down() {
    [ ! -s "$work/got" ]
    count "$1: nothing written" $?
    ends_with "$1" 2
    printf '%s\n' "$2" > "$work/want"
    head -n 1 "$work/errors" > "$work/first"
    same "$1: told" "$work/first"
}

# The block of README.md that is indented by four blanks: the first under this heading that begins with this text.
readme_block() {
    awk -v heading="## $1" -v start="    $2" '
        /^#/ { under = $0 == heading; next }
        under && index($0, start) == 1 { inside = 1 }
        inside && !/^    / { exit }
        inside { print substr($0, 5) }
    ' README.md
}

# Where a file has changed since the programs were built they are proved here, for minutes, and that is told.
for name in session glass capture import; do
    timeout 600 "$script" "$name" < /dev/null > /dev/null 2>&1
done

run session examples/p11.session
writes 'session FILE' examples/p11.report
run session < examples/p11.session
writes 'session < FILE' examples/p11.report
run session - < examples/p11.session
writes 'session - < FILE' examples/p11.report
run glass examples/hello.session 20 2
writes 'glass FILE 20 2' tests/glass/hello_20x2.out
run glass - 20 2 < examples/hello.session
writes 'glass - 20 2 < FILE' tests/glass/hello_20x2.out
run glass examples/accounts_kept.session --cells
writes 'glass FILE --cells' tests/glass/accounts_kept.out
run capture examples/hello.session
writes 'capture FILE' tests/capture/hello.out
run capture < examples/hello.session
writes 'capture < FILE' tests/capture/hello.out
# Pulses that run into each other are told, so that the status is 1, and the capture is written.
run capture examples/p11.session
same 'capture FILE with close waits' "$work/got" tests/capture/p11.out
same 'capture FILE with close waits: told' "$work/errors" tests/capture/p11.errors
ends_with 'capture FILE with close waits' 1
run import examples/pod_p11.vcd
writes 'import FILE' examples/pod_p11.session
run import < examples/pod_wires.vcd
writes 'import < FILE' examples/pod_wires.session
# A refused capture is told, and nothing is written.
run import tests/import/missing.in
same 'import of a refused capture' "$work/got" /dev/null
same 'import of a refused capture: told' "$work/errors" tests/import/missing.errors
ends_with 'import of a refused capture' 1

# A file beside the caller, who stands in another folder; its name has a blank.
cp examples/p11.session "$work/a session"
cd "$work" || exit 1
run session 'a session'
cd "$root" || exit 1
writes 'session FILE in another folder' examples/p11.report

# Through a link to a link, which stands in another folder.
mkdir "$work/links"
ln -s "$root/yaropesk" "$work/links/first"
ln -s links/first "$work/second"
script=$work/second
run session examples/p11.session
writes 'session FILE through links' examples/p11.report
script=$root/yaropesk

run session "$work/none"
turns_down 'a missing file' "yaropesk: cannot read $work/none"
run session examples
turns_down 'a folder' 'yaropesk: examples is a folder'
run glass --pbm < examples/hello.session
turns_down 'a word for a file' 'yaropesk: --pbm is no FILE: name a FILE, or - for standard input'
run nothing
turns_down 'an unknown program' 'yaropesk: no program is called nothing'
run dots
turns_down 'dots' 'yaropesk: no program is called dots'
run ../crates/session
turns_down 'a path' 'yaropesk: no program is called ../crates/session'
run session examples/newer_module.session --khz 270
writes 'session FILE --khz 270' tests/session/khz_270.report
run session examples/p11.session 20 2
turns_down 'session FILE 20 2' \
    "session: these words cannot be followed. Allowed is --khz N, the oscillator's frequency, 190 to 350; without it 250."
run capture examples/hello.session 20 2
turns_down 'capture FILE 20 2' 'yaropesk: words too many for capture: 20 2'
for name in font_sheet cuts vectors; do
    run "$name" examples/p11.session
    turns_down "$name FILE" "yaropesk: words too many for $name: examples/p11.session"
done
for word in --help --version 'session --help'; do
    # shellcheck disable=SC2086
    run $word more words
    turns_down "$word more words" "yaropesk: words too many behind ${word#session }: more words"
done
for words in '16 3' '41 2' '16' '--bmp' '20 2 1'; do
    # shellcheck disable=SC2086
    run glass examples/hello.session $words
    turns_down "glass FILE $words" "$(head -n 1 "$work/errors")"
    head -n 1 "$work/errors" | grep -q '^glass: these words cannot be followed. Allowed are '
    count "glass FILE $words: what is allowed" $?
done
run glass tests/glass/bad_line.session 8 1 --pbm
ends_with 'glass --pbm on a bad line' 1
run
turns_down 'no program' 'usage: ./yaropesk PROGRAM [FILE [WORD...]]'

# The usage names the programs that README.md names.
sed -n 's/^PROGRAM is one of: //p' "$work/errors" | tr ' ' '\n' | grep . | sort > "$work/named"
grep -oE '\./yaropesk [a-z_]+' README.md | sed 's/.* //' | sort -u > "$work/want"
same 'the programs are named' "$work/named"

# Help names each program with what README.md's table says of it, as far as it is one thing.
run --help
quiet --help
ends_with --help 0
sed -n 's/^| `\.\/yaropesk \([a-z_]*\)[^|]*| \([^;([]*[^;([ ]\).*/\1 \2/p' README.md | sort > "$work/want"
sed -e '1,/^$/d' -e '/^$/,$d' "$work/got" | sed 's/  */ /' > "$work/named"
same '--help: the programs' "$work/named"
for name in session glass capture import font_sheet cuts vectors; do
    run "$name" --help
    quiet "$name --help"
    ends_with "$name --help" 0
    head -n 1 "$work/got" | grep -q "^usage: \./yaropesk $name"
    count "$name --help: how it is called" $?
done
tr '\n' ' ' < "$work/got" | grep -q 'a line for each step, and last how many differ'
count 'vectors --help: what it prints' $?
run --version
quiet --version
ends_with --version 0
[ "$(grep -cE '^yaropesk [0-9]{4}-[0-9]{2}-[0-9]{2}' "$work/got")" -eq 1 ] && [ "$(wc -l < "$work/got")" -eq 1 ]
count '--version: one line' $?

readme_block 'What it prints' 'no' > "$work/block"
same 'README, "What it prints"' "$work/block" examples/p11.report
readme_block 'See the glass' '+' > "$work/block"
run glass examples/hello.session
same 'README, "See the glass"' "$work/block" "$work/got"

# The homes' story: each session goes on from the one before, and examples/README.md prints the cells of all three.
before=/dev/null
: > "$work/want"
for part in before debug after; do
    session=examples/accounts_$part.session
    head -c "$(wc -c < "$before")" "$session" > "$work/got"
    same "$session goes on from $before" "$work/got" "$before"
    before=$session
    grep '^display [ 0-9]' "tests/glass/accounts_$part.out" >> "$work/want"
done
sed -n 's/^    \(display [ 0-9]\)/\1/p' examples/README.md > "$work/block"
same 'examples/README, the accounts' "$work/block"

# A reader that has seen enough of a program: what the system's signal would end it with, and nothing is said.
awk 'BEGIN { for (i = 0; i < 9000; i++) print "S\t00\t0" }' > "$work/long"
{
    timeout 60 "$script" session "$work/long" 2> "$work/errors"
    echo $? > "$work/status"
} | head -n 1 > "$work/got"
status=$(cat "$work/status")
ends_with 'a reader that has seen enough of a session' 141
wrote 'a reader that has seen enough of a session' 'no	answer	byte	busy'

# --- Stand-ins. The same script over other programs: `session` is a shell that does what FILE says.
tree=$work/tree
mkdir -p "$tree/crates/session/out" "$tree/crates/glass/out" "$work/kit" "$work/tmp"
cp yaropesk README.md "$tree"
# The crates of a tree that stays as it is, whatever is added to this one.
cat > "$tree/crates.txt" << 'end'
# NAME: what it depends on
controller:
dots: controller
font_sheet: controller dots lines
planner: controller
cuts: planner controller lines
vectors: controller dots lines
lines: controller
player: controller lines
session: controller lines player
drawing: controller dots lines
glass: controller dots lines player drawing check
archive staticlib: lines
end
for name in $(sed -n 's/^\([a-z_]*\)[ :].*/\1/p' "$tree/crates.txt") extra bare; do
    mkdir -p "$tree/crates/$name/src"
done
for name in session glass bare; do
    echo 'fn main() {}' > "$tree/crates/$name/src/main.rt"
done
printf '// Does more.\n// And more.\nmod more;\n// No more.\n' > "$tree/crates/extra/src/main.rt"
script=$tree/yaropesk
# What is left behind is seen here.
export TMPDIR="$work/tmp"

# A stand-in: a file that is run, from standard input.
stand_in() {
    cat > "$1"
    chmod +x "$1"
}
stand_in "$tree/crates/session/out/session" << 'end'
#!/bin/sh
exec sh
end

# What the program `session` shall do in the next run.
program() {
    cat > "$work/program"
}

# Nothing is left behind in the temporary folder.
tidy() {
    [ -z "$(ls -A "$work/tmp")" ]
    count "$1: no temporary file" $?
    rm -rf "$work/tmp"
    mkdir "$work/tmp"
}

# Is this signal heard here? Who starts this may have it ignored, and then nothing that is started here hears it.
is_heard() {
    [ -z "$(exec 2> /dev/null; sh -c "kill -s $1 \$\$; echo ignored"; :)" ] ||
        { echo "$suite: $1 is ignored here, so that it is not tried"; return 1; }
}

# Waits, at most ten seconds, until this holds.
until_so() {
    tries=200
    until "$@"; do
        tries=$((tries - 1))
        [ "$tries" -gt 0 ] || return 1
        sleep 0.05
    done
}

run extra --help
quiet 'a program without a row'
wrote 'a program without a row' 'usage: ./yaropesk extra [FILE [WORD...]]
Does more.
And more.'
run bare --help
quiet 'a program without a comment'
wrote 'a program without a comment' 'usage: ./yaropesk bare [FILE [WORD...]]'
run --help
quiet '--help without rows'
ends_with '--help without rows' 0
grep -qx 'extra       Does more.' "$work/got"
count '--help: a comment for a row' $?
rm "$tree/README.md"
run --help
quiet '--help without README'
ends_with '--help without README' 0
cp README.md "$tree"
touch -t 203102031200 "$tree/crates/extra/src/main.rt"
run --version
quiet '--version without git'
wrote '--version without git' 'yaropesk 2031-02-03'
mkdir "$tree/crates/extra/out"
touch -t 203203041200 "$tree/crates/extra/out/extra"
run --version
wrote '--version without git beside a built file' 'yaropesk 2031-02-03'
rm -r "$tree/crates/extra/out"
touch -r crates.txt "$tree/crates/extra/src/main.rt"

program << 'end'
echo written
end
run session "$work/program"
quiet 'a quiet program'
ends_with 'a quiet program' 0
wrote 'a quiet program' written
tidy 'a quiet program'
timeout 60 "$script" session "$work/program" > "$work/got" 2>&-
status=$?
ends_with 'a quiet program and closed standard error' 0

program << 'end'
echo written
printf 'line 2 is bad\nno \377 end' >&2
end
run session "$work/program"
ends_with 'a program that complains' 1
wrote 'a program that complains' written
printf 'line 2 is bad\nno \377 end' > "$work/want"
same 'a program that complains: told as it is' "$work/errors"
tidy 'a program that complains'
timeout 60 "$script" session "$work/program" > "$work/got" 2>&-
status=$?
ends_with 'a program that complains to nobody' 1
wrote 'a program that complains to nobody' written

program << 'end'
echo 'session: these words cannot be followed' >&2
end
run session "$work/program"
ends_with 'a program that tells what is allowed' 2
told 'a program that tells what is allowed' 'session: these words cannot be followed'

program << 'end'
echo written 2> /dev/null || echo 'cannot write' >&2
end
timeout 60 "$script" session "$work/program" >&- 2> "$work/errors"
status=$?
ends_with 'closed standard output' 1
told 'closed standard output' 'cannot write'
if [ -c /dev/full ]; then
    timeout 60 "$script" session "$work/program" > /dev/full 2> "$work/errors"
    status=$?
    ends_with 'a full disk' 1
    told 'a full disk' 'cannot write'
    timeout 60 "$script" session "$work/program" > /dev/full 2> /dev/full
    status=$?
    ends_with 'a full disk for both' 1
    for word in --help --version; do
        timeout 60 "$script" "$word" > /dev/full 2> "$work/errors"
        status=$?
        ends_with "$word on a full disk" 1
        [ -s "$work/errors" ]
        count "$word on a full disk: told" $?
    done
fi

# Is this line there yet? Files are read here while they are written.
is_there() {
    grep -qsx "$1" "$work/now"
}

# Standard input: closed, large from a file and from a pipe, and line by line.
stand_in "$tree/crates/glass/out/glass" << 'end'
#!/bin/sh
exec cat "$@"
end
timeout 60 "$script" glass <&- > "$work/got" 2> "$work/errors"
status=$?
ends_with 'closed standard input' 1
grep -q '^cat: ' "$work/errors"
count 'closed standard input is closed for the program' $?
awk 'BEGIN { for (i = 0; i < 600000; i++) print "line", i }' > "$work/large"
run glass "$work/large"
writes 'a large file' "$work/large"
# A pipe is wanted here, and not the file.
# shellcheck disable=SC2002
cat "$work/large" | timeout 60 "$script" glass > "$work/got" 2> "$work/errors"
same 'a large pipe' "$work/got" "$work/large"
{
    echo first
    until_so is_there first && echo second
} | timeout 60 "$script" glass > "$work/now" 2> "$work/errors"
printf 'first\nsecond\n' > "$work/want"
same 'input and output line by line' "$work/now"
quiet 'input and output line by line'

# What is said is passed on while the program runs.
{
    until_so is_there early && echo 'echo late >&2'
} | {
    { echo 'echo early >&2'; cat; } | timeout 60 "$script" session 2> "$work/now"
}
printf 'early\nlate\n' > "$work/want"
same 'told at once' "$work/now"

# Ends of every kind.
program << 'end'
kill -s SEGV $$
end
run session "$work/program"
ends_with 'a killed program' 1
told 'a killed program' 'yaropesk: session was ended by the signal SEGV'
tidy 'a killed program'
program << 'end'
exit 3
end
run session "$work/program"
ends_with 'a program that fails' 1
told 'a program that fails' 'yaropesk: session ended with status 3'
# A reader that has seen enough: the system's signal, as with any program, and nothing is said.
if is_heard PIPE; then
    {
        timeout 60 "$script" glass "$work/large" 2> "$work/errors"
        echo $? > "$work/status"
    } | head -n 1 > "$work/got"
    status=$(cat "$work/status")
    ends_with 'a reader that has seen enough' 141
    quiet 'a reader that has seen enough'
    wrote 'a reader that has seen enough' 'line 0'
    tidy 'a reader that has seen enough'
fi

# --- Proving and building, by a stand-in for rt that does what another file says, and notes its words and the crate.
stand_in "$work/kit/rt" << 'end'
#!/bin/sh
crate=$(basename "$PWD")
echo "$@ $crate" >> "$STAND/calls"
. "$STAND/rt"
end
export STAND="$work"
PATH=$work/kit:$PATH
cp "$tree/crates/session/out/session" "$work/built"

# What rt shall do in the next runs.
rt_does() {
    cat > "$work/rt"
    : > "$work/calls"
}

# These were the words of rt, a call a line.
called() {
    printf '%s\n' "$2" > "$work/want"
    same "$1: what is proved" "$work/calls"
}
proving_session='yaropesk: proving controller (1 of 4)
yaropesk: proving lines (2 of 4)
yaropesk: proving player (3 of 4)
yaropesk: proving session (4 of 4)'
echo 'echo written' > "$work/program"

rm "$tree/crates/session/out/session"
rt_does << 'end'
[ "$1" != run ] || cp "$STAND/built" out/session
echo 'rt: this is nothing to tell'
end
run session "$work/program"
ends_with 'a first use' 0
told 'a first use' "$proving_session"
wrote 'a first use' written
called 'a first use' 'lib controller
lib lines
lib player
run session'
tidy 'a first use'
run session "$work/program"
quiet 'a second use'

# What rt keeps beside is newer, and is nothing that was changed.
sleep 0.05
mkdir "$tree/crates/lines/out"
touch "$tree/crates/lines/out/kept" "$tree/crates/session/out/kept"
run session "$work/program"
quiet 'a newer file that rt keeps'
rm -r "$tree/crates/lines/out"

# A program that rt has built ends on nothing as it likes.
rm "$tree/crates/session/out/session"
rt_does << 'end'
[ "$1" = run ] || exit 0
cp "$STAND/built" out/session
echo 'rt: running out/session; to give it other input, run that file yourself'
exit 3
end
run session "$work/program"
ends_with 'a program that fails on nothing' 0
told 'a program that fails on nothing' "$proving_session"
wrote 'a program that fails on nothing' written

# Each crate is proved behind those that it needs.
rm "$tree/crates/glass/out/glass"
rt_does << 'end'
[ "$1" != run ] || cp "$STAND/built" out/glass
end
run glass "$work/program"
ends_with 'crates in their order' 0
called 'crates in their order' 'lib controller
lib dots
lib lines
lib player
lib drawing
run glass'
told 'crates in their order' 'yaropesk: proving controller (1 of 6)
yaropesk: proving dots (2 of 6)
yaropesk: proving lines (3 of 6)
yaropesk: proving player (4 of 6)
yaropesk: proving drawing (5 of 6)
yaropesk: proving glass (6 of 6)'

# A file that is newer and the same as before: rt builds nothing, and is asked once.
rt_does < /dev/null
sleep 0.05
touch "$tree/crates.txt"
run session "$work/program"
told 'a newer file' "$proving_session"
run session "$work/program"
quiet 'no newer file'
# One that is changed while it is proved is proved again.
rt_does << 'end'
sleep 0.05
touch ../../crates.txt
[ "$1" != run ] || cp "$STAND/built" out/session
end
touch "$tree/crates.txt"
run session "$work/program"
rt_does < /dev/null
run session "$work/program"
told 'a file changed while it is proved' "$proving_session"

rm "$tree/crates/session/out/session"
run session "$work/program"
ends_with 'a program that is proved and not there' 1
out=$tree/crates/session/out
[ "$(tail -n 1 "$work/errors")" = "yaropesk: session is proved, and $out/session is not there: remove $out and start again" ]
count 'a program that is proved and not there: told' $?
rt_does << 'end'
[ "$1" != run ]
end
run session "$work/program"
ends_with 'a program whose own proof fails' 1
told 'a program whose own proof fails' "$proving_session
yaropesk: session is not proved"
rt_does << 'end'
echo 'rt: out'
echo 'rt: errors' >&2
[ "$crate" != lines ]
end
run session "$work/program"
ends_with 'a proof that fails' 1
told 'a proof that fails' 'yaropesk: proving controller (1 of 4)
yaropesk: proving lines (2 of 4)
rt: out
rt: errors
yaropesk: session is not proved'
tidy 'a proof that fails'

# A reader of the errors that has seen enough.
rt_does << 'end'
sleep 0.2
end
if is_heard PIPE; then
    {
        timeout 60 "$script" session "$work/program" 2>&1
        echo $? > "$work/status"
    } | head -n 1 > "$work/got"
    status=$(cat "$work/status")
    ends_with 'proving for a reader that has seen enough' 141
    wrote 'proving for a reader that has seen enough' 'yaropesk: proving controller (1 of 4)'
    tidy 'proving for a reader that has seen enough'
fi

# Without rt: a folder with those commands alone that the script uses.
mkdir "$work/few"
for tool in sh dirname basename readlink sed awk grep tr head mktemp find rm; do
    ln -s "$(command -v "$tool")" "$work/few/$tool"
done
PATH=$work/few "$script" session "$work/program" > "$work/got" 2> "$work/errors"
status=$?
ends_with 'no rt' 1
told 'no rt' "yaropesk: session is to be proved and built first, and the Rattle kit's command rt is not found"
tidy 'no rt'

# --- Stopped. The script's own number is known to what it starts, which sends it the signal and waits.
gone() {
    ! kill -0 "$1" 2> /dev/null || grep -qs '^State:.*Z' "/proc/$1/status"
}

# Runs the script, stopped by this signal and not by the end of what it waits for, and looks for what it left.
stopped() {
    rm -f "$work"/number*
    # A subshell, since a shell tells on its standard error how what it ran was ended.
    (
        # shellcheck disable=SC2016
        SIGNAL=$2 timeout 10 sh -c 'echo $$ > "$STAND/number"; exec "$@"' sh "$script" session "$work/program" > "$work/got"
        echo $? > "$work/status"
    ) 2> /dev/null
    status=$(cat "$work/status")
    ends_with "$1, $2" "$3"
    tidy "$1, $2"
    for left in "$work"/number_*; do
        until_so gone "$(cat "$left")"
        count "$1, $2: $(basename "$left") has ended" $?
    done
}

rt_does << 'end'
echo $$ > "$STAND/number_of_rt"
sleep 30 &
echo $! > "$STAND/number_of_prover"
mktemp > /dev/null
kill -s "$SIGNAL" "$(cat "$STAND/number")"
wait
end
program << 'end'
echo $$ > "$STAND/number_of_program"
kill -s "$SIGNAL" "$(cat "$STAND/number")"
exec sleep 30
end
for pair in HUP:129 INT:130 TERM:143; do
    signal=${pair%:*}
    is_heard "$signal" || continue
    rm -f "$tree/crates/session/out/session"
    stopped 'stopped while it proves' "$signal" "${pair#*:}"
    cp "$work/built" "$tree/crates/session/out/session"
    stopped 'stopped while it runs' "$signal" "${pair#*:}"
done

finish
