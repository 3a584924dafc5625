# shellcheck shell=sh disable=SC2154
# Read by the tests of the programs, in the repository's root, with their name in `suite` and the program in `program`: a folder
# for their files, the count of what passed and failed, and what every program must stand.
command -v timeout > /dev/null || { echo "$suite: the command timeout is needed" >&2; exit 1; }
work=$(mktemp -d)
trap 'rm -rf "$work"' EXIT
passed=0
failed=0

# Ends the suite where a program of this crate is not built.
is_built() {
    [ -x "$1" ] || { echo "$suite: $1 is not built: run 'tests/build.sh $2' first" >&2; exit 1; }
}

# Counts a test by its name and a status, 0 where it passed.
count() {
    if [ "$2" -eq 0 ]; then
        passed=$((passed + 1))
    else
        failed=$((failed + 1))
        echo "$suite: FAILED: $1"
    fi
}

# Compares two files: what was written, and what must be.
same() {
    cmp -s "${2:-$work/got}" "${3:-$work/want}"
    count "$1" $?
}

# A program and its words, on a file, into a pipe whose reader is gone before anything is written: it ends with what a shell tells
# of a program that the system's signal ended.
closed_pipe() {
    input=$1
    shift
    {
        sleep 0.3
        timeout 20 "$@" < "$input"
        echo $? > "$work/status"
    } | true
    [ "$(cat "$work/status")" -eq 141 ]
    count 'a closed pipe' $?
}

# Standard input that cannot be read, closed, a folder or opened for writing: nothing is written, so that nothing is taken for the
# whole, and these words are told.
unreadable() {
    echo "$1" > "$work/told"
    timeout 20 "$program" <&- > "$work/got" 2> "$work/errors"
    same 'closed standard input' "$work/got" /dev/null
    same 'closed standard input: what is told' "$work/errors" "$work/told"
    timeout 20 "$program" < tests > "$work/got" 2> "$work/errors"
    same 'a folder as standard input' "$work/got" /dev/null
    same 'a folder as standard input: what is told' "$work/errors" "$work/told"
    timeout 20 "$program" 0> "$work/written" > "$work/got" 2> "$work/errors"
    same 'standard input opened for writing' "$work/got" /dev/null
    same 'standard input opened for writing: what is told' "$work/errors" "$work/told"
}

# Standard output closed or on a full disk, and this file as input: it is told, and the program ends, with status 0. With a second
# file, what else is told of the input.
unwritable() {
    {
        echo "$suite: standard output could not be written. What stands there is not whole."
        cat "${2:-/dev/null}"
    } > "$work/told"
    timeout 20 "$program" < "$1" >&- 2> "$work/errors"
    count "closed standard output: $1" $?
    same "closed standard output: what is told of $1" "$work/errors" "$work/told"
    [ -c /dev/full ] || return 0
    timeout 20 "$program" < "$1" > /dev/full 2> "$work/errors"
    count "a full disk: $1" $?
    same "a full disk: what is told of $1" "$work/errors" "$work/told"
}

# The last line of a suite, and its status.
finish() {
    echo "$suite: $passed passed, $failed failed"
    [ "$failed" -eq 0 ]
}
