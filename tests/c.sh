#!/bin/sh
# Compiles tests/header.c and examples/plan_panel.c against the proved library and runs them: the header's test as C and, where a
# C++ compiler is found, as C++; the example from no half and from each of the four, each beside its examples/plan_panel*.out.
# Where no C compiler is found nothing is compiled. What is not found is said.
# Prints 'c: N passed, M failed', and fails where M is not 0.
set -u
cd "$(dirname "$0")/.." || exit 1
suite=c
. tests/common.sh
library=target/staticlib/libinterface.a
c=$(command -v cc || command -v gcc || command -v clang)
cpp=$(command -v c++ || command -v g++ || command -v clang++)
if [ -z "$c" ]; then
    echo "c: no C compiler is found, so the example and the header are not compiled"
    exit 0
fi
[ -f "$library" ] || { echo "c: $library is not built: run 'tests/build.sh interface' first" >&2; exit 1; }

# Compiles a program from one source: its name, the source, and the compiler with its words. No warning is allowed.
compile() {
    name=$1
    source=$2
    shift 2
    "$@" -Wall -Wextra -Wpedantic -Werror -Iinclude -c "$source" -o "$work/$name.o" &&
        "$1" "$work/$name.o" "$library" -o "$work/$name"
    count "$name compiles" $?
}

# Runs the example from this half, and compares what it writes with this file.
example() {
    timeout 20 "$work/plan_panel" "$1" > "$work/got"
    count "plan_panel $1: status 0" $?
    same "plan_panel $1" "$work/got" "$2"
}

compile header tests/header.c "$c" -std=c99
timeout 20 "$work/header"
count 'the header as C' $?
if [ -n "$cpp" ]; then
    compile header_cpp tests/header.c "$cpp" -x c++ -std=c++98
    timeout 20 "$work/header_cpp"
    count 'the header as C++' $?
else
    echo "c: no C++ compiler is found, so the header is not compiled as C++"
fi

compile plan_panel examples/plan_panel.c "$c" -std=c99
timeout 20 "$work/plan_panel" > "$work/got"
same 'plan_panel without a word' "$work/got" examples/plan_panel.out
example none examples/plan_panel.out
for half in instruction data status read; do
    example "$half" "examples/plan_panel.$half.out"
done
timeout 20 "$work/plan_panel" other > "$work/got" 2> "$work/errors"
[ $? -eq 2 ] && [ ! -s "$work/got" ] && [ -s "$work/errors" ]
count 'plan_panel with another word: usage, status 2' $?

finish
