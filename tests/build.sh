#!/bin/sh
# tests/build.sh [NAME...]
# Proves and builds what is named, programs and the library for C by the name `interface`, and leaves it where the tests and
# callers take it: the program NAME as crates/NAME/out/NAME, the library as target/staticlib/libinterface.a. Where nothing is
# named these are the library and the programs that tests/ runs. What is proved and built already is not proved again.
set -eu
cd "$(dirname "$0")/.."
command -v rt > /dev/null || { echo "build: the Rattle kit's command rt is needed" >&2; exit 1; }
[ $# -gt 0 ] || set -- interface session glass capture import

# What rt builds of this crate, by this command. It runs a program that it has built, here on nothing.
build() {
    [ -d "crates/$1/src" ] || { echo "build: no crate is called $1" >&2; exit 2; }
    (cd "crates/$1" && rt "$2") < /dev/null || { echo "build: $1 is not proved and built" >&2; exit 1; }
}

for name in "$@"; do
    if [ "$name" = interface ]; then
        build interface_c lib
        mkdir -p target/staticlib
        cp crates/interface_c/out/libinterface_c.a target/staticlib/libinterface.a
    else
        build "$name" run
    fi
done
