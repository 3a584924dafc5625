#!/bin/sh
# Compares the programs `session` and `glass` and the library with the independent model under rust/: its own tests, random
# session texts, drawings, calls and captures through both, and wrong models, which must be found out. Before that its layout is
# checked, and no warning of clippy's may be left. Where no cargo is found nothing is compared, and that is said; with CI=true it
# fails. Where cargo has no fmt or no clippy that is said too.
set -eu
root=$(cd "$(dirname "$0")/.." && pwd)
program=$root/crates/session/out/session
glass=$root/crates/glass/out/glass
library=$root/target/staticlib/libinterface.a
cargo=$(command -v cargo || echo "${HOME:-}/.cargo/bin/cargo")
if [ ! -x "$cargo" ]; then
    if [ "${CI:-}" = true ]; then
        echo "model: no cargo is found, and with CI=true the independent model must be compared" >&2
        exit 1
    fi
    echo "model: no cargo is found, so the independent model is not compared"
    exit 0
fi
[ -x "$program" ] || { echo "model: $program is not built: run 'tests/build.sh session' first" >&2; exit 1; }
[ -x "$glass" ] || { echo "model: $glass is not built: run 'tests/build.sh glass' first" >&2; exit 1; }
[ -f "$library" ] || { echo "model: $library is not built: run 'tests/build.sh interface' first" >&2; exit 1; }
cd "$root/rust"

# Has cargo this command? Where it has not, that and what is left out is said.
has() {
    "$cargo" "$1" --version > /dev/null 2>&1 || { echo "model: cargo $1 is not found, so $2"; return 1; }
}

if has fmt 'the layout of rust/ is not checked'; then
    "$cargo" fmt --check
fi
if has clippy 'rust/ is not searched for warnings'; then
    "$cargo" clippy --all-targets --release --offline --quiet -- -D warnings
fi
"$cargo" test --release --offline --quiet
"$cargo" build --release --offline --quiet
built=$root/rust/target/release
"$built/compare_sessions" "$program"
"$built/compare_sessions" "$program" --wrong=all
"$built/compare_glass" "$glass"
"$built/compare_glass" "$glass" --wrong=all
"$built/compare_calls"
"$built/compare_calls" --wrong=all
"$built/compare_captures"
"$built/compare_captures" --wrong=all
