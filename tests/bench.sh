#!/bin/sh
# tests/bench.sh [ROUNDS [CAPTURE_BYTES]]
# Measures the library and the session program beside the straightforward model in Rust (docs/BENCH.md has the figures): first
# as cargo builds it, then with the model compiled into the measuring loops, which a library cannot be. Fewer rounds and shorter
# captures than the usual ones, 60 and 2,000,000 bytes, are for a quick look.
set -eu
root=$(cd "$(dirname "$0")/.." && pwd)
cargo=$(command -v cargo || echo "${HOME:-}/.cargo/bin/cargo")
[ -x "$cargo" ] || { echo "bench: the command cargo is needed" >&2; exit 1; }
cd "$root"
session=$root/crates/session/out/session
[ -x "$session" ] || tests/build.sh session
[ -f target/staticlib/libinterface.a ] || tests/build.sh interface
cd rust
"$cargo" build --release --offline --quiet
target/release/bench "$session" target/release/session_model "$@"
echo
echo "with the model compiled into the loops:"
export CARGO_PROFILE_RELEASE_LTO=fat CARGO_PROFILE_RELEASE_CODEGEN_UNITS=1
"$cargo" build --release --offline --quiet --target-dir target/inlined
target/inlined/release/bench "$session" target/inlined/release/session_model "$@"
