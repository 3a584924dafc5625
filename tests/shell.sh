#!/bin/sh
# Checks every shell script with shellcheck. Where it is not found nothing is checked, and that is said.
set -eu
cd "$(dirname "$0")/.."
if ! command -v shellcheck > /dev/null; then
    echo "shell: no shellcheck is found, so the shell scripts are not checked"
    exit 0
fi
set -- .ci/run yaropesk tests/*.sh
# -x: also through the file that the others read.
shellcheck -x "$@"
echo "shell: $# scripts, no warning"
