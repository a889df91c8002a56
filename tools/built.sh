#!/usr/bin/env bash
# Prints where a program of this repository lies, named by its crate. It is proved and built first if it is not there, or
# older than a file of the crates.
set -euo pipefail
cd "$(dirname "$0")/../crates/$1"
program=out/$1
if [ ! -x "$program" ] || [ -n "$(find .. -name out -prune -o -type f -newer "$program" -print -quit)" ]; then
    rm -f "$program"
    rt check >&2
    rt run </dev/null >/dev/null 2>&1 || true # builds it, and runs it with nothing to read
fi
echo "$PWD/$program"
