#!/usr/bin/env bash
# Proves and builds the archive of the proved libraries, if it is not there or older than a file of the crates.
set -euo pipefail
cd "$(dirname "$0")/../crates/exports"
archive=out/libexports.a
if [ ! -f "$archive" ] || [ -n "$(find .. -name out -prune -o -type f -newer "$archive" -print -quit)" ]; then
    rm -f "$archive"
    rt check >&2
    rt lib >&2
fi
