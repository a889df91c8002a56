#!/usr/bin/env bash
# Serves the cart whose files lie in the folder in which this is run, over standard input and output:
#     target remote | bash tools/serve.sh --known-pc
# The program has to be built before, by `bash tools/built.sh serve`: GDB does not wait for that.
set -euo pipefail
program=$(dirname "$0")/../crates/serve/out/serve
if [ ! -x "$program" ]; then
    echo "serve.sh: not built yet: bash tools/built.sh serve" >&2
    exit 1
fi
exec "$program" "$@"
