#!/usr/bin/env bash
# Proves and builds the tour, and runs it beside its sample dumps.
set -euo pipefail
cd "$(dirname "$0")/../crates/tour"
rm -f out/tour
rt check >&2
rt run >/dev/null 2>&1 || true # builds it; here, away from the dumps, it finds no file
cd data
exec ../out/tour
