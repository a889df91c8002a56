#!/usr/bin/env bash
# Measures the proved libraries and the program serve beside an independent implementation (bench), and prints ratios.
set -euo pipefail
tools=$(realpath "$(dirname "$0")")
bash "$tools/archive.sh"
bash "$tools/built.sh" serve >/dev/null
cd "$tools/../bench"
cargo build --release --quiet --bins
exec target/release/speed
