#!/usr/bin/env bash
# Compares the proved libraries with an independent implementation (bench) on damaged inputs, and ends with status 1 if they differ.
set -euo pipefail
tools=$(realpath "$(dirname "$0")")
bash "$tools/archive.sh"
cd "$tools/../bench"
cargo build --release --quiet --bin damage
exec target/release/damage
