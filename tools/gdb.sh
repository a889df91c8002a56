#!/usr/bin/env bash
# Runs GDB over the sample cart, and compares all that it prints with tools/gdb.expected. Serves by the program that is named,
# or else by this repository's.
set -euo pipefail
tools=$(realpath "$(dirname "$0")")
SERVE=$(realpath -e "${1:-$(bash "$tools/built.sh" serve)}")
export SERVE

# With no file to debug, GDB takes the machine to be an i386, whose registers lie otherwise in a reply to `g`.
# It reads at the program counter by itself after each patch, so a fault is asked for directly after the read that is meant.
commands=(
    'set trace-commands on'
    'set architecture i386:x86-64'
    'target remote | "$SERVE" --known-pc'
    'info program'
    'info registers rax r15 rip eflags gs'
    'show remote memory-read-packet-size'
    'x/4xb 0xffc'
    'x/8xb 0xffc'
    'maint packet qaisle.fault'
    'maint packet mffc,8'
    'maint packet qaisle.fault'
    'x/4xb 0'
    'maint packet qaisle.fault'
    'x/1xb 0x200000'
    'maint packet qaisle.fault'
    'x/1xb 0x800000000000'
    'maint packet qaisle.fault'
    'x/4xb 0x1ffc'
    'maint packet qaisle.fault'
    'maint packet Qaisle.depth:01'
    'set {char}0x4008=0x03'
    'maint packet M4008,1:03'
    'maint packet qaisle.fault'
    'maint packet Qaisle.depth:02'
    'set {char}0x4008=0x03'
    'set {char}0x4009=0x50'
    'x/4xb 0x1ffc'
    'x/8xb 0xffc'
    'maint packet qaisle.fault'
    'detach'
)
arguments=()
for command in "${commands[@]}"; do
    arguments+=(-ex "$command")
done

said=$(mktemp)
trap 'rm -f "$said"' EXIT
cd "$tools/../crates/serve/data"
LC_ALL=C timeout 60 gdb -nx -batch "${arguments[@]}" >"$said" 2>&1 </dev/null || true
diff -u "$tools/gdb.expected" "$said"
