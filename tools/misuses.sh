#!/usr/bin/env bash
# Shows that the check refuses the misuses of a session by its types. A program's are written into a copy of the crate `replays`,
# which calls sessions as any program does; those of the two states themselves into a copy of `sessions`. The check has to name each.
set -euo pipefail
copy=$(mktemp -d)
trap 'rm -rf "$copy"' EXIT
cd "$(dirname "$0")/.."
cp -r crates.txt crates "$copy"

# expect_error CRATE ERROR WHAT
expect_error() {
    if (cd "$copy/crates/$1" && rt check) >"$copy/out.log" 2>&1 || ! grep -q "error\[$2\]" "$copy/out.log"; then
        echo "not refused: $3"
        exit 1
    fi
    echo "refused: $3: $(grep -m1 "error\[$2\]" "$copy/out.log")"
}

# misuse ERROR WHAT CODE
misuse() {
    cp crates/replays/src/replaying.rt "$copy/crates/replays/src"
    printf '\n%s\n' "$3" >>"$copy/crates/replays/src/replaying.rt"
    expect_error replays "$1" "$2"
}

# derive_on TRAITS STATE WHAT
derive_on() {
    sed "s/^pub struct $2 {/#[derive($1)]\n&/" crates/sessions/src/talk.rt >"$copy/crates/sessions/src/talk.rt"
    expect_error sessions invalid-derive "$3"
}

misuse unknown-method 'hearing while a reply is owed' \
    "fn hear_again(owed: Owing, received: &[u8]) -> Heard<'_> { owed.hear(received) }"
misuse linear-value-let-go 'letting an owed reply fall' \
    'fn let_fall(owed: Owing) {}'
misuse borrow-e0382 'answering twice' \
    'fn answer_twice<S: Space>(server: &mut PileServer<S>, owed: Owing, reply: &mut [u8; packets::REPLY]) -> (Waiting, Waiting) {
    (server.answer(owed, b"", reply).0, server.answer(owed, b"", reply).0)
}'
misuse private-field 'owing a reply without hearing' \
    'fn owe(talk: Waiting) -> Owing { Owing { talk } }'
misuse linear-value-let-go 'letting a server fall' \
    'fn let_server_fall<S: Space + Drop>(server: PileServer<S>) {}'
misuse mismatched-types 'closing while a reply is owed' \
    'fn close_early<S: Space>(server: PileServer<S>, owed: Owing) -> S { server.close(owed) }'
for state in Waiting Owing; do
    derive_on Drop $state "$state that can be dropped"
    derive_on 'Clone, Copy' $state "$state that can be copied"
done
