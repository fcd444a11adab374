#!/usr/bin/env bash
# Fetches the crate ssh-key 0.6.7 if it isn't there, builds the comparison with it and runs it:
#
#     oracle/run.sh [--seed N] [--inputs N] [--only JOB] [--wrong NAME]
#     oracle/run.sh --alone DIR                                              only the images DIR/*.bin
#
# Status: 0 each difference has its cause; 1 one has none, or something can't be built; 3 the crate can't be had here.
set -euo pipefail
cd "$(dirname "$0")"
root=$(cd .. && pwd)
crate=$root/target/crate
[ -f "$root/target/staticlib/libsaltorchard.a" ] || { echo "there is no archive: run 'bash tools/archive.sh' first" >&2; exit 1; }
# shellcheck source=../tools/x86_64.sh
. "$root/tools/x86_64.sh"
[ -f "$crate/config.toml" ] || bash fetch.sh "$crate"

export CARGO_TARGET_DIR=$root/target/oracle
compare() { "$SALTORCHARD_CARGO" run --release --quiet --offline --config "$crate/config.toml" -- "$@"; }
if [ "${1:-}" = --alone ]; then
    compare --files "$2" --only Files:0
    exit
fi

work=$(mktemp -d)
trap 'rm -rf "$work"' EXIT
mkdir "$work/rows" "$work/new"
python3 "$root/tools/differences.py" --write "$work/rows" >/dev/null || [ -f "$work/rows/D1.bin" ] # its own comparison is the gate's

new_key() { # NAME WORD..: a key of ssh-keygen without its armour
    ssh-keygen -q -C "oven 7" -f "$work/key" "${@:2}" </dev/null >/dev/null
    grep -v '^-----' "$work/key" | base64 -d >"$work/new/$1.bin"
    rm "$work/key" "$work/key.pub"
}
if command -v ssh-keygen >/dev/null; then
    for bits in 256 384 521; do new_key "p$bits" -t ecdsa -b "$bits" -N ""; done
    new_key ed25519 -t ed25519 -N ""
    new_key rsa -t rsa -b 1024 -N ""
    new_key locked -t ed25519 -N throw-away -a 1
else
    echo "ssh-keygen isn't here: no new keys of it" >&2
fi

compare --files "$root/tools/corpus" --files "$work/rows" --files "$work/new" "$@"
