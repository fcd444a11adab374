#!/usr/bin/env bash
# Builds the bench against the archive and runs it. The archive is made by `bash tools/archive.sh`.
#
#     bench/run.sh                  the answers compared, then the times as tables
#     bench/run.sh --check          the answers compared, and each job and the night's run once; no times
#     bench/run.sh --same           the tables with the yardstick in all seats
#     bench/run.sh --armour         the tables of export and import alone
#     bench/run.sh --night [DIR]    the night's job over made files, or over the files of DIR
#
# Under an emulator times mean nothing, so there it does what --check does.
set -euo pipefail
if [ $# -gt 1 ] && [[ $2 != /* ]]; then
    set -- "$1" "$PWD/$2" "${@:3}"
fi
cd "$(dirname "$0")"
# shellcheck source=../tools/x86_64.sh
. ../tools/x86_64.sh

[ -f ../target/staticlib/libsaltorchard.a ] || { echo "there is no archive: run 'bash tools/archive.sh' first" >&2; exit 1; }
if [ -n "$SALTORCHARD_RUN" ]; then
    echo "This runs under an emulator, where times mean nothing: only the answers are compared."
    set -- --check
fi
"$SALTORCHARD_CARGO" run --release --quiet --offline -- "$@"
