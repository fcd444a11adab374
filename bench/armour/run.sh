#!/usr/bin/env bash
# Export and import of 65,535 bytes beside python's base64 and coreutils' base64: the answers compared, then the times as a table. The
# archive is made by `bash tools/archive.sh`, and linked anew for python to call.
set -euo pipefail
cd "$(dirname "$0")"
# shellcheck source=../../tools/x86_64.sh
. ../../tools/x86_64.sh
root=$(cd ../.. && pwd)
archive=$root/target/staticlib/libsaltorchard.a
made=$root/target/bench-armour
[ -f "$archive" ] || { echo "there is no archive: run 'bash tools/archive.sh' first" >&2; exit 1; }
if [ -n "$SALTORCHARD_RUN" ]; then
    echo "on $(uname -m) the archive runs under an emulator, where times mean nothing." >&2
    exit 1
fi
mkdir -p "$made"
"$SALTORCHARD_CC" -shared -Wl,--whole-archive "$archive" -Wl,--no-whole-archive -o "$made/libsaltorchard.so"
python3 beside.py "$made/libsaltorchard.so"
