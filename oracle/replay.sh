#!/usr/bin/env bash
# Replays the stored answers of the crate ssh-key, answers.txt beside this or the file that is named, over the archive. The crate isn't
# needed. Status 1 if an answer of ours has moved, or if a difference has no cause or no row in docs/DIFFERENCES.md.
set -euo pipefail
cd "$(dirname "$0")/replay"
# shellcheck source=../tools/x86_64.sh
. ../../tools/x86_64.sh
[ -f ../../target/staticlib/libsaltorchard.a ] || { echo "there is no archive: run 'bash tools/archive.sh' first" >&2; exit 1; }
CARGO_TARGET_DIR=$PWD/../../target/replay "$SALTORCHARD_CARGO" run --release --quiet --offline -- "$@"
