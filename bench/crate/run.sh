#!/usr/bin/env bash
# Fetches the crate ssh-key 0.6.7 if it isn't there, and times the library beside it, in two builds: cargo's own release profile, and
# link-time optimisation over everything, which is kinder to the crate.
#
#     bench/crate/run.sh                  the answers compared, then the times as a table, for each build
#     bench/crate/run.sh --check          the answers compared, and each job and the night's run once; no times
#     bench/crate/run.sh --night [DIR]    the night's job over made files, or over the files of DIR, for each build
#
# Status: 0 done; 1 an answer is wrong (101 if that shows in a timed pass), or something can't be built or read; 3 the crate can't be had
# here.
set -euo pipefail
if [ $# -gt 1 ] && [[ $2 != /* ]]; then
    set -- "$1" "$PWD/$2" "${@:3}"
fi
cd "$(dirname "$0")"
root=$(cd ../.. && pwd)
crate=$root/target/crate
[ -f "$root/target/staticlib/libsaltorchard.a" ] || { echo "there is no archive: run 'bash tools/archive.sh' first" >&2; exit 1; }
# shellcheck source=../../tools/x86_64.sh
. "$root/tools/x86_64.sh"
[ -f "$crate/config.toml" ] || bash "$root/oracle/fetch.sh" "$crate"

if [ -n "$SALTORCHARD_RUN" ]; then
    echo "This runs under an emulator, where times mean nothing: only the answers are compared."
    set -- --check
fi
export CARGO_TARGET_DIR=$root/target/bench-crate
for profile in release lto; do
    printf '\n== built with the profile %s\n' "$profile"
    "$SALTORCHARD_CARGO" run --profile "$profile" --quiet --offline --config "$crate/config.toml" -- "$@"
done
