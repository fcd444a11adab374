#!/usr/bin/env bash
# Would the comparison notice? Puts wrong answers of ours into it, one kind after another, by a switch of the harness, and expects
# each to be without a cause. Not in the gate, which has no crate to compare with.
#
#     oracle/would_notice.sh          status 0: every wrong answer is noticed, and the right ones pass; 3: the crate can't be had here
set -euo pipefail
cd "$(dirname "$0")"
log=$(mktemp)
trap 'rm -f "$log"' EXIT

run() { # WORD..: the comparison with few random inputs
    bash run.sh --seed 11 --inputs 100000 "$@" >"$log" 2>&1
}
status=0
run || status=$?
[ "$status" = 0 ] || cat "$log" >&2
[ "$status" != 1 ] || echo "the right answers don't pass" >&2
[ "$status" = 0 ] || exit "$status"
echo "right answers: $(tail -n 1 "$log")"

missed=0
for wrong in $(bash run.sh --wrong-names); do
    if run --wrong "$wrong"; then
        echo "$wrong: NOT noticed"
        missed=1
    else
        tail -n 1 "$log" | grep -q '^without a cause: [1-9]' || { cat "$log" >&2; exit 1; }
        echo "$wrong: noticed, $(tail -n 1 "$log"); first: $(grep -m 1 '^WITHOUT A CAUSE' "$log" | cut -d: -f2-)"
    fi
done
exit "$missed"
