#!/usr/bin/env bash
# The UTF-8 check by itself, beside an older one and Rust's str::from_utf8: the answers compared, then the times as a table.
#   run.sh [COMMIT]   times of the check as it stands, of the one at COMMIT if one is given, and of str::from_utf8, in one run
#   run.sh --check    only the answers, of the check as it stands and of str::from_utf8
set -euo pipefail
if [ $# -gt 1 ]; then
    echo "usage: run.sh [COMMIT | --check]" >&2
    exit 1
fi
cd "$(dirname "$0")"
# shellcheck source=../../tools/x86_64.sh
. ../../tools/x86_64.sh
root=$(cd ../.. && pwd)
binutils=${SALTORCHARD_CC%gcc}
# Outside the repository, in which rt takes no crate that crates.txt doesn't list.
made=$(mktemp -d)
trap 'rm -rf "$made"' EXIT

# The check has no C name of its own. So it is proved in a folder of its own, under a function that only calls it. What the project's own
# check has proved of it, rt takes over where the files are the same.
prove() { # NAME: proves made/NAME/crates/utf8 and the function NAME over it, and leaves made/NAME/NAME.o
    mkdir -p "$made/$1/crates/$1/src"
    printf 'utf8:\n%s staticlib: utf8\n' "$1" >"$made/$1/crates.txt"
    cat >"$made/$1/crates/$1/src/lib.rt" <<RATTLE
#![tactic(auto)]

#[unsafe(no_mangle)]
pub extern "C" fn $1(text: &[u8]) -> bool {
    utf8::is_utf8(text)
}
RATTLE
    (cd "$made/$1/crates/$1" && rt lib --cpu x86-64) >"$made/$1.log" 2>&1 || { cat "$made/$1.log" >&2; exit 1; }
    (cd "$made/$1" && "${binutils}ar" x "crates/$1/out/lib$1.a")
}

# How a loop lies in the processor's lines of 64 bytes can double its time. So the code is linked four times, at each place in a line
# that a function may begin at.
place() { # NAME: puts NAME_0, NAME_16, NAME_32 and NAME_48 into made/lib/libNAME.a
    local k
    for k in 0 16 32 48; do
        printf '.section .note.GNU-stack\n.section .text.%s,"ax",@progbits\n.p2align 6\n.rept %s\nnop\n.endr\n' "$1" "$k" |
            "$SALTORCHARD_CC" -c -x assembler -o "$made/$1/pad.o" -
        "${binutils}ld" -r -o "$made/$1/$1_$k.o" "$made/$1/pad.o" "$made/$1/$1.o"
        "${binutils}objcopy" --redefine-sym "$1=$1_$k" "$made/$1/$1_$k.o"
        "${binutils}nm" "$made/$1/$1_$k.o" | grep -q "^0*$(printf '%x' "$k") T $1_$k\$" || { echo "$1_$k isn't at its place" >&2; exit 1; }
        "${binutils}ar" rcs "$made/lib/lib$1.a" "$made/$1/$1_$k.o"
    done
}

mkdir -p "$made/lib" "$made/utf8_now/crates/utf8"
for part in src specs proofs; do
    [ ! -d "$root/crates/utf8/$part" ] || cp -r "$root/crates/utf8/$part" "$made/utf8_now/crates/utf8"
done
prove utf8_now
place utf8_now
if [ $# -eq 1 ] && [ "$1" != --check ]; then
    mkdir -p "$made/utf8_before"
    git -C "$root" archive "$1" crates/utf8 | tar -x -C "$made/utf8_before"
    prove utf8_before
    place utf8_before
    shift
fi
if [ -n "$SALTORCHARD_RUN" ]; then
    echo "This runs under an emulator, where times mean nothing: only the answers are compared."
    set -- --check
fi
SALTORCHARD_UTF8_DIR=$made/lib "$SALTORCHARD_CARGO" run --release --quiet --offline -- "$@"
