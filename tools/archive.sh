#!/usr/bin/env bash
# bash tools/archive.sh: proves and compiles the functions for C and puts them into target/staticlib/libsaltorchard.a, an object for each of their
# crates, the static libraries c_NAME_c over c_NAME. A program links those that it calls; and what in an object only one function calls, the
# compiler makes part of it, which the reads are the faster for.
set -euo pipefail
cd "$(dirname "$0")/.."
crates=(c_interface c_settings c_armour c_header c_section c_key c_read c_remove c_change c_add c_writing c_rewrite)
crates=("${crates[@]/%/_c}")
archive=libsaltorchard.a

fail() { printf 'archive.sh: %s\n' "$*" >&2; exit 1; }
for tool in rt ar; do
    command -v "$tool" >/dev/null 2>&1 || fail "$tool is missing"
done
rm -f "target/staticlib/$archive"
bash tools/build.sh "${crates[@]}" || fail "not all is proved and compiled"
for crate in "${crates[@]}"; do
    verdict=$(tail -n 1 "target/log/$crate.log")
    [[ $verdict = "logic=proved "* ]] || fail "$crate: rt doesn't end with a verdict"
    [[ ! $verdict =~ (foreign|axioms)= ]] || fail "$crate rests on the contract of a C function, which nothing proves"
done

cd target/staticlib
for crate in "${crates[@]}"; do
    ar x "lib$crate.a"
done
# D: no dates and owners, so that the same sources give the same bytes.
ar crsD "$archive" "${crates[@]/%/.o}"
rm -f "${crates[@]/%/.o}"
echo "archive.sh: target/staticlib/$archive has the functions for C of ${#crates[@]} crates"
