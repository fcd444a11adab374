#!/usr/bin/env bash
# Compiles the C tests and the example against the archive, runs them, and holds the example's output to example.stdout. Then
# sees that a header of another interface doesn't link. The archive is made by `bash tools/archive.sh`.
set -euo pipefail
cd "$(dirname "$0")"
# shellcheck source=../../tools/x86_64.sh
. ../../tools/x86_64.sh

archive=../../target/staticlib/libsaltorchard.a
[ -f "$archive" ] || { echo "there is no archive: run 'bash tools/archive.sh' first" >&2; exit 1; }
folder=$(mktemp -d)
trap 'rm -rf "$folder"' EXIT

for program in test test_several test_armour test_settings example; do
    "$SALTORCHARD_CC" -std=c11 -O2 -Wall -Wextra -Werror -pedantic "$program.c" "$archive" -o "$folder/$program"
done
# The header is C++ too, where there is a C++ compiler to ask.
if command -v g++ >/dev/null 2>&1; then
    g++ -x c++ -Wall -Wextra -Werror -pedantic -fsyntax-only saltorchard.h
fi

run() { ${SALTORCHARD_RUN:+"$SALTORCHARD_RUN"} "$folder/$1"; }
run test
run test_several
run test_armour
run test_settings
run example >"$folder/got"
diff example.stdout "$folder/got"
echo "the example says what it must"

# Whoever includes the header links with an archive of its number alone, though nothing is called, and sections that nobody calls
# are dropped.
number=$(sed -n 's/^#define SALTORCHARD_INTERFACE //p' saltorchard.h)
other=$((number + 1))
mkdir "$folder/same" "$folder/other"
cp saltorchard.h "$folder/same"
sed "s/saltorchard_interface_$number/saltorchard_interface_$other/; s/^\(#define SALTORCHARD_INTERFACE\) .*/\1 $other/" \
    saltorchard.h >"$folder/other/saltorchard.h"
printf '#include "saltorchard.h"\nint main(void) { return 0; }\n' >"$folder/main.c"
printf '#include "saltorchard.h"\nint second(void);\nint second(void) { return SALTORCHARD_LIMIT; }\n' >"$folder/second.c"
printf '#include "saltorchard.h"\nint main(void) { return saltorchard_interface() != SALTORCHARD_INTERFACE; }\n' >"$folder/asks.c"

link() { # HEADER COMPILER WORDS..: two files that include that header and call nothing
    "${@:2}" -Wall -Wextra -Werror -pedantic -I "$folder/$1" "$folder/main.c" "$folder/second.c" -x none "$archive" -o "$folder/linked"
}

links_by_number() { # COMPILER WORDS..
    link same "$@"
    if link other "$@" 2>"$folder/said"; then
        echo "$*: a header of interface $other links with an archive of interface $number" >&2
        return 1
    fi
    grep -q "saltorchard_interface_$other" "$folder/said" || { cat "$folder/said" >&2; return 1; }
}

compilers=("$SALTORCHARD_CC -std=c11")
if [ -z "$SALTORCHARD_RUN" ]; then
    for compiler in "clang -std=c11" "g++ -x c++" "clang++ -x c++"; do
        ! command -v "${compiler%% *}" >/dev/null 2>&1 || compilers+=("$compiler")
    done
fi
for compiler in "${compilers[@]}"; do
    for words in "-O0" "-O2" "-O2 -ffunction-sections -fdata-sections -Wl,--gc-sections"; do
        # shellcheck disable=SC2086
        links_by_number $compiler $words
    done
done
"$SALTORCHARD_CC" -std=c11 -O2 -I. "$folder/asks.c" "$archive" -o "$folder/asks"
run asks
echo "interface $number: a header of another number doesn't link (${compilers[*]%% *})"
