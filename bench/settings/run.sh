#!/usr/bin/env bash
# Instructions of the store's functions beside a yardstick by hand, as callgrind counts them: a store of 32 devices got, put and moved.
# Needs the archive (bash tools/archive.sh), gcc and valgrind.
set -euo pipefail
cd "$(dirname "$0")"
made=../../target/bench-settings
mkdir -p "$made"
gcc -O2 -Wall -Wextra -Werror settings.c ../../target/staticlib/libsaltorchard.a -o "$made/settings"

count() { # JOB FUNCTION: of one round, the loop of the job with it
    LD_BIND_NOW=1 valgrind --tool=callgrind --callgrind-out-file=/dev/null --toggle-collect="$2" "$made/settings" "$1" 2>&1 |
        awk '/Collected/ { print $NF }'
}

printf '| job | library | yardstick | ratio |\n|---|---|---|---|\n'
for job in get:gets put:puts_all move:moves; do
    name=${job%:*}
    # What the comparison before the rounds takes is taken off.
    none=$(count none "${job#*:}")
    library=$(($(count "$name" "${job#*:}") - none))
    yardstick=$(($(count "${name}_by_hand" "${job#*:}") - none))
    awk -v n="$name" -v l="$library" -v y="$yardstick" 'BEGIN { printf "| %s | %.0f | %.0f | %.2f |\n", n, l / 1000, y / 1000, l / y }'
done
