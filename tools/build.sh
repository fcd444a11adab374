#!/usr/bin/env bash
# bash tools/build.sh NAME..: proves and builds crates, after those that they use: a program to target/bin/NAME, a static library to
# target/staticlib/libNAME.a. A program with which nothing has changed takes half a second. On standard output stands a line `NAME proved`
# for each crate that was proved anew. What rt said is kept in target/log/NAME.log; where it fails, it stands on standard error too.
set -euo pipefail
cd "$(dirname "$0")/.."

is_program() { [ -f "crates/$1/src/main.rt" ]; }

# What rt says of a crate. It has no command that builds a program and doesn't run it: so the program is run once, on an empty input, and
# what it writes is dropped. A static library is for every x86-64 processor; of its own accord rt takes x86-64-v2.
made() (
    cd "crates/$1"
    if [ -f src/main.rt ]; then
        rt run </dev/null 2>&1 >/dev/null
    else
        rt lib --cpu x86-64 </dev/null 2>&1
    fi
)

# Of what rt says, which is kept in LOG, the crates that it has proved anew.
proved() { # LOG
    local line crate=''
    while IFS= read -r line; do
        printf '%s\n' "$line" >&3
        case $line in
        "crate "*": modules loaded="*" checked=0") crate= ;;
        "crate "*": modules loaded="*" checked="*) crate=${line#crate } crate=${crate%%:*} ;;
        "logic=proved "*) [ -z "$crate" ] || printf '%s proved\n' "$crate"; crate= ;;
        esac
    done 3>"$1"
}

# A program's status is its own, and rt says that it runs it only where it is built.
is_built() { # NAME STATUS LOG
    if is_program "$1"; then grep -q "^rt: running out/$1;" "$3"; else [ "$2" = 0 ]; fi
}

put() { # FILE PLACE: in one step, since the program that stood there may be running
    cmp -s "$1" "$2" || { cp "$1" "$2.new" && mv "$2.new" "$2"; }
}

mkdir -p target/bin target/staticlib target/log
for name in "$@"; do
    [ -d "crates/$name/src" ] || { echo "build.sh: there is no crate $name" >&2; exit 1; }
    log=target/log/$name.log status=0
    made "$name" | proved "$log" || status=$?
    is_built "$name" "$status" "$log" || { cat "$log" >&2; echo "build.sh: $name was not built" >&2; exit 1; }
    if is_program "$name"; then
        put "crates/$name/out/$name" "target/bin/$name"
    else
        put "crates/$name/out/lib$name.a" "target/staticlib/lib$name.a"
    fi
done
