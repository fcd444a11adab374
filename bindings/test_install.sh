#!/usr/bin/env bash
# Installs into a temporary folder by install.sh, compiles the C example against the shared and the static library by pkg-config's flags,
# holds what they print to example.stdout, and the shared library to the header: its functions, all of them and no others.
set -euo pipefail
cd "$(dirname "$0")"
# shellcheck source=../tools/x86_64.sh
. ../tools/x86_64.sh

folder=$(mktemp -d)
trap 'rm -rf "$folder"' EXIT
prefix=$folder/prefix
number=$(sed -n 's/^#define SALTORCHARD_INTERFACE //p' c/saltorchard.h)
version=$(sed -n 's/^version = "\(.*\)"$/\1/p' rust/Cargo.toml)

fail() { echo "$*" >&2; exit 1; }

# ---- what is installed, and where

files() { (cd "$1" && find . ! -type d | LC_ALL=C sort); }
wanted() {
    printf './%s\n' include/saltorchard.h lib/libsaltorchard.a lib/libsaltorchard.so "lib/libsaltorchard.so.$number" \
        lib/pkgconfig/saltorchard.pc
}

./install.sh "$prefix/"
diff <(wanted) <(files "$prefix")
cmp c/saltorchard.h "$prefix/include/saltorchard.h"
cmp ../target/staticlib/libsaltorchard.a "$prefix/lib/libsaltorchard.a"
DESTDIR=$folder/stage ./install.sh "$folder/later"
[ ! -e "$folder/later" ] || fail "DESTDIR is set, and something was installed outside"
diff <(wanted) <(files "$folder/stage$folder/later")
grep -qx "prefix=$folder/later" "$folder/stage$folder/later/lib/pkgconfig/saltorchard.pc" || fail "saltorchard.pc doesn't name PREFIX"
! grep -q '@' "$prefix/lib/pkgconfig/saltorchard.pc" || fail "saltorchard.pc isn't filled in"

# ---- what isn't

refused() { # STATUS WORDS COMMAND..: ends so, says these words on standard error, and leaves no file
    local status=0
    "${@:3}" >"$folder/out" 2>"$folder/said" || status=$?
    [[ $status = "$1" && $(<"$folder/said") = *"$2"* ]] || fail "${*:3}: status $status, and said: $(<"$folder/said")"
    [ ! -e "$folder/nowhere" ] || fail "${*:3}: something was installed"
}

mkdir -p "$folder/bare/bindings/rust" "$folder/bare/target/staticlib"
cp -r install.sh c "$folder/bare/bindings"
cp rust/Cargo.toml "$folder/bare/bindings/rust"
refused 2 "usage: " ./install.sh
refused 2 "usage: " ./install.sh "$folder/nowhere" second
refused 1 "PREFIX must begin with /" ./install.sh nowhere
refused 1 "PREFIX must begin with /" ./install.sh "$folder/nowhere at all"
refused 1 "bash tools/archive.sh" "$folder/bare/bindings/install.sh" "$folder/nowhere"
sed "s/saltorchard_interface_$number/saltorchard_interface_0/g" ../target/staticlib/libsaltorchard.a \
    >"$folder/bare/target/staticlib/libsaltorchard.a"
refused 1 "isn't of interface $number" "$folder/bare/bindings/install.sh" "$folder/nowhere"

# ---- the shared library

shown=$(LC_ALL=C readelf -dlW "$prefix/lib/libsaltorchard.so")
diff <(sed -n 's/^[a-z0-9_]* \(saltorchard_[a-z0-9_]*\)(.*/\1/p' c/saltorchard.h | LC_ALL=C sort) \
    <(nm -D --defined-only "$prefix/lib/libsaltorchard.so" | awk '{ print $3 }' | LC_ALL=C sort)
[[ $shown = *"soname: [libsaltorchard.so.$number]"* ]] || fail "the shared library has another soname"
[[ $shown != *TEXTREL* ]] || fail "the shared library has text relocations"
[[ $shown =~ GNU_STACK[^$'\n']*" RW " ]] || fail "the shared library wants an executable stack"
echo "the shared library has the header's functions and no others"

# ---- the example over both

if command -v pkg-config >/dev/null 2>&1; then
    flags() { PKG_CONFIG_LIBDIR=$prefix/lib/pkgconfig pkg-config "$@" saltorchard; }
    [ "$(flags --modversion)" = "$version" ] || fail "pkg-config has another version"
    how="by pkg-config's flags"
else
    flags() { echo "-I$prefix/include -L$prefix/lib -lsaltorchard"; }
    how="by hand: pkg-config isn't here"
fi

example() { # NAME WORDS..: the example so linked, run and held to what it must say
    # Away from the header and the archive of the repository.
    (cd "$folder" && "$SALTORCHARD_CC" -std=c11 -O2 -Wall -Wextra -Werror -pedantic example.c "${@:2}" -o "$1")
    ${SALTORCHARD_RUN:+"$SALTORCHARD_RUN"} "$folder/$1" | diff c/example.stdout -
}

cp c/example.c "$folder"
# shellcheck disable=SC2046
{
    example shared $(flags --cflags --libs) "-Wl,-rpath,$prefix/lib"
    example static -static $(flags --static --cflags --libs)
}
needed() { LC_ALL=C readelf -dW "$folder/$1" | grep -c "NEEDED.*libsaltorchard.so.$number" || true; }
[ "$(needed shared) $(needed static)" = "1 0" ] || fail "an example has the other library"
echo "the example says what it must over the shared library and the static one ($how)"
