#!/usr/bin/env bash
# Installs the C header, the archive, a shared library that is made of it, and pkg-config's file. All is made first and copied then. The
# archive is made by `bash tools/archive.sh`.
set -euo pipefail
here=$(dirname "$(readlink -f "$0")")
archive=$here/../target/staticlib/libsaltorchard.a

fail() { printf 'install.sh: %s\n' "$*" >&2; exit 1; }
usage() {
    printf '%s\n' "usage: bindings/install.sh PREFIX" \
        "  installs PREFIX/include/saltorchard.h, PREFIX/lib/libsaltorchard.a and .so, and PREFIX/lib/pkgconfig/saltorchard.pc." \
        "  PREFIX is a whole path, such as /usr/local or \"\$HOME/.local\"; root is needed only where PREFIX is root's." \
        "  DESTDIR in the environment: all goes below \$DESTDIR, for who makes a package, and saltorchard.pc names PREFIX alone."
}

case ${1-} in
-h | --help) usage; exit 0 ;;
esac
[ $# = 1 ] || { usage >&2; exit 2; }
# Other signs mean something in a .pc file, or to the shells that read its flags.
[[ $1 =~ ^/[[:alnum:]/._+~@%-]*$ ]] || fail "PREFIX must begin with / and have no blanks or other signs than . _ + ~ @ % - in it: $1"
prefix=${1%/}

number=$(sed -n 's/^#define SALTORCHARD_INTERFACE //p' "$here/c/saltorchard.h")
version=$(sed -n 's/^version = "\(.*\)"$/\1/p' "$here/rust/Cargo.toml")
[ -n "$number" ] || fail "bindings/c/saltorchard.h has no interface number"
[ -n "$version" ] || fail "bindings/rust/Cargo.toml has no version"
[ -f "$archive" ] || fail "there is no archive: run 'bash tools/archive.sh' in the repository's root first"
grep -aqw "saltorchard_interface_$number" "$archive" ||
    fail "the archive isn't of interface $number, as saltorchard.h is: make it anew with 'bash tools/archive.sh'"

# Here gcc is enough; tools/x86_64.sh asks for cargo too.
if [ "$(uname -sm)" = "Linux x86_64" ]; then
    SALTORCHARD_CC=${SALTORCHARD_CC:-gcc}
    command -v "$SALTORCHARD_CC" >/dev/null 2>&1 || fail "$SALTORCHARD_CC is missing, and makes the shared library"
else
    # shellcheck source=../tools/x86_64.sh
    . "$here/../tools/x86_64.sh"
fi

folder=$(mktemp -d)
trap 'rm -rf "$folder"' EXIT

# The whole archive, with the saltorchard functions alone to be seen. Code that would have to be changed where it is loaded isn't taken.
shared=libsaltorchard.so.$number
printf '{ global: saltorchard_*; local: *; };\n' >"$folder/seen"
"$SALTORCHARD_CC" -shared -o "$folder/$shared" -Wl,--whole-archive "$archive" -Wl,--no-whole-archive \
    -Wl,-soname,"$shared" -Xlinker "--version-script=$folder/seen" -Wl,-z,text,-z,defs,-z,relro,-z,now,-z,noexecstack ||
    fail "no shared library can be made of the archive"

pc=$(<"$here/c/saltorchard.pc.in")
pc=${pc//@PREFIX@/"$prefix"}
printf '%s\n' "${pc//@VERSION@/"$version"}" >"$folder/saltorchard.pc"

to=${DESTDIR-}$prefix
install -d "$to/include" "$to/lib/pkgconfig"
install -m 644 "$here/c/saltorchard.h" "$to/include"
install -m 644 "$archive" "$to/lib"
install -m 755 "$folder/$shared" "$to/lib"
ln -sf "$shared" "$to/lib/libsaltorchard.so"
install -m 644 "$folder/saltorchard.pc" "$to/lib/pkgconfig"
echo "installed below ${to:-/}: saltorchard $version, interface $number"
