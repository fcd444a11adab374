#!/usr/bin/env bash
# bindings/rust/package.sh: makes the crate's package with the archive in it, target/package/saltorchard-VERSION.crate, and tries it:
# unpacked in an empty folder, a small program that names it by its path is built and run, and a crate without std is built. The
# archive is that of SALTORCHARD_LIB_DIR, or target/staticlib at the repository's root; `bash tools/archive.sh` makes it.
#
# The package is made from a copy of the crate with the archive in lib/ and the licences beside it, so that no archive stays in the
# checkout, where it would be taken before a newer one.
set -euo pipefail
crate=$(cd "$(dirname "$0")" && pwd)
root=$(cd "$crate/../.." && pwd)
# shellcheck source=../../tools/x86_64.sh
. "$root/tools/x86_64.sh"
archive=${SALTORCHARD_LIB_DIR:-$root/target/staticlib}/libsaltorchard.a
[ -f "$archive" ] || { echo "package.sh: there is no $archive: \`bash tools/archive.sh\` makes it" >&2; exit 1; }
archive=$(readlink -f "$archive")
# From here on the package's own archive is to be found, and no other.
unset SALTORCHARD_LIB_DIR
export CARGO_TARGET_DIR=$crate/target

copy=$crate/target/to-package
rm -rf "$copy"
mkdir -p "$copy/lib"
cp -r "$crate"/{Cargo.toml,build.rs,src,examples,README.md} "$root"/{LICENSE-APACHE,LICENSE-MIT,NOTICE} "$copy"
cp "$archive" "$copy/lib/"
cd "$copy"
"$SALTORCHARD_CARGO" package --offline --quiet --allow-dirty
package=$(ls -t "$crate"/target/package/saltorchard-*.crate | head -n 1)

tried=$(mktemp -d)
trap 'rm -rf "$tried"' EXIT
tar -xzf "$package" -C "$tried"
unpacked=$(basename "$package" .crate)

# NAME SETTINGS: a folder with the manifest of a crate that uses the package, with these settings of the dependency
user() {
    mkdir -p "$tried/$1/src"
    printf '%s\n' "[package]" "name = \"$1\"" 'version = "0.0.0"' 'edition = "2021"' \
        "[dependencies]" "saltorchard = { path = \"../$unpacked\"$2 }" >"$tried/$1/Cargo.toml"
    cd "$tried/$1"
}

user program ""
cp "$crate/examples/oven.rs" src/main.rs
said=$("$SALTORCHARD_CARGO" run --offline --quiet)
case $said in
"Refusal 7 (CharacterEncoding): "*) ;;
*) echo "package.sh: the program that uses the package said: $said" >&2; exit 1 ;;
esac

# A crate with a panic handler of its own can't be built where anything under it has std, which brings another.
user without_std ", default-features = false"
printf '%s\n' "[lib]" 'crate-type = ["staticlib"]' "[profile.dev]" 'panic = "abort"' >>Cargo.toml
cat >src/lib.rs <<'RUST'
#![no_std]

#[panic_handler]
fn panic(_: &core::panic::PanicInfo) -> ! {
    loop {}
}

pub fn comment_len(image: &[u8]) -> usize {
    saltorchard::Image::read(image).map_or(0, |image| image.comment().len())
}
RUST
"$SALTORCHARD_CARGO" build --offline --quiet
echo "packaged and tried: ${package#"$root/"}, $(stat -c %s "$package") bytes"
