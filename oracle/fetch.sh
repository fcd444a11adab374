#!/usr/bin/env bash
# Fetches the Rust crate ssh-key 0.6.7, and the crates that it needs with the features alloc and ecdsa, out of Debian's packages:
#
#     oracle/fetch.sh DIR [SUITE]     DIR/vendor is then a cargo directory source and DIR/config.toml names it; SUITE is sid
#
# Nothing is installed and the system's apt is left alone: DIR/apt is a private root (tools/private_apt.sh, which also says how to take
# another mirror). This script checks that the versions are those of packages.txt, that the text of each unpacked crate is the one
# that packages.txt has the sum of, and that the eight files of published.sha256 are as the crate's authors published them.
#
# Status: 0 fetched; 3 the suite, a package or a tool can't be had here (one sentence on standard error); 1 what was fetched isn't the
# text that is meant.
set -euo pipefail
here=$(cd "$(dirname "$0")" && pwd)
not_here() { echo "oracle: the crate ssh-key can't be had here: $*." >&2; exit 3; }
wrong() { echo "oracle: $*" >&2; exit 1; }
[ $# -ge 1 ] || wrong "say where to: fetch.sh DIR [SUITE]"

began=$SECONDS
mkdir -p "$1"
dir=$(cd "$1" && pwd)
suite=${2:-sid}
for tool in dpkg-deb sha256sum patch; do
    command -v "$tool" >/dev/null || not_here "the program $tool is missing"
done
rm -rf "$dir/apt" "$dir/debs" "$dir/unpacked" "$dir/vendor" "$dir/config.toml"
mkdir "$dir/debs"
bash "$here/../tools/private_apt.sh" "$dir/apt" "$suite" deb

# PACKAGE=VERSION for each package that is wanted; a rebuild of the same version (+b1) will do.
versions_there() {
    local package version there
    there=$(awk '{ print $1 }' "$here/packages.txt" | xargs apt-cache -c "$dir/apt/apt.conf" madison 2>/dev/null |
        awk -F' *[|] *' '{ gsub(/ /, "", $1); print $1, $2 }')
    while read -r package version _; do
        awk -v p="$package" -v v="$version" '$1 == p { plain = $2; sub(/\+b[0-9]+$/, "", plain); if (plain == v && !n++) print p "=" $2 }
            END { if (!n) exit 1 }' <<<"$there" ||
            not_here "the suite $suite has no $package $version any more; a snapshot of the archive has it (MIRROR and OLD=1)"
    done <"$here/packages.txt"
}

unpack() {
    local package version crate sum now
    while read -r package version crate sum; do
        dpkg-deb -x "$dir/debs/$package"_*.deb "$dir/unpacked"
        now=$(cd "$dir/unpacked/usr/share/cargo/registry/$crate" &&
            find . -type f -print0 | LC_ALL=C sort -z | xargs -0 sha256sum | sha256sum)
        [ "${now%% *}" = "$sum" ] || wrong "the text of $crate in $package $version isn't the one that packages.txt means"
    done <"$here/packages.txt"
    mv "$dir/unpacked/usr/share/cargo/registry" "$dir/vendor"
    rm -rf "$dir/unpacked"
}

# Debian changes ssh-key a little: more derives, a version, tests. The package has the patches.
take_patches_back() {
    local crate=$dir/vendor/ssh-key-0.6.7 change
    for change in $(tac "$crate/debian/patches/series"); do
        patch -d "$crate" -R -p1 -s --no-backup-if-mismatch <"$crate/debian/patches/$change" || wrong "Debian's $change can't be taken back"
    done
    (cd "$crate/src" && sha256sum --quiet -c "$here/published.sha256" >/dev/null 2>&1) ||
        wrong "one of the eight files of ssh-key isn't the published one"
}

wanted=$(versions_there)
(cd "$dir/debs" && apt-get -c "$dir/apt/apt.conf" -q download $wanted >"$dir/apt/download.log" 2>&1) ||
    not_here "a package doesn't come ($(grep -m1 '^E:' "$dir/apt/download.log" | cut -c4-))"
unpack
take_patches_back
bytes=$(cat "$dir"/debs/*.deb | wc -c)
rm -rf "$dir/apt" "$dir/debs"
cat >"$dir/config.toml" <<CONF
[source.crates-io]
replace-with = "debian"
[source.debian]
directory = "$dir/vendor"
[net]
offline = true
CONF
echo "oracle: $(wc -l <"$here/packages.txt") packages of $suite, $bytes bytes, in $((SECONDS - began)) s"
