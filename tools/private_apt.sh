#!/usr/bin/env bash
# A private root of apt, with a suite's list of packages in it; nothing is installed and the system's apt is left alone:
#
#     tools/private_apt.sh DIR SUITE deb|deb-src      then: apt-get -c DIR/apt.conf download PACKAGE=VERSION
#
# The mirror is the one that this system's apt is configured for; MIRROR=URI takes another, such as a snapshot of the archive once a suite
# has moved on, and then OLD=1 too, since a snapshot's Release file has expired. apt checks the archive's signature and each
# package's hash. Status 3, and a sentence on standard error, if the suite can't be had here.
set -euo pipefail
not_here() { echo "Debian's packages can't be had here: $*." >&2; exit 3; }
mkdir -p "$1"
dir=$(cd "$1" && pwd)
suite=$2
keyring=/usr/share/keyrings/debian-archive-keyring.gpg
for tool in apt-get apt-cache; do
    command -v "$tool" >/dev/null || not_here "the program $tool is missing"
done
[ -r "$keyring" ] || not_here "the package debian-archive-keyring is missing"

configured_mirror() { # of the first plain suite, with no dash or slash in its name
    apt-get indextargets --no-release-info --format '$(REPO_URI) $(RELEASE) $(COMPONENT)' 'Identifier: Packages' |
        awk '$3 == "main" && $2 !~ /[-\/]/ && !found { print $1; found = 1 }'
}
mirror=${MIRROR:-$(configured_mirror)}
[ -n "$mirror" ] || not_here "this system's apt has no mirror of Debian's archive configured (MIRROR names one)"

mkdir -p "$dir"/{state/lists/partial,cache/archives/partial,log}
: >"$dir/status"
echo "$3 [signed-by=$keyring${OLD:+ check-valid-until=no}] $mirror $suite main" >"$dir/sources.list"
cat >"$dir/apt.conf" <<CONF
Dir::Etc::sourcelist "$dir/sources.list";
Dir::Etc::sourceparts "-";
Dir::Etc::preferences "-";
Dir::Etc::preferencesparts "-";
Dir::State "$dir/state";
Dir::State::status "$dir/status";
Dir::Cache "$dir/cache";
Dir::Log "$dir/log";
APT::Sandbox::User "";
APT::Update::Error-Mode "any";
Acquire::Languages "none";
Acquire::IndexTargets::deb::Contents-deb::DefaultEnabled "false";
Acquire::IndexTargets::deb::Contents-deb-legacy::DefaultEnabled "false";
Acquire::IndexTargets::deb::DEP-11::DefaultEnabled "false";
CONF
apt-get -c "$dir/apt.conf" -q update >"$dir/update.log" 2>&1 ||
    not_here "the suite $suite doesn't come from the mirror that is configured ($(grep -m1 '^E:' "$dir/update.log" | cut -c4-))"
