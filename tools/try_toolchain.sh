#!/usr/bin/env bash
# What the toolchain refuses: a small crate is proved, and then, changed in one way each, must be refused, for the reason that belongs to the
# change. It takes some minutes, in a temporary folder. For whoever audits the proofs: docs/AUDIT.md.
set -euo pipefail

folder=$(mktemp -d)
trap 'rm -rf "$folder"' EXIT
crate=$folder/crates/more

new_crate() {
    rm -rf "$folder/crates"
    mkdir -p "$crate/src" "$crate/specs"
    echo "more:" >"$folder/crates.txt"
    cat >"$crate/src/lib.rt" <<'RT'
// One more.
#![tactic(auto)]

ghost use Rattle.std.specs.Prelude.{◌≡◌, ◌+◌, ◌<◌};

// One more, of a number below 200.
pub fn more(x: u8) -> u8
    requires { x < 200 }
    ensures { result ≡ x + 1 }
{
    x + 1
}
RT
    cat >"$crate/specs/Lib.antt" <<'ANTT'
use Rattle.std.specs.Prelude.{ℕ, ◌+◌, ◌≡◌, refl}

pub same : (n : ℕ) → n ≡ n
same n = refl
ANTT
}

fail() {
    tail -n 5 "$folder/said" >&2
    printf '%s\n' "$1" >&2
    exit 1
}

run() { (cd "$folder" && rt ci) >"$folder/said" 2>&1; }

refused() { # WHAT REASON: the crate as it stands is refused, and that is why
    if run; then fail "$1: not refused"; fi
    grep -qF "$2" "$folder/said" || fail "$1: refused, but not with '$2'"
    printf '%s: refused, %s\n' "$1" "$2"
}

changed() { # WHAT REASON FILE SED-WORDS: the crate with a line of a file changed
    new_crate
    sed -i "$4" "$crate/$3"
    refused "$1" "$2"
}

added() { # WHAT REASON FILE TEXT: the crate with a text at the end of a file
    new_crate
    printf '%b' "$4" >>"$crate/$3"
    refused "$1" "$2"
}

new_crate
run || fail "a good crate: refused"
echo "a good crate: $(tail -n 1 "$folder/said")"
changed "a hole in a proof" "\`same\` is not admitted: has-holes" specs/Lib.antt 's/^same n = refl/same n = ?/'
added "a statement without a proof" "is declared but not defined" specs/Lib.antt '\npub wish : (n : ℕ) → n ≡ n + 1\n'
added "an axiom of one's own" "\`wish\` is not admitted: axiom" specs/Lib.antt '\naxiom wish : (n : ℕ) → n ≡ n + 1\n'
new_crate
sed -i '1i use Prim.Axiom.{lem, Lem}' "$crate/specs/Lib.antt"
printf '\npub classical : Lem {0}\nclassical = lem\n' >>"$crate/specs/Lib.antt"
refused "the logic's own axiom" "rests on antt's axiom"
added "a foreign contract" "declares the foreign function \`more::chosen\`, and names nothing to link" src/lib.rt '\nunsafe extern "C" {\n    safe fn chosen(x: u8) -> u8\n        ensures { result ≡ x };\n}\n'
changed "a wrong answer" "it is not proved that what the function ensures holds" src/lib.rt 's/^    x + 1$/    x + 2/'
changed "a sum that may wrap" "it is not proved that the sum fits its type" src/lib.rt '/requires/d'
new_crate
mkdir -p "$folder/crates/other/src"
cp "$crate/src/lib.rt" "$folder/crates/other/src"
refused "a file that no crate has" "no check reads $folder/crates/other/src/lib.rt"
