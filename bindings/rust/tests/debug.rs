//! No `Debug` prints what is secret: a value of every public type, made with a marked key, and no mark in what is printed.

use std::collections::BTreeSet;
use std::fmt::Debug;
use std::time::Duration;

use saltorchard::settings::{Setting, Store, Version, STORE_LEN};
use saltorchard::{armour, EncryptedKey, ErrorKind, Field, Header, Image, LentImage, PlainKey, RsaKey};
use saltorchard::{raw, write_encrypted, write_plain, write_rsa, Algorithm, Checkint, Cipher, EcdsaCurve, KdfAlg};
use saltorchard::{write_keys_in, KeyPlaces, KeyRef};

/// Every private byte that isn't zero, and the four of the checkint, given or derived.
const MARK: u8 = 0xd3;
const CHECKINT: u32 = 0xd3d3_d3d3;
/// The byte in decimal, hexadecimal and as a character; the checkint in decimal.
const MARKS: [&str; 5] = ["211", "d3", "D3", "\u{d3}", "3553874899"];

/// What a `Debug` prints, in both layouts; nothing of a type that has none. A type's own method comes before a trait's.
struct Shown<'a, T>(&'a T);

impl<T: Debug> Shown<'_, T> {
    fn texts(&self) -> Vec<String> {
        vec![format!("{:?}", self.0), format!("{:#?}", self.0)]
    }
}

trait WithoutDebug {
    fn texts(&self) -> Vec<String> {
        Vec::new()
    }
}

impl<T> WithoutDebug for Shown<'_, T> {}

/// A type's name, and what is printed of values of it.
type Line = (&'static str, Vec<String>);

macro_rules! lines {
    ($($name:literal: $($value:expr),+;)*) => {
        vec![$(($name, [$(Shown(&$value).texts()),+].concat())),*]
    };
}

/// Marked private bytes of a key over a curve. The derived checkint is CHECKINT: of an even number of groups of four one is zeros.
fn private(size: usize) -> Vec<u8> {
    let mut private = vec![MARK; size];
    private[4..8].fill(0);
    private
}

/// A marked mpint.
fn mpint(size: usize) -> Vec<u8> {
    [&[0], &vec![MARK; size][..]].concat()
}

/// Hands over a marked key of each sort.
fn with_keys<R>(then: impl Fn(PlainKey<'_>, RsaKey<'_>, EncryptedKey<'_>) -> R) -> R {
    let checkint = Checkint::Given(CHECKINT);
    let algorithm = Algorithm::Ecdsa { curve: EcdsaCurve::NistP521 };
    let plain = PlainKey { algorithm, public: &[4; 133], private: &private(66), checkint };
    let [n, d, prime] = [[&[0][..], &[0xc5; 256]].concat(), mpint(255), mpint(128)];
    let rsa = RsaKey { n: &n, e: &[1, 0, 1], d: &d, iqmp: &prime, p: &prime, q: &prime, checkint };
    let image = plain_image(&plain);
    let header = Header::read(&image).expect("a good image");
    let encrypted = EncryptedKey {
        cipher: Cipher::Aes256Gcm,
        kdf: KdfAlg::Bcrypt,
        salt: &[5; 16],
        rounds: 24,
        blob: header.public_blob(),
        ciphertext: &[MARK; 144],
        tag: &[MARK; 16],
    };
    then(plain, rsa, encrypted)
}

fn plain_image(key: &PlainKey<'_>) -> Vec<u8> {
    let mut out = vec![0; 1024];
    let len = write_plain(key, "oven7", &mut out).expect("a good key");
    assert_eq!(raw::read(&out[..len]).checkint, u64::from(CHECKINT), "a marked checkint");
    out.truncate(len);
    out
}

/// A marked image of an Ed25519 key and one over a curve.
fn several_image() -> Vec<u8> {
    let text = [private(32), vec![7; 32], private(48), vec![4; 97], b"mixer".to_vec()].concat();
    let algorithm = Algorithm::Ecdsa { curve: EcdsaCurve::NistP384 };
    let keys = [
        KeyPlaces::plain(Algorithm::Ed25519, 32..64, 0..32, 209..214),
        KeyPlaces::plain(algorithm, 112..209, 64..112, 209..214),
    ];
    let mut out = vec![0; 1024];
    let len = write_keys_in(&text, &keys, Checkint::Derived, &mut out).expect("good keys");
    out.truncate(len);
    out
}

/// A marked ECDSA image, an Ed25519 one with a derived checkint, an RSA key's, an encrypted one and one of two keys.
fn images() -> Vec<Vec<u8>> {
    with_keys(|plain, rsa, encrypted| {
        let (algorithm, checkint) = (Algorithm::Ed25519, Checkint::Derived);
        let derived = PlainKey { algorithm, public: &[7; 32], private: &private(32), checkint };
        let mut others = [vec![0; 4096], vec![0; 4096]];
        let len = write_rsa(&rsa, "silo 3", &mut others[0]).expect("a good key");
        others[0].truncate(len);
        let len = write_encrypted(&encrypted, &mut others[1]).expect("good parts");
        others[1].truncate(len);
        let [rsa, encrypted] = others;
        vec![plain_image(&plain), plain_image(&derived), rsa, encrypted, several_image()]
    })
}

/// Names alone.
fn names() -> Vec<Line> {
    let curve = EcdsaCurve::NistP521;
    lines! {
        "Algorithm": Algorithm::Ed25519, Algorithm::Ecdsa { curve }, Algorithm::Rsa;
        "Cipher": Cipher::None, Cipher::Aes256Gcm;
        "EcdsaCurve": curve;
        "ErrorKind": ErrorKind::Length, ErrorKind::TooLarge;
        "Field": Field::Image, Field::Comment;
        "KdfAlg": KdfAlg::None, KdfAlg::Bcrypt;
    }
}

/// Of reconnect settings nothing is secret.
fn settings() -> Vec<Line> {
    lines! {
        "settings::Setting": Setting { kind: Algorithm::Rsa, delay: Duration::from_secs(5) };
        "settings::Version": Version::V1, Version::V2;
        "settings::Store": Store::new(&mut [1; STORE_LEN]);
        "raw::Setting": raw::read_setting(&[0x24, 0, 0, 5]);
    }
}

/// What is handed to a writer.
fn handed() -> Vec<Line> {
    with_keys(|plain, rsa, encrypted| {
        lines! {
            "Checkint": plain.checkint, Checkint::Derived, Some(plain.checkint);
            "PlainKey": plain, PlainKey { checkint: Checkint::Derived, ..plain };
            "RsaKey": rsa, RsaKey { checkint: Checkint::Derived, ..rsa };
            "EncryptedKey": encrypted;
            "KeyRef": KeyRef::plain(&plain, "oven7"), KeyRef::rsa(&rsa, "silo 3");
            "KeyPlaces": KeyPlaces::rsa([0..211, 0..211, 0..211, 0..211, 0..211, 0..211], 0..211);
        }
    })
}

/// What is answered of an image, and of one with a byte more.
fn answered(image: &[u8]) -> Vec<Line> {
    let (mut lent, mut out) = (image.to_vec(), vec![0; image.len()]);
    let longer = [image, &[MARK]].concat();
    let mut text = vec![0; armour::exported_len(image.len())];
    armour::export(image, &mut text).expect("room for the text");
    let read = raw::read(image);
    let keys = Image::read(image).expect("a good image").keys();
    lines! {
        "Header": Header::read(image).expect("a good image");
        "Image": Image::read(image).expect("a good image");
        "Key": keys.clone().next(), keys.clone().next_back();
        "Keys": keys;
        "LentImage": LentImage::new(&mut lent, image.len()).expect("a good image");
        "Error": Image::read(&longer).expect_err("a byte left over"), Image::read(&image[1..]).expect_err("no magic"),
            armour::import(&text[1..], &mut out).expect_err("no first line"),
            armour::import(&text, &mut out[1..]).expect_err("no room"),
            armour::export(image, &mut []).expect_err("no room");
        "raw::Image": read;
        "raw::Key": raw::read_key(image, 1);
        "raw::Part": read.scalar;
        "raw::Reply": raw::rewrite(image, &mut out), raw::rewrite(&longer, &mut out);
    }
}

fn all_lines() -> Vec<Line> {
    let mut lines = [names(), settings(), handed()].concat();
    for image in images() {
        lines.extend(answered(&image));
    }
    lines
}

#[test]
fn no_mark_is_printed() {
    for (name, texts) in all_lines() {
        for text in texts {
            for mark in MARKS {
                assert!(!text.contains(mark), "the Debug of {} prints {}", name, mark);
            }
        }
    }
}

/// The types that lib.rs names in its `pub use`, those of its modules `raw` and `settings` with that before them. The module `armour` has
/// none.
fn public_types() -> BTreeSet<String> {
    let source = include_str!("../src/lib.rs");
    let (armour, settings) = (include_str!("../src/armour.rs"), include_str!("../src/settings.rs"));
    for unseen in ["pub struct", "pub enum", "pub type", "pub union", "::*"] {
        assert!(!source.contains(unseen), "{} in lib.rs: a type of it wouldn't be seen here", unseen);
        assert!(!armour.contains(unseen), "{} in armour.rs: a type of it wouldn't be seen here", unseen);
    }
    for unseen in ["pub use", "pub type", "pub union"] {
        assert!(!armour.contains(unseen), "{} in armour.rs: a type of it wouldn't be seen here", unseen);
        assert!(!settings.contains(unseen), "{} in settings.rs: a type of it wouldn't be seen here", unseen);
    }
    assert_eq!(source.matches("pub mod ").count(), 3, "a type of a fourth module wouldn't be seen here");
    let (crate_itself, raw) = source.split_once("pub mod raw {").expect("the module raw");
    let in_raw = types_used(raw).map(|name| format!("raw::{}", name));
    let in_settings = types_declared(settings).map(|name| format!("settings::{}", name));
    types_used(crate_itself).map(String::from).chain(in_raw).chain(in_settings).collect()
}

fn types_declared(source: &str) -> impl Iterator<Item = &str> {
    let declared =
        source.lines().filter_map(|line| line.strip_prefix("pub struct ").or(line.strip_prefix("pub enum ")));
    declared.map(|rest| rest.split(|c: char| !c.is_alphanumeric()).next().unwrap_or_default())
}

fn types_used(source: &str) -> impl Iterator<Item = &str> {
    let uses = source.split("pub use ").skip(1).map(|rest| rest.split(';').next().unwrap_or_default());
    let words = uses.flat_map(|names| names.split(|c: char| !c.is_alphanumeric() && c != '_'));
    words.filter(|word| word.starts_with(char::is_uppercase))
}

#[test]
fn every_public_type_has_a_line() {
    let tried: BTreeSet<String> = all_lines().into_iter().map(|(name, _)| name.to_string()).collect();
    assert_eq!(tried, public_types());
}

/// So that a text that isn't there is no silence of this test.
#[test]
fn three_types_have_no_debug() {
    let silent: BTreeSet<&str> =
        all_lines().into_iter().filter(|(_, texts)| texts.is_empty()).map(|line| line.0).collect();
    assert_eq!(silent, BTreeSet::from(["raw::Image", "raw::Key", "raw::Part"]));
}

/// Bytes that damage a length, a name or a number.
const DAMAGE: [u8; 14] = [0, 1, 2, 4, 7, 8, 16, 31, 33, 64, 0x7f, 0x80, MARK, 0xff];

/// Each byte of a marked section changed: no refusal shows a name from there, nor a length that marked bytes are.
#[test]
fn no_mark_of_a_damaged_section() {
    let mut refused = 0;
    for image in images() {
        let start = Header::read(&image).expect("a good image").section_start() + 4;
        for (place, value) in (start..image.len()).flat_map(|place| DAMAGE.map(|value| (place, value))) {
            let mut damaged = image.clone();
            damaged[place] = value;
            if let Err(refusal) = Image::read(&damaged) {
                let said = format!("{} {:?}", refusal, refusal);
                let shown = ["\"", "\\", "3553874899", "3,553,874,899"].iter().any(|mark| said.contains(mark));
                assert!(!shown, "byte {} changed to {} shows something of the section", place, value);
                refused += 1;
            }
        }
    }
    assert!(refused > 3_000, "only {} refusals", refused);
}

/// So that this test would see what it looks for.
#[test]
fn a_name_of_the_header_is_shown() {
    let mut image = images().remove(0);
    image[19] = MARK;
    let refusal = Image::read(&image).expect_err("an unknown cipher");
    assert!(refusal.to_string().contains("\"\\xd3one\"") && format!("{:?}", refusal).contains("\"\\xd3one\""));
}
