//! Twins: images that differ in private bytes only, under the same damage. Of what is refused, either both say the same, or neither
//! sentence has a name or a figure of its image.

use crate::support;

use std::fmt::Debug;
use std::fs;
use std::path::Path;

use saltorchard::armour::import;
use saltorchard::{write_encrypted, write_plain, write_rsa, Algorithm, Checkint, Cipher, EcdsaCurve, EncryptedKey};
use saltorchard::{Error, Header, Image, KdfAlg, LentImage, PlainKey, RsaKey};
use support::images::mpint;
use support::model::armour::text_of;
use support::Rng;

/// Numbers of the words, not of an image; `Debug`'s after the sentences'.
const CONSTANTS: [&str; 24] = [
    "the 32 that are needed",
    "the 64 that are needed",
    "the 65 that are needed",
    "the 7 that are taken",
    "isn't 1 to 16, and",
    "and 1 to 16 keys in a file",
    "isn't 1, and only 1 key",
    "hasn't 1,024 to 8,192 bits",
    "a multiple of 8.",
    "a multiple of 16.",
    "0x80",
    "UTF-8",
    "the bytes 1, 2, 3 and so on",
    "begin with 4,",
    "`openssh-key-v1`",
    "33 bytes, one more than its curve's size, and doesn't begin with 0",
    "Fewer { needs: 32 }",
    "Fewer { needs: 64 }",
    "Fewer { needs: 65 }",
    "More { most: 7 }",
    "NotMultiple { block: 8 }",
    "NotMultiple { block: 16 }",
    "NoZeroFirst { has: 33 }",
    "NotUtf8",
];

/// The names and figures that an error shows beside its number, count and place.
fn shown(error: Error) -> String {
    let (number, count, place) = (error.number(), error.count(), error.place());
    let one = if count == 1 { "byte" } else { "bytes" };
    let mut text = format!("{} {:?}", error, error);
    for told in [
        format!("Refusal {} (", number),
        error.key().map_or(String::new(), |k| format!(" of key {}", k)),
        format!(" at byte {} ", place),
        format!("has {} {} too many, from byte {} on", count, one, place),
        format!("has {} {} too many", count, one),
        format!("count: {}, at: {}, ", count, place),
        error.key().map_or(String::new(), |k| format!("key: Some({})", k)),
    ] {
        text = text.replacen(&told, "", 1);
    }
    for constant in CONSTANTS {
        text = text.replace(constant, "");
    }
    match (text.find('"'), text.rfind('"')) {
        (Some(first), Some(last)) => text[first..=last].to_string(),
        _ => text.split(|c: char| !c.is_ascii_digit()).collect::<Vec<_>>().join(" ").trim().to_string(),
    }
}

/// How often what was so.
#[derive(Default)]
struct Tally {
    /// Refused with the same number, count and place; with another cause among these.
    alike: u64,
    other_cause: u64,
    /// Refused with another number, count or place, or one of the two only.
    apart: u64,
    accepted: u64,
}

impl Tally {
    /// Compares what was said of the two, if something was.
    fn compare(&mut self, answers: [Option<Error>; 2], damage: &dyn Debug) {
        let numbers = answers.map(|answer| answer.map(|error| (error.number(), error.count(), error.place())));
        if answers == [None; 2] {
            self.accepted += 1;
            return;
        }
        match numbers[0] == numbers[1] {
            true => self.alike += 1,
            false => self.apart += 1,
        }
        // Equal errors have equal sentences.
        if answers[0] == answers[1] {
            return;
        }
        self.other_cause += u64::from(numbers[0] == numbers[1]);
        for error in answers.into_iter().flatten() {
            assert_eq!(shown(error), "", "{:?}: {} {:?}", damage, error, error);
        }
    }

    fn end(self, entry: &str, alike: u64, other_cause: u64) {
        println!(
            "{}: {} pairs refused alike, {} of them with another cause; {} apart, {} taken",
            entry, self.alike, self.other_cause, self.apart, self.accepted
        );
        assert!(self.alike >= alike && self.other_cause >= other_cause, "fewer than {} and {}", alike, other_cause);
    }
}

/// How the private bytes of two images are made.
#[derive(Clone, Copy, Debug)]
struct Sort {
    derived: bool,
    /// Bytes 0 to 9, many of them 0, so that they can be read as lengths.
    small: bool,
    comment: &'static str,
}

fn sorts() -> impl Iterator<Item = Sort> {
    let each = [(false, false), (false, true), (true, false), (true, true)];
    ["", "oven7", "testtest", "testtest oven"]
        .into_iter()
        .flat_map(move |comment| each.map(|(derived, small)| Sort { derived, small, comment }))
}

impl Sort {
    fn bytes(self, length: usize, rng: &mut Rng) -> Vec<u8> {
        match self.small {
            true => (0..length).map(|_| if rng.one_in(2) { 0 } else { rng.below(10) as u8 }).collect(),
            false => rng.bytes(length),
        }
    }

    /// A number that twins store in the same length.
    fn number(self, size: usize, rng: &mut Rng) -> Vec<u8> {
        let mut number = self.bytes(size, rng);
        number[0] = 1 + rng.below(9) as u8;
        number
    }

    fn checkint(self, rng: &mut Rng) -> Checkint {
        match (self.derived, self.bytes(4, rng)) {
            (true, _) => Checkint::Derived,
            (_, bytes) => Checkint::Given(bytes.iter().fold(0, |number, byte| number << 8 | u32::from(*byte))),
        }
    }
}

/// Two images.
type Twins = [Vec<u8>; 2];

fn written(write: impl Fn(&mut [u8]) -> Result<usize, Error>) -> Vec<u8> {
    let mut image = vec![0; 1_024];
    let len = write(&mut image).expect("a good key");
    image.truncate(len);
    image
}

fn ed25519(sort: Sort, rng: &mut Rng) -> Twins {
    let public = rng.bytes(32);
    [(); 2].map(|_| {
        let (private, checkint) = (sort.bytes(32, rng), sort.checkint(rng));
        let key = PlainKey { algorithm: Algorithm::Ed25519, public: &public, private: &private, checkint };
        written(|out| write_plain(&key, sort.comment, out))
    })
}

fn p256(sort: Sort, rng: &mut Rng) -> Twins {
    let public = [&[4], &rng.bytes(64)[..]].concat();
    let algorithm = Algorithm::Ecdsa { curve: EcdsaCurve::NistP256 };
    [(); 2].map(|_| {
        let (private, checkint) = (sort.number(32, rng), sort.checkint(rng));
        let key = PlainKey { algorithm, public: &public, private: &private, checkint };
        written(|out| write_plain(&key, sort.comment, out))
    })
}

fn rsa(sort: Sort, rng: &mut Rng) -> Twins {
    let n = mpint(1_024, rng);
    [(); 2].map(|_| {
        let [d, iqmp, p, q] = [128, 64, 64, 64].map(|size| sort.number(size, rng));
        let checkint = sort.checkint(rng);
        let key = RsaKey { n: &n, e: &[1, 0, 1], d: &d, iqmp: &iqmp, p: &p, q: &q, checkint };
        written(|out| write_rsa(&key, sort.comment, out))
    })
}

/// An Ed25519 key and one over P-256 in one image.
fn several(sort: Sort, rng: &mut Rng) -> Twins {
    let publics = [rng.bytes(32), [&[4], &rng.bytes(64)[..]].concat()];
    let curve = Algorithm::Ecdsa { curve: EcdsaCurve::NistP256 };
    [(); 2].map(|_| {
        let (seed, scalar, checkint) = (sort.bytes(32, rng), sort.number(32, rng), sort.checkint(rng));
        let first = PlainKey { algorithm: Algorithm::Ed25519, public: &publics[0], private: &seed, checkint };
        let second = PlainKey { algorithm: curve, public: &publics[1], private: &scalar, checkint };
        written(|out| {
            let len = write_plain(&first, sort.comment, out)?;
            LentImage::new(out, len)?.add(&second, "mixer")
        })
    })
}

/// What happens to an image, by places in it.
#[derive(Clone, Copy, Debug)]
enum Damage {
    Changed(usize, u8),
    PutIn(usize, u8),
    Lost(usize, usize),
}

impl Damage {
    fn done(self, image: &[u8]) -> Vec<u8> {
        match self {
            Self::Changed(place, byte) => [&image[..place], &[byte], &image[place + 1..]].concat(),
            Self::PutIn(place, byte) => [&image[..place], &[byte], &image[place..]].concat(),
            Self::Lost(start, end) => [&image[..start], &image[end..]].concat(),
        }
    }
}

const CHANGED: [u8; 12] = [0, 1, 2, 4, 8, 9, 31, 33, 64, 0x7f, 0x80, 0xff];
const PUT_IN: [u8; 4] = [0, 1, 64, 0xff];
const LONG: [usize; 9] = [16, 20, 33, 52, 68, 105, 142, 157, 248];

/// Damage anywhere in an image of that length.
fn anywhere(length: usize) -> Vec<Damage> {
    let mut all = Vec::new();
    for place in 0..length {
        all.extend(CHANGED.map(|byte| Damage::Changed(place, byte)));
        all.extend(PUT_IN.map(|byte| Damage::PutIn(place, byte)));
        let ends = (1..=12).chain(LONG).map(|many| place + many).filter(|end| *end <= length);
        all.extend(ends.map(|end| Damage::Lost(place, end)));
    }
    all
}

/// Every range that begins at one of these places.
fn from(places: impl Iterator<Item = usize>, length: usize) -> Vec<Damage> {
    places.flat_map(|start| (start + 1..=length).map(move |end| Damage::Lost(start, end))).collect()
}

fn compare_damaged(tally: &mut Tally, twins: &Twins, damages: &[Damage]) {
    for damage in damages {
        let answers = [&twins[0], &twins[1]].map(|image| Image::read(&damage.done(image)).err());
        tally.compare(answers, damage);
    }
}

/// What is said of the text of an image that lost these lines.
fn without_lines(image: &[u8], start: usize, end: usize) -> Option<Error> {
    let text = text_of(image);
    let lines: Vec<&[u8]> = text.split_inclusive(|byte| *byte == b'\n').collect();
    let mut imported = vec![0; image.len()];
    let len = import([&lines[..start], &lines[end..]].concat().concat(), &mut imported);
    len.and_then(|len| Image::read(&imported[..len]).map(|_| ())).err()
}

/// Every run of lines lost between the text's first line and its last.
fn compare_texts(tally: &mut Tally, twins: &Twins) {
    let last = text_of(&twins[0]).split(|byte| *byte == b'\n').count() - 2;
    for (start, end) in (1..last).flat_map(|start| (start + 1..=last).map(move |end| (start, end))) {
        let answers = [&twins[0], &twins[1]].map(|image| without_lines(image, start, end));
        tally.compare(answers, &("lines", start, end));
    }
}

/// The headers are the same, and the lengths.
fn expect_twins([a, b]: &Twins) {
    let headers = [a, b].map(|image| &image[..Header::read(image).expect("a good image").section_start() + 4]);
    assert!(headers[0] == headers[1] && a.len() == b.len() && a != b);
}

/// A short key's twins under every damage, every range lost among it.
fn compare_short(entry: &str, make: fn(Sort, &mut Rng) -> Twins) -> Tally {
    let (mut tally, mut rng) = (Tally::default(), Rng::new(entry));
    for sort in sorts() {
        let twins = make(sort, &mut rng);
        expect_twins(&twins);
        let length = twins[0].len();
        compare_damaged(&mut tally, &twins, &anywhere(length));
        compare_damaged(&mut tally, &twins, &from(0..length, length));
        compare_texts(&mut tally, &twins);
    }
    tally
}

#[test]
fn twins_of_ed25519() {
    compare_short("twins of Ed25519", ed25519).end("twins of Ed25519", 500_000, 100);
}

#[test]
fn twins_of_p256() {
    compare_short("twins of P-256", p256).end("twins of P-256", 800_000, 50);
}

/// The places at which the header's fields begin, and the blob's.
const RSA_FIELDS: [usize; 8] = [15, 23, 31, 35, 39, 43, 54, 61];

#[test]
fn twins_of_rsa() {
    let (mut tally, mut rng) = (Tally::default(), Rng::new("twins of RSA"));
    for sort in sorts() {
        let twins = rsa(sort, &mut rng);
        expect_twins(&twins);
        compare_damaged(&mut tally, &twins, &anywhere(twins[0].len()));
        compare_damaged(&mut tally, &twins, &from(RSA_FIELDS.into_iter(), twins[0].len()));
        compare_texts(&mut tally, &twins);
    }
    tally.end("twins of RSA", 350_000, 50);
}

/// The places at which the header's fields begin in an image of an Ed25519 key and one over P-256.
const SEVERAL_FIELDS: [usize; 8] = [15, 23, 31, 35, 39, 43, 94, 98];

#[test]
fn twins_of_several() {
    let (mut tally, mut rng) = (Tally::default(), Rng::new("twins of several"));
    for sort in sorts().filter(|sort| sort.comment != "testtest oven") {
        let twins = several(sort, &mut rng);
        expect_twins(&twins);
        compare_damaged(&mut tally, &twins, &anywhere(twins[0].len()));
        compare_damaged(&mut tally, &twins, &from(SEVERAL_FIELDS.into_iter(), twins[0].len()));
        compare_texts(&mut tally, &twins);
    }
    tally.end("twins of several", 200_000, 10);
}

/// So that this test would see what it looks for.
#[test]
fn what_would_be_seen() {
    let image = with_derived_checkint();
    let shown_of = |damage: Damage| shown(Image::read(&damage.done(&image)).expect_err("a refusal"));
    assert!(shown_of(Damage::Changed(19, b'N')).contains("\"None\""));
    assert!(shown_of(Damage::Changed(27, 0xff)).contains("\"\\xffone\""));
    assert_eq!(shown_of(Damage::Changed(38, 77)).split_whitespace().collect::<Vec<_>>(), ["77", "77"]);
    let said = shown_of(Damage::Changed(61, 31));
    assert_eq!(said.split_whitespace().collect::<Vec<_>>(), ["31", "32", "31", "32"]);
    assert_eq!(shown_of(Damage::Changed(93, 0)), "");
}

fn blob_refused(blob: &[u8]) -> Option<Error> {
    let (cipher, kdf) = (Cipher::Aes256Ctr, KdfAlg::None);
    let key = EncryptedKey { cipher, kdf, salt: b"", rounds: 0, blob, ciphertext: b"", tag: b"" };
    write_encrypted(&key, &mut []).err()
}

/// Every range of an image handed in as a blob.
#[test]
fn twins_as_blobs() {
    let (mut tally, mut rng) = (Tally::default(), Rng::new("twins as blobs"));
    for make in [ed25519, p256] {
        let twins = make(Sort { derived: true, small: true, comment: "oven7" }, &mut rng);
        let length = twins[0].len();
        for (start, end) in (0..length).flat_map(|start| (start..=length).map(move |end| (start, end))) {
            tally.compare([&twins[0], &twins[1]].map(|image| blob_refused(&image[start..end])), &(start, end));
        }
    }
    tally.end("twins as blobs", 70_000, 0);
}

fn stored(name: &str) -> Vec<u8> {
    let corpus = Path::new(env!("CARGO_MANIFEST_DIR")).join("../../tools/corpus");
    fs::read(corpus.join(name)).expect("a stored file")
}

/// Damage that made private bytes a name or a figure of a sentence once.
#[test]
fn what_was_shown_once() {
    let (ed25519, p256) = (stored("keygen-ed25519-ascii.bin"), stored("keygen-p256-ascii.bin"));
    let lost = |image: &[u8], start, end| Damage::Lost(start, end).done(image);
    let no_cipher =
        "Refusal 4 (AlgorithmUnknown): the cipher name's string at byte 15 names no cipher that is known here.";
    let no_key = "Refusal 4 (AlgorithmUnknown): the key name's string in the blob at byte 43 names no kind of key that is known here.";
    assert_eq!(without_lines(&ed25519, 2, 4).expect("a refusal").to_string(), no_key);
    let images = [
        (lost(&ed25519, 15, 157), no_cipher),
        (lost(&p256, 15, 263), no_cipher),
        (lost(&with_derived_checkint(), 70, 71), "Refusal 1 (Length): the section's string at byte 94 is cut short."),
    ];
    for (image, sentence) in images {
        assert_eq!(Image::read(&image).expect_err("a refusal").to_string(), sentence);
    }
}

fn with_derived_checkint() -> Vec<u8> {
    let sort = Sort { derived: true, small: false, comment: "oven7" };
    let [image, _] = ed25519(sort, &mut Rng::new("what was shown once"));
    image
}
