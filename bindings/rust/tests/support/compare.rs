//! The comparison of library and model: every number of the C interface, every part, every byte of the lent buffers, and the
//! words of every refusal's field.

mod settings;

use std::collections::BTreeSet;

use super::faults::{fault_of, faults, Fault};
use super::images::SIZES;
use super::model::{self, KeyNumbers, Numbers, Part, Record, Refusal};
use super::rings::{Any, Commented};
use super::{hex, seed};
use saltorchard::raw;
use saltorchard::{Algorithm, Checkint, Cipher, EcdsaCurve, EncryptedKey, Error, Header, Image, KdfAlg};
use saltorchard::{Key, KeyPlaces, KeyRef, LentImage, PlainKey, RsaKey};

const FIELDS: [&str; 40] = [
    "number", "count", "at", "kind", "algorithm", "cipher", "kdf", "rounds", "checkint", "padding", "form",
    "blob start", "blob length", "point start", "point length", "scalar start", "scalar length", "comment start",
    "comment length", "salt start", "salt length", "ciphertext start", "ciphertext length", "tag start", "tag length",
    "section", "bits", "modulus start", "modulus length", "exponent start", "exponent length", "d start", "d length",
    "iqmp start", "iqmp length", "p start", "p length", "q start", "q length", "keys",
];

pub const ALGORITHMS: [Algorithm; 5] = [
    Algorithm::Ed25519,
    Algorithm::Ecdsa { curve: EcdsaCurve::NistP256 },
    Algorithm::Ecdsa { curve: EcdsaCurve::NistP384 },
    Algorithm::Ecdsa { curve: EcdsaCurve::NistP521 },
    Algorithm::Rsa,
];
pub const CIPHERS: [Cipher; 10] = [
    Cipher::None,
    Cipher::TDesCbc,
    Cipher::Aes128Cbc,
    Cipher::Aes192Cbc,
    Cipher::Aes256Cbc,
    Cipher::Aes128Ctr,
    Cipher::Aes192Ctr,
    Cipher::Aes256Ctr,
    Cipher::Aes128Gcm,
    Cipher::Aes256Gcm,
];
pub const KDFS: [KdfAlg; 2] = [KdfAlg::None, KdfAlg::Bcrypt];

const KEY_FIELDS: [&str; 25] = [
    "number", "count", "at", "algorithm", "bits", "blob start", "blob length", "point start", "point length",
    "scalar start", "scalar length", "comment start", "comment length", "modulus start", "modulus length",
    "exponent start", "exponent length", "d start", "d length", "iqmp start", "iqmp length", "p start", "p length",
    "q start", "q length",
];

/// A call of the plain writer.
#[derive(Clone, Copy)]
pub struct Plain<'a> {
    pub algorithm: u8,
    pub public: &'a [u8],
    pub private: &'a [u8],
    pub derive: u8,
    pub checkint: u32,
    pub comment: &'a [u8],
}

/// A call of the writer of RSA keys; the numbers are n, e, d, iqmp, p, q.
#[derive(Clone, Copy)]
pub struct Rsa<'a> {
    pub numbers: [&'a [u8]; 6],
    pub derive: u8,
    pub checkint: u32,
    pub comment: &'a [u8],
}

/// A call of the encrypted writer.
#[derive(Clone, Copy)]
pub struct Encrypted<'a> {
    pub cipher: u8,
    pub kdf: u8,
    pub salt: &'a [u8],
    pub rounds: u32,
    pub blob: &'a [u8],
    pub ciphertext: &'a [u8],
    pub tag: &'a [u8],
}

/// A call of the writer of several keys.
#[derive(Clone, Copy)]
pub struct Keys<'a> {
    pub table: &'a [u64],
    pub text: &'a [u8],
    pub derive: u8,
    pub checkint: u32,
}

/// An edit of the image in a lent buffer; keys count from 1.
#[derive(Clone, Copy)]
pub enum Edit<'a> {
    Change(u64, &'a [u8]),
    Add(&'a Commented),
    Remove(u64),
}

type Written = Result<usize, Refusal>;

/// A call from bytes into a lent buffer: the model's, the C interface's and the crate's own.
struct Armour {
    name: &'static str,
    model: fn(&[u8], &mut [u8]) -> Written,
    library: fn(&[u8], &mut [u8]) -> raw::Reply,
    own: fn(&[u8], &mut [u8]) -> Result<usize, Error>,
}

const EXPORT: Armour =
    Armour { name: "export", model: model::armour::export, library: raw::export, own: saltorchard::armour::export };
const IMPORT: Armour = Armour {
    name: "import",
    model: model::armour::import,
    library: raw::import,
    own: |text, out| saltorchard::armour::import(text, out),
};

/// What both answered: the length that was written, none where it was refused, and the lent buffer.
pub struct Answer {
    pub written: Option<usize>,
    pub buffer: Vec<u8>,
}

/// Bytes on both sides of a lent buffer that nobody may touch.
const GUARD: usize = 16;

/// A buffer of junk without a zero byte, guards included.
fn guarded(room: usize) -> Vec<u8> {
    let mut junk: Vec<u8> = (1..=251).map(|place: usize| (1 + place * 37 % 251) as u8).collect();
    while junk.len() < room + 2 * GUARD {
        junk.extend_from_within(..);
    }
    junk.truncate(room + 2 * GUARD);
    junk
}

fn lent(guarded: &mut [u8]) -> &mut [u8] {
    let end = guarded.len() - GUARD;
    &mut guarded[GUARD..end]
}

fn lent_again(contents: &[u8]) -> Vec<u8> {
    let mut buffer = guarded(contents.len());
    lent(&mut buffer).copy_from_slice(contents);
    buffer
}

fn reply_of(written: Written) -> raw::Reply {
    match written {
        Ok(length) => raw::Reply { number: 0, count: 0, at: 0, length: length as u64 },
        Err(Refusal { number, count, at, .. }) => raw::Reply { number, count, at, length: 0 },
    }
}

fn is_refusal(error: Error, right: &Refusal) -> bool {
    let numbers = (error.number(), error.count() as u64, error.place() as u64);
    let (field, key) = (error.field().to_string(), error.key().unwrap_or(0));
    numbers == (right.number, right.count, right.at)
        && (&field[..], key, error.device()) == (right.field, right.key, right.device)
}

/// Does a fault begin with the words for this part, where there is one?
fn is_about(fault: &str, part: &str) -> bool {
    fault.strip_prefix(part).map_or(false, |rest| part.is_empty() || rest.starts_with(' '))
}

pub fn numbers_of(image: &raw::Image) -> Numbers {
    [
        image.number, image.count, image.at, image.kind, image.algorithm, image.cipher, image.kdf, image.rounds,
        image.checkint, image.padding, image.form, image.blob.start, image.blob.length, image.point.start,
        image.point.length, image.scalar.start, image.scalar.length, image.comment.start, image.comment.length,
        image.salt.start, image.salt.length, image.ciphertext.start, image.ciphertext.length, image.tag.start,
        image.tag.length, image.section, image.bits, image.modulus.start, image.modulus.length, image.exponent.start,
        image.exponent.length, image.d.start, image.d.length, image.iqmp.start, image.iqmp.length, image.p.start,
        image.p.length, image.q.start, image.q.length, image.keys,
    ]
}

/// The C interface's answer that has these numbers, whatever they are.
pub fn raw_of(numbers: Numbers) -> raw::Image {
    let part = |place: usize| raw::Part { start: numbers[place], length: numbers[place + 1] };
    raw::Image {
        number: numbers[0],
        count: numbers[1],
        at: numbers[2],
        kind: numbers[3],
        algorithm: numbers[4],
        cipher: numbers[5],
        kdf: numbers[6],
        rounds: numbers[7],
        checkint: numbers[8],
        padding: numbers[9],
        form: numbers[10],
        blob: part(11),
        point: part(13),
        scalar: part(15),
        comment: part(17),
        salt: part(19),
        ciphertext: part(21),
        tag: part(23),
        section: numbers[25],
        bits: numbers[26],
        modulus: part(27),
        exponent: part(29),
        d: part(31),
        iqmp: part(33),
        p: part(35),
        q: part(37),
        keys: numbers[39],
    }
}

pub fn key_numbers_of(key: &raw::Key) -> KeyNumbers {
    [
        key.number, key.count, key.at, key.algorithm, key.bits, key.blob.start, key.blob.length, key.point.start,
        key.point.length, key.scalar.start, key.scalar.length, key.comment.start, key.comment.length,
        key.modulus.start, key.modulus.length, key.exponent.start, key.exponent.length, key.d.start, key.d.length,
        key.iqmp.start, key.iqmp.length, key.p.start, key.p.length, key.q.start, key.q.length,
    ]
}

/// The crate's key of a test's.
pub fn key_ref(key: &Commented) -> KeyRef<'_> {
    let checkint = Checkint::Given(0);
    match &key.key {
        Any::Curve(curve) => {
            let algorithm = ALGORITHMS[usize::from(curve.algorithm)];
            let plain = PlainKey { algorithm, public: &curve.public, private: &curve.private, checkint };
            KeyRef::plain(&plain, &key.comment)
        }
        Any::Rsa(rsa) => {
            let [n, e, d, iqmp, p, q] = rsa.numbers();
            KeyRef::rsa(&RsaKey { n, e, d, iqmp, p, q, checkint }, &key.comment)
        }
    }
}

/// The crate's places of a row, where it has a code and the parts that its kind doesn't use are 0 0.
fn places_of(row: &[u64]) -> Option<KeyPlaces> {
    let range = |place: usize| -> Option<std::ops::Range<usize>> {
        let (start, length) = (row[1 + 2 * place], row[2 + 2 * place]);
        Some(usize::try_from(start).ok()?..usize::try_from(start.checked_add(length)?).ok()?)
    };
    let unused = |places: std::ops::Range<usize>| row[1 + 2 * places.start..1 + 2 * places.end].iter().all(|n| *n == 0);
    match row[0] {
        4 if unused(0..2) => {
            let numbers = [range(3)?, range(4)?, range(5)?, range(6)?, range(7)?, range(8)?];
            Some(KeyPlaces::rsa(numbers, range(2)?))
        }
        code @ 0..=3 if unused(3..9) => {
            Some(KeyPlaces::plain(ALGORITHMS[code as usize], range(0)?, range(1)?, range(2)?))
        }
        _ => None,
    }
}

fn checkint_of(derive: u8, given: u32) -> Checkint {
    match derive {
        0 => Checkint::Given(given),
        _ => Checkint::Derived,
    }
}

/// The first name with `false` beside it.
fn first_unlike(same: &[(&'static str, bool)]) -> Option<&'static str> {
    same.iter().find(|(_, same)| !same).map(|(name, _)| *name)
}

/// The first accessor that doesn't answer as the model does; for a header and for an image.
macro_rules! accessor_unlike {
    ($read:expr, $record:expr) => {
        first_unlike(&[
            ("algorithm", $read.algorithm() == ALGORITHMS[usize::from($record.algorithm)]),
            ("cipher", $read.cipher() == CIPHERS[usize::from($record.cipher)]),
            ("kdf", $read.kdf() == KDFS[usize::from($record.kdf)]),
            ("is_encrypted", $read.is_encrypted() == ($record.cipher != 0)),
            ("rounds", $read.rounds() == $record.rounds),
            ("section_start", $read.section_start() as u64 == $record.section),
            ("bits", $read.bits() as u64 == $record.bits),
            ("key_count", $read.key_count() as u64 == $record.keys),
        ])
    };
}

/// The first view that isn't the model's part, or isn't that place of the caller's own bytes.
fn view_unlike(views: &[(&'static str, &[u8], &Part)], bytes: &[u8]) -> Option<&'static str> {
    for (name, view, part) in views {
        let place = (view.as_ptr() as usize).wrapping_sub(bytes.as_ptr() as usize);
        if *view != part.bytes || place as u64 != part.start {
            return Some(name);
        }
    }
    None
}

fn header_unlike(header: &Header, record: &Record, bytes: &[u8]) -> Option<&'static str> {
    let views = [
        ("public_blob", header.public_blob(), &record.blob),
        ("point", header.point(), &record.point),
        ("salt", header.salt(), &record.salt),
        ("modulus", header.modulus(), &record.modulus),
        ("exponent", header.exponent(), &record.exponent),
    ];
    accessor_unlike!(header, record).or_else(|| view_unlike(&views, bytes))
}

/// The scalar with zeros in front to its curve's size.
fn full_scalar(key: &model::Key) -> Vec<u8> {
    let scalar = &key.scalar;
    let size = if scalar.present { SIZES[usize::from(key.algorithm)] } else { 0 };
    [&vec![0; size - scalar.bytes.len()][..], &scalar.bytes].concat()
}

fn key_unlike(found: &Key, key: &model::Key, bytes: &[u8]) -> Option<&'static str> {
    let names = [
        ("algorithm", found.algorithm() == ALGORITHMS[usize::from(key.algorithm)]),
        ("bits", found.bits() as u64 == key.bits),
        ("full_scalar", found.full_scalar(&mut [0xa5; EcdsaCurve::MAX_SIZE]) == full_scalar(key)),
    ];
    let views = [
        ("public_blob", found.public_blob(), &key.blob),
        ("point", found.point(), &key.point),
        ("scalar", found.scalar(), &key.scalar),
        ("comment", found.comment().as_bytes(), &key.comment),
        ("modulus", found.modulus(), &key.modulus),
        ("exponent", found.exponent(), &key.exponent),
        ("d", found.d(), &key.d),
        ("iqmp", found.iqmp(), &key.iqmp),
        ("p", found.p(), &key.p),
        ("q", found.q(), &key.q),
    ];
    first_unlike(&names).or_else(|| view_unlike(&views, bytes))
}

fn image_unlike(image: &Image, record: &Record, bytes: &[u8]) -> Option<&'static str> {
    let checkint = if record.kind == model::ENCRYPTED { None } else { Some(record.checkint) };
    let of_the_section = [
        ("as_bytes", std::ptr::eq(image.as_bytes(), bytes)),
        ("checkint", image.checkint() == checkint),
        ("padding_len", image.padding_len() as u64 == record.padding),
        ("is_in_form", image.is_in_form() == record.form),
        ("full_scalar", image.full_scalar(&mut [0xa5; EcdsaCurve::MAX_SIZE]) == full_scalar(record)),
    ];
    let views = [
        ("public_blob", image.public_blob(), &record.blob),
        ("point", image.point(), &record.point),
        ("scalar", image.scalar(), &record.scalar),
        ("comment", image.comment().as_bytes(), &record.comment),
        ("salt", image.salt(), &record.salt),
        ("ciphertext", image.ciphertext(), &record.ciphertext),
        ("tag", image.tag(), &record.tag),
        ("modulus", image.modulus(), &record.modulus),
        ("exponent", image.exponent(), &record.exponent),
        ("d", image.d(), &record.d),
        ("iqmp", image.iqmp(), &record.iqmp),
        ("p", image.p(), &record.p),
        ("q", image.q(), &record.q),
    ];
    accessor_unlike!(image, record).or_else(|| first_unlike(&of_the_section)).or_else(|| view_unlike(&views, bytes))
}

fn edited_by_model(buffer: &mut [u8], n: usize, edit: Edit) -> Written {
    match edit {
        Edit::Change(k, comment) => model::change_comment_of(buffer, n, k, comment),
        Edit::Remove(k) => model::remove_key(buffer, n, k),
        Edit::Add(Commented { key: Any::Rsa(rsa), comment }) => model::add_rsa(buffer, n, rsa.numbers(), comment),
        Edit::Add(Commented { key: Any::Curve(key), comment }) => {
            model::add_key(buffer, n, key.algorithm, &key.public, &key.private, comment)
        }
    }
}

fn edited_by_library(buffer: &mut [u8], n: usize, edit: Edit) -> raw::Reply {
    match edit {
        Edit::Change(k, comment) => raw::change_comment_of(buffer, n, k, comment),
        Edit::Remove(k) => raw::remove_key(buffer, n, k),
        Edit::Add(Commented { key: Any::Rsa(rsa), comment }) => raw::add_rsa(buffer, n, rsa.numbers(), comment),
        Edit::Add(Commented { key: Any::Curve(key), comment }) => {
            raw::add_key(buffer, n, key.algorithm, &key.public, &key.private, comment)
        }
    }
}

fn edited_by_crate(image: &mut LentImage, edit: Edit) -> Result<usize, Error> {
    match edit {
        Edit::Change(k, comment) => image.set_comment_of(k as usize, comment),
        Edit::Remove(k) => image.remove(k as usize),
        Edit::Add(key) => image.add_key(&key_ref(key)),
    }
}

/// Compares, counts, and at the end says how often.
pub struct Tally {
    entry: &'static str,
    made: u64,
    /// How often each number was the reply: of whole calls, of headers' reads, of sections' reads.
    numbers: [u64; 12],
    headers: [u64; 12],
    sections: [u64; 12],
    /// The refusals of the crate, by field, number and cause.
    faults: BTreeSet<Fault>,
}

impl Tally {
    pub fn new(entry: &'static str) -> Self {
        Self { entry, made: 0, numbers: [0; 12], headers: [0; 12], sections: [0; 12], faults: BTreeSet::new() }
    }

    /// Says how many comparisons there were; fails where there were fewer than `least`, and where a refusal has a field, a number
    /// and a cause that no sentence is tested for.
    pub fn end(self, least: u64) {
        println!("{}: {} comparisons, seed {}{}", self.entry, self.made, seed(), self.replies());
        assert!(self.made >= least, "{}: only {} comparisons of {}", self.entry, self.made, least);
        let listed = faults();
        for fault in &self.faults {
            assert!(listed.contains(fault), "{}: {:?} isn't in the list", self.entry, fault);
        }
    }

    fn replies(&self) -> String {
        let mut text = String::new();
        let all = [("by reply", self.numbers), ("of headers", self.headers), ("of sections", self.sections)];
        for (of, numbers) in all {
            if numbers != [0; 12] {
                text += &format!(", {} {:?}", of, numbers);
            }
        }
        text
    }

    /// Fails where one of these replies of whole calls came less than `least` times.
    pub fn expect_replies(&self, numbers: &[usize], least: u64) {
        self.expect(&self.numbers, numbers, least);
    }

    /// The same for headers' reads.
    pub fn expect_of_headers(&self, numbers: &[usize], least: u64) {
        self.expect(&self.headers, numbers, least);
    }

    /// The same for sections' reads.
    pub fn expect_of_sections(&self, numbers: &[usize], least: u64) {
        self.expect(&self.sections, numbers, least);
    }

    fn expect(&self, replies: &[u64; 12], numbers: &[usize], least: u64) {
        for number in numbers {
            let seen = replies[*number];
            assert!(seen >= least, "{}: reply {} came only {} times", self.entry, number, seen);
        }
    }

    fn count(&mut self, number: u64) {
        self.made += 1;
        self.numbers[number as usize] += 1;
    }

    fn fail(&self, what: &str, input: &str) -> ! {
        panic!("{}: comparison {}, seed {}: {}\ninput: {}", self.entry, self.made, seed(), what, input)
    }

    /// Reads with both, whole and in halves: three comparisons. Answers whether the image was accepted.
    pub fn read(&mut self, bytes: &[u8]) -> bool {
        let (library, right) = (raw::read(bytes), model::read(bytes));
        self.same_numbers("read", &library, &right, &|| hex(bytes));
        self.same_image("Image::read", Image::read(bytes), &right, bytes);
        self.count(library.number);
        let header = self.header(bytes);
        let section = self.section(bytes, header);
        let in_halves = if header.number == 0 { section } else { header };
        if in_halves != library {
            self.fail("the header's read and the section's aren't the whole read", &hex(bytes));
        }
        if let Ok(header) = Header::read(bytes) {
            self.same_image("Header::section", header.section(), &right, bytes);
        }
        right.is_ok()
    }

    /// Reads the header with both. Answers what the library did.
    pub fn header(&mut self, bytes: &[u8]) -> raw::Image {
        let (library, right) = (raw::read_header(bytes), model::read_header(bytes));
        self.same_numbers("read_header", &library, &right, &|| hex(bytes));
        let unlike = match (Header::read(bytes), &right) {
            (Err(error), Err(refusal)) => self.refusal_unlike(error, refusal),
            (Ok(header), Ok(record)) => header_unlike(&header, record, bytes),
            _ => Some("answer"),
        };
        self.hold_alike("Header::read", unlike, &right, bytes);
        self.made += 1;
        self.headers[library.number as usize] += 1;
        library
    }

    /// Reads the section with both, from this half, be it the image's header or not. Answers what the library did.
    pub fn section(&mut self, bytes: &[u8], half: raw::Image) -> raw::Image {
        let numbers = numbers_of(&half);
        let (library, right) = (raw::read_section(bytes, half), model::read_section(bytes, &numbers));
        self.same_numbers("read_section", &library, &right, &|| format!("{} from {:?}", hex(bytes), numbers));
        self.made += 1;
        self.sections[library.number as usize] += 1;
        library
    }

    /// Reads key k with both.
    pub fn key(&mut self, bytes: &[u8], k: u64) {
        let (library, right) = (raw::read_key(bytes, k), model::read_key(bytes, k));
        let (numbers, right_numbers) = (key_numbers_of(&library), model::key_numbers(&right));
        for ((name, library), right) in KEY_FIELDS.iter().zip(numbers).zip(right_numbers) {
            if library != right {
                let what = format!("read_key {}: {}: library {}, model {}", k, name, library, right);
                self.fail(&what, &hex(bytes));
            }
        }
        if let (Ok(image), Ok(k)) = (Image::read(bytes), usize::try_from(k)) {
            let unlike = match (image.key(k), &right) {
                (None, Err(_)) => None,
                (Some(found), Ok(key)) => key_unlike(&found, key, bytes),
                _ => Some("answer"),
            };
            if let Some(name) = unlike {
                self.fail(&format!("Image::key {}: {}", k, name), &hex(bytes));
            }
        }
        self.count(library.number);
    }

    /// Reads every key with both, and numbers that no key has.
    pub fn keys(&mut self, bytes: &[u8]) {
        let count = model::read(bytes).map_or(1, |record| record.keys);
        for k in (0..count + 2).chain([17, 256 + count, 1 << 32 | 1, 1 << 63, u64::MAX]) {
            self.key(bytes, k);
        }
        if let Ok(image) = Image::read(bytes) {
            let (forth, back) = (image.keys(), image.keys().rev().map(|key| key.public_blob()));
            let mut blobs: Vec<&[u8]> = back.collect();
            blobs.reverse();
            let same = [
                ("len", forth.len() as u64 == count),
                ("back", forth.clone().map(|key| key.public_blob()).eq(blobs)),
                ("key", forth.zip(1..).all(|(key, k)| Some(key.comment()) == image.key(k).map(|key| key.comment()))),
            ];
            if let Some(name) = first_unlike(&same) {
                self.fail(&format!("Image::keys: {}", name), &hex(bytes));
            }
        }
    }

    fn same_numbers(
        &self,
        what: &str,
        library: &raw::Image,
        right: &Result<Record, Refusal>,
        input: &dyn Fn() -> String,
    ) {
        let (library, right) = (numbers_of(library), model::numbers(right));
        for ((name, library), right) in FIELDS.iter().zip(library).zip(right) {
            if library != right {
                self.fail(&format!("{}: {}: library {}, model {}", what, name, library, right), &input());
            }
        }
    }

    fn same_image(&mut self, what: &str, answer: Result<Image, Error>, right: &Result<Record, Refusal>, bytes: &[u8]) {
        let unlike = match (answer, right) {
            (Err(error), Err(refusal)) => self.refusal_unlike(error, refusal),
            (Ok(image), Ok(record)) => image_unlike(&image, record, bytes),
            _ => Some("answer"),
        };
        self.hold_alike(what, unlike, right, bytes);
    }

    fn refusal_unlike(&mut self, error: Error, right: &Refusal) -> Option<&'static str> {
        let fault = fault_of(error);
        let same = [("refusal", is_refusal(error, right)), ("part", is_about(&fault.2, right.part))];
        self.faults.insert(fault);
        first_unlike(&same)
    }

    fn hold_alike(&self, what: &str, unlike: Option<&str>, right: &Result<Record, Refusal>, bytes: &[u8]) {
        if let Some(name) = unlike {
            self.fail(&format!("{}: {} unlike the model's {:?}", what, name, right), &hex(bytes));
        }
    }

    fn same(&self, what: &str, library: (raw::Reply, &[u8]), model: (Written, &[u8]), input: &dyn Fn() -> String) {
        let right = reply_of(model.0);
        if library.0 != right {
            self.fail(&format!("{}: library {:?}, model {:?}", what, library.0, right), &input());
        }
        if library.1 != model.1 {
            let place = library.1.iter().zip(model.1).position(|(a, b)| a != b).unwrap_or(0);
            self.fail(&format!("{}: buffers differ at {}", what, place as i64 - GUARD as i64), &input());
        }
    }

    /// The same of the crate's own answer, whose refusal has a field too.
    fn same_written(
        &mut self,
        what: &str,
        library: (Result<usize, Error>, &[u8]),
        model: (Written, &[u8]),
        input: &dyn Fn() -> String,
    ) {
        let unlike = match (library.0, &model.0) {
            (Err(error), Err(refusal)) => self.refusal_unlike(error, refusal),
            (Ok(length), Ok(right)) => first_unlike(&[("length", length == *right)]),
            _ => Some("answer"),
        };
        if let Some(name) = unlike {
            self.fail(&format!("{}: {} of {:?} unlike the model's {:?}", what, name, library.0, model.0), &input());
        }
        self.same(what, (reply_of(model.0), library.1), model, input);
    }

    /// Writes a plain image with both into buffers of `room` bytes.
    pub fn write_plain(&mut self, call: Plain, room: usize) -> Answer {
        let Plain { algorithm, public, private, derive, checkint, comment } = call;
        let input = || {
            let (public, private, comment) = (hex(public), hex(private), hex(comment));
            format!("{} {} {} {} {} {} room {}", algorithm, public, private, derive, checkint, comment, room)
        };
        let before = guarded(room);
        let mut right = before.clone();
        let model = model::write_plain(algorithm, public, private, derive, checkint, comment, lent(&mut right));
        let mut buffer = before.clone();
        let reply = raw::write_plain(algorithm, public, private, derive, checkint, comment, lent(&mut buffer));
        self.same("write_plain", (reply, &buffer), (model, &right), &input);
        if let Some(algorithm) = ALGORITHMS.get(usize::from(algorithm)).copied() {
            let key = PlainKey { algorithm, public, private, checkint: checkint_of(derive, checkint) };
            let mut buffer = before.clone();
            let answer = saltorchard::write_plain(&key, comment, lent(&mut buffer));
            self.same_written("write_plain of the crate", (answer, &buffer), (model, &right), &input);
        }
        self.count(reply.number);
        Answer { written: model.ok(), buffer: lent(&mut right).to_vec() }
    }

    /// Writes a plain image of an RSA key with both into buffers of `room` bytes.
    pub fn write_rsa(&mut self, call: Rsa, room: usize) -> Answer {
        let Rsa { numbers, derive, checkint, comment } = call;
        let input = || format!("{:?} {} {} {} room {}", numbers.map(hex), derive, checkint, hex(comment), room);
        let before = guarded(room);
        let mut right = before.clone();
        let model = model::write_rsa(numbers, derive, checkint, comment, lent(&mut right));
        let mut buffer = before.clone();
        let reply = raw::write_rsa(numbers, derive, checkint, comment, lent(&mut buffer));
        self.same("write_rsa", (reply, &buffer), (model, &right), &input);
        let [n, e, d, iqmp, p, q] = numbers;
        let key = RsaKey { n, e, d, iqmp, p, q, checkint: checkint_of(derive, checkint) };
        let mut buffer = before.clone();
        let answer = saltorchard::write_rsa(&key, comment, lent(&mut buffer));
        self.same_written("write_rsa of the crate", (answer, &buffer), (model, &right), &input);
        self.count(reply.number);
        Answer { written: model.ok(), buffer: lent(&mut right).to_vec() }
    }

    /// Writes a plain image of several keys with both into buffers of `room` bytes.
    pub fn write_keys(&mut self, call: Keys, room: usize) -> Answer {
        let Keys { table, text, derive, checkint } = call;
        let input = || format!("{:?} {} {} {} room {}", table, hex(text), derive, checkint, room);
        let before = guarded(room);
        let mut right = before.clone();
        let model = model::write_keys(table, text, derive, checkint, lent(&mut right));
        let mut buffer = before.clone();
        let reply = raw::write_keys(table, text, derive, checkint, lent(&mut buffer));
        self.same("write_keys", (reply, &buffer), (model, &right), &input);
        let places: Option<Vec<KeyPlaces>> = table.chunks_exact(model::ROW).map(places_of).collect();
        if let Some(places) = places.filter(|_| table.len() % model::ROW == 0) {
            let mut buffer = before;
            let answer = saltorchard::write_keys_in(text, &places, checkint_of(derive, checkint), lent(&mut buffer));
            self.same_written("write_keys_in of the crate", (answer, &buffer), (model, &right), &input);
        }
        self.count(reply.number);
        Answer { written: model.ok(), buffer: lent(&mut right).to_vec() }
    }

    /// Writes a plain image of these keys with both, from one text, and with the crate's list.
    pub fn write_list(&mut self, keys: &[Commented], derive: u8, checkint: u32, room: usize) -> Answer {
        let (table, text) = super::rings::tabled(keys);
        let answer = self.write_keys(Keys { table: &table, text: &text, derive, checkint }, room);
        #[cfg(feature = "alloc")]
        {
            let mut right = guarded(room);
            let model = model::write_keys(&table, &text, derive, checkint, lent(&mut right));
            let refs: Vec<KeyRef> = keys.iter().map(key_ref).collect();
            let mut buffer = guarded(room);
            let written = saltorchard::write_keys(&refs, checkint_of(derive, checkint), lent(&mut buffer));
            let input = || format!("{:?} {} {} {} room {}", table, hex(&text), derive, checkint, room);
            self.same_written("write_keys of the crate", (written, &buffer), (model, &right), &input);
        }
        answer
    }

    /// Edits with both the image that the first `n` bytes of `contents` are.
    pub fn edit(&mut self, contents: &[u8], n: usize, edit: Edit) -> Answer {
        let input = || match edit {
            Edit::Change(k, comment) => format!("{} n {} comment of {}: {}", hex(contents), n, k, hex(comment)),
            Edit::Remove(k) => format!("{} n {} without {}", hex(contents), n, k),
            Edit::Add(key) => format!("{} n {} with {:?}", hex(contents), n, key.parts().1.map(hex)),
        };
        let before = lent_again(contents);
        let (mut right, mut buffer, mut own) = (before.clone(), before.clone(), before);
        let model = edited_by_model(lent(&mut right), n, edit);
        let reply = edited_by_library(lent(&mut buffer), n, edit);
        self.same("edit", (reply, &buffer), (model, &right), &input);
        if let Ok(mut image) = LentImage::new(lent(&mut own), n) {
            let answer = edited_by_crate(&mut image, edit);
            if image.len() != answer.unwrap_or(n) {
                self.fail("LentImage: another length is kept", &input());
            }
            self.same_written("edit of the crate", (answer, &own), (model, &right), &input);
        }
        self.count(reply.number);
        Answer { written: model.ok(), buffer: lent(&mut right).to_vec() }
    }

    /// Writes an encrypted image with both into buffers of `room` bytes.
    pub fn write_encrypted(&mut self, call: Encrypted, room: usize) -> Answer {
        let Encrypted { cipher, kdf, salt, rounds, blob, ciphertext, tag } = call;
        let input = || {
            let (salt, blob, ciphertext, tag) = (hex(salt), hex(blob), hex(ciphertext), hex(tag));
            format!("{} {} {} {} {} {} {} room {}", cipher, kdf, salt, rounds, blob, ciphertext, tag, room)
        };
        let before = guarded(room);
        let mut right = before.clone();
        let model = model::write_encrypted(cipher, kdf, salt, rounds, blob, ciphertext, tag, lent(&mut right));
        let mut buffer = before.clone();
        let reply = raw::write_encrypted(cipher, kdf, salt, rounds, blob, ciphertext, tag, lent(&mut buffer));
        self.same("write_encrypted", (reply, &buffer), (model, &right), &input);
        if cipher < 10 && kdf < 2 {
            let (cipher, kdf) = (CIPHERS[usize::from(cipher)], KDFS[usize::from(kdf)]);
            let key = EncryptedKey { cipher, kdf, salt, rounds, blob, ciphertext, tag };
            let mut buffer = before.clone();
            let answer = saltorchard::write_encrypted(&key, lent(&mut buffer));
            self.same_written("write_encrypted of the crate", (answer, &buffer), (model, &right), &input);
        }
        self.count(reply.number);
        Answer { written: model.ok(), buffer: lent(&mut right).to_vec() }
    }

    /// Rewrites an image with both into buffers of `room` bytes.
    pub fn rewrite(&mut self, image: &[u8], room: usize) -> Answer {
        let input = || format!("{} room {}", hex(image), room);
        let before = guarded(room);
        let mut right = before.clone();
        let model = model::rewrite(image, lent(&mut right));
        let mut buffer = before.clone();
        let reply = raw::rewrite(image, lent(&mut buffer));
        self.same("rewrite", (reply, &buffer), (model, &right), &input);
        if let Ok(image) = Image::read(image) {
            let mut buffer = before.clone();
            let answer = image.rewrite(lent(&mut buffer));
            self.same_written("rewrite of the crate", (answer, &buffer), (model, &right), &input);
        }
        self.count(reply.number);
        Answer { written: model.ok(), buffer: lent(&mut right).to_vec() }
    }

    /// Puts armour on with both, into buffers of `room` bytes.
    pub fn export(&mut self, image: &[u8], room: usize) -> Answer {
        self.armour(EXPORT, image, room)
    }

    /// Takes armour off with both, into buffers of `room` bytes.
    pub fn import(&mut self, text: &[u8], room: usize) -> Answer {
        self.armour(IMPORT, text, room)
    }

    fn armour(&mut self, call: Armour, handed: &[u8], room: usize) -> Answer {
        let input = || format!("{} room {}", hex(handed), room);
        let before = guarded(room);
        let mut right = before.clone();
        let model = (call.model)(handed, lent(&mut right));
        let mut buffer = before.clone();
        let reply = (call.library)(handed, lent(&mut buffer));
        self.same(call.name, (reply, &buffer), (model, &right), &input);
        let mut buffer = before;
        let answer = (call.own)(handed, lent(&mut buffer));
        self.same_written("armour of the crate", (answer, &buffer), (model, &right), &input);
        self.count(reply.number);
        Answer { written: model.ok(), buffer: lent(&mut right).to_vec() }
    }

    /// Changes the comment with both, of the image that the first `n` bytes of `contents` are.
    pub fn change_comment(&mut self, contents: &[u8], n: usize, comment: &[u8]) -> Answer {
        let input = || format!("{} n {} comment {}", hex(contents), n, hex(comment));
        let before = lent_again(contents);
        let mut right = before.clone();
        let model = model::change_comment(lent(&mut right), n, comment);
        let mut buffer = before.clone();
        let reply = raw::change_comment(lent(&mut buffer), n, comment);
        self.same("change_comment", (reply, &buffer), (model, &right), &input);
        let mut buffer = before.clone();
        let answer = saltorchard::set_comment(lent(&mut buffer), n, comment);
        self.same_written("set_comment of the crate", (answer, &buffer), (model, &right), &input);
        self.count(reply.number);
        Answer { written: model.ok(), buffer: lent(&mut right).to_vec() }
    }
}
