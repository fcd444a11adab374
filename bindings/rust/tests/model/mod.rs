//! A plain model of the container, written from its rules alone: an ordinary parser and writer that copies what it finds.
//! The tests hold the library's answers against it.
#![allow(dead_code)] // each test takes what it needs

pub mod armour;
pub mod settings;

const LIMIT: usize = 65_535;
/// The most keys of an image.
pub const MOST_KEYS: usize = 16;
const MAGIC: &[u8] = b"openssh-key-v1\0";

/// Name, block and tag length of each cipher; the place is the code.
const CIPHERS: [(&str, usize, usize); 10] = [
    ("none", 8, 0),
    ("3des-cbc", 8, 0),
    ("aes128-cbc", 16, 0),
    ("aes192-cbc", 16, 0),
    ("aes256-cbc", 16, 0),
    ("aes128-ctr", 16, 0),
    ("aes192-ctr", 16, 0),
    ("aes256-ctr", 16, 0),
    ("aes128-gcm@openssh.com", 16, 16),
    ("aes256-gcm@openssh.com", 16, 16),
];

const KDFS: [&str; 2] = ["none", "bcrypt"];

/// The codes of Ed25519 and RSA; each other algorithm's code is the place of its curve, counted from 1.
const ED25519: u8 = 0;
const RSA: u8 = 4;
const ALGORITHMS: [&str; 5] =
    ["ssh-ed25519", "ecdsa-sha2-nistp256", "ecdsa-sha2-nistp384", "ecdsa-sha2-nistp521", "ssh-rsa"];
const CURVES: [(&str, usize); 3] = [("nistp256", 32), ("nistp384", 48), ("nistp521", 66)];

#[derive(Clone, Copy, Debug, Default, PartialEq, Eq)]
pub struct Refusal {
    pub number: u64,
    pub count: u64,
    pub at: u64,
    /// The words for the field that it is about.
    pub field: &'static str,
    /// The words for the part that it is about, of what was handed in; of a blob for the field there.
    pub part: &'static str,
    /// Of several keys the number of the one that it is about, counted from 1; else 0.
    pub key: usize,
    /// The device whose place in a store it is about.
    pub device: Option<u64>,
}

const IMAGE: &str = "the image";
const HANDED_IN: &str = "what was handed in";

/// The words for the public fields of a key.
struct Words {
    name: &'static str,
    public: &'static str,
    curve: &'static str,
    point: &'static str,
    e: &'static str,
    n: &'static str,
}

const IN_THE_BLOB: Words = Words {
    name: "the key name's string in the blob",
    public: "the public key's string in the blob",
    curve: "the curve's string in the blob",
    point: "the point's string in the blob",
    e: "e's string in the blob",
    n: "n's string in the blob",
};

const IN_THE_SECTION: Words = Words {
    name: "the key name's string in the section",
    public: "the public key's string in the section",
    curve: "the curve's string in the section",
    point: "the point's string in the section",
    e: "e's string in the section",
    n: "n's string in the section",
};

/// A part of the image, copied, and the place where it stood.
#[derive(Clone, Debug, Default, PartialEq, Eq)]
pub struct Part {
    pub start: u64,
    pub bytes: Vec<u8>,
    pub present: bool,
}

/// The kinds of a record.
pub const PLAIN: u8 = 1;
pub const ENCRYPTED: u8 = 2;
pub const HEADER: u8 = 3;

/// One key that was read; of a header its public half.
#[derive(Clone, Debug, Default, PartialEq, Eq)]
pub struct Key {
    pub algorithm: u8,
    /// The bits of an RSA modulus.
    pub bits: u64,
    pub blob: Part,
    pub point: Part,
    pub scalar: Part,
    pub comment: Part,
    pub modulus: Part,
    pub exponent: Part,
    pub d: Part,
    pub iqmp: Part,
    pub p: Part,
    pub q: Part,
}

/// What was read, of an image or of its header alone. What it says of a key is the first one's.
#[derive(Clone, Debug, Default, PartialEq, Eq)]
pub struct Record {
    pub kind: u8,
    pub cipher: u8,
    pub kdf: u8,
    pub rounds: u32,
    pub checkint: u32,
    pub padding: u64,
    pub form: bool,
    pub salt: Part,
    pub ciphertext: Part,
    pub tag: Part,
    /// The place of the section's length field.
    pub section: u64,
    /// The key count.
    pub keys: u64,
    pub first: Key,
    pub others: Vec<Key>,
}

impl std::ops::Deref for Record {
    type Target = Key;

    fn deref(&self) -> &Key {
        &self.first
    }
}

impl Record {
    /// Every key, in order.
    pub fn all_keys(&self) -> impl Iterator<Item = &Key> {
        std::iter::once(&self.first).chain(&self.others)
    }

    /// Key k, counted from 1.
    pub fn key(&self, k: u64) -> Option<&Key> {
        let before = usize::try_from(k.checked_sub(1)?).ok()?;
        self.all_keys().nth(before)
    }
}

/// Everything that a read answers, in the C interface's order.
pub type Numbers = [u64; 40];

/// The places of the parts among these.
const FIRST_PARTS: usize = 11;
const SECTION: usize = 25;
const BITS: usize = 26;
const RSA_PARTS: usize = 27;
const KEYS: usize = 39;

pub fn numbers(read: &Result<Record, Refusal>) -> Numbers {
    let mut numbers = [0; 40];
    match read {
        Err(refusal) => numbers[..3].copy_from_slice(&[refusal.number, refusal.count, refusal.at]),
        Ok(record) => {
            numbers[3..7].copy_from_slice(&[record.kind, record.algorithm, record.cipher, record.kdf].map(u64::from));
            numbers[7..9].copy_from_slice(&[record.rounds, record.checkint].map(u64::from));
            numbers[9..11].copy_from_slice(&[record.padding, u64::from(record.form)]);
            let Record { salt, ciphertext, tag, first, .. } = record;
            let Key { blob, point, scalar, comment, modulus, exponent, d, iqmp, p, q, .. } = first;
            put_places(&mut numbers[FIRST_PARTS..], &[blob, point, scalar, comment, salt, ciphertext, tag]);
            numbers[SECTION] = record.section;
            numbers[BITS] = record.bits;
            put_places(&mut numbers[RSA_PARTS..], &[modulus, exponent, d, iqmp, p, q]);
            numbers[KEYS] = record.keys;
        }
    }
    numbers
}

/// Everything that the read of a key answers, in the C interface's order.
pub type KeyNumbers = [u64; 25];

pub fn key_numbers(read: &Result<Key, Refusal>) -> KeyNumbers {
    let mut numbers = [0; 25];
    match read {
        Err(refusal) => numbers[..3].copy_from_slice(&[refusal.number, refusal.count, refusal.at]),
        Ok(key) => {
            numbers[3..5].copy_from_slice(&[u64::from(key.algorithm), key.bits]);
            let Key { blob, point, scalar, comment, modulus, exponent, d, iqmp, p, q, .. } = key;
            put_places(&mut numbers[5..], &[blob, point, scalar, comment, modulus, exponent, d, iqmp, p, q]);
        }
    }
    numbers
}

fn put_places(numbers: &mut [u64], parts: &[&Part]) {
    for (part, two) in parts.iter().zip(numbers.chunks_mut(2)) {
        two.copy_from_slice(&[part.start, part.bytes.len() as u64]);
    }
}

fn refuse<T>(number: u64, at: usize, field: &'static str) -> Result<T, Refusal> {
    Err(Refusal { number, at: at as u64, field, ..Refusal::default() })
}

fn refuse_part<T>(number: u64, part: &'static str) -> Result<T, Refusal> {
    Err(Refusal { number, field: HANDED_IN, part, ..Refusal::default() })
}

fn left_over<T>(count: usize, at: usize, field: &'static str) -> Result<T, Refusal> {
    Err(Refusal { number: 6, count: count as u64, at: at as u64, field, ..Refusal::default() })
}

/// An answer on key `k` of so many: of several its refusal has the number.
fn of_key<T>(answer: Result<T, Refusal>, k: usize, count: usize) -> Result<T, Refusal> {
    answer.map_err(|refusal| Refusal { key: if count > 1 { k } else { 0 }, ..refusal })
}

/// What is still to be read of the image, or of one of its strings. Each step is given the words for its field.
struct Reader<'a> {
    image: &'a [u8],
    at: usize,
    end: usize,
}

impl<'a> Reader<'a> {
    fn left(&self) -> usize {
        self.end - self.at
    }

    fn bytes(&self) -> &'a [u8] {
        &self.image[self.at..self.end]
    }

    fn part(&self) -> Part {
        Part { start: self.at as u64, bytes: self.bytes().to_vec(), present: true }
    }

    fn uint32(&mut self, words: &'static str) -> Result<u32, Refusal> {
        if self.left() < 4 {
            return refuse(1, self.at, words);
        }
        let mut number = 0;
        for byte in &self.image[self.at..self.at + 4] {
            number = number << 8 | u32::from(*byte);
        }
        self.at += 4;
        Ok(number)
    }

    /// The next `length` bytes, for a field that began at `field`.
    fn take(&mut self, length: usize, field: usize, words: &'static str) -> Result<Reader<'a>, Refusal> {
        if self.left() < length {
            return refuse(1, field, words);
        }
        let taken = Reader { image: self.image, at: self.at, end: self.at + length };
        self.at += length;
        Ok(taken)
    }

    fn string(&mut self, words: &'static str) -> Result<Reader<'a>, Refusal> {
        let field = self.at;
        let length = self.uint32(words)?;
        self.take(length as usize, field, words)
    }

    /// A string that must have `length` bytes.
    fn fixed(&mut self, length: usize, words: &'static str) -> Result<Reader<'a>, Refusal> {
        let field = self.at;
        let string = self.string(words)?;
        if string.left() < length {
            return refuse(1, field, words);
        }
        if string.left() > length {
            return left_over(string.left() - length, field + 4 + length, words);
        }
        Ok(string)
    }

    /// A string that must be a positive mpint in its fewest bytes.
    fn mpint(&mut self, words: &'static str) -> Result<Part, Refusal> {
        let field = self.at;
        let number = self.string(words)?.part();
        if !is_mpint(&number.bytes) {
            return refuse(2, field, words);
        }
        Ok(number)
    }

    /// A string that must be one of `names`; answers which.
    fn name<'n>(&mut self, names: impl IntoIterator<Item = &'n str>, words: &'static str) -> Result<usize, Refusal> {
        let field = self.at;
        let string = self.string(words)?;
        match names.into_iter().position(|name| name.as_bytes() == string.bytes()) {
            Some(which) => Ok(which),
            None => refuse(4, field, words),
        }
    }

    /// Nothing may be left of what these are the words for.
    fn finish(&self, words: &'static str) -> Result<(), Refusal> {
        if self.left() > 0 {
            return left_over(self.left(), self.at, words);
        }
        Ok(())
    }
}

/// Is this a positive mpint in its fewest bytes (RFC 4251, section 5)? Its highest bit is the sign.
fn is_mpint(bytes: &[u8]) -> bool {
    match bytes {
        [] | [0] => false,
        [0, second, ..] => *second >= 0x80,
        [first, ..] => *first < 0x80,
    }
}

fn leading_zeros(number: &[u8]) -> usize {
    number.iter().take_while(|byte| **byte == 0).count()
}

/// A number above zero as an mpint: without leading zeros, but with one before a first byte of 0x80 or more.
fn as_mpint(number: &[u8]) -> Vec<u8> {
    let mut fewest = number[leading_zeros(number)..].to_vec();
    if fewest[0] >= 0x80 {
        fewest.insert(0, 0);
    }
    fewest
}

/// The bits of a number without its leading zero bits.
fn bits(number: &[u8]) -> usize {
    match number.iter().position(|byte| *byte != 0) {
        Some(first) => 8 * (number.len() - first) - number[first].leading_zeros() as usize,
        None => 0,
    }
}

/// The place of the first number with a wrong size; `modulus` is the place of the modulus among them.
fn wrong_size(numbers: &[&[u8]], modulus: usize) -> Option<usize> {
    let most = bits(numbers[modulus]);
    (0..numbers.len()).find(|place| {
        if *place == modulus {
            !(1_024..=8_192).contains(&most)
        } else {
            bits(numbers[*place]) > most
        }
    })
}

/// Holds numbers, in the order in which they were read, to their sizes; `words` are each number's.
fn check_sizes(numbers: &[&Part], words: &[&'static str], modulus: usize) -> Result<(), Refusal> {
    let contents: Vec<&[u8]> = numbers.iter().map(|number| &number.bytes[..]).collect();
    match wrong_size(&contents, modulus) {
        Some(place) => refuse(1, numbers[place].start as usize - 4, words[place]),
        None => Ok(()),
    }
}

/// The public half of a key, of the blob or of the section. RSA has no point, and the others have no numbers.
#[derive(Default)]
struct Public {
    algorithm: u8,
    point: Part,
    modulus: Part,
    exponent: Part,
}

impl Public {
    fn is_of(&self, key: &Key) -> bool {
        self.algorithm == key.algorithm
            && self.point.bytes == key.point.bytes
            && self.modulus.bytes == key.modulus.bytes
            && self.exponent.bytes == key.exponent.bytes
    }
}

/// What follows the name of an Ed25519 or ECDSA key, the same in a blob and a section.
struct Elliptic {
    algorithm: u8,
    /// The place and the algorithm of the curve string; Ed25519 has none.
    curve: Option<(usize, u8)>,
    size: usize,
    point: Part,
    words: Words,
}

impl Elliptic {
    fn read(algorithm: u8, reader: &mut Reader, words: Words) -> Result<Elliptic, Refusal> {
        if algorithm == ED25519 {
            let point = reader.fixed(32, words.public)?.part();
            return Ok(Elliptic { algorithm, curve: None, size: 32, point, words });
        }
        let curve = reader.at;
        let which = reader.name(CURVES.iter().map(|row| row.0), words.curve)?;
        let size = CURVES[which].1;
        let field = reader.at;
        let point = reader.fixed(1 + 2 * size, words.point)?.part();
        if point.bytes[0] != 4 {
            return refuse(2, field, words.point);
        }
        Ok(Elliptic { algorithm, curve: Some((curve, which as u8 + 1)), size, point, words })
    }

    /// The public half, once the curve is the algorithm's.
    fn public(self) -> Result<Public, Refusal> {
        match self.curve {
            Some((place, algorithm)) if algorithm != self.algorithm => refuse(4, place, self.words.curve),
            _ => Ok(Public { algorithm: self.algorithm, point: self.point, ..Public::default() }),
        }
    }
}

fn read_blob(blob: &mut Reader) -> Result<Public, Refusal> {
    let algorithm = blob.name(ALGORITHMS, IN_THE_BLOB.name)? as u8;
    let public = match algorithm {
        RSA => read_rsa_blob(blob)?,
        _ => Elliptic::read(algorithm, blob, IN_THE_BLOB)?.public()?,
    };
    blob.finish("the blob's string")?;
    Ok(public)
}

fn read_rsa_blob(blob: &mut Reader) -> Result<Public, Refusal> {
    let exponent = blob.mpint(IN_THE_BLOB.e)?;
    let modulus = blob.mpint(IN_THE_BLOB.n)?;
    check_sizes(&[&exponent, &modulus], &[IN_THE_BLOB.e, IN_THE_BLOB.n], 1)?;
    Ok(Public { algorithm: RSA, modulus, exponent, ..Public::default() })
}

/// A keypair of the section: its private parts are put into the key, its public half is answered.
fn read_pair(section: &mut Reader, key: &mut Key) -> Result<Public, Refusal> {
    let algorithm = section.name(ALGORITHMS, IN_THE_SECTION.name)? as u8;
    if algorithm == RSA {
        return read_rsa_pair(section, key);
    }
    let elliptic = Elliptic::read(algorithm, section, IN_THE_SECTION)?;
    key.scalar = match elliptic.curve {
        None => read_seed(section, &elliptic.point.bytes)?,
        Some(_) => read_scalar(section, elliptic.size)?,
    };
    elliptic.public()
}

fn read_rsa_pair(section: &mut Reader, key: &mut Key) -> Result<Public, Refusal> {
    let modulus = section.mpint(IN_THE_SECTION.n)?;
    let exponent = section.mpint(IN_THE_SECTION.e)?;
    let [d, iqmp, p, q] = ["d's string", "iqmp's string", "p's string", "q's string"];
    key.d = section.mpint(d)?;
    key.iqmp = section.mpint(iqmp)?;
    key.p = section.mpint(p)?;
    key.q = section.mpint(q)?;
    let numbers = [&modulus, &exponent, &key.d, &key.iqmp, &key.p, &key.q];
    check_sizes(&numbers, &[IN_THE_SECTION.n, IN_THE_SECTION.e, d, iqmp, p, q], 0)?;
    Ok(Public { algorithm: RSA, modulus, exponent, ..Public::default() })
}

/// The seed that follows an Ed25519 public string.
fn read_seed(reader: &mut Reader, public: &[u8]) -> Result<Part, Refusal> {
    let field = reader.at;
    let mut both = reader.fixed(64, "the seed's string")?.part();
    if both.bytes[32..] != *public {
        return refuse(3, field, "the seed's string");
    }
    both.bytes.truncate(32);
    Ok(both)
}

/// A scalar of 1 to `size` bytes, or of one more with a zero first; the part is without its leading zeros.
fn read_scalar(reader: &mut Reader, size: usize) -> Result<Part, Refusal> {
    let words = "the scalar's string";
    let field = reader.at;
    let mut string = reader.string(words)?;
    let (length, zeros) = (string.left(), leading_zeros(string.bytes()));
    if length == 0 {
        return refuse(1, field, words);
    }
    if length > size + 1 {
        return left_over(length - size, field + 4 + size, words);
    }
    let no_zero_first = length == size + 1 && zeros == 0;
    if no_zero_first || zeros == length {
        return refuse(2, field, words);
    }
    string.at += zeros;
    Ok(string.part())
}

/// A keypair, which must be that of the blob of its number, and then its comment.
fn read_entry(section: &mut Reader, key: &mut Key) -> Result<(), Refusal> {
    let name = section.at;
    let public = read_pair(section, key)?;
    if !public.is_of(key) {
        return refuse(5, name, IN_THE_SECTION.name);
    }
    let comment = section.at;
    key.comment = section.string("the comment's string")?.part();
    if std::str::from_utf8(&key.comment.bytes).is_err() {
        return refuse(7, comment, "the comment's string");
    }
    Ok(())
}

fn read_plain_section(section: &mut Reader, record: &mut Record) -> Result<(), Refusal> {
    if section.left() % 8 != 0 {
        return refuse(1, section.at, "the section");
    }
    record.checkint = section.uint32("the first checkint")?;
    let second = section.at;
    if section.uint32("the second checkint")? != record.checkint {
        return refuse(3, second, "the second checkint");
    }
    let count = record.keys as usize;
    for (key, k) in std::iter::once(&mut record.first).chain(&mut record.others).zip(1..) {
        of_key(read_entry(section, key), k, count)?;
    }
    record.padding = section.left() as u64;
    if section.left() >= 8 {
        return refuse(1, section.at, "the padding");
    }
    if section.bytes().iter().zip(1..).any(|(byte, right)| *byte != right) {
        return refuse(2, section.at, "the padding");
    }
    Ok(())
}

fn read_kdf(reader: &mut Reader, record: &mut Record) -> Result<(), Refusal> {
    record.kdf = reader.name(KDFS, "the KDF name's string")? as u8;
    let field = reader.at;
    let mut options = reader.string("the KDF options' string")?;
    if record.kdf == 0 {
        return if options.left() == 0 { Ok(()) } else { refuse(3, field, "the KDF options' string") };
    }
    record.salt = options.string("the salt's string")?.part();
    record.rounds = options.uint32("the rounds")?;
    options.finish("the KDF options' string")
}

fn read_ciphertext(reader: &mut Reader, record: &mut Record) -> Result<(), Refusal> {
    let (_, block, tag) = CIPHERS[usize::from(record.cipher)];
    let field = reader.at;
    record.ciphertext = reader.string("the ciphertext's string")?.part();
    if record.ciphertext.bytes.len() % block != 0 {
        return refuse(3, field, "the ciphertext's string");
    }
    if tag > 0 {
        record.tag = reader.take(tag, reader.at, "the tag")?.part();
    }
    Ok(())
}

/// A blob and the key in it: the public half of one of the image's keys.
fn read_public(reader: &mut Reader) -> Result<Key, Refusal> {
    let mut blob = reader.string("the blob's string")?;
    let part = blob.part();
    let Public { algorithm, point, modulus, exponent } = read_blob(&mut blob)?;
    let bits = bits(&modulus.bytes) as u64;
    Ok(Key { algorithm, bits, blob: part, point, modulus, exponent, ..Key::default() })
}

/// How many keys an image with this cipher may have.
fn most_keys(cipher: u8) -> u64 {
    match cipher {
        0 => MOST_KEYS as u64,
        _ => 1,
    }
}

/// Reads an image up to its last blob's end: what the header says, or the first refusal in the order of reading.
pub fn read_header(image: &[u8]) -> Result<Record, Refusal> {
    if image.len() > LIMIT {
        return refuse(11, 0, IMAGE);
    }
    if image.len() < MAGIC.len() {
        return refuse(1, 0, IMAGE);
    }
    if !image.starts_with(MAGIC) {
        return refuse(2, 0, IMAGE);
    }
    let mut record = Record { kind: HEADER, ..Record::default() };
    let mut reader = Reader { image, at: MAGIC.len(), end: image.len() };
    record.cipher = reader.name(CIPHERS.iter().map(|row| row.0), "the cipher name's string")? as u8;
    read_kdf(&mut reader, &mut record)?;
    let count = reader.at;
    record.keys = u64::from(reader.uint32("the key count")?);
    if record.keys < 1 || record.keys > most_keys(record.cipher) {
        return refuse(1, count, "the key count");
    }
    let count = record.keys as usize;
    record.first = of_key(read_public(&mut reader), 1, count)?;
    for k in 2..=count {
        record.others.push(of_key(read_public(&mut reader), k, count)?);
    }
    record.section = reader.at as u64;
    Ok(record)
}

/// Reads what follows a header that was read of this image.
fn go_on(image: &[u8], mut record: Record) -> Result<Record, Refusal> {
    let mut reader = Reader { image, at: record.section as usize, end: image.len() };
    if record.cipher != 0 {
        record.kind = ENCRYPTED;
        read_ciphertext(&mut reader, &mut record)?;
    } else if record.kdf != 0 {
        return refuse(3, MAGIC.len() + 4 + "none".len(), "the KDF name's string");
    } else {
        record.kind = PLAIN;
        read_plain_section(&mut reader.string("the section's string")?, &mut record)?;
    }
    reader.finish(IMAGE)?;
    record.form = written(&record) == image;
    Ok(record)
}

/// Reads what follows a header that is handed in: it must be, number for number, one that was read of this image.
pub fn read_section(image: &[u8], header: &Numbers) -> Result<Record, Refusal> {
    let read = read_header(image);
    if read.is_err() || numbers(&read) != *header {
        return refuse(1, 0, IMAGE);
    }
    go_on(image, read?)
}

/// Reads an image: the record, or the first refusal in the order of reading.
pub fn read(image: &[u8]) -> Result<Record, Refusal> {
    go_on(image, read_header(image)?)
}

/// Reads an image and answers its key k, counted from 1.
pub fn read_key(image: &[u8], k: u64) -> Result<Key, Refusal> {
    match read(image)?.key(k) {
        Some(key) => Ok(key.clone()),
        None => refuse(1, 0, IMAGE),
    }
}

fn put_uint32(image: &mut Vec<u8>, number: u32) {
    image.extend_from_slice(&number.to_be_bytes());
}

fn put_string(image: &mut Vec<u8>, bytes: &[u8]) {
    put_uint32(image, bytes.len() as u32);
    image.extend_from_slice(bytes);
}

/// Name and public half of an Ed25519 or ECDSA key, the same in a blob and a section.
fn public_bytes(algorithm: u8, public: &[u8]) -> Vec<u8> {
    let mut bytes = Vec::new();
    put_string(&mut bytes, ALGORITHMS[usize::from(algorithm)].as_bytes());
    if algorithm != ED25519 {
        put_string(&mut bytes, CURVES[usize::from(algorithm) - 1].0.as_bytes());
    }
    put_string(&mut bytes, public);
    bytes
}

/// The name of RSA and these numbers.
fn rsa_bytes(numbers: &[&[u8]]) -> Vec<u8> {
    let mut bytes = Vec::new();
    put_string(&mut bytes, ALGORITHMS[usize::from(RSA)].as_bytes());
    for number in numbers {
        put_string(&mut bytes, number);
    }
    bytes
}

/// A key as a writer is handed it: RSA has the six numbers n, e, d, iqmp, p, q, and the others have the two halves.
#[derive(Clone, Copy)]
pub struct Given<'a> {
    pub algorithm: u8,
    pub public: &'a [u8],
    pub private: &'a [u8],
    pub comment: &'a [u8],
    pub numbers: [&'a [u8]; 6],
}

impl<'a> Given<'a> {
    pub fn plain(algorithm: u8, public: &'a [u8], private: &'a [u8], comment: &'a [u8]) -> Self {
        Self { algorithm, public, private, comment, numbers: [&[]; 6] }
    }

    pub fn rsa(numbers: [&'a [u8]; 6], comment: &'a [u8]) -> Self {
        Self { algorithm: RSA, public: &[], private: &[], comment, numbers }
    }

    /// A key that was read. Its scalar is without leading zeros, which makes no difference to what is written.
    fn of(key: &'a Key) -> Self {
        let Key { modulus, exponent, d, iqmp, p, q, .. } = key;
        let numbers = [modulus, exponent, d, iqmp, p, q].map(|number| &number.bytes[..]);
        let (public, private) = (&key.point.bytes, &key.scalar.bytes);
        Self { algorithm: key.algorithm, public, private, comment: &key.comment.bytes, numbers }
    }

    fn blob(&self) -> Vec<u8> {
        let [n, e, ..] = self.numbers;
        match self.algorithm {
            RSA => rsa_bytes(&[e, n]),
            _ => public_bytes(self.algorithm, self.public),
        }
    }

    /// The keypair; a scalar is above zero, with any zeros in front.
    fn pair(&self) -> Vec<u8> {
        if self.algorithm == RSA {
            return rsa_bytes(&self.numbers);
        }
        let mut pair = self.blob();
        match self.algorithm {
            ED25519 => put_string(&mut pair, &[self.private, self.public].concat()),
            _ => put_string(&mut pair, &as_mpint(self.private)),
        }
        pair
    }

    fn derived_checkint(&self) -> u32 {
        let [_, _, d, ..] = self.numbers;
        derived_checkint(if self.algorithm == RSA { d } else { self.private })
    }

    /// What is wrong with the key itself, its comment last.
    fn check(&self) -> Result<(), Refusal> {
        match self.algorithm {
            RSA => check_numbers(&self.numbers)?,
            _ => check_halves(self.algorithm, self.public, self.private)?,
        }
        if std::str::from_utf8(self.comment).is_err() {
            return refuse_part(7, "the comment");
        }
        Ok(())
    }
}

fn section_bytes(keys: &[Given], checkint: u32) -> Vec<u8> {
    let mut section = Vec::new();
    put_uint32(&mut section, checkint);
    put_uint32(&mut section, checkint);
    for key in keys {
        section.extend_from_slice(&key.pair());
        put_string(&mut section, key.comment);
    }
    let mut padding = 0;
    while section.len() % 8 != 0 {
        padding += 1;
        section.push(padding);
    }
    section
}

/// The plain image of these keys, which are right, however long it gets.
fn image_of(keys: &[Given], checkint: u32) -> Vec<u8> {
    let mut image = MAGIC.to_vec();
    put_string(&mut image, b"none");
    put_string(&mut image, b"none");
    put_string(&mut image, b"");
    put_uint32(&mut image, keys.len() as u32);
    for key in keys {
        put_string(&mut image, &key.blob());
    }
    put_string(&mut image, &section_bytes(keys, checkint));
    image
}

fn encrypted_image(
    (cipher, kdf): (u8, u8),
    (salt, rounds): (&[u8], u32),
    blob: &[u8],
    ciphertext: &[u8],
    tag: &[u8],
) -> Vec<u8> {
    let mut options = Vec::new();
    if kdf != 0 {
        put_string(&mut options, salt);
        put_uint32(&mut options, rounds);
    }
    let mut image = MAGIC.to_vec();
    put_string(&mut image, CIPHERS[usize::from(cipher)].0.as_bytes());
    put_string(&mut image, KDFS[usize::from(kdf)].as_bytes());
    put_string(&mut image, &options);
    put_uint32(&mut image, 1);
    put_string(&mut image, blob);
    put_string(&mut image, ciphertext);
    image.extend_from_slice(tag);
    image
}

/// The image that the writer makes of a record, however long it gets.
fn written(record: &Record) -> Vec<u8> {
    if record.kind == ENCRYPTED {
        let codes = (record.cipher, record.kdf);
        let options = (&record.salt.bytes[..], record.rounds);
        return encrypted_image(codes, options, &record.blob.bytes, &record.ciphertext.bytes, &record.tag.bytes);
    }
    let keys: Vec<Given> = record.all_keys().map(Given::of).collect();
    image_of(&keys, record.checkint)
}

/// Stores an image that was made of what these are the words for.
fn store(image: &[u8], out: &mut [u8]) -> Result<usize, Refusal> {
    if image.len() > LIMIT {
        return refuse(11, 0, IMAGE);
    }
    if image.len() > out.len() {
        return refuse(9, 0, IMAGE);
    }
    out[..image.len()].copy_from_slice(image);
    Ok(image.len())
}

/// Lengths of the public and the private half.
fn lengths(algorithm: u8) -> (usize, usize) {
    if algorithm == ED25519 {
        return (32, 32);
    }
    let size = CURVES[usize::from(algorithm) - 1].1;
    (1 + 2 * size, size)
}

fn derived_checkint(private: &[u8]) -> u32 {
    let groups = private.chunks_exact(4);
    groups.fold(0, |sum, group| sum ^ u32::from_be_bytes([group[0], group[1], group[2], group[3]]))
}

/// Both lengths come before both halves' bytes.
fn check_halves(algorithm: u8, public: &[u8], private: &[u8]) -> Result<(), Refusal> {
    let (public_length, private_length) = lengths(algorithm);
    if public.len() != public_length {
        return refuse_part(1, "the public key");
    }
    if private.len() != private_length {
        return refuse_part(1, "the private key");
    }
    if algorithm != ED25519 && public[0] != 4 {
        return refuse_part(2, "the public key");
    }
    if algorithm != ED25519 && leading_zeros(private) == private.len() {
        return refuse_part(2, "the private key");
    }
    Ok(())
}

fn check_numbers(numbers: &[&[u8]; 6]) -> Result<(), Refusal> {
    let names = ["n", "e", "d", "iqmp", "p", "q"];
    if let Some(place) = numbers.iter().position(|number| !is_mpint(number)) {
        return refuse_part(2, names[place]);
    }
    if let Some(place) = wrong_size(numbers, 0) {
        return refuse_part(1, names[place]);
    }
    Ok(())
}

/// Writes a plain image of these keys; `derive` other than 0 derives the checkint from the first.
fn write(keys: &[Given], derive: u8, checkint: u32, out: &mut [u8]) -> Result<usize, Refusal> {
    for (key, k) in keys.iter().zip(1..) {
        of_key(key.check(), k, keys.len())?;
    }
    let checkint = if derive == 0 { checkint } else { keys[0].derived_checkint() };
    store(&image_of(keys, checkint), out)
}

/// Writes a plain image of an Ed25519 or ECDSA key; `derive` other than 0 derives the checkint.
pub fn write_plain(
    algorithm: u8,
    public: &[u8],
    private: &[u8],
    derive: u8,
    checkint: u32,
    comment: &[u8],
    out: &mut [u8],
) -> Result<usize, Refusal> {
    if algorithm > 3 {
        return refuse_part(4, "the algorithm");
    }
    write(&[Given::plain(algorithm, public, private, comment)], derive, checkint, out)
}

/// Writes a plain image of an RSA key: n, e, d, iqmp, p, q; `derive` other than 0 derives the checkint.
pub fn write_rsa(
    numbers: [&[u8]; 6],
    derive: u8,
    checkint: u32,
    comment: &[u8],
    out: &mut [u8],
) -> Result<usize, Refusal> {
    write(&[Given::rsa(numbers, comment)], derive, checkint, out)
}

/// The numbers of a key in a table: its algorithm, and start and length of each of its nine parts.
pub const ROW: usize = 19;

const KEYS_PARTS: [&str; 9] = ["the public key", "the private key", "the comment", "n", "e", "d", "iqmp", "p", "q"];

/// The parts of a row of the table; each must be within the text.
fn parts_of<'a>(row: &[u64], text: &'a [u8]) -> Result<[&'a [u8]; 9], Refusal> {
    let mut parts = [&text[..0]; 9];
    for (which, place) in row[1..].chunks(2).enumerate() {
        let (start, length) = (u128::from(place[0]), u128::from(place[1]));
        if start + length > text.len() as u128 {
            return refuse_part(1, KEYS_PARTS[which]);
        }
        parts[which] = &text[place[0] as usize..][..place[1] as usize];
    }
    Ok(parts)
}

/// Writes a plain image of keys that are places in one text.
pub fn write_keys(table: &[u64], text: &[u8], derive: u8, checkint: u32, out: &mut [u8]) -> Result<usize, Refusal> {
    let count = table.len() / ROW;
    if table.len() % ROW != 0 || !(1..=MOST_KEYS).contains(&count) {
        return refuse_part(1, "the list of keys");
    }
    let mut parts = Vec::new();
    for (row, k) in table.chunks(ROW).zip(1..) {
        parts.push(of_key(parts_of(row, text), k, count)?);
    }
    for (row, k) in table.chunks(ROW).zip(1..) {
        if row[0] > u64::from(RSA) {
            return of_key(refuse_part(4, "the algorithm"), k, count);
        }
    }
    let keys: Vec<Given> = table
        .chunks(ROW)
        .zip(&parts)
        .map(|(row, &[public, private, comment, n, e, d, iqmp, p, q])| match row[0] as u8 {
            RSA => Given::rsa([n, e, d, iqmp, p, q], comment),
            algorithm => Given::plain(algorithm, public, private, comment),
        })
        .collect();
    write(&keys, derive, checkint, out)
}

/// Writes an encrypted image.
#[allow(clippy::too_many_arguments)]
pub fn write_encrypted(
    cipher: u8,
    kdf: u8,
    salt: &[u8],
    rounds: u32,
    blob: &[u8],
    ciphertext: &[u8],
    tag: &[u8],
    out: &mut [u8],
) -> Result<usize, Refusal> {
    if cipher > 9 || kdf > 1 {
        return refuse_part(4, "a code");
    }
    if cipher == 0 {
        return refuse_part(3, "the cipher");
    }
    if kdf == 0 && (!salt.is_empty() || rounds != 0) {
        return refuse_part(3, if salt.is_empty() { "the rounds" } else { "the salt" });
    }
    let mut reader = Reader { image: blob, at: 0, end: blob.len() };
    if let Err(refusal) = read_blob(&mut reader) {
        return Err(Refusal { at: 0, field: HANDED_IN, part: refusal.field, ..refusal });
    }
    let (_, block, tag_length) = CIPHERS[usize::from(cipher)];
    if ciphertext.len() % block != 0 {
        return refuse_part(3, "the ciphertext");
    }
    if tag.len() != tag_length {
        return refuse_part(1, "the tag");
    }
    store(&encrypted_image((cipher, kdf), (salt, rounds), blob, ciphertext, tag), out)
}

/// Writes an image's record again.
pub fn rewrite(image: &[u8], out: &mut [u8]) -> Result<usize, Refusal> {
    store(&written(&read(image)?), out)
}

/// The image that the first `n` bytes of the buffer are, once it can be edited.
fn opened(buffer: &[u8], n: usize) -> Result<Record, Refusal> {
    if n > LIMIT {
        return refuse(11, 0, IMAGE);
    }
    if n > buffer.len() {
        return refuse(1, 0, IMAGE);
    }
    let record = read(&buffer[..n])?;
    if record.kind == ENCRYPTED {
        return refuse(8, 0, IMAGE);
    }
    if !record.form {
        return refuse(10, 0, IMAGE);
    }
    Ok(record)
}

/// Stores the image of the edited keys where one of `n` bytes was; its old bytes past the new end become zero.
fn closed(buffer: &mut [u8], n: usize, keys: &[Given], checkint: u32) -> Result<usize, Refusal> {
    let length = store(&image_of(keys, checkint), buffer)?;
    if length < n {
        buffer[length..n].fill(0);
    }
    Ok(length)
}

/// Changes the first key's comment.
pub fn change_comment(buffer: &mut [u8], n: usize, comment: &[u8]) -> Result<usize, Refusal> {
    change_comment_of(buffer, n, 1, comment)
}

/// Changes the comment of key k.
pub fn change_comment_of(buffer: &mut [u8], n: usize, k: u64, comment: &[u8]) -> Result<usize, Refusal> {
    let record = opened(buffer, n)?;
    let old = match record.key(k) {
        Some(key) => &key.comment,
        None => return refuse(1, 0, IMAGE),
    };
    if std::str::from_utf8(comment).is_err() {
        let refusal = refuse(7, old.start as usize - 4, "the comment's string");
        return of_key(refusal, k as usize, record.keys as usize);
    }
    let mut keys: Vec<Given> = record.all_keys().map(Given::of).collect();
    keys[k as usize - 1].comment = comment;
    closed(buffer, n, &keys, record.checkint)
}

/// Adds a key after the last.
fn add(buffer: &mut [u8], n: usize, key: Given) -> Result<usize, Refusal> {
    let record = opened(buffer, n)?;
    if record.keys == MOST_KEYS as u64 {
        return refuse(1, 0, IMAGE);
    }
    key.check()?;
    let mut keys: Vec<Given> = record.all_keys().map(Given::of).collect();
    keys.push(key);
    closed(buffer, n, &keys, record.checkint)
}

pub fn add_key(
    buffer: &mut [u8],
    n: usize,
    algorithm: u8,
    public: &[u8],
    private: &[u8],
    comment: &[u8],
) -> Result<usize, Refusal> {
    if algorithm > 3 {
        return refuse_part(4, "the algorithm");
    }
    add(buffer, n, Given::plain(algorithm, public, private, comment))
}

/// The numbers are the modulus, e, d, iqmp, p and q.
pub fn add_rsa(buffer: &mut [u8], n: usize, numbers: [&[u8]; 6], comment: &[u8]) -> Result<usize, Refusal> {
    add(buffer, n, Given::rsa(numbers, comment))
}

/// Removes key k, unless it is the only one.
pub fn remove_key(buffer: &mut [u8], n: usize, k: u64) -> Result<usize, Refusal> {
    let record = opened(buffer, n)?;
    if record.key(k).is_none() || record.keys == 1 {
        return refuse(1, 0, IMAGE);
    }
    let mut keys: Vec<Given> = record.all_keys().map(Given::of).collect();
    keys.remove(k as usize - 1);
    closed(buffer, n, &keys, record.checkint)
}
