//! Images in parts, so that a test can change one of them and have the lengths around it follow.

use super::Rng;

pub const MAGIC: &[u8] = b"openssh-key-v1\0";
pub const ALGORITHMS: [&str; 5] =
    ["ssh-ed25519", "ecdsa-sha2-nistp256", "ecdsa-sha2-nistp384", "ecdsa-sha2-nistp521", "ssh-rsa"];
pub const CURVES: [&str; 3] = ["nistp256", "nistp384", "nistp521"];
pub const CIPHERS: [&str; 10] = [
    "none", "3des-cbc", "aes128-cbc", "aes192-cbc", "aes256-cbc", "aes128-ctr", "aes192-ctr", "aes256-ctr",
    "aes128-gcm@openssh.com", "aes256-gcm@openssh.com",
];
pub const KDFS: [&str; 2] = ["none", "bcrypt"];

/// The bytes of a scalar, or of an Ed25519 seed.
pub const SIZES: [usize; 4] = [32, 32, 48, 66];

pub fn public_length(algorithm: u8) -> usize {
    match algorithm {
        0 => 32,
        _ => 1 + 2 * SIZES[usize::from(algorithm)],
    }
}

/// The two halves of an Ed25519 or ECDSA key.
#[derive(Clone)]
pub struct Key {
    pub algorithm: u8,
    pub public: Vec<u8>,
    pub private: Vec<u8>,
}

impl Key {
    pub fn new(algorithm: u8, rng: &mut Rng) -> Self {
        let mut public = rng.bytes(public_length(algorithm));
        if algorithm > 0 {
            public[0] = 4;
        }
        Self { algorithm, public, private: rng.bytes(SIZES[usize::from(algorithm)]) }
    }

    pub fn beginning(mut self, first: u8) -> Self {
        self.private[0] = first;
        self
    }

    /// The strings of the blob.
    pub fn blob(&self) -> Vec<Vec<u8>> {
        let mut strings = vec![ALGORITHMS[usize::from(self.algorithm)].into()];
        if self.algorithm > 0 {
            strings.push(CURVES[usize::from(self.algorithm) - 1].into());
        }
        strings.push(self.public.clone());
        strings
    }

    /// The same key with that many zeros at the beginning of its private half, then `first`.
    pub fn short(mut self, zeros: usize, first: u8) -> Self {
        self.private[..zeros].fill(0);
        self.private[zeros] = first;
        self
    }

    /// The private half without leading zeros.
    pub fn significant(&self) -> &[u8] {
        let zeros = self.private.iter().take_while(|byte| **byte == 0).count();
        &self.private[zeros..]
    }

    /// The strings of the section's keypair, the last of them as it is stored.
    pub fn pair_of(&self, stored: Vec<u8>) -> Vec<Vec<u8>> {
        let mut strings = self.blob();
        strings.push(stored);
        strings
    }

    /// The strings of the section's keypair, with all bytes of the scalar and with a zero before them or without one.
    pub fn pair(&self, zero: bool) -> Vec<Vec<u8>> {
        let before: &[u8] = if zero { &[0] } else { &[] };
        self.pair_of(match self.algorithm {
            0 => [&self.private[..], &self.public].concat(),
            _ => [before, &self.private].concat(),
        })
    }

    /// The strings of the section's keypair as the writer stores them: the scalar in the fewest bytes.
    pub fn pair_in_form(&self) -> Vec<Vec<u8>> {
        match self.algorithm {
            0 => self.pair(false),
            _ => self.pair_of(self.fewest_bytes()),
        }
    }

    fn fewest_bytes(&self) -> Vec<u8> {
        let number = self.significant();
        match number[0] {
            0x80.. => [&[0], number].concat(),
            _ => number.to_vec(),
        }
    }
}

/// A made-up scalar as it may be stored: zeros, then `times` times the same byte.
pub fn after_zeros(zeros: usize, byte: u8, times: usize) -> Vec<u8> {
    [vec![0; zeros], vec![byte; times]].concat()
}

/// A made-up number of that many bits, as an mpint.
pub fn mpint(bits: usize, rng: &mut Rng) -> Vec<u8> {
    let mut number = rng.bytes(bits / 8 + 1);
    let highest = 1 << (bits % 8);
    number[0] = (number[0] % highest) | (highest / 2);
    if bits % 8 == 0 {
        number[1] |= 0x80;
    }
    number
}

/// The six numbers of an RSA key: n, e, d, iqmp, p, q.
#[derive(Clone)]
pub struct RsaKey(pub [Vec<u8>; 6]);

impl RsaKey {
    /// Made-up numbers for a modulus of that many bits, with the sizes that the numbers of such a key have.
    pub fn new(bits: usize, rng: &mut Rng) -> Self {
        let half = bits / 2;
        Self([bits, 17, bits - rng.below(4), half - rng.below(4), half, half].map(|bits| mpint(bits, rng)))
    }

    pub fn numbers(&self) -> [&[u8]; 6] {
        let [n, e, d, iqmp, p, q] = &self.0;
        [n, e, d, iqmp, p, q]
    }

    /// The strings of the blob.
    pub fn blob(&self) -> Vec<Vec<u8>> {
        vec![ALGORITHMS[4].into(), self.0[1].clone(), self.0[0].clone()]
    }

    /// The strings of the section's keypair.
    pub fn pair(&self) -> Vec<Vec<u8>> {
        let mut strings = vec![ALGORITHMS[4].into()];
        strings.extend_from_slice(&self.0);
        strings
    }
}

/// An image's parts.
#[derive(Clone)]
pub struct Draft {
    pub magic: Vec<u8>,
    pub cipher: Vec<u8>,
    pub kdf: Vec<u8>,
    /// Salt and rounds; without them the options are `options_rest` alone.
    pub options: Option<(Vec<u8>, u32)>,
    pub options_rest: Vec<u8>,
    pub count: u32,
    pub blob: Vec<Vec<u8>>,
    pub blob_rest: Vec<u8>,
    /// Ciphertext and tag; without them the section is plain.
    pub sealed: Option<(Vec<u8>, Vec<u8>)>,
    pub checkints: [u32; 2],
    pub pair: Vec<Vec<u8>>,
    pub comment: Vec<u8>,
    pub padding: Vec<u8>,
    pub rest: Vec<u8>,
}

/// An image and the places of its uint32s, lengths and others.
#[derive(Clone)]
pub struct Flat {
    pub bytes: Vec<u8>,
    pub uint32s: Vec<usize>,
}

impl Flat {
    pub fn uint32(&mut self, number: usize) {
        self.uint32s.push(self.bytes.len());
        self.bytes.extend_from_slice(&(number as u32).to_be_bytes());
    }

    pub fn string(&mut self, bytes: &[u8]) {
        self.uint32(bytes.len());
        self.bytes.extend_from_slice(bytes);
    }

    pub fn around(&mut self, inner: Flat) {
        self.uint32(inner.bytes.len());
        let start = self.bytes.len();
        self.uint32s.extend(inner.uint32s.iter().map(|place| start + place));
        self.bytes.extend_from_slice(&inner.bytes);
    }

    pub fn of(strings: &[Vec<u8>]) -> Flat {
        let mut flat = Flat { bytes: Vec::new(), uint32s: Vec::new() };
        for string in strings {
            flat.string(string);
        }
        flat
    }
}

impl Draft {
    fn of(blob: Vec<Vec<u8>>, pair: Vec<Vec<u8>>, checkint: u32, comment: &[u8]) -> Self {
        let mut draft = Self {
            magic: MAGIC.to_vec(),
            cipher: "none".into(),
            kdf: "none".into(),
            options: None,
            options_rest: Vec::new(),
            count: 1,
            blob,
            blob_rest: Vec::new(),
            sealed: None,
            checkints: [checkint; 2],
            pair,
            comment: comment.to_vec(),
            padding: Vec::new(),
            rest: Vec::new(),
        };
        draft.pad();
        draft
    }

    /// A plain image with all bytes of the scalar, and with a zero before them or without one.
    pub fn plain(key: &Key, zero: bool, checkint: u32, comment: &[u8]) -> Self {
        Self::of(key.blob(), key.pair(zero), checkint, comment)
    }

    pub fn rsa(key: &RsaKey, checkint: u32, comment: &[u8]) -> Self {
        Self::of(key.blob(), key.pair(), checkint, comment)
    }

    /// A plain image whose last string of the keypair is stored so.
    pub fn stored(key: &Key, stored: Vec<u8>, checkint: u32, comment: &[u8]) -> Self {
        Self::of(key.blob(), key.pair_of(stored), checkint, comment)
    }

    /// A plain image in the writer's form.
    pub fn in_form(key: &Key, checkint: u32, comment: &[u8]) -> Self {
        Self::of(key.blob(), key.pair_in_form(), checkint, comment)
    }

    /// The plain image's header, then a made-up ciphertext of that many blocks; with KDF bcrypt or none.
    pub fn sealed(mut self, cipher: u8, bcrypt: bool, blocks: usize, rng: &mut Rng) -> Self {
        self.cipher = CIPHERS[usize::from(cipher)].into();
        self.kdf = KDFS[usize::from(bcrypt)].into();
        self.options = if bcrypt { Some((rng.bytes(16), 16)) } else { None };
        self.sealed = Some((rng.bytes(blocks * block(cipher)), rng.bytes(tag_length(cipher))));
        self
    }

    /// Gives the section the fewest padding bytes.
    pub fn pad(&mut self) {
        self.padding.clear();
        let length = self.section().bytes.len();
        self.padding = padding_of(length);
    }

    /// The fewest padding bytes of the section with these keys.
    pub fn padding_with(&self, keys: &[Draft]) -> Vec<u8> {
        let unpadded = Draft { padding: Vec::new(), ..self.clone() };
        padding_of(unpadded.section_of(keys).bytes.len())
    }

    fn section(&self) -> Flat {
        self.section_of(std::slice::from_ref(self))
    }

    /// The section with these keys.
    fn section_of(&self, keys: &[Draft]) -> Flat {
        let mut flat = Flat::of(&[]);
        flat.uint32(self.checkints[0] as usize);
        flat.uint32(self.checkints[1] as usize);
        for string in keys.iter().flat_map(|key| key.pair.iter().chain([&key.comment])) {
            flat.string(string);
        }
        flat.bytes.extend_from_slice(&self.padding);
        flat
    }

    fn options(&self) -> Flat {
        let mut flat = Flat::of(&[]);
        if let Some((salt, rounds)) = &self.options {
            flat.string(salt);
            flat.uint32(*rounds as usize);
        }
        flat.bytes.extend_from_slice(&self.options_rest);
        flat
    }

    pub fn flat(&self) -> Flat {
        self.flat_of(std::slice::from_ref(self))
    }

    /// The image with these keys: their blobs, pairs and comments, and all else of this draft.
    pub fn flat_of(&self, keys: &[Draft]) -> Flat {
        let mut flat = Flat { bytes: self.magic.clone(), uint32s: Vec::new() };
        flat.string(&self.cipher);
        flat.string(&self.kdf);
        flat.around(self.options());
        flat.uint32(self.count as usize);
        for key in keys {
            let mut blob = Flat::of(&key.blob);
            blob.bytes.extend_from_slice(&key.blob_rest);
            flat.around(blob);
        }
        match &self.sealed {
            None => flat.around(self.section_of(keys)),
            Some((ciphertext, tag)) => {
                flat.string(ciphertext);
                flat.bytes.extend_from_slice(tag);
            }
        }
        flat.bytes.extend_from_slice(&self.rest);
        flat
    }

    pub fn bytes(&self) -> Vec<u8> {
        self.flat().bytes
    }
}

/// The padding after so many bytes.
fn padding_of(length: usize) -> Vec<u8> {
    (1..=(8 - length % 8) as u8 % 8).collect()
}

pub fn blob_bytes(key: &Key) -> Vec<u8> {
    strings_bytes(&key.blob())
}

pub fn strings_bytes(strings: &[Vec<u8>]) -> Vec<u8> {
    Flat::of(strings).bytes
}

pub fn tag_length(cipher: u8) -> usize {
    if cipher >= 8 {
        16
    } else {
        0
    }
}

pub fn block(cipher: u8) -> usize {
    if cipher <= 1 {
        8
    } else {
        16
    }
}

pub fn sealed(algorithm: u8, cipher: u8, bcrypt: bool, blocks: usize, rng: &mut Rng) -> Draft {
    Draft::plain(&Key::new(algorithm, rng), false, 0, b"").sealed(cipher, bcrypt, blocks, rng)
}

/// Beginnings of a stored scalar that is shorter than its curve's size: two in the form, one that lacks its zero, one with zeros too
/// many.
const SHORT: [&[u8]; 4] = [&[0x7f], &[0, 0x80], &[0x80], &[0, 0, 0x01]];

/// How many plain images there are for each comment.
pub const PLAIN_DRAFTS: usize = 16;

/// Plain images of every kind but RSA: comments of several lengths, scalars in the form and out of it, long and short.
pub fn plain_drafts(rng: &mut Rng) -> Vec<Draft> {
    let comments: [&[u8]; 4] = [b"", b"oven7", b"oven 7", "Bäckerei Süd, Ofen 7".as_bytes()];
    let mut drafts = Vec::new();
    for (comment, short) in comments.into_iter().zip(SHORT) {
        drafts.push(Draft::plain(&Key::new(0, rng), false, rng.uint32(), comment));
        for algorithm in 1..4 {
            for (first, zero) in [(0x7f, false), (0x80, true), (0x7f, true), (0x80, false)] {
                let key = Key::new(algorithm, rng).beginning(first);
                drafts.push(Draft::plain(&key, zero, rng.uint32(), comment));
            }
            let rest = rng.below(SIZES[usize::from(algorithm)] - short.len());
            let stored = [short, &rng.bytes(rest)].concat();
            drafts.push(Draft::stored(&Key::new(algorithm, rng), stored, rng.uint32(), comment));
        }
    }
    drafts
}

/// Encrypted images of every cipher with every kind but RSA, and of every cipher with both KDFs.
pub fn sealed_drafts(rng: &mut Rng) -> Vec<Draft> {
    let mut drafts = Vec::new();
    for cipher in 1..10 {
        for algorithm in 0..4 {
            let blocks = drafts.len() % 5;
            drafts.push(sealed(algorithm, cipher, (algorithm + cipher) % 2 == 0, blocks, rng));
        }
    }
    drafts
}

/// Images of small RSA keys: two plain ones, two encrypted ones.
pub fn rsa_drafts(rng: &mut Rng) -> Vec<Draft> {
    let plain = |bits, comment: &[u8], rng: &mut Rng| Draft::rsa(&RsaKey::new(bits, rng), rng.uint32(), comment);
    vec![
        plain(1_024, b"", rng),
        plain(1_025, b"silo 3", rng),
        plain(1_024, b"", rng).sealed(7, true, 2, rng),
        plain(1_031, b"", rng).sealed(9, false, 0, rng),
    ]
}

/// How many images [`drafts`] gives.
pub const DRAFTS: u64 = 104;

pub fn drafts(rng: &mut Rng) -> Vec<Draft> {
    let mut all = plain_drafts(rng);
    all.extend(sealed_drafts(rng));
    all.extend(rsa_drafts(rng));
    assert_eq!(all.len() as u64, DRAFTS);
    all
}
