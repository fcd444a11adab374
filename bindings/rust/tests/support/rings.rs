//! Several keys: as a writer takes them, and in an image's parts, so that a test can change one of them.

use super::images::{Draft, Flat, Key, RsaKey, ALGORITHMS};
use super::model::ROW;
use super::Rng;

/// A key of any kind.
#[derive(Clone)]
pub enum Any {
    Curve(Key),
    Rsa(RsaKey),
}

/// A key and its comment.
#[derive(Clone)]
pub struct Commented {
    pub key: Any,
    pub comment: Vec<u8>,
}

impl Commented {
    pub fn new(algorithm: u8, comment: &[u8], rng: &mut Rng) -> Self {
        let key = match algorithm {
            4 => Any::Rsa(RsaKey::new(1_024 + rng.below(9), rng)),
            _ => Any::Curve(Key::new(algorithm, rng)),
        };
        Self { key, comment: comment.to_vec() }
    }

    pub fn algorithm(&self) -> u8 {
        match &self.key {
            Any::Curve(key) => key.algorithm,
            Any::Rsa(_) => ALGORITHMS.len() as u8 - 1,
        }
    }

    /// The code and the nine parts, as a row of a table has them.
    pub fn parts(&self) -> (u8, [&[u8]; 9]) {
        let none: &[u8] = &[];
        let parts = match &self.key {
            Any::Curve(key) => [&key.public, &key.private, &self.comment, none, none, none, none, none, none],
            Any::Rsa(key) => {
                let [n, e, d, iqmp, p, q] = key.numbers();
                [none, none, &self.comment, n, e, d, iqmp, p, q]
            }
        };
        (self.algorithm(), parts)
    }

    /// The key alone in an image, in the writer's form.
    pub fn draft(&self, checkint: u32) -> Draft {
        match &self.key {
            Any::Curve(key) => Draft::in_form(key, checkint, &self.comment),
            Any::Rsa(key) => Draft::rsa(key, checkint, &self.comment),
        }
    }

    pub fn commented(&self, comment: &[u8]) -> Self {
        Self { comment: comment.to_vec(), ..self.clone() }
    }
}

/// So many keys of all kinds in turn, the first of the given kind; RSA only where `rsa` is so.
pub fn mixed(count: usize, first: usize, rsa: bool, rng: &mut Rng) -> Vec<Commented> {
    let kinds = if rsa { 5 } else { 4 };
    let comments: [&[u8]; 5] = [b"", b"oven7", b"oven 17, line 3", "Bäckerei Süd".as_bytes(), b"c"];
    (0..count).map(|place| Commented::new(((first + place) % kinds) as u8, comments[place % 5], rng)).collect()
}

/// A text with all parts, one after another, and the table of their places.
pub fn tabled(keys: &[Commented]) -> (Vec<u64>, Vec<u8>) {
    let (mut table, mut text) = (Vec::with_capacity(ROW * keys.len()), Vec::new());
    for key in keys {
        let (code, parts) = key.parts();
        table.push(u64::from(code));
        for part in parts {
            table.extend([text.len() as u64, part.len() as u64]);
            text.extend_from_slice(part);
        }
    }
    (table, text)
}

/// An image of several keys in parts: each draft has a blob, a keypair and a comment, and the first one has all else.
#[derive(Clone)]
pub struct Ring(pub Vec<Draft>);

impl Ring {
    pub fn of(keys: &[Commented], checkint: u32) -> Self {
        let mut ring = Self(keys.iter().map(|key| key.draft(checkint)).collect());
        ring.0[0].count = keys.len() as u32;
        ring.pad();
        ring
    }

    /// Gives the section the fewest padding bytes.
    pub fn pad(&mut self) {
        self.0[0].padding = self.0[0].padding_with(&self.0);
    }

    pub fn flat(&self) -> Flat {
        self.0[0].flat_of(&self.0)
    }

    pub fn bytes(&self) -> Vec<u8> {
        self.flat().bytes
    }

    /// The same with another draft for one of the keys; of the first its other parts are taken, too.
    pub fn with(&self, place: usize, draft: Draft) -> Self {
        let mut ring = self.clone();
        ring.0[place] = draft;
        ring
    }
}

/// The image of these keys in the writer's form.
pub fn image_of(keys: &[Commented], checkint: u32) -> Vec<u8> {
    Ring::of(keys, checkint).bytes()
}
