//! Writing an image of several keys.

use core::fmt;
use core::ops::Range;

use crate::c;
#[cfg(feature = "alloc")]
use crate::handed::of_keys;
use crate::handed::of_places;
use crate::{Algorithm, Checkint, Error, PlainKey, RsaKey, MAX_KEYS};
#[cfg(feature = "alloc")]
use alloc::vec::Vec;

/// The numbers of a key in the C interface's table: its algorithm, and start and length of each of its nine parts.
const ROW: usize = 19;
type Row = [u64; ROW];

/// A code that names no algorithm.
const NO_CODE: u8 = u8::MAX;

/// The code of a key that isn't RSA's; of RSA none, so that it is refused.
fn code(algorithm: Algorithm) -> u8 {
    match algorithm {
        Algorithm::Rsa => NO_CODE,
        other => other.code(),
    }
}

/// A key and its comment, to be written beside others or added to them.
#[derive(Clone, Copy)]
pub struct KeyRef<'a> {
    pub(crate) key: AnyKey<'a>,
    pub(crate) comment: &'a [u8],
}

/// A key of either sort.
#[derive(Clone, Copy, Debug)]
pub(crate) enum AnyKey<'a> {
    Plain(PlainKey<'a>),
    Rsa(RsaKey<'a>),
}

impl<'a> KeyRef<'a> {
    /// An Ed25519 or ECDSA key. Its own checkint isn't looked at: an image has one for all its keys.
    pub fn plain(key: &PlainKey<'a>, comment: &'a (impl AsRef<[u8]> + ?Sized)) -> Self {
        Self { key: AnyKey::Plain(*key), comment: comment.as_ref() }
    }

    /// An RSA key. Its own checkint isn't looked at, either.
    pub fn rsa(key: &RsaKey<'a>, comment: &'a (impl AsRef<[u8]> + ?Sized)) -> Self {
        Self { key: AnyKey::Rsa(*key), comment: comment.as_ref() }
    }

    /// The code and the parts, in the order of a row.
    #[cfg(feature = "alloc")]
    fn parts(&self) -> (u8, [&'a [u8]; 9]) {
        match self.key {
            AnyKey::Plain(key) => {
                (code(key.algorithm), [key.public, key.private, self.comment, &[], &[], &[], &[], &[], &[]])
            }
            AnyKey::Rsa(key) => {
                (Algorithm::Rsa.code(), [&[], &[], self.comment, key.n, key.e, key.d, key.iqmp, key.p, key.q])
            }
        }
    }
}

/// A key whose parts, its comment among them, are places in one text: the key files that were read, or the image itself.
#[derive(Clone, Copy, PartialEq, Eq)]
pub struct KeyPlaces {
    row: Row,
}

impl KeyPlaces {
    /// An Ed25519 or ECDSA key: the places of what a [`PlainKey`] has, and of the comment.
    pub fn plain(algorithm: Algorithm, public: Range<usize>, private: Range<usize>, comment: Range<usize>) -> Self {
        Self::of(code(algorithm), [public, private, comment, 0..0, 0..0, 0..0, 0..0, 0..0, 0..0])
    }

    /// An RSA key: the places of n, e, d, iqmp, p and q, which an [`RsaKey`] has, and of the comment.
    pub fn rsa(numbers: [Range<usize>; 6], comment: Range<usize>) -> Self {
        let [n, e, d, iqmp, p, q] = numbers;
        Self::of(Algorithm::Rsa.code(), [0..0, 0..0, comment, n, e, d, iqmp, p, q])
    }

    fn of(code: u8, parts: [Range<usize>; 9]) -> Self {
        let mut row = [0; ROW];
        row[0] = u64::from(code);
        for (part, place) in parts.into_iter().zip(row[1..].chunks_exact_mut(2)) {
            // A range that ends before it begins is within no text.
            let length = part.end.checked_sub(part.start).map_or(u64::MAX, |length| length as u64);
            place.copy_from_slice(&[part.start as u64, length]);
        }
        Self { row }
    }

    /// The parts in the order of a row, each none where it isn't within the text.
    pub(crate) fn parts<'a>(&self, text: &'a [u8]) -> [Option<&'a [u8]>; 9] {
        let mut parts = [None; 9];
        for (part, place) in parts.iter_mut().zip(self.row[1..].chunks_exact(2)) {
            let end = place[0].checked_add(place[1]);
            *part = end.and_then(|end| text.get(place[0] as usize..usize::try_from(end).ok()?));
        }
        parts
    }

    /// The key of these parts.
    pub(crate) fn key_ref<'a>(&self, parts: [&'a [u8]; 9]) -> KeyRef<'a> {
        let [public, private, comment, n, e, d, iqmp, p, q] = parts;
        let checkint = Checkint::Derived;
        let key = match Algorithm::from_code(self.row[0]) {
            Some(Algorithm::Rsa) => AnyKey::Rsa(RsaKey { n, e, d, iqmp, p, q, checkint }),
            other => {
                let algorithm = other.unwrap_or(Algorithm::Rsa);
                AnyKey::Plain(PlainKey { algorithm, public, private, checkint })
            }
        };
        KeyRef { key, comment }
    }
}

/// The C interface's table: a row for each key, and for one too many, so that it is refused.
struct Table {
    numbers: [u64; ROW * (MAX_KEYS + 1)],
    len: usize,
}

impl Table {
    fn of(rows: impl Iterator<Item = Row>) -> Self {
        let mut table = Self { numbers: [0; ROW * (MAX_KEYS + 1)], len: 0 };
        for (row, place) in rows.zip(table.numbers.chunks_exact_mut(ROW)) {
            place.copy_from_slice(&row);
            table.len += ROW;
        }
        table
    }

    fn write(&self, text: &[u8], checkint: Checkint, out: &mut [u8]) -> c::Reply {
        let (derive, checkint) = checkint.codes();
        c::write_keys(&self.numbers[..self.len], text, derive, checkint, out)
    }
}

/// Writes a plain image of 1 to 16 keys, in this order, to the start of `out` and answers its length; the bytes past it stay. A
/// derived checkint is the first key's. All parts are copied into one text first, private ones too, and nobody wipes that;
/// [`write_keys_in`] takes such a text from its caller.
///
/// Refused, in this order: no key, or more than 16 (1); RSA as a [`PlainKey`] (4); then in the keys' order what
/// [`write_plain`](crate::write_plain) or [`write_rsa`](crate::write_rsa) refuses of each, up to its comment (7); an image above
/// 65,535 bytes (11) or longer than `out` (9). Then no byte of `out` changes.
///
/// ```
/// use saltorchard::{write_keys, Algorithm, Checkint, Image, KeyRef, PlainKey};
///
/// let (algorithm, checkint) = (Algorithm::Ed25519, Checkint::Derived);
/// let oven = PlainKey { algorithm, public: &[7; 32], private: &[1; 32], checkint }; // made up
/// let mixer = PlainKey { algorithm, public: &[8; 32], private: &[2; 32], checkint };
/// let mut out = [0; 1024];
/// let len = write_keys(&[KeyRef::plain(&oven, "oven7"), KeyRef::plain(&mixer, "mixer")], checkint, &mut out)?;
/// let comments: Vec<&str> = Image::read(&out[..len])?.keys().map(|key| key.comment()).collect();
/// assert_eq!(comments, ["oven7", "mixer"]);
/// # Ok::<(), saltorchard::Error>(())
/// ```
#[cfg(feature = "alloc")]
pub fn write_keys(keys: &[KeyRef<'_>], checkint: Checkint, out: &mut [u8]) -> Result<usize, Error> {
    let some = &keys[..keys.len().min(MAX_KEYS + 1)];
    let all = some.iter().flat_map(|key| key.parts().1).map(<[u8]>::len).sum();
    // A text that grows would leave copies behind.
    let mut text = Vec::with_capacity(all);
    let table = Table::of(some.iter().map(|key| row_in(key, &mut text)));
    Error::written_keys(table.write(&text, checkint, out), |number| of_keys(keys.len(), some.iter().copied(), number))
}

/// A key's row, its parts put at the end of the text.
#[cfg(feature = "alloc")]
fn row_in(key: &KeyRef<'_>, text: &mut Vec<u8>) -> Row {
    let (code, parts) = key.parts();
    let places = parts.map(|part| {
        let start = text.len();
        text.extend_from_slice(part);
        start..text.len()
    });
    KeyPlaces::of(code, places).row
}

/// Writes a plain image of 1 to 16 keys as `write_keys` does, with its refusals. The keys' parts are places in `text`, in any order,
/// with anything around them, and they may overlap; a part that isn't within the text is refused (1) before all but the number of keys.
/// It allocates nothing, and makes no copy beside `out`.
///
/// ```
/// use saltorchard::{write_keys_in, Algorithm, Checkint, Image, KeyPlaces};
///
/// let text = [[1; 32], [7; 32], [2; 32], [8; 32]].concat(); // made up: a seed, its public half, another seed, its public half
/// let oven = KeyPlaces::plain(Algorithm::Ed25519, 32..64, 0..32, 0..0);
/// let mixer = KeyPlaces::plain(Algorithm::Ed25519, 96..128, 64..96, 0..0);
/// let mut out = [0; 1024];
/// let len = write_keys_in(&text, &[oven, mixer], Checkint::Derived, &mut out)?;
/// assert_eq!(Image::read(&out[..len])?.key_count(), 2);
/// # Ok::<(), saltorchard::Error>(())
/// ```
pub fn write_keys_in(text: &[u8], keys: &[KeyPlaces], checkint: Checkint, out: &mut [u8]) -> Result<usize, Error> {
    let table = Table::of(keys.iter().map(|key| key.row));
    Error::written_keys(table.write(text, checkint, out), |number| of_places(text, keys, number))
}

/// The algorithm and lengths; no private byte, and no checkint.
impl fmt::Debug for KeyRef<'_> {
    fn fmt(&self, f: &mut fmt::Formatter<'_>) -> fmt::Result {
        let name: &dyn fmt::Debug = match &self.key {
            AnyKey::Plain(key) => key,
            AnyKey::Rsa(key) => key,
        };
        f.debug_struct("KeyRef").field("key", name).field("comment_len", &self.comment.len()).finish_non_exhaustive()
    }
}

/// The algorithm; no place tells a byte, but the lengths of private numbers aren't shown.
impl fmt::Debug for KeyPlaces {
    fn fmt(&self, f: &mut fmt::Formatter<'_>) -> fmt::Result {
        let algorithm = Algorithm::from_code(self.row[0]).unwrap_or(Algorithm::Rsa);
        f.debug_struct("KeyPlaces").field("algorithm", &algorithm).finish_non_exhaustive()
    }
}
