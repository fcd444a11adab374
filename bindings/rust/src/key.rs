//! One key of an image, and all of them in their order.

use core::fmt;
use core::iter::FusedIterator;

use crate::accepted::part_of;
use crate::c;
use crate::{Algorithm, Checkint, EcdsaCurve, KeyRef, PlainKey, RsaKey};

/// A key of an image, with its own comment: one of several, or the only one. It borrows the bytes of the image, and so do the parts
/// that it answers: nothing is copied. Of an encrypted image it says what the header does, and its private parts are empty.
#[derive(Clone, Copy)]
pub struct Key<'a> {
    read: Found<'a>,
}

/// The image's bytes, the C interface's numbers for a key in them, and its code by name.
#[derive(Clone, Copy)]
struct Found<'a> {
    bytes: &'a [u8],
    fields: c::Key,
    algorithm: Algorithm,
}

impl<'a> Found<'a> {
    fn part(&self, part: c::Part) -> &'a [u8] {
        part_of(self.bytes, part)
    }
}

impl<'a> Key<'a> {
    /// Key `k` of an image.
    pub(crate) fn found(bytes: &'a [u8], k: usize) -> Option<Self> {
        let fields = c::read_key(bytes, k as u64);
        if fields.number != 0 {
            return None;
        }
        let algorithm = Algorithm::from_code(fields.algorithm)?;
        Some(Self { read: Found { bytes, fields, algorithm } })
    }

    what_a_blob_says!();
    what_a_section_says!();

    /// **Private.** The key with its comment, for [`write_keys`](crate::write_keys) and
    /// [`LentImage::add_key`](crate::LentImage::add_key). An ECDSA scalar is copied into `room` with its leading zeros, as
    /// [`full_scalar`](Self::full_scalar) does; `room` is the caller's to wipe. The key of an encrypted image, which has no private
    /// part, is refused where it is written.
    pub fn key_ref<'r>(&self, room: &'r mut [u8; EcdsaCurve::MAX_SIZE]) -> KeyRef<'r>
    where
        'a: 'r,
    {
        let (algorithm, checkint) = (self.algorithm(), Checkint::Derived);
        if algorithm == Algorithm::Rsa {
            let (n, e) = (self.modulus(), self.exponent());
            let key = RsaKey { n, e, d: self.d(), iqmp: self.iqmp(), p: self.p(), q: self.q(), checkint };
            return KeyRef::rsa(&key, self.comment());
        }
        let key = PlainKey { algorithm, public: self.point(), private: self.full_scalar(room), checkint };
        KeyRef::plain(&key, self.comment())
    }
}

/// The algorithm and the comment; no private byte.
impl fmt::Debug for Key<'_> {
    fn fmt(&self, f: &mut fmt::Formatter<'_>) -> fmt::Result {
        f.debug_struct("Key")
            .field("algorithm", &self.algorithm())
            .field("comment", &self.comment())
            .finish_non_exhaustive()
    }
}

/// The keys of an image, in their order.
#[derive(Clone)]
pub struct Keys<'a> {
    bytes: &'a [u8],
    next: usize,
    last: usize,
}

impl<'a> Keys<'a> {
    pub(crate) fn new(bytes: &'a [u8], last: usize) -> Self {
        Self { bytes, next: 1, last }
    }
}

impl<'a> Iterator for Keys<'a> {
    type Item = Key<'a>;

    fn next(&mut self) -> Option<Key<'a>> {
        if self.next > self.last {
            return None;
        }
        self.next += 1;
        Key::found(self.bytes, self.next - 1)
    }

    fn size_hint(&self) -> (usize, Option<usize>) {
        let left = self.last + 1 - self.next;
        (left, Some(left))
    }
}

impl DoubleEndedIterator for Keys<'_> {
    fn next_back(&mut self) -> Option<Self::Item> {
        if self.next > self.last {
            return None;
        }
        self.last -= 1;
        Key::found(self.bytes, self.last + 1)
    }
}

impl ExactSizeIterator for Keys<'_> {}
impl FusedIterator for Keys<'_> {}

/// How many keys are left.
impl fmt::Debug for Keys<'_> {
    fn fmt(&self, f: &mut fmt::Formatter<'_>) -> fmt::Result {
        f.debug_struct("Keys").field("left", &self.len()).finish_non_exhaustive()
    }
}
