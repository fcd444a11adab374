//! Which field of an image a refusal is about, and what is wrong with it: a walk through the bytes after the refusal.

use crate::cause::{Cause, Named};
use crate::frame::is_framed;
use crate::judge::{bits, of_the_image, unknown, wrong_curve, wrong_length, wrong_modulus, wrong_mpint, wrong_scalar};
use crate::judge::{LEFT_OVER, MAGIC};
use crate::{Cipher, EcdsaCurve, Field};

/// The failing field and its fault as the `Err`, so that `?` ends the walk there.
type Step<T> = Result<T, (Field, Cause)>;

/// The failing field, what is wrong with it, and of several keys the number of the one that it is of.
pub(crate) struct Fault {
    pub field: Field,
    pub cause: Cause,
    pub key: Option<usize>,
}

impl From<(Field, Cause)> for Fault {
    fn from((field, cause): (Field, Cause)) -> Self {
        Self { field, cause, key: None }
    }
}

/// A step of key `k` of so many.
fn of_key<T>(step: Step<T>, k: usize, count: usize) -> Result<T, Fault> {
    step.map_err(|fault| Fault { key: Some(k).filter(|_| count > 1), ..fault.into() })
}

/// The field that a refusal of `image` with this number and place is about, and its fault. All before it was read without a
/// refusal, so lengths and names are enough to find it.
pub(crate) fn refused(image: &[u8], number: u64, place: usize) -> Fault {
    if place == 0 {
        return (Field::Image, of_the_image(image, number)).into();
    }
    let left = image.get(MAGIC.len()..).unwrap_or_default();
    let walk = Walk { left, at: MAGIC.len(), number, place: Some(place) };
    let untold = if number == LEFT_OVER { Cause::LeftOver } else { Cause::Untold };
    let fault = walk.image().err().unwrap_or_else(|| (Field::Image, untold).into());
    if fault.field.is_of_the_section() || !is_framed(left, fault.field) {
        return Fault { cause: fault.cause.without_figures(), ..fault };
    }
    fault
}

/// The first field with a fault of this number in a blob that was handed in, and the fault. Nobody knows that it is a blob: no byte
/// of it is shown.
pub(crate) fn refused_blob(blob: &[u8], number: u64) -> (Field, Cause) {
    let walk = Walk { left: blob, at: 0, number, place: None };
    let (field, cause) = walk.inside_blob().err().unwrap_or((Field::Blob, Cause::Untold));
    (field, cause.without_figures())
}

/// A walk through the fields of an image, or of one of its strings, in the order of reading.
#[derive(Clone, Copy)]
struct Walk<'a> {
    left: &'a [u8],
    at: usize,
    number: u64,
    /// Where the refusal is; none where the first field with a fault of that number is looked for.
    place: Option<usize>,
}

impl<'a> Walk<'a> {
    fn image(mut self) -> Result<(), Fault> {
        let cipher = self.leaf(Field::CipherName, |number, name| unknown(Named::Cipher, number, name))?;
        let kdf = self.leaf(Field::KdfName, |number, name| match number {
            3 => Some(Cause::KdfWithoutCipher),
            _ => unknown(Named::Kdf, number, name),
        })?;
        self.options(kdf)?;
        let cipher = Cipher::from_name(cipher).unwrap_or(Cipher::None);
        let count = self.key_count(cipher)?;
        for k in 1..=count {
            of_key(self.string(Field::Blob).and_then(Walk::inside_blob), k, count)?;
        }
        match cipher {
            Cipher::None => self.section(count),
            cipher => Ok(self.ciphertext(cipher)?),
        }
    }

    fn options(&mut self, kdf: &[u8]) -> Step<()> {
        let here = self.is_here();
        let mut options = self.string(Field::KdfOptions)?;
        if here {
            return Err((Field::KdfOptions, Cause::OptionsWithoutKdf { has: options.left.len() }));
        }
        if kdf == b"bcrypt" {
            options.leaf(Field::Salt, |_, _| None)?;
            let left = options.left.len();
            options.take(4).ok_or((Field::Rounds, Cause::AreCut { needs: 4, left }))?;
        }
        options.rest(Field::KdfOptions)
    }

    fn key_count(&mut self, cipher: Cipher) -> Step<usize> {
        let here = self.is_here();
        match (self.uint32(Field::KeyCount)?, cipher) {
            (count, Cipher::None) if here => Err((Field::KeyCount, Cause::KeyCount(count))),
            (count, _) if here => Err((Field::KeyCount, Cause::SealedCount(count))),
            (count, _) => Ok(count as usize),
        }
    }

    fn inside_blob(mut self) -> Step<()> {
        let name = self.leaf(Field::BlobKeyName, |number, name| unknown(Named::Key, number, name))?;
        self.strings(blob_fields(name))?;
        self.rest(Field::Blob)
    }

    fn ciphertext(&mut self, cipher: Cipher) -> Step<()> {
        let block = cipher.block_size();
        self.leaf(Field::Ciphertext, |_, bytes| Some(Cause::NotWhole { has: bytes.len(), block }))?;
        self.fixed(Field::Tag, cipher.tag_length()).map(|_| ())
    }

    fn section(&mut self, count: usize) -> Result<(), Fault> {
        let mut section = self.checkints()?;
        for k in 1..=count {
            of_key(section.entry(), k, count)?;
        }
        Ok(section.padding()?)
    }

    /// The section up to its first key; answers a walk through the rest of it.
    fn checkints(&mut self) -> Step<Walk<'a>> {
        let mut section = self.string(Field::SectionString)?;
        let has = section.left.len();
        if has % 8 != 0 {
            return Err((Field::Section, Cause::NotWhole { has, block: 8 }));
        }
        section.take(4).ok_or((Field::FirstCheckint, Cause::NoCheckints))?;
        if section.is_here() {
            return Err((Field::SecondCheckint, Cause::Checkints));
        }
        section.uint32(Field::SecondCheckint)?;
        Ok(section)
    }

    /// A keypair and its comment.
    fn entry(&mut self) -> Step<()> {
        let name = self.leaf(Field::SectionKeyName, |number, name| match number {
            5 => Some(Cause::OtherKey),
            _ => unknown(Named::Key, number, name),
        })?;
        self.strings(pair_fields(name))?;
        self.leaf(Field::Comment, |_, _| Some(Cause::NotUtf8)).map(|_| ())
    }

    fn padding(&self) -> Step<()> {
        let has = self.left.len();
        match self.number {
            _ if !self.is_here() => Ok(()),
            1 => Err((Field::Padding, Cause::AtMost { has, most: 7 })),
            _ => Err((Field::Padding, Cause::PaddingBytes)),
        }
    }

    /// The strings of a key, in their order.
    fn strings(&mut self, fields: &[Field]) -> Step<()> {
        let mut size = 0;
        for field in fields {
            let before = *self;
            let string = self.leaf(*field, |number, bytes| before.fault(*field, size, number, bytes))?;
            size = EcdsaCurve::from_name(string).map_or(size, EcdsaCurve::size);
        }
        Ok(())
    }

    /// The fault of a key's string with this number, if it has one. `self` stands before the string, and the curve has this size.
    fn fault(&self, field: Field, size: usize, number: u64, bytes: &[u8]) -> Option<Cause> {
        match (field, number) {
            (Field::BlobPublicKey | Field::SectionPublicKey, _) => wrong_length(bytes, 32, number),
            (Field::Seed, 3) => Some(Cause::OtherHalf),
            (Field::Seed, _) => wrong_length(bytes, 64, number),
            (Field::BlobCurve | Field::SectionCurve, 4) => Some(wrong_curve(bytes)),
            (Field::BlobPoint | Field::SectionPoint, 2) if bytes.first() != Some(&4) => Some(Cause::NotFour),
            (Field::BlobPoint | Field::SectionPoint, _) => wrong_length(bytes, 1 + 2 * size, number),
            (Field::Scalar, _) => Some(wrong_scalar(bytes, size)),
            (_, 2) => wrong_mpint(bytes),
            (Field::BlobN | Field::SectionN, 1) => wrong_modulus(bytes),
            (Field::BlobE, 1) => self.more_bits_than_n(bytes),
            (Field::SectionE | Field::D | Field::Iqmp | Field::P | Field::Q, 1) => Some(Cause::MoreBits),
            _ => None,
        }
    }

    /// The fault of an e that stands before n.
    fn more_bits_than_n(mut self, e: &[u8]) -> Option<Cause> {
        self.string(Field::BlobE).ok()?;
        let n = self.string(Field::BlobN).ok()?.left;
        if bits(e) > bits(n) {
            return Some(Cause::MoreBits);
        }
        None
    }

    /// A string that has no fields inside, and what may be wrong with it by its number and bytes; answers what it holds.
    fn leaf(&mut self, field: Field, fault: impl Fn(u64, &[u8]) -> Option<Cause>) -> Step<&'a [u8]> {
        let asked = self.is_here() || self.place.is_none();
        let inside = self.string(field)?;
        if asked {
            return fault(self.number, inside.left).map_or(Ok(inside.left), |cause| Err((field, cause)));
        }
        inside.rest(field)?;
        Ok(inside.left)
    }

    /// A string; answers a walk through what it holds.
    fn string(&mut self, field: Field) -> Step<Walk<'a>> {
        let left = self.left.len();
        let length = self.take(4).map(uint32).ok_or((field, Cause::NoLength { left }))? as usize;
        let inside = *self;
        match self.take(length) {
            Some(left) => Ok(Walk { left, ..inside }),
            None => Err((field, Cause::PastEnd { says: length, left: self.left.len() })),
        }
    }

    fn uint32(&mut self, field: Field) -> Step<u32> {
        self.fixed(field, 4).map(uint32)
    }

    fn fixed(&mut self, field: Field, needs: usize) -> Step<&'a [u8]> {
        let left = self.left.len();
        self.take(needs).ok_or((field, Cause::Cut { needs, left }))
    }

    fn take(&mut self, length: usize) -> Option<&'a [u8]> {
        let (taken, left) = (self.left.get(..length)?, &self.left[length..]);
        self.left = left;
        self.at += length;
        Some(taken)
    }

    /// A field begins here: is it the one?
    fn is_here(&self) -> bool {
        self.number != LEFT_OVER && self.place == Some(self.at)
    }

    /// What is left of a field: are the bytes left over among it?
    fn rest(&self, field: Field) -> Step<()> {
        let rest = self.at..self.at + self.left.len();
        let is_here = self.place.map_or(!rest.is_empty(), |place| rest.contains(&place));
        if self.number == LEFT_OVER && is_here {
            return Err((field, Cause::LeftOver));
        }
        Ok(())
    }
}

/// The strings after a key name in the blob. A name that isn't known ended the reading, so what remains is ECDSA.
fn blob_fields(name: &[u8]) -> &'static [Field] {
    match name {
        b"ssh-ed25519" => &[Field::BlobPublicKey],
        b"ssh-rsa" => &[Field::BlobE, Field::BlobN],
        _ => &[Field::BlobCurve, Field::BlobPoint],
    }
}

/// The strings after a key name in the section, up to the comment.
fn pair_fields(name: &[u8]) -> &'static [Field] {
    match name {
        b"ssh-ed25519" => &[Field::SectionPublicKey, Field::Seed],
        b"ssh-rsa" => &[Field::SectionN, Field::SectionE, Field::D, Field::Iqmp, Field::P, Field::Q],
        _ => &[Field::SectionCurve, Field::SectionPoint, Field::Scalar],
    }
}

pub(crate) fn uint32(bytes: &[u8]) -> u32 {
    bytes.iter().fold(0, |number, byte| number << 8 | u32::from(*byte))
}
