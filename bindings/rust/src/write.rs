//! Writing an image into a lent buffer, or into a new one.

use core::fmt;

use crate::c;
use crate::handed::{of_encrypted, of_plain, of_rsa};
#[cfg(feature = "alloc")]
use crate::MAX_IMAGE_LEN;
use crate::{Algorithm, Cipher, Error, KdfAlg};
#[cfg(feature = "alloc")]
use alloc::{vec, vec::Vec};

/// The number that stands twice before the keys in a plain section.
#[derive(Clone, Copy, PartialEq, Eq)]
pub enum Checkint {
    /// This one.
    Given(u32),
    /// The xor of the private bytes' big-endian groups of four, a shorter rest ignored. For ECDSA these are as many bytes as the
    /// curve's size, leading zeros included; for RSA they are d's, a zero before them included. Of several keys they are the first
    /// one's.
    Derived,
}

impl Checkint {
    /// The C interface's two numbers for it: whether to derive one, and the given one.
    pub(crate) fn codes(self) -> (u8, u32) {
        match self {
            Self::Given(checkint) => (0, checkint),
            Self::Derived => (1, 0),
        }
    }
}

/// An Ed25519 or ECDSA key for a plain image. Nobody checks that the two halves belong together.
#[derive(Clone, Copy)]
pub struct PlainKey<'a> {
    /// The algorithm; RSA is refused, it has an [`RsaKey`].
    pub algorithm: Algorithm,
    /// Ed25519: the 32 public bytes. ECDSA: the uncompressed point, a byte 4 and two coordinates of the curve's size.
    pub public: &'a [u8],
    /// **Private.** Ed25519: the seed of 32 bytes. ECDSA: the scalar, as many bytes as the [curve's size](crate::EcdsaCurve::size),
    /// a short one with zeros in front. [`Image::full_scalar`](crate::Image::full_scalar) gives both so.
    pub private: &'a [u8],
    /// The checkint.
    pub checkint: Checkint,
}

/// An RSA key for a plain image. Each number is an mpint without its length: big-endian, positive and in the fewest bytes, with
/// a zero before a first byte of 0x80 or more. Nobody checks that the numbers belong together.
#[derive(Clone, Copy)]
pub struct RsaKey<'a> {
    /// The modulus, of 1,024 to 8,192 bits. No other number has more bits.
    pub n: &'a [u8],
    /// The public exponent.
    pub e: &'a [u8],
    /// **Private.** The private exponent.
    pub d: &'a [u8],
    /// **Private.** The inverse of q modulo p.
    pub iqmp: &'a [u8],
    /// **Private.** The first prime.
    pub p: &'a [u8],
    /// **Private.** The second prime.
    pub q: &'a [u8],
    /// The checkint.
    pub checkint: Checkint,
}

/// The parts of an encrypted image, made by whoever has the cipher.
#[derive(Clone, Copy)]
pub struct EncryptedKey<'a> {
    /// The cipher; `none` is refused.
    pub cipher: Cipher,
    /// The KDF's kind.
    pub kdf: KdfAlg,
    /// The KDF's salt; must be empty for KDF `none`.
    pub salt: &'a [u8],
    /// The KDF's rounds; must be 0 for KDF `none`.
    pub rounds: u32,
    /// The encoded public key, without a length before it.
    pub blob: &'a [u8],
    /// The encrypted section: a multiple of the cipher's [block](Cipher::block_size).
    pub ciphertext: &'a [u8],
    /// The tag, of the cipher's [tag length](Cipher::tag_length): empty but for a GCM cipher.
    pub tag: &'a [u8],
}

/// Writes a plain image of an Ed25519 or ECDSA key to the start of `out` and answers its length; the bytes past it stay. A scalar
/// is stored as an mpint in the fewest bytes: without leading zeros, but with one before a first byte of 0x80 or more.
///
/// Refused, in this order: RSA, for which there is [`write_rsa`] (4), a length that is wrong for the algorithm (1), a point
/// that doesn't begin with 4 or a scalar of zeros only (2), a comment that isn't UTF-8 (7), an image above 65,535 bytes (11) or
/// longer than `out` (9). Then no byte of `out` changes.
pub fn write_plain(key: &PlainKey<'_>, comment: impl AsRef<[u8]>, out: &mut [u8]) -> Result<usize, Error> {
    let (derive, checkint) = key.checkint.codes();
    let algorithm = key.algorithm.code();
    let reply = c::write_plain(algorithm, key.public, key.private, derive, checkint, comment.as_ref(), out);
    Error::written(reply, |number| of_plain(key, number))
}

/// Writes a plain image of an RSA key to the start of `out` and answers its length; the bytes past it stay.
///
/// Refused, in this order: a number that is empty, negative or not in the fewest bytes (2), a modulus of less than 1,024 or
/// more than 8,192 bits or another number with more bits than the modulus (1), a comment that isn't UTF-8 (7), an image above
/// 65,535 bytes (11) or longer than `out` (9). Then no byte of `out` changes.
pub fn write_rsa(key: &RsaKey<'_>, comment: impl AsRef<[u8]>, out: &mut [u8]) -> Result<usize, Error> {
    let (derive, checkint) = key.checkint.codes();
    let numbers = [key.n, key.e, key.d, key.iqmp, key.p, key.q];
    Error::written(c::write_rsa(numbers, derive, checkint, comment.as_ref(), out), |number| of_rsa(key, number))
}

/// Writes an encrypted image to the start of `out` and answers its length; the bytes past it stay.
///
/// Refused, in this order: cipher `none` (3), KDF `none` with salt or rounds (3), a blob that the reader would refuse (with
/// its number), a ciphertext that isn't a multiple of the block (3), a tag of a wrong length (1), an image above 65,535
/// bytes (11) or longer than `out` (9). Then no byte of `out` changes.
pub fn write_encrypted(key: &EncryptedKey<'_>, out: &mut [u8]) -> Result<usize, Error> {
    let (cipher, kdf) = (key.cipher.code(), key.kdf.code());
    let reply = c::write_encrypted(cipher, kdf, key.salt, key.rounds, key.blob, key.ciphertext, key.tag, out);
    Error::written(reply, |number| of_encrypted(key, number))
}

#[cfg(feature = "alloc")]
impl PlainKey<'_> {
    /// **Private.** The image that [`write_plain`] writes, with its refusals but for the room. Nobody wipes the bytes.
    pub fn to_image(&self, comment: impl AsRef<[u8]>) -> Result<Vec<u8>, Error> {
        let comment = comment.as_ref();
        // Ed25519's public bytes stand in it three times.
        owned(&[self.public, self.public, self.public, self.private, comment], |out| write_plain(self, comment, out))
    }
}

#[cfg(feature = "alloc")]
impl RsaKey<'_> {
    /// **Private.** The image that [`write_rsa`] writes, with its refusals but for the room. Nobody wipes the bytes.
    pub fn to_image(&self, comment: impl AsRef<[u8]>) -> Result<Vec<u8>, Error> {
        let comment = comment.as_ref();
        let parts = [self.n, self.e, self.n, self.e, self.d, self.iqmp, self.p, self.q, comment];
        owned(&parts, |out| write_rsa(self, comment, out))
    }
}

#[cfg(feature = "alloc")]
impl EncryptedKey<'_> {
    /// The image that [`write_encrypted`] writes, with its refusals but for the room.
    pub fn to_image(&self) -> Result<Vec<u8>, Error> {
        owned(&[self.salt, self.blob, self.ciphertext, self.tag], |out| write_encrypted(self, out))
    }
}

/// What is written of these parts, in a buffer that was long enough from the start: one that grows would leave copies behind.
#[cfg(feature = "alloc")]
fn owned(parts: &[&[u8]], write: impl FnOnce(&mut [u8]) -> Result<usize, Error>) -> Result<Vec<u8>, Error> {
    // More than an image has beside its parts: the magic, names, lengths, checkints, a scalar's zero and padding.
    const BESIDE: usize = 256;
    let room = parts.iter().fold(BESIDE, |sum, part| sum.saturating_add(part.len()));
    let mut out = vec![0; room.min(MAX_IMAGE_LEN)];
    let len = write(&mut out)?;
    out.truncate(len);
    Ok(out)
}

/// Which of the two; a given checkint may come from private bytes, and isn't said.
impl fmt::Debug for Checkint {
    fn fmt(&self, f: &mut fmt::Formatter<'_>) -> fmt::Result {
        f.write_str(match self {
            Self::Given(_) => "Given(..)",
            Self::Derived => "Derived",
        })
    }
}

/// The algorithm and lengths; no private byte, and no checkint, which may come from private bytes.
impl fmt::Debug for PlainKey<'_> {
    fn fmt(&self, f: &mut fmt::Formatter<'_>) -> fmt::Result {
        f.debug_struct("PlainKey")
            .field("algorithm", &self.algorithm)
            .field("public_len", &self.public.len())
            .field("private_len", &self.private.len())
            .finish_non_exhaustive()
    }
}

/// Lengths of the two public numbers; no private byte, and no checkint, which may come from private bytes.
impl fmt::Debug for RsaKey<'_> {
    fn fmt(&self, f: &mut fmt::Formatter<'_>) -> fmt::Result {
        f.debug_struct("RsaKey").field("n_len", &self.n.len()).field("e_len", &self.e.len()).finish_non_exhaustive()
    }
}

/// Names and lengths.
impl fmt::Debug for EncryptedKey<'_> {
    fn fmt(&self, f: &mut fmt::Formatter<'_>) -> fmt::Result {
        f.debug_struct("EncryptedKey")
            .field("cipher", &self.cipher)
            .field("kdf", &self.kdf)
            .field("rounds", &self.rounds)
            .field("ciphertext_len", &self.ciphertext.len())
            .finish_non_exhaustive()
    }
}
