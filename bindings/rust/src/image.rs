//! An image that was read, and its parts.

use core::fmt;

use crate::accepted::Accepted;
use crate::c;
#[cfg(feature = "alloc")]
use crate::{set_comment, MAX_IMAGE_LEN};
use crate::{Algorithm, Cipher, EcdsaCurve, Error, KdfAlg, Key, Keys};
#[cfg(feature = "alloc")]
use alloc::{vec, vec::Vec};

/// A key file's image that the reader accepted. It borrows the caller's bytes, and so do the parts that it answers: nothing
/// is copied. It has 1 to 16 keys, each answered by [`key`](Self::key) and [`keys`](Self::keys): what the image itself says of a
/// key, as its [`algorithm`](Self::algorithm) and [`comment`](Self::comment), is the first one's.
///
/// Two images are equal where all their bytes are, private ones included. The comparison isn't constant-time: who can time it may
/// learn of private bytes.
#[derive(Clone, Copy)]
pub struct Image<'a> {
    read: Accepted<'a>,
}

impl<'a> Image<'a> {
    /// Reads an image, all of `bytes`, and checks every rule of the container. It reads the binary container alone: the text that
    /// most key files are, which begins with `-----BEGIN`, goes through [`armour::import`](crate::armour::import) first.
    pub fn read(bytes: &'a [u8]) -> Result<Self, Error> {
        Self::answered(bytes, c::read(bytes))
    }

    /// What a read of all of `bytes` answered.
    pub(crate) fn answered(bytes: &'a [u8], fields: c::Image) -> Result<Self, Error> {
        Accepted::new(bytes, fields).map(|read| Self { read })
    }

    /// The whole image, private bytes included.
    pub fn as_bytes(&self) -> &'a [u8] {
        self.read.bytes
    }

    what_a_blob_says!();
    what_a_header_says!();
    what_a_section_says!();

    /// Key `k`; keys count from 1. None where the image has no such key.
    pub fn key(&self, k: usize) -> Option<Key<'a>> {
        Key::found(self.read.bytes, k)
    }

    /// The keys, in their order in the image. Each is read as it is asked for.
    pub fn keys(&self) -> Keys<'a> {
        Keys::new(self.read.bytes, self.key_count())
    }

    /// The encrypted section, without its tag; empty for a plain image.
    pub fn ciphertext(&self) -> &'a [u8] {
        self.read.part(self.read.fields.ciphertext)
    }

    /// The cipher's tag; empty where the cipher has none.
    pub fn tag(&self) -> &'a [u8] {
        self.read.part(self.read.fields.tag)
    }

    /// **Private** where it was derived from the private bytes. The number that stands twice before the keys in a plain
    /// section; none for an encrypted image.
    pub fn checkint(&self) -> Option<u32> {
        if self.is_encrypted() {
            return None;
        }
        Some(self.read.fields.checkint as u32)
    }

    /// How many padding bytes end a plain section; 0 for an encrypted image.
    pub fn padding_len(&self) -> usize {
        self.read.fields.padding as usize
    }

    /// Is the image, byte for byte, what the writer makes of its record? Among accepted images only one with an ECDSA scalar that
    /// has needless zeros before it, or lacks the one that it needs, is not.
    pub fn is_in_form(&self) -> bool {
        self.read.fields.form == 1
    }

    /// Writes the image's record, all its keys with its own checkint, to the start of `out` and answers the length. For an image in
    /// the form these are its own bytes.
    pub fn rewrite(&self, out: &mut [u8]) -> Result<usize, Error> {
        Error::written_of(self.read.bytes, c::rewrite(self.read.bytes, out))
    }

    /// **Private.** What [`rewrite`](Self::rewrite) writes. It is refused (11) only where the image isn't in the form, and would be
    /// above 65,535 bytes when it is written again. Nobody wipes the bytes.
    #[cfg(feature = "alloc")]
    pub fn rewritten(&self) -> Result<Vec<u8>, Error> {
        // A zero that a scalar lacks is a byte more, and they may make the padding longer.
        let mut out = vec![0; self.as_bytes().len() + self.key_count() + 7];
        let len = self.rewrite(&mut out)?;
        out.truncate(len);
        Ok(out)
    }

    /// **Private.** The image with another comment of its first key, as [`set_comment`] changes it and with its refusals: an
    /// encrypted image (8), one that isn't in the form (10), a comment that isn't UTF-8 (7), a new image above 65,535 bytes (11).
    /// Nobody wipes the bytes, nor the copy of the image that a refused change was tried on.
    #[cfg(feature = "alloc")]
    pub fn with_comment(&self, comment: impl AsRef<[u8]>) -> Result<Vec<u8>, Error> {
        let (image, comment) = (self.as_bytes(), comment.as_ref());
        let room = (image.len() + 8).saturating_add(comment.len()).min(MAX_IMAGE_LEN);
        let mut out = vec![0; room];
        out[..image.len()].copy_from_slice(image);
        let len = set_comment(&mut out, image.len(), comment)?;
        out.truncate(len);
        Ok(out)
    }
}

read_and_compared!(Image, as_bytes);

/// The whole image, private bytes included.
impl AsRef<[u8]> for Image<'_> {
    fn as_ref(&self) -> &[u8] {
        self.as_bytes()
    }
}

/// Names, lengths and the comment; no private byte, and no checkint, which may come from private bytes.
impl fmt::Debug for Image<'_> {
    fn fmt(&self, f: &mut fmt::Formatter<'_>) -> fmt::Result {
        f.debug_struct("Image")
            .field("algorithm", &self.algorithm())
            .field("cipher", &self.cipher())
            .field("kdf", &self.kdf())
            .field("key_count", &self.key_count())
            .field("comment", &self.comment())
            .field("len", &self.as_bytes().len())
            .field("in_form", &self.is_in_form())
            .finish_non_exhaustive()
    }
}
