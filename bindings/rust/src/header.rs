//! A header that was read, to ask before the passphrase and before the section.

use core::fmt;

use crate::accepted::Accepted;
use crate::c;
use crate::{Algorithm, Cipher, Error, Image, KdfAlg};

/// The header of a key file's image: all that stands before the private section. It borrows the caller's bytes, and so do the
/// parts that it answers: nothing is copied. Of several keys what it says of a key is the first one's.
///
/// Two headers are equal where their bytes are, up to the section's beginning; what follows isn't compared. The comparison isn't
/// constant-time.
#[derive(Clone, Copy)]
pub struct Header<'a> {
    read: Accepted<'a>,
}

impl<'a> Header<'a> {
    /// Reads the header of the image that `bytes` are, and checks its rules. The section isn't looked at: it may be damaged,
    /// cut short or missing.
    pub fn read(bytes: &'a [u8]) -> Result<Self, Error> {
        Accepted::new(bytes, c::read_header(bytes)).map(|read| Self { read })
    }

    /// Goes on to the section and its rules, and answers as [`Image::read`] of the same bytes does. A KDF without a cipher is
    /// refused here (3), and not by the header's read.
    pub fn section(&self) -> Result<Image<'a>, Error> {
        let Accepted { bytes, fields, .. } = self.read;
        Image::answered(bytes, c::read_section(bytes, fields))
    }

    fn header_bytes(&self) -> &'a [u8] {
        &self.read.bytes[..self.section_start()]
    }

    what_a_blob_says!();
    what_a_header_says!();
}

read_and_compared!(Header, header_bytes);

/// Names and the section's place.
impl fmt::Debug for Header<'_> {
    fn fmt(&self, f: &mut fmt::Formatter<'_>) -> fmt::Result {
        f.debug_struct("Header")
            .field("algorithm", &self.algorithm())
            .field("cipher", &self.cipher())
            .field("kdf", &self.kdf())
            .field("key_count", &self.key_count())
            .field("section_start", &self.section_start())
            .finish_non_exhaustive()
    }
}
