//! Whether an image is whole by its outer strings.

use crate::walk::uint32;
use crate::{Cipher, Field, KdfAlg};

/// The tag that may follow the ciphertext of a cipher that isn't known.
const SOME_TAG: usize = 16;

/// Do the strings after the magic, cipher, KDF, options, blobs and section, and the tag fill the image to its last byte, and does a
/// plain section begin as one? Then no byte was lost or put in before it, and what stands at the header's places is the header, which
/// is public. There are as many blobs as the key count says; where that is what was refused there may be one.
pub(crate) fn is_framed(image: &[u8], refused: Field) -> bool {
    is_framed_with(image, |count| count) || refused == Field::KeyCount && is_framed_with(image, |_| 1)
}

fn is_framed_with(image: &[u8], blobs: impl Fn(u32) -> u32) -> bool {
    let mut left = Left(image);
    left.fields(blobs).map_or(false, |(cipher, kdf, section)| match Cipher::from_name(cipher) {
        Some(Cipher::None) => left.0.is_empty() && begins_as_a_section(section),
        Some(cipher) => left.0.len() == cipher.tag_length(),
        None => KdfAlg::from_name(kdf).is_some() && [0, SOME_TAG].contains(&left.0.len()),
    })
}

/// Two equal check numbers, and a key name, known or not. A comment may begin with the same four bytes twice, but no length follows.
fn begins_as_a_section(section: &[u8]) -> bool {
    let mut left = Left(section);
    let checkints = left.take(4).and_then(|first| Some((first, left.take(4)?)));
    let name = left.string().unwrap_or_default();
    checkints.map_or(false, |(first, second)| first == second)
        && !name.is_empty()
        && name.iter().all(u8::is_ascii_graphic)
}

/// What is left of an image.
struct Left<'a>(&'a [u8]);

impl<'a> Left<'a> {
    /// The names of cipher and KDF, and what the section or the ciphertext holds, after so many blobs.
    fn fields(&mut self, blobs: impl Fn(u32) -> u32) -> Option<(&'a [u8], &'a [u8], &'a [u8])> {
        let cipher = self.string()?;
        let (kdf, _options) = (self.string()?, self.string()?);
        let count = uint32(self.take(4)?);
        for _ in 0..blobs(count) {
            self.string()?;
        }
        Some((cipher, kdf, self.string()?))
    }

    fn string(&mut self) -> Option<&'a [u8]> {
        let length = uint32(self.take(4)?);
        self.take(length as usize)
    }

    fn take(&mut self, length: usize) -> Option<&'a [u8]> {
        let (taken, left) = (self.0.get(..length)?, &self.0[length..]);
        self.0 = left;
        Some(taken)
    }
}
