//! An image in a lent buffer, its comments changed there, keys added to it and removed from it.

use core::fmt;

use crate::c;
use crate::cause::Cause;
use crate::handed::{of_plain, of_rsa, Part};
use crate::several::AnyKey;
use crate::{Error, Image, KeyRef, PlainKey, RsaKey};

/// Changes the comment of the first key of the image that the first `len` bytes of `buffer` are, in place, and answers the new length.
///
/// The image is then the one written afresh with the new comment. Old bytes past its end become zero, and bytes past both
/// ends stay. Where the change is refused no byte changes: the reasons are, in this order, `len` above 65,535 (11) or above
/// the buffer's length (1), the reader's refusals, an encrypted image (8), an image that isn't in the writer's form (10), a
/// comment that isn't UTF-8 (7, at the old comment's field), and a new image above 65,535 bytes (11) or longer than the buffer (9).
pub fn set_comment(buffer: &mut [u8], len: usize, comment: impl AsRef<[u8]>) -> Result<usize, Error> {
    let reply = c::change_comment(buffer, len, comment.as_ref());
    Error::changed(buffer, len, reply)
}

/// A lent buffer whose first bytes are an image, and that image's length.
///
/// Its edits work in place. After each that is accepted the image is the one written afresh from the keys that are in it now, in their
/// order, each with its own comment, under the image's old checkint. Old bytes past its end become zero, and bytes past both ends
/// stay; what a removal frees serves a later addition. Where an edit is refused no byte changes. The reasons that all of them have come
/// first, in this order: an encrypted image (8), an image that isn't in the writer's form (10); and last a new image above 65,535
/// bytes (11) or longer than the buffer (9).
pub struct LentImage<'a> {
    buffer: &'a mut [u8],
    len: usize,
}

#[allow(clippy::len_without_is_empty)] // an image is never empty
impl<'a> LentImage<'a> {
    /// Reads the image that the first `len` bytes of `buffer` are; a `len` above the buffer's length is refused.
    pub fn new(buffer: &'a mut [u8], len: usize) -> Result<Self, Error> {
        let image = buffer.get(..len).ok_or_else(|| Error::above_buffer(len, buffer.len()))?;
        Image::read(image)?;
        Ok(Self { buffer, len })
    }

    /// The image's length: the one that the last accepted change answered.
    pub fn len(&self) -> usize {
        self.len
    }

    /// The image's bytes, without the rest of the buffer.
    pub fn as_bytes(&self) -> &[u8] {
        &self.buffer[..self.len]
    }

    /// The image, read anew. It isn't refused: an accepted change leaves an image that the reader accepts.
    pub fn image(&self) -> Result<Image<'_>, Error> {
        Image::read(self.as_bytes())
    }

    /// Changes the comment as [`set_comment`] does, keeps the new length and answers it.
    pub fn set_comment(&mut self, comment: impl AsRef<[u8]>) -> Result<usize, Error> {
        self.len = set_comment(self.buffer, self.len, comment)?;
        Ok(self.len)
    }

    /// Changes the comment of key `k`, keeps the new length and answers it. Keys count from 1. Refused beside what all edits refuse:
    /// a key that the image doesn't have (1), a comment that isn't UTF-8 (7, at the old comment's field).
    pub fn set_comment_of(&mut self, k: usize, comment: impl AsRef<[u8]>) -> Result<usize, Error> {
        let reply = c::change_comment_of(self.buffer, self.len, k as u64, comment.as_ref());
        self.kept(|image| Error::changed_of(image, k, reply))
    }

    /// Adds an Ed25519 or ECDSA key after the last, keeps the new length and answers it. The key's own checkint isn't looked at: the
    /// image has one. Refused beside what all edits refuse: RSA, before all else (4); a 17th key (1); what
    /// [`write_plain`](crate::write_plain) refuses of key and comment.
    pub fn add(&mut self, key: &PlainKey<'_>, comment: impl AsRef<[u8]>) -> Result<usize, Error> {
        let algorithm = key.algorithm.code();
        let reply = c::add_key(self.buffer, self.len, algorithm, key.public, key.private, comment.as_ref());
        self.kept(|image| {
            Error::added(image, reply, |number| match number {
                4 => (Part::Algorithm, Cause::OwnAddition),
                _ => of_plain(key, number),
            })
        })
    }

    /// Adds an RSA key after the last, keeps the new length and answers it. The key's own checkint isn't looked at. Refused beside what
    /// all edits refuse: a 17th key (1); what [`write_rsa`](crate::write_rsa) refuses of key and comment.
    pub fn add_rsa(&mut self, key: &RsaKey<'_>, comment: impl AsRef<[u8]>) -> Result<usize, Error> {
        let numbers = [key.n, key.e, key.d, key.iqmp, key.p, key.q];
        let reply = c::add_rsa(self.buffer, self.len, numbers, comment.as_ref());
        self.kept(|image| Error::added(image, reply, |number| of_rsa(key, number)))
    }

    /// Adds a key of either sort, as [`Key::key_ref`](crate::Key::key_ref) gives it of another image.
    pub fn add_key(&mut self, key: &KeyRef<'_>) -> Result<usize, Error> {
        match &key.key {
            AnyKey::Plain(plain) => self.add(plain, key.comment),
            AnyKey::Rsa(rsa) => self.add_rsa(rsa, key.comment),
        }
    }

    /// Removes key `k`, keeps the new length and answers it. Keys count from 1, those after it then one less. Refused beside what all
    /// edits refuse: a key that the image doesn't have, and its only key (1).
    pub fn remove(&mut self, k: usize) -> Result<usize, Error> {
        let reply = c::remove_key(self.buffer, self.len, k as u64);
        self.kept(|image| Error::removed(image, k, reply))
    }

    /// Keeps the length that an edit answered. Of a refused one the image is as it was before.
    fn kept(&mut self, answer: impl FnOnce(&[u8]) -> Result<usize, Error>) -> Result<usize, Error> {
        self.len = answer(self.as_bytes())?;
        Ok(self.len)
    }
}

/// The image's bytes, private ones included.
impl AsRef<[u8]> for LentImage<'_> {
    fn as_ref(&self) -> &[u8] {
        self.as_bytes()
    }
}

/// Lengths only.
impl fmt::Debug for LentImage<'_> {
    fn fmt(&self, f: &mut fmt::Formatter<'_>) -> fmt::Result {
        f.debug_struct("LentImage")
            .field("len", &self.len)
            .field("buffer_len", &self.buffer.len())
            .finish_non_exhaustive()
    }
}
