//! Why something was refused.

use core::fmt;

use crate::c;
use crate::cause::{Bytes, Cause, Named};
use crate::handed::{of_name, OfKeys, Part, Refused};
use crate::judge::{misspelled, wrong_place, wrong_record};
use crate::settings::{SETTING_LEN, STORE_LEN};
use crate::walk::{refused, Fault};
use crate::{ErrorKind, Field, MAX_IMAGE_LEN, MAX_KEYS};

/// A refusal: its [kind](ErrorKind), how many bytes are left over where that is the reason, the field that it is about, of several
/// keys which one's it is, of a store's settings which device's, and the byte of the image at which that field began. Its `Display`
/// is a sentence that says what of this applies, and which of several causes it was.
///
/// Count, place and the key's number are what the image's length fields say: in a damaged image such a field may lie where a private
/// byte was, so treat its error as you treat the key. The sentence and `Debug` show no other byte of the section. Of a header that is
/// whole, in an image whose fields reach to its last byte, they show lengths and a name that isn't known, escaped and at most 32 bytes of
/// it; where bytes were lost or put in, what stands at the header's places may be private, and nothing of it is shown.
///
/// Where several reasons hold, the first in the order of reading or writing is given. A refusal changes no byte of a lent buffer.
#[derive(Clone, Copy, Debug, PartialEq, Eq, Hash)]
pub struct Error {
    kind: ErrorKind,
    count: u64,
    at: u64,
    field: Field,
    key: Option<usize>,
    device: Option<u64>,
    part: Option<Part>,
    cause: Cause,
}

impl Error {
    /// The reason.
    pub fn kind(self) -> ErrorKind {
        self.kind
    }

    /// The number of the reason, 1 to 11.
    pub fn number(self) -> u64 {
        self.kind as u64
    }

    /// How many bytes are left over for number 6; 0 for every other number.
    pub fn count(self) -> usize {
        self.count as usize
    }

    /// The byte of the image at which the failing field began, its length bytes included; for number 6 the first byte that is
    /// too many. It is 0 where the reason is about the whole image or text, for what was handed to a writer, and for settings.
    pub fn place(self) -> usize {
        self.at as usize
    }

    /// The failing field, whose `Display` is the words for it; for number 6 the one that has bytes too many. A new comment that
    /// isn't UTF-8 fails at the comment that it was to replace.
    pub fn field(self) -> Field {
        self.field
    }

    /// Of several keys, in an image or handed in, the number of the one that it is about; keys count from 1. None where there is one
    /// key, and where it isn't about a key.
    pub fn key(self) -> Option<usize> {
        self.key
    }

    /// Of a store's settings the number of the device that it is about, 0 to 31; of a move that is refused, the first such device. None
    /// where it isn't about a place of a store.
    pub fn device(self) -> Option<u64> {
        self.device
    }

    /// The reason's name, such as `Length`: that of its [`kind`](Self::kind).
    pub fn name(self) -> &'static str {
        self.kind.name()
    }

    /// A refused read of `image`.
    #[cold]
    #[inline(never)]
    pub(crate) fn read(image: &[u8], read: &c::Image) -> Self {
        Self::of(image, read.number, read.count, read.at)
    }

    /// A code that names nothing.
    #[cold]
    pub(crate) fn unknown_code() -> Self {
        Self::new(4, Field::Image, Cause::Untold)
    }

    /// A text that names nothing.
    pub(crate) fn unknown_name(named: Named, name: &str) -> Self {
        Self::handed_in(4, of_name(named, name))
    }

    /// An image's length that is above its buffer's, and above the limit or not.
    pub(crate) fn above_buffer(says: usize, room: usize) -> Self {
        match says {
            0..=MAX_IMAGE_LEN => Self::new(1, Field::Image, Cause::AboveBuffer { says, room }),
            _ => Self::new(11, Field::Image, Cause::SaidAbove { says }),
        }
    }

    /// The length that was written of what was handed in, or the refusal. Size and room are the image's that it would be.
    pub(crate) fn written(reply: c::Reply, handed: impl FnOnce(u64) -> Refused) -> Result<usize, Self> {
        match reply.number {
            0 => Ok(reply.length as usize),
            9 | 11 => Err(Self::of(&[], reply.number, 0, 0)),
            number => Err(Self { count: reply.count, ..Self::handed_in(number, handed(number)) }),
        }
    }

    /// The length that was written of several keys, or the refusal.
    pub(crate) fn written_keys(reply: c::Reply, handed: impl FnOnce(u64) -> OfKeys) -> Result<usize, Self> {
        let mut of_key = None;
        let written = Self::written(reply, |number| {
            let (key, refused) = handed(number);
            of_key = key;
            refused
        });
        written.map_err(|error| Self { key: of_key, ..error })
    }

    /// The length that import wrote of what `text` carries, or the refusal.
    pub(crate) fn imported(text: &[u8], reply: c::Reply) -> Result<usize, Self> {
        match reply.number {
            2 => Err(Self::new(2, Field::Text, misspelled(text))),
            11 => Err(Self::new(11, Field::Image, Cause::CarriesAbove)),
            _ => Self::written_of(&[], reply),
        }
    }

    /// The length that was written of `image`, or that of its text, or the refusal.
    pub(crate) fn written_of(image: &[u8], reply: c::Reply) -> Result<usize, Self> {
        match reply.number {
            0 => Ok(reply.length as usize),
            number => Err(Self::of(image, number, reply.count, reply.at)),
        }
    }

    /// The new length of the image that the first `len` bytes of `buffer` are, whose comment was changed, or the refusal, which
    /// left the bytes as they were. The reader's refusals come first, so a 7 on an image that it accepts is the new comment's.
    pub(crate) fn changed(buffer: &[u8], len: usize, reply: c::Reply) -> Result<usize, Self> {
        match buffer.get(..len) {
            None => Err(Self::above_buffer(len, buffer.len())),
            Some(image) if reply.number == 7 && c::read(image).number == 0 => Err(Self::new_comment(image, 1, reply)),
            Some(image) => Self::written_of(image, reply),
        }
    }

    /// The new length of an accepted image whose key `k` got another comment, or the refusal, which left it as it was.
    pub(crate) fn changed_of(image: &[u8], k: usize, reply: c::Reply) -> Result<usize, Self> {
        match reply.number {
            1 => Err(Self::new(1, Field::Image, Cause::NoKey { k, has: key_count(image) })),
            7 => Err(Self::new_comment(image, k, reply)),
            _ => Self::written_of(image, reply),
        }
    }

    /// A new comment that isn't UTF-8.
    fn new_comment(image: &[u8], k: usize, reply: c::Reply) -> Self {
        let key = Some(k).filter(|_| key_count(image) > 1);
        Self { at: reply.at, key, ..Self::new(7, Field::Comment, Cause::NewNotUtf8) }
    }

    /// The new length of an accepted image whose key `k` was removed, or the refusal, which left it as it was.
    pub(crate) fn removed(image: &[u8], k: usize, reply: c::Reply) -> Result<usize, Self> {
        match (reply.number, key_count(image)) {
            (1, 1) if k == 1 => Err(Self::new(1, Field::Image, Cause::OnlyKey)),
            (1, has) => Err(Self::new(1, Field::Image, Cause::NoKey { k, has })),
            _ => Self::written_of(image, reply),
        }
    }

    /// The new length of an accepted image that a key was added to, or the refusal, which left it as it was.
    pub(crate) fn added(image: &[u8], reply: c::Reply, handed: impl FnOnce(u64) -> Refused) -> Result<usize, Self> {
        match reply.number {
            1 if key_count(image) == MAX_KEYS => Err(Self::new(1, Field::Image, Cause::MostKeys)),
            8 | 10 => Self::written_of(image, reply),
            _ => Self::written(reply, handed),
        }
    }

    /// A refused read of a setting's record.
    pub(crate) fn of_record(record: &[u8], number: u64) -> Self {
        let cause = match number {
            1 => Cause::Length { has: record.len(), needs: SETTING_LEN },
            _ => wrong_record(record, number).unwrap_or(Cause::Untold),
        };
        Self::new(number, Field::Setting, cause)
    }

    /// A refused read of a device's place.
    pub(crate) fn of_place(store: &[u8; STORE_LEN], device: u64, number: u64) -> Self {
        let record = store.chunks_exact(SETTING_LEN).nth(device as usize).unwrap_or_default();
        Self { device: Some(device), ..Self::of_record(record, number) }
    }

    /// A refused move, which left the store as it was.
    pub(crate) fn of_store(store: &[u8; STORE_LEN], number: u64) -> Self {
        match wrong_place(store, number) {
            Some((device, cause)) => Self { device: Some(device), ..Self::new(number, Field::Setting, cause) },
            None => Self::new(number, Field::Store, Cause::Untold),
        }
    }

    /// Bytes that aren't a store's.
    pub(crate) fn store_of_length(has: usize) -> Self {
        Self::new(1, Field::Store, Cause::Length { has, needs: STORE_LEN })
    }

    /// What a setting's writer answered: nothing, or the refusal of what was handed in.
    pub(crate) fn set(reply: c::Reply, handed: impl FnOnce(u64) -> Refused) -> Result<(), Self> {
        match reply.number {
            0 => Ok(()),
            number => Err(Self::handed_in(number, handed(number))),
        }
    }

    fn of(image: &[u8], number: u64, count: u64, at: u64) -> Self {
        let Fault { field, cause, key } = refused(image, number, at as usize);
        Self { count, at, key, ..Self::new(number, field, cause) }
    }

    pub(crate) fn handed_in(number: u64, (part, cause): Refused) -> Self {
        Self { part: Some(part), ..Self::new(number, Field::HandedIn, cause) }
    }

    fn new(number: u64, field: Field, cause: Cause) -> Self {
        Self { kind: ErrorKind::of(number), count: 0, at: 0, field, key: None, device: None, part: None, cause }
    }

    /// What the sentence is about.
    fn put_subject(self, f: &mut fmt::Formatter<'_>) -> fmt::Result {
        match (self.cause, self.part, self.at) {
            (Cause::NoRoom, ..) => f.write_str("the lent buffer"),
            (Cause::CarriesAbove, ..) => write!(f, "{}", Field::Text),
            (_, Some(part), _) => write!(f, "of {}, {}{}", self.field, part, Whose(self)),
            (Cause::LeftOver, ..) | (.., 0) => write!(f, "{}{}", self.field, Whose(self)),
            (.., at) => write!(f, "{}{} at byte {}", self.field, Whose(self), at),
        }
    }

    fn put_left_over(self, f: &mut fmt::Formatter<'_>) -> fmt::Result {
        write!(f, "has {} too many", Bytes(self.count()))?;
        match self.part {
            Some(_) => Ok(()),
            None => write!(f, ", from byte {} on", self.at),
        }
    }
}

/// The number of keys of an accepted image.
fn key_count(image: &[u8]) -> usize {
    c::read(image).keys as usize
}

/// Which of several keys or devices, after what the sentence is about.
struct Whose(Error);

impl fmt::Display for Whose {
    fn fmt(&self, f: &mut fmt::Formatter<'_>) -> fmt::Result {
        match (self.0.key, self.0.device) {
            (Some(k), _) => write!(f, " of key {}", k),
            (None, Some(device)) => write!(f, " of device {}", device),
            (None, None) => Ok(()),
        }
    }
}

impl fmt::Display for Error {
    fn fmt(&self, f: &mut fmt::Formatter<'_>) -> fmt::Result {
        write!(f, "Refusal {} ({}): ", self.number(), self.name())?;
        self.put_subject(f)?;
        f.write_str(" ")?;
        match self.cause {
            Cause::LeftOver => self.put_left_over(f)?,
            cause => write!(f, "{}", cause)?,
        }
        f.write_str(".")
    }
}

#[cfg(feature = "std")]
impl std::error::Error for Error {}

#[cfg(all(test, feature = "std"))]
mod tests {
    use super::Error;
    use std::string::ToString;

    /// The one sentence that no call can have, as long as crate and archive are of one interface.
    #[test]
    fn an_untold_reason() {
        assert_eq!(
            Error::unknown_code().to_string(),
            "Refusal 4 (AlgorithmUnknown): the image is refused for a reason that this version of the crate doesn't know."
        );
    }
}
