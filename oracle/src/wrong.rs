//! Wrong answers of ours, put in by a switch to see that the comparison notices them.

use saltorchard::raw;
use saltorchard_replay::answer::Answer;
use saltorchard_replay::ours::{Ours, Written};
use saltorchard_replay::width::full_width;

#[derive(Clone, Copy, Debug, PartialEq, Eq)]
pub enum Wrong {
    Nothing,
    /// Padding of exactly 8 is read if its bytes are right.
    PaddingOf8,
    /// Wrong padding bytes are read.
    PaddingBytes,
    /// The checkints aren't compared.
    Checkints,
    /// A scalar must have SIZE bytes at least.
    ScalarWidth,
    /// A scalar is written with SIZE bytes.
    ScalarWritten,
    /// What is left after the section is looked at before the section.
    TrailingFirst,
    /// The curve is held to the algorithm's name before the scalar is read.
    CurveFirst,
    /// The 6 counts one too many.
    Count,
    /// The public keys aren't compared.
    PublicKey,
    /// A surrogate in the comment is taken for UTF-8.
    Surrogate,
    /// The end of a longer old comment stays.
    OldComment,
    /// The derived checkint takes the rest of fewer than four bytes too.
    Derived,
    /// The tag is a part of the ciphertext's blocks.
    Tag,
}

const ALL: [Wrong; 14] = [
    Wrong::Nothing,
    Wrong::PaddingOf8,
    Wrong::PaddingBytes,
    Wrong::Checkints,
    Wrong::ScalarWidth,
    Wrong::ScalarWritten,
    Wrong::TrailingFirst,
    Wrong::CurveFirst,
    Wrong::Count,
    Wrong::PublicKey,
    Wrong::Surrogate,
    Wrong::OldComment,
    Wrong::Derived,
    Wrong::Tag,
];

impl Wrong {
    pub fn parse(text: &str) -> Option<Self> {
        ALL.into_iter().find(|wrong| format!("{wrong:?}") == text)
    }

    pub fn names() -> impl Iterator<Item = String> {
        ALL.into_iter().skip(1).map(|wrong| format!("{wrong:?}"))
    }

    /// Our answer made wrong.
    pub fn spoil(self, image: &[u8], ours: Ours) -> Ours {
        let at = ours.at as usize;
        let (refused, section) = (ours.answer, raw::read_header(image).section as usize);
        let wrongly_read = match (self, refused) {
            (Self::PaddingOf8, Answer::Refused(1, 0)) => image[at..].starts_with(&[1, 2, 3, 4, 5, 6, 7, 8]),
            (Self::PaddingBytes, Answer::Refused(2, 0)) => section > 0 && image.len() - at < 8,
            (Self::Checkints, Answer::Refused(3, 0)) => section > 0 && at == section + 8,
            (Self::PublicKey, Answer::Refused(5, 0)) => true,
            (Self::Surrogate, Answer::Refused(7, 0)) => image[at..].windows(2).any(|two| two == [0xed, 0xa0]),
            _ => false,
        };
        if wrongly_read {
            return Ours { answer: Answer::Read, ..ours };
        }
        match self.other_refusal(image, &ours, section) {
            Some(answer) => Ours { answer, ..ours },
            None => self.other_bytes(ours),
        }
    }

    fn other_refusal(self, image: &[u8], ours: &Ours, section: usize) -> Option<Answer> {
        let read = raw::read(image);
        match (self, ours.answer) {
            (Self::ScalarWidth, Answer::Read) if is_short(image, &read) => Some(Answer::refused(1)),
            (Self::Count, Answer::Refused(6, count)) => Some(Answer::Refused(6, count + 1)),
            (Self::TrailingFirst, Answer::Refused(..)) if section > 0 && ours.at as usize > section => {
                left(image, section)
            }
            (Self::CurveFirst, Answer::Refused(..)) if section > 0 => curve_first(image, section, ours.at as usize),
            (Self::Tag, Answer::Read) if read.tag.length > 0 => Some(Answer::refused(3)),
            _ => None,
        }
    }

    fn other_bytes(self, mut ours: Ours) -> Ours {
        match self {
            Self::ScalarWritten => ours.written = ours.written.map(|image| full_width(&image)),
            Self::OldComment => ours.changed.iter_mut().for_each(|image| image.push(0)),
            _ => {}
        }
        ours
    }

    /// A new image made wrong.
    pub fn spoil_new(self, written: Written) -> Written {
        let mut written = written?;
        let read = raw::read(&written);
        let odd = read.scalar.length % 4 != 0 && read.algorithm == 3;
        if self == Self::Derived && odd {
            written[read.section as usize + 4] ^= 1;
        }
        Ok(written)
    }
}

/// The bytes after a section that is there whole.
fn left(image: &[u8], section: usize) -> Option<Answer> {
    let length = u32::from_be_bytes(image.get(section..section + 4)?.try_into().ok()?) as usize;
    match image.len().checked_sub(section + 4 + length)? as u64 {
        0 => None,
        left => Some(Answer::Refused(6, left)),
    }
}

/// A scalar that is stored in fewer than SIZE bytes.
fn is_short(image: &[u8], read: &raw::Image) -> bool {
    if read.kind != 1 || !(1..=3).contains(&read.algorithm) {
        return false;
    }
    let size = read.point.length as usize / 2;
    let end = (read.scalar.start + read.scalar.length) as usize;
    (0..size).any(|length| image[end - length - 4..end - length] == (length as u32).to_be_bytes())
}

/// 4 where a refusal comes after the section's curve, which isn't the name's.
fn curve_first(image: &[u8], section: usize, at: usize) -> Option<Answer> {
    let (name, curve) = (image.get(section + 16..section + 35)?, image.get(section + 39..section + 47)?);
    let unlike = name.starts_with(b"ecdsa-sha2-") && curve.starts_with(b"nistp") && name[11..] != *curve;
    if unlike && at > section + 35 {
        return Some(Answer::refused(4));
    }
    None
}
