//! The stored answers: a line for each input, `NAME|BASE|EDITS|OURS|THEIRS|CAUSES`. README.md beside the file says what each is.

use crate::answer::Answer;
use crate::causes::Cause;
use crate::judge::{Mark, Theirs};
use crate::ours::{Ours, Written};
use std::fmt;

/// The comment to which every stored image's is changed.
pub const COMMENT: &str = "Ofen 12, Süd";

/// FNV-1a of some bytes.
#[derive(Clone, Copy, Debug, PartialEq, Eq)]
pub struct Sum(u64);

impl Sum {
    pub fn of(bytes: &[u8]) -> Self {
        let step = |sum: u64, byte: &u8| (sum ^ u64::from(*byte)).wrapping_mul(0x0000_0100_0000_01b3);
        Self(bytes.iter().fold(0xcbf2_9ce4_8422_2325, step))
    }

    fn parse(text: &str) -> Option<Self> {
        u64::from_str_radix(text, 16).ok().map(Self)
    }
}

impl Mark for Sum {
    fn is(&self, bytes: &[u8]) -> bool {
        *self == Self::of(bytes)
    }
}

impl fmt::Display for Sum {
    fn fmt(&self, f: &mut fmt::Formatter<'_>) -> fmt::Result {
        write!(f, "{:016x}", self.0)
    }
}

pub struct Line<'a> {
    pub name: &'a str,
    pub base: &'a str,
    edits: &'a str,
    pub ours: &'a str,
    theirs: &'a str,
    pub causes: &'a str,
}

impl<'a> Line<'a> {
    pub fn parse(text: &'a str) -> Option<Self> {
        let parts: Vec<_> = text.split('|').collect();
        let [name, base, edits, ours, theirs, causes] = parts.try_into().ok()?;
        Some(Self { name, base, edits, ours, theirs, causes })
    }

    /// The input, of the base's bytes.
    pub fn image(&self, base: &[u8]) -> Option<Vec<u8>> {
        let mut image = Vec::new();
        for edit in self.edits.split_whitespace() {
            put(&mut image, edit, base)?;
        }
        Some(image)
    }

    /// What the crate answered.
    pub fn theirs(&self) -> Option<Theirs<Sum>> {
        let mut words = self.theirs.split(' ');
        let answer = Answer::parse(words.next()?)?;
        let as_ours = self.ours.split(' ').skip(1).chain([""; 4]);
        let sums: Option<Vec<_>> =
            words.zip(as_ours).map(|(word, ours)| Sum::parse(if word == "=" { ours } else { word })).collect();
        let sums = sums?;
        let read = match answer {
            Answer::Read => Some(sums.try_into().ok()?),
            _ => None,
        };
        Some(Theirs { answer, read })
    }
}

/// `12+230` is 230 bytes of the base from its byte 12 on, `12<230` as many of the image itself, `63*9` nine times the byte 63, anything
/// else the bytes themselves, in hex.
fn put(image: &mut Vec<u8>, edit: &str, base: &[u8]) -> Option<()> {
    if let Some((start, length)) = edit.split_once('+') {
        image.extend_from_slice(part(base, start, length)?);
    } else if let Some((start, length)) = edit.split_once('<') {
        let copied = part(image, start, length)?.to_vec();
        image.extend(copied);
    } else if let Some((byte, times)) = edit.split_once('*') {
        image.resize(image.len() + times.parse::<usize>().ok()?, u8::from_str_radix(byte, 16).ok()?);
    } else {
        for place in (0..edit.len()).step_by(2) {
            image.push(u8::from_str_radix(edit.get(place..place + 2)?, 16).ok()?);
        }
    }
    Some(())
}

fn part<'a>(bytes: &'a [u8], start: &str, length: &str) -> Option<&'a [u8]> {
    let start: usize = start.parse().ok()?;
    bytes.get(start..start + length.parse::<usize>().ok()?)
}

fn written(bytes: &Written) -> String {
    match bytes {
        Ok(bytes) => Sum::of(bytes).to_string(),
        Err(number) => format!("refused-{number}"),
    }
}

/// Our answer as it is stored: number, count and place, or the sums of the values, of the image written again, of the one with another
/// comment, and of the new one with that comment.
pub fn ours_text(ours: &Ours) -> String {
    match ours.answer {
        Answer::Read => {
            let [again, changed, fresh] = [&ours.written, &ours.changed, &ours.fresh].map(written);
            format!("read {} {again} {changed} {fresh}", Sum::of(&ours.values))
        }
        refused => format!("{refused}@{}", ours.at),
    }
}

/// The crate's answer as it is stored, each sum that is the same as ours as `=`.
pub fn theirs_text(theirs: &Theirs<Vec<u8>>, ours: &str) -> String {
    let mut text = theirs.answer.to_string();
    for (bytes, same) in theirs.read.iter().flatten().zip(ours.split(' ').skip(1).chain([""; 4])) {
        let sum = Sum::of(bytes).to_string();
        text.push_str(if sum == same { " =" } else { " " });
        text.push_str(if sum == same { "" } else { &sum });
    }
    text
}

pub fn causes_text(causes: &[Cause]) -> String {
    causes.iter().map(Cause::to_string).collect::<Vec<_>>().join(",")
}
