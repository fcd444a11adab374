//! The walk's place in an image, and its steps: numbers, strings, names.

use crate::answer::Answer;
use crate::causes::*;

/// The crate's longest string or key count, and its longest name.
const MOST: usize = 0xfffff;
const LONGEST_NAME: usize = 48;

/// A step that is refused carries our answer.
pub type Step<T> = Result<T, Answer>;

pub struct Walk<'a> {
    pub image: &'a [u8],
    pub place: usize,
    pub end: usize,
    pub apart: Option<(Cause, Option<Answer>)>,
}

pub fn refuse<T>(number: u64) -> Step<T> {
    Err(Answer::refused(number))
}

impl<'a> Walk<'a> {
    pub fn left(&self) -> usize {
        self.end - self.place
    }

    /// Notes the first cause; `theirs` is None where the crate goes on.
    pub fn note(&mut self, cause: Cause, theirs: Option<Answer>) {
        self.apart.get_or_insert((cause, theirs));
    }

    pub fn apart<T>(&mut self, cause: Cause, ours: Answer, theirs: Option<Answer>) -> Step<T> {
        self.note(cause, theirs);
        Err(ours)
    }

    pub fn take(&mut self, length: usize) -> Step<&'a [u8]> {
        if length > self.left() {
            return refuse(1);
        }
        self.place += length;
        Ok(&self.image[self.place - length..self.place])
    }

    pub fn uint32(&mut self) -> Step<usize> {
        self.take(4).map(|four| four.iter().fold(0, |number, byte| number << 8 | usize::from(*byte)))
    }

    /// A length or a key count.
    pub fn length(&mut self) -> Step<usize> {
        match self.uint32()? {
            length if length > MOST => self.apart(ABOVE_0XFFFFF, Answer::refused(1), Some(Answer::Overflow)),
            length => Ok(length),
        }
    }

    pub fn string(&mut self) -> Step<&'a [u8]> {
        let length = self.length()?;
        self.take(length)
    }

    /// A string with fields of its own: answers the end of the part around it.
    pub fn enter(&mut self) -> Step<usize> {
        let length = self.length()?;
        if length > self.left() {
            return self.apart(STRING_NOT_WHOLE, Answer::refused(1), None);
        }
        Ok(std::mem::replace(&mut self.end, self.place + length))
    }

    pub fn leave(&mut self, end: usize) -> Step<()> {
        let left = self.left() as u64;
        if left > 0 {
            return self.apart(LEFT_IN_A_STRING, Answer::Refused(6, left), None);
        }
        self.end = end;
        Ok(())
    }

    pub fn fixed(&mut self, size: usize) -> Step<&'a [u8]> {
        let length = self.length()?;
        if length > size {
            let ours =
                if length > self.left() { Answer::refused(1) } else { Answer::Refused(6, (length - size) as u64) };
            return self.apart(LEFT_IN_A_STRING, ours, None);
        }
        if length < size {
            return refuse(1);
        }
        self.take(size)
    }

    pub fn name(&mut self, names: &[&str], stranger: fn(&str) -> (Cause, Option<Answer>)) -> Step<usize> {
        let name = self.string()?;
        if let Some(code) = names.iter().position(|known| known.as_bytes() == name) {
            return Ok(code);
        }
        let (cause, theirs) = match std::str::from_utf8(name) {
            _ if name.len() > LONGEST_NAME => (LONG_NAME, Some(Answer::refused(1))),
            Err(_) => (NAME_NOT_UTF8, Some(Answer::refused(7))),
            Ok(text) => stranger(text),
        };
        self.apart(cause, Answer::refused(4), theirs)
    }
}
