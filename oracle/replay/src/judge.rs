//! Two answers to one input, ours and the crate's: the causes of what differs, or a sentence where no cause is found.

use crate::answer::Answer;
use crate::causes::*;
use crate::ours::{self, Ours, Written};
use crate::walk;
use crate::width::{fewest_bytes, full_width};

/// Bytes of the crate's, at hand or as a sum.
pub trait Mark {
    fn is(&self, bytes: &[u8]) -> bool;
}

impl Mark for Vec<u8> {
    fn is(&self, bytes: &[u8]) -> bool {
        self == bytes
    }
}

/// The crate's answer; the bytes are those of an image that it read: its values, the image that it writes, the one that it writes
/// with another comment, and the new one of the same key and comment.
pub struct Theirs<T> {
    pub answer: Answer,
    pub read: Option<[T; 4]>,
}

/// The causes of the differences, none where there is none.
pub fn judge<T: Mark>(image: &[u8], comment: &str, ours: &Ours, theirs: &Theirs<T>) -> Result<Vec<Cause>, String> {
    let expected = walk::expected(image);
    let pair = || format!("{} here, {} there", ours.answer, theirs.answer);
    if ours.answer != theirs.answer && expected.cause.is_none() {
        return Err(format!("no cause: {}", pair()));
    }
    if ours.answer != expected.ours {
        return Err(format!("{}, where {} is to be expected here", pair(), expected.ours));
    }
    if expected.theirs.map_or(false, |answer| answer != theirs.answer) {
        return Err(format!("{}, and the cause found asks for another answer there", pair()));
    }
    if ours.answer != theirs.answer {
        return Ok(expected.cause.into_iter().collect());
    }
    match &theirs.read {
        Some(read) if ours.answer == Answer::Read => both_read(image, comment, ours, read),
        _ => Ok(Vec::new()),
    }
}

fn both_read<T: Mark>(image: &[u8], comment: &str, ours: &Ours, theirs: &[T; 4]) -> Result<Vec<Cause>, String> {
    let [values, written, changed, fresh] = theirs;
    if !values.is(&ours.values) {
        return Err("both read it, and a value differs".into());
    }
    let mut causes = Vec::new();
    causes.extend(of_written(&ours.written, written).map_err(|words| format!("written again: {words}"))?);
    causes.extend(of_changed(image, comment, ours, changed).map_err(|words| format!("comment changed: {words}"))?);
    causes.extend(of_written(&ours.fresh, fresh).map_err(|words| format!("a new image: {words}"))?);
    causes.sort();
    causes.dedup();
    Ok(causes)
}

/// Both wrote, or neither had anything to write.
fn of_bytes<T: Mark>(ours: &[u8], theirs: &T) -> Result<Option<Cause>, String> {
    let same = theirs.is(ours);
    if ours.is_empty() && !same {
        return Err("no bytes here".into());
    }
    if !ours.is_empty() && fewest_bytes(ours) != ours {
        return Err("our scalar isn't in the fewest bytes".into());
    }
    if same {
        return Ok(None);
    }
    let full = full_width(ours);
    if full != ours && theirs.is(&full) {
        return Ok(Some(SCALAR_WRITTEN));
    }
    Err("other bytes".into())
}

pub fn of_written<T: Mark>(ours: &Written, theirs: &T) -> Result<Option<Cause>, String> {
    match ours {
        Ok(bytes) => of_bytes(bytes, theirs),
        Err(11) => Ok(Some(ABOVE_THE_LIMIT)),
        Err(number) => Err(format!("refused here with {number}")),
    }
}

fn of_changed<T: Mark>(image: &[u8], comment: &str, ours: &Ours, theirs: &T) -> Result<Option<Cause>, String> {
    match (&ours.changed, &ours.written) {
        (Err(8), Ok(same)) if same == image => held(COMMENT_OF_ENCRYPTED, theirs.is(same)),
        (Err(10), Ok(formed)) if formed != image => match ours::changed(formed, comment) {
            Err(11) => Ok(Some(ABOVE_THE_LIMIT)),
            afterwards => held(COMMENT_WITHOUT_FORM, of_written(&afterwards, theirs).is_ok()),
        },
        (Err(10), Err(11)) => Ok(Some(ABOVE_THE_LIMIT)),
        (changed, _) => of_written(changed, theirs),
    }
}

fn held(cause: Cause, holds: bool) -> Result<Option<Cause>, String> {
    if holds {
        Ok(Some(cause))
    } else {
        Err("other bytes there".into())
    }
}
