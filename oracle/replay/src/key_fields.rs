//! The fields of a key: curve, point, scalar, RSA's numbers, by both rules.

use crate::answer::Answer;
use crate::causes::*;
use crate::steps::{refuse, Step, Walk};
use crate::strangers::strange_name;

const CURVES: [&str; 3] = ["nistp256", "nistp384", "nistp521"];
pub const SIZES: [usize; 3] = [32, 48, 66];
/// The crate's longest point.
const LONGEST_POINT: usize = 133;

impl<'a> Walk<'a> {
    pub fn curve_and_point(&mut self) -> Step<(usize, &'a [u8])> {
        let curve = self.name(&CURVES, strange_name)?;
        let size = SIZES[curve];
        let length = self.length()?;
        let whole = if length <= self.left() { Some(self.take(length)?) } else { None };
        let (ours, theirs) = (our_point(whole, size), their_point(whole, size));
        match (ours, theirs) {
            (Ok(point), _) => Ok((curve, point)),
            (Err(ours), Ok(())) => self.apart(COMPRESSED_POINT, ours, None),
            (Err(ours), Err(theirs)) if ours == theirs => Err(ours),
            (Err(ours), Err(theirs)) => self.apart(POINT, ours, Some(theirs)),
        }
    }

    pub fn scalar(&mut self, size: usize) -> Step<()> {
        let length = self.length()?;
        let whole = length <= self.left();
        let there = self.take(length.min(self.left()))?;
        if length > size + 1 {
            let ours = if whole { Answer::Refused(6, (length - size) as u64) } else { Answer::refused(1) };
            return self.apart(LEFT_IN_A_STRING, ours, None);
        }
        let wrong_first = length == size + 1 && there.first().map_or(false, |byte| *byte != 0);
        match (whole, wrong_first) {
            (true, true) => refuse(2),
            (false, true) => self.apart(STRING_NOT_WHOLE, Answer::refused(1), Some(Answer::refused(2))),
            (false, false) => refuse(1),
            (true, false) => self.whole_scalar(there, size),
        }
    }

    pub fn whole_scalar(&mut self, scalar: &[u8], size: usize) -> Step<()> {
        let theirs = if scalar.len() < size { Some(Answer::refused(1)) } else { None };
        if scalar.is_empty() {
            return refuse(1);
        }
        if scalar.iter().all(|byte| *byte == 0) {
            return self.apart(ZERO_SCALAR, Answer::refused(2), theirs);
        }
        if theirs.is_some() {
            self.note(SHORT_SCALAR, theirs);
        }
        Ok(())
    }

    pub fn number(&mut self) -> Step<&'a [u8]> {
        match self.string()? {
            [0] => refuse(2),
            [0, second, ..] if *second < 0x80 => refuse(2),
            [] | [0x80..=0xff, ..] => self.apart(RSA_NOT_POSITIVE, Answer::refused(2), None),
            number => Ok(number),
        }
    }

    pub fn sizes(&mut self, n: &[u8], others: &[&[u8]]) -> Step<()> {
        let right = (1_024..=8_192).contains(&bits(n)) && others.iter().all(|number| bits(number) <= bits(n));
        match right {
            true => Ok(()),
            false => self.apart(RSA_SIZE, Answer::refused(1), None),
        }
    }
}

/// The bits of a positive number.
fn bits(number: &[u8]) -> usize {
    let zeros = number.iter().take_while(|byte| **byte == 0).count();
    let first = number.get(zeros).copied().unwrap_or(0);
    8 * (number.len() - zeros) - first.leading_zeros() as usize
}

pub fn held_to_name(curve: usize, name: usize) -> Step<()> {
    if curve + 1 != name {
        return refuse(4);
    }
    Ok(())
}

/// Length, then tag.
fn our_point(whole: Option<&[u8]>, size: usize) -> Step<&[u8]> {
    let right = 1 + 2 * size;
    match whole {
        None => refuse(1),
        Some(point) if point.len() < right => refuse(1),
        Some(point) if point.len() > right => Err(Answer::Refused(6, (point.len() - right) as u64)),
        Some([4, ..]) => Ok(whole.unwrap_or_default()),
        _ => refuse(2),
    }
}

/// Tag, then the curve by the length, then that curve held to the curve's name.
fn their_point(whole: Option<&[u8]>, size: usize) -> Result<(), Answer> {
    let (tag, rest) = match whole {
        Some([tag, rest @ ..]) if rest.len() < LONGEST_POINT => (*tag, rest.len()),
        _ => return refuse(1),
    };
    let width = match tag {
        2 | 3 => rest,
        4 => rest / 2,
        0 | 5 => return refuse(4),
        _ => return Err(Answer::Ecdsa),
    };
    if !SIZES.contains(&width) {
        return refuse(1);
    }
    if tag == 4 && rest % 2 != 0 {
        return Err(Answer::Ecdsa);
    }
    match width == size {
        true => Ok(()),
        false => refuse(4),
    }
}
