//! What a reader answers, in one form for both: the rules' number with its count, or the crate's own name for an error that
//! their table (docs/RULES.md, 2.1) doesn't have.

use std::fmt;

#[derive(Clone, Copy, Debug, PartialEq, Eq, PartialOrd, Ord, Hash)]
pub enum Answer {
    Read,
    Refused(u64, u64),
    /// `Error::Ecdsa`: a point's tag or length.
    Ecdsa,
    /// `Error::Encoding(Label)`: a name that the crate doesn't know.
    Label,
    /// `Error::Encoding(Overflow)`: a length or key count above 0xfffff.
    Overflow,
    /// Any other error.
    Other,
}

impl Answer {
    pub fn refused(number: u64) -> Self {
        Self::Refused(number, 0)
    }

    pub fn parse(text: &str) -> Option<Self> {
        Some(match text {
            "read" => Self::Read,
            "Ecdsa" => Self::Ecdsa,
            "Label" => Self::Label,
            "Overflow" => Self::Overflow,
            _ => match text.split_once('+') {
                Some((number, count)) => Self::Refused(number.parse().ok()?, count.parse().ok()?),
                None => Self::refused(text.parse().ok()?),
            },
        })
    }
}

/// `read`, a name, a number, or `6+2` for number 6 with the count 2.
impl fmt::Display for Answer {
    fn fmt(&self, f: &mut fmt::Formatter<'_>) -> fmt::Result {
        match self {
            Self::Read => write!(f, "read"),
            Self::Refused(number, 0) => write!(f, "{number}"),
            Self::Refused(number, count) => write!(f, "{number}+{count}"),
            other => write!(f, "{other:?}"),
        }
    }
}
