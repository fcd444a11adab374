//! The causes for which the crate's answer isn't ours, as docs/DIFFERENCES.md names them.

use std::fmt;

#[derive(Clone, Copy, Debug, PartialEq, Eq, PartialOrd, Ord, Hash)]
pub struct Cause(pub u8);

pub const LEFT_IN_A_STRING: Cause = Cause(1);
pub const ABOVE_0XFFFFF: Cause = Cause(2);
pub const UNKNOWN_NAME: Cause = Cause(3);
pub const NAME_NOT_UTF8: Cause = Cause(4);
pub const LONG_NAME: Cause = Cause(5);
pub const POINT: Cause = Cause(6);
pub const RSA_NOT_POSITIVE: Cause = Cause(7);
pub const RSA_SIGNATURE_NAME: Cause = Cause(8);
pub const CHACHA20: Cause = Cause(9);
pub const COMPRESSED_POINT: Cause = Cause(10);
pub const OTHER_KIND: Cause = Cause(11);
pub const NAME_WITH_DOMAIN: Cause = Cause(12);
pub const OPTIONS_OF_NONE: Cause = Cause(13);
pub const STRING_NOT_WHOLE: Cause = Cause(14);
pub const SHORT_SCALAR: Cause = Cause(15);
pub const ZERO_SCALAR: Cause = Cause(16);
pub const RSA_SIZE: Cause = Cause(17);
pub const ABOVE_THE_LIMIT: Cause = Cause(18);
pub const SCALAR_WRITTEN: Cause = Cause(19);
pub const COMMENT_OF_ENCRYPTED: Cause = Cause(20);
pub const COMMENT_WITHOUT_FORM: Cause = Cause(21);
pub const SEVERAL_KEYS: Cause = Cause(22);

pub const CAUSES: usize = 22;

/// A few words for each, in the order of the numbers.
const WORDS: [&str; CAUSES] = [
    "bytes left in a string",
    "a length or key count above 0xfffff",
    "an unknown name",
    "a name that isn't UTF-8",
    "a name above 48 bytes",
    "a point's tag and length",
    "an RSA number that is empty or negative",
    "rsa-sha2-256 or -512 as a key's name",
    "chacha20-poly1305",
    "a compressed point",
    "DSA and security keys",
    "a key's name with a domain",
    "KDF none with options",
    "a string that isn't there whole",
    "a scalar shorter than its curve's size",
    "a scalar of zeros",
    "RSA sizes",
    "more than 65,535 bytes",
    "the scalar's form, written",
    "the comment of an encrypted image",
    "the comment of an image that isn't in the form",
    "several keys",
];

/// Those whose inputs lie outside the domain of comparison (docs/RULES.md, 1.5): above 65,535 bytes, with a cipher or an algorithm that isn't
/// named there, or with a point that isn't uncompressed.
const OUTSIDE: [Cause; 9] = [
    UNKNOWN_NAME, NAME_NOT_UTF8, LONG_NAME, RSA_SIGNATURE_NAME, CHACHA20, COMPRESSED_POINT, OTHER_KIND,
    NAME_WITH_DOMAIN, ABOVE_THE_LIMIT,
];

impl Cause {
    pub fn all() -> impl Iterator<Item = Cause> {
        (1..=CAUSES as u8).map(Cause)
    }

    pub fn words(self) -> &'static str {
        WORDS[usize::from(self.0) - 1]
    }

    pub fn in_domain(self) -> bool {
        !OUTSIDE.contains(&self)
    }

    pub fn parse(text: &str) -> Option<Self> {
        let number = text.strip_prefix('C')?.parse().ok()?;
        Self::all().find(|cause| cause.0 == number)
    }
}

impl fmt::Display for Cause {
    fn fmt(&self, f: &mut fmt::Formatter<'_>) -> fmt::Result {
        write!(f, "C{}", self.0)
    }
}
