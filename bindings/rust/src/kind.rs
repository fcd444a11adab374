//! The reasons of refusals, by number and name.

use core::fmt;

/// The reasons, each once: its number, its name, and what it means.
macro_rules! kinds {
    ($($number:literal $name:ident $meaning:literal)*) => {
        /// The reason of a refusal. The first eight have the names of ssh-key's errors and of those of its encoding that it hands up; it
        /// doesn't have the others. A variant is its
        /// number: `ErrorKind::Crypto as u64` is 3.
        #[derive(Clone, Copy, Debug, PartialEq, Eq, Hash)]
        #[non_exhaustive]
        pub enum ErrorKind {
            $(#[doc = $meaning] $name = $number,)*
        }

        impl ErrorKind {
            /// The variant's name, such as `Length`.
            pub fn name(self) -> &'static str {
                match self {
                    $(Self::$name => stringify!($name),)*
                }
            }

            /// The kind of a number that the archive answers.
            pub(crate) fn of(number: u64) -> Self {
                match number {
                    $($number => Self::$name,)*
                    _ => unreachable!("the archive of this interface refuses with 1 to 11"),
                }
            }
        }
    };
}

/// The variant's name.
impl fmt::Display for ErrorKind {
    fn fmt(&self, f: &mut fmt::Formatter<'_>) -> fmt::Result {
        f.pad(self.name())
    }
}

kinds! {
    1 Length "1: a field runs past its end, or has a wrong length or key count; an ECDSA scalar is empty; an RSA number has too \
        few or too many bits; a key is missing, the only one, or one too many; a setting or a store has another length; a device \
        has no place."
    2 FormatEncoding "2: a wrong beginning of the image, padding byte or first byte of a point or scalar; an ECDSA scalar of \
        zeros only; an RSA number that isn't positive and in the fewest bytes; a text in another spelling than export's."
    3 Crypto "3: unequal checkints, a misused KDF, a ciphertext that isn't whole blocks, Ed25519 halves that differ."
    4 AlgorithmUnknown "4: an unknown name, or a curve unlike its algorithm; a setting of an unknown version or kind."
    5 PublicKey "5: a public key of the section isn't the header's."
    6 TrailingData "6: the field has bytes too many; [`Error::count`](crate::Error::count) says how many."
    7 CharacterEncoding "7: a comment isn't UTF-8."
    8 Encrypted "8: the section is encrypted, and a plain one is needed."
    9 BufferTooShort "9: the lent buffer is too short."
    10 NotInForm "10: the image isn't the one that the writer makes of its record."
    11 TooLarge "11: the image is, or would be, above 65,535 bytes, or so is what a text carries; a delay can't be held exactly by a \
        setting's version."
}
