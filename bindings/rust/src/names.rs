//! Algorithms, ciphers and KDFs by name, and their codes in the C interface.

use core::fmt;
use core::str::FromStr;

use crate::cause::Named;
use crate::Error;

/// The curve of an ECDSA key.
#[derive(Clone, Copy, Debug, PartialEq, Eq, Hash, PartialOrd, Ord)]
pub enum EcdsaCurve {
    /// NIST P-256.
    NistP256,
    /// NIST P-384.
    NistP384,
    /// NIST P-521.
    NistP521,
}

impl EcdsaCurve {
    /// The largest [`size`](Self::size) of a curve.
    pub const MAX_SIZE: usize = 66;

    const ALL: [Self; 3] = [Self::NistP256, Self::NistP384, Self::NistP521];

    /// The bytes of a scalar or a coordinate with all its leading zeros: 32, 48 or 66.
    pub fn size(self) -> usize {
        match self {
            Self::NistP256 => 32,
            Self::NistP384 => 48,
            Self::NistP521 => 66,
        }
    }

    /// The curve's name in the container, such as `nistp256`.
    pub fn as_str(self) -> &'static str {
        match self {
            Self::NistP256 => "nistp256",
            Self::NistP384 => "nistp384",
            Self::NistP521 => "nistp521",
        }
    }
}

/// The algorithm of a key.
#[derive(Clone, Copy, Debug, PartialEq, Eq, Hash, PartialOrd, Ord)]
#[non_exhaustive]
pub enum Algorithm {
    /// Ed25519.
    Ed25519,
    /// ECDSA.
    Ecdsa {
        /// Over which curve.
        curve: EcdsaCurve,
    },
    /// RSA.
    Rsa,
}

impl Algorithm {
    /// The place is the code.
    const ALL: [Self; 5] = [
        Self::Ed25519,
        Self::Ecdsa { curve: EcdsaCurve::NistP256 },
        Self::Ecdsa { curve: EcdsaCurve::NistP384 },
        Self::Ecdsa { curve: EcdsaCurve::NistP521 },
        Self::Rsa,
    ];

    /// The algorithm's name in the container, such as `ssh-ed25519`.
    pub fn as_str(self) -> &'static str {
        match self {
            Self::Ed25519 => "ssh-ed25519",
            Self::Ecdsa { curve: EcdsaCurve::NistP256 } => "ecdsa-sha2-nistp256",
            Self::Ecdsa { curve: EcdsaCurve::NistP384 } => "ecdsa-sha2-nistp384",
            Self::Ecdsa { curve: EcdsaCurve::NistP521 } => "ecdsa-sha2-nistp521",
            Self::Rsa => "ssh-rsa",
        }
    }

    pub(crate) fn code(self) -> u8 {
        match self {
            Self::Ed25519 => 0,
            Self::Ecdsa { curve } => 1 + curve as u8,
            Self::Rsa => 4,
        }
    }
}

/// The cipher of the private section.
#[derive(Clone, Copy, Debug, PartialEq, Eq, Hash, PartialOrd, Ord)]
#[non_exhaustive]
pub enum Cipher {
    /// No cipher: the section is plain.
    None,
    /// `3des-cbc`.
    TDesCbc,
    /// `aes128-cbc`.
    Aes128Cbc,
    /// `aes192-cbc`.
    Aes192Cbc,
    /// `aes256-cbc`.
    Aes256Cbc,
    /// `aes128-ctr`.
    Aes128Ctr,
    /// `aes192-ctr`.
    Aes192Ctr,
    /// `aes256-ctr`.
    Aes256Ctr,
    /// `aes128-gcm@openssh.com`.
    Aes128Gcm,
    /// `aes256-gcm@openssh.com`.
    Aes256Gcm,
}

impl Cipher {
    /// The place is the code.
    const ALL: [Self; 10] = [
        Self::None,
        Self::TDesCbc,
        Self::Aes128Cbc,
        Self::Aes192Cbc,
        Self::Aes256Cbc,
        Self::Aes128Ctr,
        Self::Aes192Ctr,
        Self::Aes256Ctr,
        Self::Aes128Gcm,
        Self::Aes256Gcm,
    ];

    /// The cipher's name in the container, such as `aes256-ctr`; `none` for no cipher.
    pub fn as_str(self) -> &'static str {
        match self {
            Self::None => "none",
            Self::TDesCbc => "3des-cbc",
            Self::Aes128Cbc => "aes128-cbc",
            Self::Aes192Cbc => "aes192-cbc",
            Self::Aes256Cbc => "aes256-cbc",
            Self::Aes128Ctr => "aes128-ctr",
            Self::Aes192Ctr => "aes192-ctr",
            Self::Aes256Ctr => "aes256-ctr",
            Self::Aes128Gcm => "aes128-gcm@openssh.com",
            Self::Aes256Gcm => "aes256-gcm@openssh.com",
        }
    }

    /// The bytes of a block, of which a section is a whole number: 16, for `3des-cbc` and no cipher 8.
    pub fn block_size(self) -> usize {
        match self {
            Self::None | Self::TDesCbc => 8,
            _ => 16,
        }
    }

    /// The bytes of the tag after an encrypted section: 16 for a GCM cipher, 0 for another.
    pub fn tag_length(self) -> usize {
        match self {
            Self::Aes128Gcm | Self::Aes256Gcm => 16,
            _ => 0,
        }
    }

    /// Is there no cipher, so that the section is plain?
    pub fn is_none(self) -> bool {
        self == Self::None
    }

    /// Is there a cipher, so that the section is encrypted?
    pub fn is_some(self) -> bool {
        !self.is_none()
    }

    pub(crate) fn code(self) -> u8 {
        self as u8
    }
}

/// The function that makes a cipher's key from a passphrase.
#[derive(Clone, Copy, Debug, PartialEq, Eq, Hash, PartialOrd, Ord)]
#[non_exhaustive]
pub enum KdfAlg {
    /// None.
    None,
    /// bcrypt-pbkdf, with a salt and a number of rounds.
    Bcrypt,
}

impl KdfAlg {
    /// The place is the code.
    const ALL: [Self; 2] = [Self::None, Self::Bcrypt];

    /// The name in the container: `none` or `bcrypt`.
    pub fn as_str(self) -> &'static str {
        match self {
            Self::None => "none",
            Self::Bcrypt => "bcrypt",
        }
    }

    pub(crate) fn code(self) -> u8 {
        self as u8
    }
}

/// What goes by a name, and by a code that is its place among all.
macro_rules! named {
    ($($name:ident is $named:ident),*) => {$(
        impl $name {
            pub(crate) fn from_name(name: &[u8]) -> Option<Self> {
                Self::ALL.iter().copied().find(|one| one.as_str().as_bytes() == name)
            }

            #[allow(dead_code)] // a curve has no code
            pub(crate) fn from_code(code: u64) -> Option<Self> {
                Self::ALL.get(usize::try_from(code).ok()?).copied()
            }
        }

        impl fmt::Display for $name {
            fn fmt(&self, f: &mut fmt::Formatter<'_>) -> fmt::Result {
                f.pad(self.as_str())
            }
        }

        impl AsRef<str> for $name {
            fn as_ref(&self) -> &str {
                self.as_str()
            }
        }

        impl FromStr for $name {
            type Err = Error;

            /// By its name in the container; any other is refused with 4.
            fn from_str(name: &str) -> Result<Self, Error> {
                Self::from_name(name.as_bytes()).ok_or_else(|| Error::unknown_name(Named::$named, name))
            }
        }
    )*};
}
named!(Algorithm is Key, EcdsaCurve is Curve, Cipher is Cipher, KdfAlg is Kdf);
