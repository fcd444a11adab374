//! The fields of an image, in words.

use core::fmt;

/// A field of an image, or what else a refusal can be about. Its `Display` is the words for it, such as
/// `the comment's string`; a field that is called a string has its four length bytes before it.
#[derive(Clone, Copy, Debug, PartialEq, Eq, Hash)]
#[non_exhaustive]
pub enum Field {
    /// The image as a whole.
    Image,
    /// The cipher name.
    CipherName,
    /// The KDF name.
    KdfName,
    /// The KDF options.
    KdfOptions,
    /// bcrypt's salt, in the options.
    Salt,
    /// bcrypt's rounds, in the options.
    Rounds,
    /// The key count.
    KeyCount,
    /// The blob: the public key in the header.
    Blob,
    /// The key name in the blob.
    BlobKeyName,
    /// An Ed25519 key's public bytes in the blob.
    BlobPublicKey,
    /// The curve in the blob.
    BlobCurve,
    /// The point in the blob.
    BlobPoint,
    /// An RSA key's public exponent in the blob.
    BlobE,
    /// An RSA key's modulus in the blob.
    BlobN,
    /// The plain section, with its length bytes.
    SectionString,
    /// What the plain section holds.
    Section,
    /// The first checkint.
    FirstCheckint,
    /// The second checkint.
    SecondCheckint,
    /// The key name in the section.
    SectionKeyName,
    /// An Ed25519 key's public bytes in the section.
    SectionPublicKey,
    /// An Ed25519 key's seed with the public bytes once more: one string of 64.
    Seed,
    /// The curve in the section.
    SectionCurve,
    /// The point in the section.
    SectionPoint,
    /// An ECDSA key's scalar.
    Scalar,
    /// An RSA key's modulus in the section.
    SectionN,
    /// An RSA key's public exponent in the section.
    SectionE,
    /// An RSA key's private exponent.
    D,
    /// An RSA key's inverse of q modulo p.
    Iqmp,
    /// An RSA key's first prime.
    P,
    /// An RSA key's second prime.
    Q,
    /// The comment.
    Comment,
    /// The padding.
    Padding,
    /// The ciphertext.
    Ciphertext,
    /// The tag.
    Tag,
    /// What was handed to a writer, or is to be added to an image.
    HandedIn,
    /// An armoured text.
    Text,
    /// A reconnect setting's record, by itself or in a store.
    Setting,
    /// A store of reconnect settings.
    Store,
}

impl Field {
    /// The words for it, such as `the comment's string`.
    pub fn as_str(self) -> &'static str {
        match self {
            Self::Image => "the image",
            Self::CipherName => "the cipher name's string",
            Self::KdfName => "the KDF name's string",
            Self::KdfOptions => "the KDF options' string",
            Self::Salt => "the salt's string",
            Self::Rounds => "the rounds",
            Self::KeyCount => "the key count",
            Self::Blob => "the blob's string",
            Self::BlobKeyName => "the key name's string in the blob",
            Self::BlobPublicKey => "the public key's string in the blob",
            Self::BlobCurve => "the curve's string in the blob",
            Self::BlobPoint => "the point's string in the blob",
            Self::BlobE => "e's string in the blob",
            Self::BlobN => "n's string in the blob",
            Self::SectionString => "the section's string",
            Self::Section => "the section",
            Self::FirstCheckint => "the first checkint",
            Self::SecondCheckint => "the second checkint",
            Self::SectionKeyName => "the key name's string in the section",
            Self::SectionPublicKey => "the public key's string in the section",
            Self::Seed => "the seed's string",
            Self::SectionCurve => "the curve's string in the section",
            Self::SectionPoint => "the point's string in the section",
            Self::Scalar => "the scalar's string",
            Self::SectionN => "n's string in the section",
            Self::SectionE => "e's string in the section",
            Self::D => "d's string",
            Self::Iqmp => "iqmp's string",
            Self::P => "p's string",
            Self::Q => "q's string",
            Self::Comment => "the comment's string",
            Self::Padding => "the padding",
            Self::Ciphertext => "the ciphertext's string",
            Self::Tag => "the tag",
            Self::HandedIn => "what was handed in",
            Self::Text => "the text",
            Self::Setting => "the setting",
            Self::Store => "the store",
        }
    }
}

impl Field {
    /// Does it stand in the section, where private bytes are?
    pub(crate) fn is_of_the_section(self) -> bool {
        use Field::*;
        matches!(
            self,
            Section
                | FirstCheckint
                | SecondCheckint
                | SectionKeyName
                | SectionPublicKey
                | Seed
                | SectionCurve
                | SectionPoint
                | Scalar
                | SectionN
                | SectionE
                | D
                | Iqmp
                | P
                | Q
                | Comment
                | Padding
        )
    }
}

impl fmt::Display for Field {
    fn fmt(&self, f: &mut fmt::Formatter<'_>) -> fmt::Result {
        f.pad(self.as_str())
    }
}
