//! What a header, a whole image and one of its keys have in common.

use crate::c;
use crate::{Algorithm, Cipher, Error, KdfAlg};

/// The bytes of an accepted read, the C interface's numbers for them, and the codes among these by name.
#[derive(Clone, Copy)]
pub(crate) struct Accepted<'a> {
    pub bytes: &'a [u8],
    pub fields: c::Image,
    pub algorithm: Algorithm,
    pub cipher: Cipher,
    pub kdf: KdfAlg,
}

impl<'a> Accepted<'a> {
    /// What a read of `bytes` answered, or its refusal. The names are looked up first, so that the many fields are copied once.
    pub fn new(bytes: &'a [u8], fields: c::Image) -> Result<Self, Error> {
        let (algorithm, cipher, kdf) = names(bytes, &fields)?;
        Ok(Self { bytes, fields, algorithm, cipher, kdf })
    }

    pub fn part(&self, part: c::Part) -> &'a [u8] {
        part_of(self.bytes, part)
    }
}

/// The bytes of a part that an accepted read of `bytes` answered.
pub(crate) fn part_of(bytes: &[u8], part: c::Part) -> &[u8] {
    let start = part.start as usize;
    &bytes[start..start + part.length as usize]
}

fn names(bytes: &[u8], fields: &c::Image) -> Result<(Algorithm, Cipher, KdfAlg), Error> {
    if fields.number != 0 {
        return Err(Error::read(bytes, fields));
    }
    let algorithm = Algorithm::from_code(fields.algorithm);
    let (cipher, kdf) = (Cipher::from_code(fields.cipher), KdfAlg::from_code(fields.kdf));
    match (algorithm, cipher, kdf) {
        (Some(algorithm), Some(cipher), Some(kdf)) => Ok((algorithm, cipher, kdf)),
        _ => Err(Error::unknown_code()),
    }
}

/// What a header and an image are made of and compared by, for such a type: by the bytes that it answers under a name.
macro_rules! read_and_compared {
    ($name:ident, $bytes:ident) => {
        impl<'a> TryFrom<&'a [u8]> for $name<'a> {
            type Error = Error;

            /// The same as `read`.
            fn try_from(bytes: &'a [u8]) -> Result<Self, Error> {
                Self::read(bytes)
            }
        }

        /// The same bytes. The comparison isn't constant-time.
        impl PartialEq for $name<'_> {
            fn eq(&self, other: &Self) -> bool {
                self.$bytes() == other.$bytes()
            }
        }

        impl Eq for $name<'_> {}

        impl core::hash::Hash for $name<'_> {
            fn hash<H: core::hash::Hasher>(&self, state: &mut H) {
                self.$bytes().hash(state);
            }
        }
    };
}

/// The functions that answer from a key's blob, for a type with a `read` that has the algorithm, the fields and their bytes.
macro_rules! what_a_blob_says {
    () => {
        /// The key's algorithm.
        pub fn algorithm(&self) -> Algorithm {
            self.read.algorithm
        }

        /// The public key as it is encoded in the header, without the length before it.
        pub fn public_blob(&self) -> &'a [u8] {
            self.read.part(self.read.fields.blob)
        }

        /// The public point in the header; for Ed25519 the 32 public bytes. Empty for RSA.
        pub fn point(&self) -> &'a [u8] {
            self.read.part(self.read.fields.point)
        }

        /// The bits of an RSA key's modulus, 1,024 to 8,192; 0 for a key of another kind.
        pub fn bits(&self) -> usize {
            self.read.fields.bits as usize
        }

        /// An RSA key's modulus in the header, n, as it is stored: big-endian, with a zero before a first byte of 0x80 or more.
        /// Empty for a key of another kind.
        pub fn modulus(&self) -> &'a [u8] {
            self.read.part(self.read.fields.modulus)
        }

        /// An RSA key's public exponent in the header, e, stored like the modulus. Empty for a key of another kind.
        pub fn exponent(&self) -> &'a [u8] {
            self.read.part(self.read.fields.exponent)
        }

        /// Do both have the same key, of one kind and with one public half? The public blobs are compared, and not in constant
        /// time. What is encrypted, or private, isn't looked at. Of an image of several keys it is the first.
        pub fn same_key(&self, other: &Self) -> bool {
            self.public_blob() == other.public_blob()
        }
    };
}

/// The functions that answer from the rest of the header, for a type that has an [`Accepted`] named `read`.
macro_rules! what_a_header_says {
    () => {
        /// The section's cipher.
        pub fn cipher(&self) -> Cipher {
            self.read.cipher
        }

        /// The KDF's kind; its options are [`salt`](Self::salt) and [`rounds`](Self::rounds).
        pub fn kdf(&self) -> KdfAlg {
            self.read.kdf
        }

        /// Is the section encrypted?
        pub fn is_encrypted(&self) -> bool {
            self.read.cipher.is_some()
        }

        /// How many keys there are: 1 to [`MAX_KEYS`](crate::MAX_KEYS), and 1 where the section is encrypted.
        pub fn key_count(&self) -> usize {
            self.read.fields.keys as usize
        }

        /// The KDF's salt; empty for KDF `none`.
        pub fn salt(&self) -> &'a [u8] {
            self.read.part(self.read.fields.salt)
        }

        /// The KDF's rounds; 0 for KDF `none`.
        pub fn rounds(&self) -> u32 {
            self.read.fields.rounds as u32
        }

        /// The place of the section's length field: the byte after the last public key.
        pub fn section_start(&self) -> usize {
            self.read.fields.section as usize
        }
    };
}

/// The functions that answer from a key's own part of the section, for the same types as `what_a_blob_says`.
macro_rules! what_a_section_says {
    () => {
        /// The comment. An encrypted image shows none: it is in the ciphertext.
        pub fn comment(&self) -> &'a str {
            core::str::from_utf8(self.read.part(self.read.fields.comment))
                .expect("an accepted image's comment is UTF-8")
        }

        /// **Private.** The secret scalar without leading zeros, so it may be shorter than its curve's size; for Ed25519 the
        /// seed, all 32 bytes. Empty for RSA and for an encrypted image.
        pub fn scalar(&self) -> &'a [u8] {
            self.read.part(self.read.fields.scalar)
        }

        /// **Private.** The [`scalar`](Self::scalar) as [`PlainKey`](crate::PlainKey) takes it: copied into `room`, with zeros
        /// filled in front to its curve's size. The seed, and the empty one, get none. `room` is the caller's to wipe.
        pub fn full_scalar<'r>(&self, room: &'r mut [u8; EcdsaCurve::MAX_SIZE]) -> &'r [u8] {
            let scalar = self.scalar();
            let size = match self.algorithm() {
                Algorithm::Ecdsa { curve } if !scalar.is_empty() => curve.size(),
                _ => scalar.len(),
            };
            let (zeros, rest) = room[..size].split_at_mut(size - scalar.len());
            zeros.fill(0);
            rest.copy_from_slice(scalar);
            &room[..size]
        }

        /// **Private.** An RSA key's private exponent, stored like the [`modulus`](Self::modulus). Empty for a key of another
        /// kind and for an encrypted image.
        pub fn d(&self) -> &'a [u8] {
            self.read.part(self.read.fields.d)
        }

        /// **Private.** An RSA key's coefficient, the inverse of q modulo p, stored and absent as [`d`](Self::d) is.
        pub fn iqmp(&self) -> &'a [u8] {
            self.read.part(self.read.fields.iqmp)
        }

        /// **Private.** An RSA key's first prime, stored and absent as [`d`](Self::d) is.
        pub fn p(&self) -> &'a [u8] {
            self.read.part(self.read.fields.p)
        }

        /// **Private.** An RSA key's second prime, stored and absent as [`d`](Self::d) is.
        pub fn q(&self) -> &'a [u8] {
            self.read.part(self.read.fields.q)
        }
    };
}
