//! Which part of what was handed to a writer is refused, and why.

use core::fmt;
use core::time::Duration;

use crate::c;
use crate::cause::{Cause, Name, Named};
use crate::judge::{bits, wrong_modulus, wrong_mpint, zeros_only};
use crate::settings::Version;
use crate::several::AnyKey;
use crate::walk::refused_blob;
use crate::{Algorithm, EncryptedKey, Field, KdfAlg, KeyPlaces, KeyRef, PlainKey, RsaKey, MAX_KEYS};

/// A part of what was handed in.
#[derive(Clone, Copy, Debug, PartialEq, Eq, Hash)]
pub(crate) enum Part {
    Algorithm,
    Public,
    Private,
    Comment,
    N,
    E,
    D,
    Iqmp,
    P,
    Q,
    Cipher,
    Salt,
    Rounds,
    /// A field of the blob.
    Blob(Field),
    Ciphertext,
    Tag,
    /// The keys, as a list.
    Keys,
    /// The text of which an algorithm, cipher, KDF or curve was to be made.
    Name,
    Device,
    Delay,
}

impl fmt::Display for Part {
    fn fmt(&self, f: &mut fmt::Formatter<'_>) -> fmt::Result {
        f.write_str(match *self {
            Self::Algorithm => "the algorithm",
            Self::Public => "the public key",
            Self::Private => "the private key",
            Self::Comment => "the comment",
            Self::N => "n",
            Self::E => "e",
            Self::D => "d",
            Self::Iqmp => "iqmp",
            Self::P => "p",
            Self::Q => "q",
            Self::Cipher => "the cipher",
            Self::Salt => "the salt",
            Self::Rounds => "the rounds",
            Self::Blob(field) => field.as_str(),
            Self::Ciphertext => "the ciphertext",
            Self::Tag => "the tag",
            Self::Keys => "the list of keys",
            Self::Name => "the name",
            Self::Device => "the device",
            Self::Delay => "the delay",
        })
    }
}

/// What a writer refuses: the part, and what is wrong with it.
pub(crate) type Refused = (Part, Cause);

/// What `write_plain` refuses with this number.
pub(crate) fn of_plain(key: &PlainKey<'_>, number: u64) -> Refused {
    match number {
        1 => plain_length(key),
        2 if key.public.first() != Some(&4) => (Part::Public, Cause::NotFour),
        2 if zeros_only(key.private) => (Part::Private, Cause::ZerosOnly),
        4 => (Part::Algorithm, Cause::OwnWriter),
        7 => (Part::Comment, Cause::NotUtf8),
        _ => (Part::Algorithm, Cause::Untold),
    }
}

fn plain_length(key: &PlainKey<'_>) -> Refused {
    let (public, private) = match key.algorithm {
        Algorithm::Ecdsa { curve } => (1 + 2 * curve.size(), curve.size()),
        _ => (32, 32),
    };
    match key.public.len() {
        has if has != public => (Part::Public, Cause::Length { has, needs: public }),
        _ => (Part::Private, Cause::Length { has: key.private.len(), needs: private }),
    }
}

/// What `write_rsa` refuses with this number.
pub(crate) fn of_rsa(key: &RsaKey<'_>, number: u64) -> Refused {
    let numbers = [
        (Part::N, key.n),
        (Part::E, key.e),
        (Part::D, key.d),
        (Part::Iqmp, key.iqmp),
        (Part::P, key.p),
        (Part::Q, key.q),
    ];
    let first = |fault: &dyn Fn(&[u8]) -> Option<Cause>| {
        numbers.iter().find_map(|(part, bytes)| fault(bytes).map(|cause| (*part, cause)))
    };
    let refused = match number {
        1 => match wrong_modulus(key.n) {
            Some(cause) => Some((Part::N, cause)),
            None => first(&|bytes| if bits(bytes) > bits(key.n) { Some(Cause::MoreBits) } else { None }),
        },
        2 => first(&wrong_mpint),
        7 => Some((Part::Comment, Cause::NotUtf8)),
        _ => None,
    };
    refused.unwrap_or((Part::N, Cause::Untold))
}

/// What is refused of several keys, and which of them it is, counted from 1; none where it is their number, or there is one key.
pub(crate) type OfKeys = (Option<usize>, Refused);

/// What `write_keys` refuses of so many keys with this number: the first key that is refused by itself.
pub(crate) fn of_keys<'a>(count: usize, keys: impl Iterator<Item = KeyRef<'a>>, number: u64) -> OfKeys {
    if !(1..=MAX_KEYS).contains(&count) {
        return (None, (Part::Keys, Cause::Keys { has: count }));
    }
    for (key, k) in keys.zip(1..) {
        let refused = match key.key {
            AnyKey::Plain(PlainKey { algorithm: Algorithm::Rsa, .. }) if number == 4 => {
                (Part::Algorithm, Cause::OwnParts)
            }
            AnyKey::Plain(plain) if alone(&key) == number => of_plain(&plain, number),
            AnyKey::Rsa(rsa) if alone(&key) == number => of_rsa(&rsa, number),
            _ => continue,
        };
        return (one_of(count, k), refused);
    }
    (None, (Part::Keys, Cause::Untold))
}

/// The number of a key where there are several.
fn one_of(count: usize, k: usize) -> Option<usize> {
    Some(k).filter(|_| count > 1)
}

/// The number with which a key by itself is refused; 9 where nothing is wrong with it.
fn alone(key: &KeyRef<'_>) -> u64 {
    let reply = match key.key {
        AnyKey::Plain(PlainKey { algorithm, public, private, .. }) => {
            c::write_plain(algorithm.code(), public, private, 0, 0, key.comment, &mut [])
        }
        AnyKey::Rsa(RsaKey { n, e, d, iqmp, p, q, .. }) => {
            c::write_rsa([n, e, d, iqmp, p, q], 0, 0, key.comment, &mut [])
        }
    };
    reply.number
}

/// A key's parts in the order of a table's row.
const PARTS: [Part; 9] =
    [Part::Public, Part::Private, Part::Comment, Part::N, Part::E, Part::D, Part::Iqmp, Part::P, Part::Q];

/// What `write_keys_in` refuses with this number.
pub(crate) fn of_places(text: &[u8], keys: &[KeyPlaces], number: u64) -> OfKeys {
    let outside = |key: &KeyPlaces| key.parts(text).iter().position(Option::is_none);
    if (1..=MAX_KEYS).contains(&keys.len()) && number == 1 {
        for (key, k) in keys.iter().zip(1..) {
            if let Some(place) = outside(key) {
                return (one_of(keys.len(), k), (PARTS[place], Cause::Outside));
            }
        }
    }
    let found = keys.iter().map(|key| key.key_ref(key.parts(text).map(Option::unwrap_or_default)));
    of_keys(keys.len(), found, number)
}

/// What `write_encrypted` refuses with this number: of a blob any that its reading has, which is never 3.
pub(crate) fn of_encrypted(key: &EncryptedKey<'_>, number: u64) -> Refused {
    match number {
        1 if !blob_is_short(key) => (Part::Tag, Cause::Length { has: key.tag.len(), needs: key.cipher.tag_length() }),
        3 if key.cipher.is_none() => (Part::Cipher, Cause::NoCipher),
        3 if key.kdf == KdfAlg::None && !key.salt.is_empty() => (Part::Salt, Cause::SaltWithoutKdf),
        3 if key.kdf == KdfAlg::None && key.rounds != 0 => (Part::Rounds, Cause::RoundsWithoutKdf),
        3 => (Part::Ciphertext, Cause::NotWhole { has: key.ciphertext.len(), block: key.cipher.block_size() }),
        _ => {
            let (field, cause) = refused_blob(key.blob, number);
            (Part::Blob(field), cause)
        }
    }
}

/// Does the writer answer 1 with a tag of the right length too? Then the blob is what it refuses.
fn blob_is_short(key: &EncryptedKey<'_>) -> bool {
    let tag = &[0; 16][..key.cipher.tag_length()];
    let (cipher, kdf) = (key.cipher.code(), key.kdf.code());
    c::write_encrypted(cipher, kdf, key.salt, key.rounds, key.blob, key.ciphertext, tag, &mut []).number == 1
}

/// A text that names nothing.
pub(crate) fn of_name(named: Named, name: &str) -> Refused {
    (Part::Name, Cause::Unknown(named, Name::of(name.as_bytes())))
}

/// A device that no store has.
pub(crate) fn no_device(device: u64) -> Refused {
    (Part::Device, Cause::NoDevice(device))
}

/// What a setting's writer refuses of a delay with this number. What isn't a whole number of milliseconds isn't one of seconds either.
pub(crate) fn of_delay(version: Version, delay: Duration, number: u64) -> Refused {
    let cause = match (number, version) {
        (11, Version::V1) if delay.subsec_nanos() != 0 => Cause::NotSeconds,
        (11, Version::V1) => Cause::AboveSeconds,
        (11, Version::V2) if delay.subsec_nanos() % 1_000_000 != 0 => Cause::NotMilliseconds,
        (11, Version::V2) => Cause::AboveMilliseconds,
        _ => Cause::Untold,
    };
    (Part::Delay, cause)
}
