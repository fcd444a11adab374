//! The crate's answers, in the form that ours have.

use saltorchard_replay::answer::Answer;
use saltorchard_replay::judge::Theirs;
use saltorchard_replay::ours::joined;
use saltorchard_replay::width::section_of;
use ssh_encoding::{Decode, Error as EncodingError};
use ssh_key::private::{EcdsaKeypair, KeypairData};
use ssh_key::public::KeyData;
use ssh_key::{Error, Kdf, PrivateKey};

/// By the table of docs/RULES.md, 2.1, or by its own name where the table has none.
fn refused(error: &Error) -> Answer {
    match error {
        Error::Encoding(EncodingError::Length) => Answer::refused(1),
        Error::FormatEncoding => Answer::refused(2),
        Error::Crypto => Answer::refused(3),
        Error::AlgorithmUnknown => Answer::refused(4),
        Error::PublicKey => Answer::refused(5),
        Error::TrailingData { remaining } | Error::Encoding(EncodingError::TrailingData { remaining }) => {
            Answer::Refused(6, *remaining as u64)
        }
        Error::Encoding(EncodingError::CharacterEncoding) => Answer::refused(7),
        Error::Encrypted => Answer::refused(8),
        Error::Ecdsa(_) => Answer::Ecdsa,
        Error::Encoding(EncodingError::Label(_)) => Answer::Label,
        Error::Encoding(EncodingError::Overflow) => Answer::Overflow,
        _ => Answer::Other,
    }
}

pub fn of(image: &[u8], comment: &str) -> Theirs<Vec<u8>> {
    match PrivateKey::from_bytes(image) {
        Err(error) => Theirs { answer: refused(&error), read: None },
        Ok(mut key) => {
            let written = bytes_of(&key);
            let values = values(&key, &written);
            key.set_comment(comment);
            let fresh = PrivateKey::new(key.key_data().clone(), comment);
            let fresh = fresh.map_or(Vec::new(), |fresh| bytes_of(&fresh));
            Theirs { answer: Answer::Read, read: Some([values, written, bytes_of(&key), fresh]) }
        }
    }
}

fn bytes_of(key: &PrivateKey) -> Vec<u8> {
    key.to_bytes().expect("a key that was read is written").to_vec()
}

/// What the crate has no accessor for, checkint and tag, is taken from what it writes.
fn values(key: &PrivateKey, written: &[u8]) -> Vec<u8> {
    let (salt, rounds) = match key.kdf() {
        Kdf::Bcrypt { salt, rounds } => (&salt[..], *rounds),
        _ => (&[][..], 0),
    };
    let section = section_of(written);
    let (checkint, tag) = match key.is_encrypted() {
        true => (&[][..], &written[section + 4 + key.key_data().encrypted().unwrap_or_default().len()..]),
        false => (&written[section + 4..section + 8], &[][..]),
    };
    let [public, e, n] = public_values(key.public_key().key_data());
    let [private, d, iqmp, p, q] = private_values(key.key_data());
    joined(&[
        ("algorithm", key.algorithm().as_str().as_bytes()),
        ("cipher", key.cipher().as_str().as_bytes()),
        ("kdf", key.kdf().algorithm().as_str().as_bytes()),
        ("encrypted", &[u8::from(key.is_encrypted())]),
        ("salt", salt),
        ("rounds", &rounds.to_be_bytes()),
        ("public", public),
        ("e", e),
        ("n", n),
        ("private", private),
        ("d", d),
        ("iqmp", iqmp),
        ("p", p),
        ("q", q),
        ("comment", key.comment().as_bytes()),
        ("checkint", checkint),
        ("ciphertext", key.key_data().encrypted().unwrap_or_default()),
        ("tag", tag),
    ])
}

fn public_values(key: &KeyData) -> [&[u8]; 3] {
    match key {
        KeyData::Ed25519(public) => [&public.0, &[], &[]],
        KeyData::Ecdsa(public) => [public.as_sec1_bytes(), &[], &[]],
        KeyData::Rsa(public) => [&[], public.e.as_bytes(), public.n.as_bytes()],
        _ => [&[]; 3],
    }
}

fn private_values(key: &KeypairData) -> [&[u8]; 5] {
    match key {
        KeypairData::Ed25519(pair) => [pair.private.as_ref(), &[], &[], &[], &[]],
        KeypairData::Ecdsa(pair) => [scalar(pair), &[], &[], &[], &[]],
        KeypairData::Rsa(pair) => {
            let [d, iqmp, p, q] = [&pair.private.d, &pair.private.iqmp, &pair.private.p, &pair.private.q];
            [&[], d.as_bytes(), iqmp.as_bytes(), p.as_bytes(), q.as_bytes()]
        }
        _ => [&[]; 5],
    }
}

fn scalar(pair: &EcdsaKeypair) -> &[u8] {
    match pair {
        EcdsaKeypair::NistP256 { private, .. } => private.as_slice(),
        EcdsaKeypair::NistP384 { private, .. } => private.as_slice(),
        EcdsaKeypair::NistP521 { private, .. } => private.as_slice(),
    }
}

/// A new image of a keypair, with the derived checkint; the keypair is made of its own bytes, since the crate has no other way without
/// the features that make keys.
pub fn new_image(keypair: &[u8], comment: &str) -> Result<Vec<u8>, Answer> {
    let data = KeypairData::decode(&mut &keypair[..]).map_err(|error| refused(&error))?;
    PrivateKey::new(data, comment).map(|key| bytes_of(&key)).map_err(|error| refused(&error))
}
