//! Our answers: the read with every value, the image written again, and its comment changed.

use crate::answer::Answer;
use crate::walk::LIMIT;
use saltorchard::{raw, Algorithm, EcdsaCurve, Image};

/// The bytes that were written, or the refusal's number.
pub type Written = Result<Vec<u8>, u64>;

pub struct Ours {
    pub answer: Answer,
    pub at: u64,
    /// Every value of an image that was read, joined by [`joined`].
    pub values: Vec<u8>,
    pub written: Written,
    pub changed: Written,
    /// A plain image's key in a new image with the derived checkint; no bytes for an encrypted one.
    pub fresh: Written,
}

/// The values of an image in one text: each by its name, with its length before it.
pub fn joined(values: &[(&str, &[u8])]) -> Vec<u8> {
    let mut text = Vec::new();
    for (name, bytes) in values {
        text.extend_from_slice(name.as_bytes());
        text.extend_from_slice(&(bytes.len() as u32).to_be_bytes());
        text.extend_from_slice(bytes);
    }
    text
}

pub fn of(image: &[u8], comment: &str) -> Ours {
    match Image::read(image) {
        Ok(read) => Ours {
            answer: Answer::Read,
            at: 0,
            values: values(&read),
            written: rewritten(image),
            changed: changed(image, comment),
            fresh: fresh(&read, comment),
        },
        Err(refusal) => Ours {
            answer: Answer::Refused(refusal.number(), refusal.count() as u64),
            at: refusal.place() as u64,
            values: Vec::new(),
            written: Err(refusal.number()),
            changed: Err(refusal.number()),
            fresh: Err(refusal.number()),
        },
    }
}

fn values(image: &Image) -> Vec<u8> {
    let mut room = [0; EcdsaCurve::MAX_SIZE];
    joined(&[
        ("algorithm", image.algorithm().as_str().as_bytes()),
        ("cipher", image.cipher().as_str().as_bytes()),
        ("kdf", image.kdf().as_str().as_bytes()),
        ("encrypted", &[u8::from(image.is_encrypted())]),
        ("salt", image.salt()),
        ("rounds", &image.rounds().to_be_bytes()),
        ("public", image.point()),
        ("e", image.exponent()),
        ("n", image.modulus()),
        ("private", image.full_scalar(&mut room)),
        ("d", image.d()),
        ("iqmp", image.iqmp()),
        ("p", image.p()),
        ("q", image.q()),
        ("comment", image.comment().as_bytes()),
        ("checkint", &image.checkint().map_or(Vec::new(), |checkint| checkint.to_be_bytes().to_vec())),
        ("ciphertext", image.ciphertext()),
        ("tag", image.tag()),
    ])
}

fn cut(mut buffer: Vec<u8>, reply: raw::Reply) -> Written {
    if reply.number != 0 {
        return Err(reply.number);
    }
    buffer.truncate(reply.length as usize);
    Ok(buffer)
}

/// An image written again is at most some bytes longer: a short scalar's zeros and the padding.
fn room_for(image: &[u8], more: usize) -> usize {
    (image.len() + more + 128).min(LIMIT)
}

pub fn rewritten(image: &[u8]) -> Written {
    let mut out = vec![0; room_for(image, 0)];
    let reply = raw::rewrite(image, &mut out);
    cut(out, reply)
}

pub fn changed(image: &[u8], comment: &str) -> Written {
    let mut buffer = image.to_vec();
    buffer.resize(room_for(image, comment.len()).max(image.len()), 0);
    let reply = raw::change_comment(&mut buffer, image.len(), comment.as_bytes());
    cut(buffer, reply)
}

fn fresh(image: &Image, comment: &str) -> Written {
    if image.is_encrypted() {
        return Ok(Vec::new());
    }
    if image.algorithm() == Algorithm::Rsa {
        let numbers = [image.modulus(), image.exponent(), image.d(), image.iqmp(), image.p(), image.q()];
        return new_rsa(numbers, comment);
    }
    let (mut room, algorithm) = ([0; EcdsaCurve::MAX_SIZE], raw::read(image.as_bytes()).algorithm as u8);
    new_plain(algorithm, image.point(), image.full_scalar(&mut room), comment)
}

/// A key over a curve, or an Ed25519 key, written anew with the derived checkint.
pub fn new_plain(algorithm: u8, public: &[u8], private: &[u8], comment: &str) -> Written {
    let mut out = vec![0; (comment.len() + 1_024).min(LIMIT)];
    let reply = raw::write_plain(algorithm, public, private, 1, 0, comment.as_bytes(), &mut out);
    cut(out, reply)
}

pub fn new_rsa(numbers: [&[u8]; 6], comment: &str) -> Written {
    let numbers_len: usize = numbers.iter().map(|number| number.len()).sum();
    let mut out = vec![0; (2 * numbers_len + comment.len() + 512).min(LIMIT)];
    let reply = raw::write_rsa(numbers, 1, 0, comment.as_bytes(), &mut out);
    cut(out, reply)
}
