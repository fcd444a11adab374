//! The walk that finds a difference's cause. It goes over the bytes apart from both readers, field by field, as far as the rules of
//! docs/RULES.md and those of the crate are the same, and stops at the first field on which they aren't. So it says what we
//! must answer, and what the crate must answer, or that the crate goes on where we refuse, and why.

use crate::answer::Answer;
use crate::causes::*;
use crate::key_fields::{held_to_name, SIZES};
use crate::steps::{refuse, Step, Walk};
use crate::strangers::{strange_algorithm, strange_cipher, strange_name};

pub const LIMIT: usize = 65_535;
const MAGIC: &[u8] = b"openssh-key-v1\0";
const CIPHERS: [&str; 10] = [
    "none", "3des-cbc", "aes128-cbc", "aes192-cbc", "aes256-cbc", "aes128-ctr", "aes192-ctr", "aes256-ctr",
    "aes128-gcm@openssh.com", "aes256-gcm@openssh.com",
];
const KDFS: [&str; 2] = ["none", "bcrypt"];
const ALGORITHMS: [&str; 5] =
    ["ssh-ed25519", "ecdsa-sha2-nistp256", "ecdsa-sha2-nistp384", "ecdsa-sha2-nistp521", "ssh-rsa"];
const ED25519: usize = 0;
const RSA: usize = 4;
/// So many keys a plain image may have.
const MOST_KEYS: usize = 16;

/// A public key's name and parts.
type Public<'a> = Vec<&'a [u8]>;

/// What must be answered.
#[derive(Clone, Copy, Debug)]
pub struct Expected {
    pub ours: Answer,
    /// None: the crate goes on where we refuse, so its answer can be any.
    pub theirs: Option<Answer>,
    pub cause: Option<Cause>,
}

pub fn expected(image: &[u8]) -> Expected {
    let mut walk = Walk { image, place: 0, end: image.len(), apart: None };
    let ours = walk.image().err().unwrap_or(Answer::Read);
    match walk.apart {
        None => Expected { ours, theirs: Some(ours), cause: None },
        Some((cause, theirs)) => Expected { ours, theirs, cause: Some(cause) },
    }
}

impl<'a> Walk<'a> {
    fn image(&mut self) -> Step<()> {
        if self.image.len() > LIMIT {
            return self.apart(ABOVE_THE_LIMIT, Answer::refused(11), None);
        }
        if self.take(MAGIC.len())? != MAGIC {
            return refuse(2);
        }
        let cipher = self.name(&CIPHERS, strange_cipher)?;
        let kdf = self.name(&KDFS, strange_name)?;
        self.options(kdf)?;
        let blobs = self.blobs(cipher)?;
        match (cipher, kdf) {
            (0, 0) => self.section(&blobs)?,
            (0, _) => return refuse(3),
            _ => self.ciphertext(cipher)?,
        }
        match self.left() as u64 {
            0 => Ok(()),
            left => Err(Answer::Refused(6, left)),
        }
    }

    fn options(&mut self, kdf: usize) -> Step<()> {
        if kdf == 0 {
            let ours = match self.length()? {
                0 => return Ok(()),
                length if length > self.left() => 1,
                _ => 3,
            };
            return self.apart(OPTIONS_OF_NONE, Answer::refused(ours), Some(Answer::refused(4)));
        }
        let end = self.enter()?;
        self.string()?;
        self.take(4)?;
        self.leave(end)
    }

    /// The key count, which is 1 for the crate, and as many blobs.
    fn blobs(&mut self, cipher: usize) -> Step<Vec<Public<'a>>> {
        let keys = self.length()?;
        if keys == 0 || keys > if cipher == 0 { MOST_KEYS } else { 1 } {
            return refuse(1);
        }
        if keys > 1 {
            self.note(SEVERAL_KEYS, Some(Answer::refused(1)));
        }
        (0..keys).map(|_| self.blob()).collect()
    }

    fn blob(&mut self) -> Step<Public<'a>> {
        let end = self.enter()?;
        let name = self.name(&ALGORITHMS, strange_algorithm)?;
        let mut public = vec![ALGORITHMS[name].as_bytes()];
        match name {
            ED25519 => public.push(self.fixed(32)?),
            RSA => {
                let [e, n] = [self.number()?, self.number()?];
                self.sizes(n, &[e])?;
                public.extend([n, e]);
            }
            _ => {
                let (curve, point) = self.curve_and_point()?;
                held_to_name(curve, name)?;
                public.push(point);
            }
        }
        self.leave(end)?;
        Ok(public)
    }

    fn ciphertext(&mut self, cipher: usize) -> Step<()> {
        let block = if CIPHERS[cipher].starts_with("aes") { 16 } else { 8 };
        if self.string()?.len() % block != 0 {
            return refuse(3);
        }
        let tag = if CIPHERS[cipher].contains("-gcm@") { 16 } else { 0 };
        self.take(tag).map(|_| ())
    }

    fn section(&mut self, blobs: &[Public]) -> Step<()> {
        let end = self.enter()?;
        if self.left() % 8 != 0 {
            return refuse(1);
        }
        if self.take(4)? != self.take(4)? {
            return refuse(3);
        }
        for public in blobs {
            if self.keypair()? != *public {
                return refuse(5);
            }
            if std::str::from_utf8(self.string()?).is_err() {
                return refuse(7);
            }
        }
        let padding = self.take(self.left())?;
        match padding.iter().zip(1..).all(|(byte, place)| *byte == place) {
            _ if padding.len() >= 8 => return refuse(1),
            false => return refuse(2),
            true => self.end = end,
        }
        Ok(())
    }

    /// Answers the public part, as `blob` does.
    fn keypair(&mut self) -> Step<Public<'a>> {
        let name = self.name(&ALGORITHMS, strange_algorithm)?;
        let mut public = vec![ALGORITHMS[name].as_bytes()];
        match name {
            ED25519 => {
                public.push(self.fixed(32)?);
                if self.fixed(64)?[32..] != *public[1] {
                    return refuse(3);
                }
            }
            RSA => {
                let [n, e] = [self.number()?, self.number()?];
                let private = [self.number()?, self.number()?, self.number()?, self.number()?];
                self.sizes(n, &[&[e], &private[..]].concat())?;
                public.extend([n, e]);
            }
            _ => {
                let (curve, point) = self.curve_and_point()?;
                self.scalar(SIZES[curve])?;
                held_to_name(curve, name)?;
                public.push(point);
            }
        }
        Ok(public)
    }
}
