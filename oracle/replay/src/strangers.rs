//! Names that the rules don't have: why, and what the crate answers, or None where it goes on.

use crate::answer::Answer;
use crate::causes::*;

const OTHER_KINDS: [&str; 3] = ["ssh-dss", "sk-ecdsa-sha2-nistp256@openssh.com", "sk-ssh-ed25519@openssh.com"];

pub fn strange_name(_: &str) -> (Cause, Option<Answer>) {
    (UNKNOWN_NAME, Some(Answer::Label))
}

pub fn strange_cipher(name: &str) -> (Cause, Option<Answer>) {
    match name {
        "chacha20-poly1305@openssh.com" => (CHACHA20, None),
        _ => strange_name(name),
    }
}

pub fn strange_algorithm(name: &str) -> (Cause, Option<Answer>) {
    let with_domain = match name.split_once('@') {
        Some((before, after)) => !before.is_empty() && !after.is_empty() && !after.contains('@') && name.is_ascii(),
        None => false,
    };
    match name {
        "rsa-sha2-256" | "rsa-sha2-512" => (RSA_SIGNATURE_NAME, None),
        _ if OTHER_KINDS.contains(&name) => (OTHER_KIND, None),
        _ if with_domain => (NAME_WITH_DOMAIN, None),
        _ => strange_name(name),
    }
}
