//! Before anything is timed: library, yardstick and crate must read every image, find the same in it, and write it.

use crate::images::LIMIT;
use crate::yardstick;
use saltorchard::{raw, Image};
use ssh_key::PrivateKey;

/// How many images the crate writes otherwise than they are.
pub fn everywhere(images: &[Vec<u8>]) -> Result<usize, String> {
    let mut otherwise = 0;
    for (number, image) in images.iter().enumerate() {
        let written = one(image).map_err(|why| format!("image {number} of {} bytes: {why}", image.len()))?;
        otherwise += usize::from(written != *image);
    }
    Ok(otherwise)
}

/// What the crate writes.
fn one(image: &[u8]) -> Result<Vec<u8>, String> {
    let ours = Image::read(image).map_err(|why| format!("the library refuses it: {why}"))?;
    let theirs = PrivateKey::from_bytes(image).map_err(|why| format!("the crate refuses it: {why}"))?;
    let blob = theirs.public_key().to_bytes().map_err(|why| why.to_string())?;
    let written = theirs.to_bytes().map_err(|why| why.to_string())?.to_vec();
    let right = [
        ("the yardstick's read", raw::read(image) == yardstick::read(image)),
        ("the algorithm", ours.algorithm().as_str() == theirs.algorithm().as_str()),
        ("whether it is encrypted", ours.is_encrypted() == theirs.is_encrypted()),
        ("the public key", ours.public_blob() == blob),
        ("the comment", ours.comment() == theirs.comment()),
        ("what the library writes", rewritten(raw::rewrite, image) == image),
        ("what the yardstick writes", rewritten(yardstick::rewrite, image) == image),
        ("what the crate writes, brought into the form", rewritten(raw::rewrite, &written) == image),
    ];
    match right.iter().find(|(_, right)| !right) {
        Some((what, _)) => Err(format!("not the same: {what}")),
        None => Ok(written),
    }
}

/// Nothing where it is refused.
fn rewritten(rewrite: fn(&[u8], &mut [u8]) -> raw::Reply, image: &[u8]) -> Vec<u8> {
    let mut out = vec![0; LIMIT];
    let reply = rewrite(image, &mut out);
    out.truncate(reply.length as usize);
    out
}
