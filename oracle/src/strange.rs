//! Changes of an image's parts that the tests' damage doesn't make: those on which the crate's rules and ours differ.

use crate::support::images::{mpint, Draft, Key, RsaKey, ALGORITHMS};
use crate::support::Rng;

const NAMES: [&[u8]; 18] = [
    b"",
    b"none",
    b"bcrypt",
    b"scrypt",
    b"nistp256",
    b"nistp224",
    b"ssh-dss",
    b"ssh-rsa",
    b"rsa-sha2-256",
    b"rsa-sha2-512",
    b"ssh-mldsa44-ed25519@openssh.com",
    b"sk-ssh-ed25519@openssh.com",
    b"sk-ecdsa-sha2-nistp256@openssh.com",
    b"oven@example.com",
    b"@example.com",
    b"oven@",
    b"oven@7@example.com",
    b"chacha20-poly1305@openssh.com",
];

/// A name that the rules don't have, one that isn't UTF-8 or ASCII, or a long one.
fn name(rng: &mut Rng) -> Vec<u8> {
    let long = *rng.pick(&[47, 48, 49, 64, 100]);
    match rng.below(8) {
        0 => b"ovens-\xff".to_vec(),
        1 => "öfen@example.com".into(),
        2 => vec![b'o'; long],
        3 => [&vec![b'o'; long][..], b"@\xe9"].concat(),
        _ => rng.pick(&NAMES).to_vec(),
    }
}

/// At least `least` bytes, and fewer than `end`.
fn some(least: usize, end: usize, rng: &mut Rng) -> Vec<u8> {
    let length = least + rng.below(end - least);
    rng.bytes(length)
}

fn named(draft: &mut Draft, rng: &mut Rng) {
    let name = name(rng);
    match rng.below(7) {
        0 => draft.cipher = name,
        1 => draft.kdf = name,
        2 => draft.blob[0] = name,
        3 => draft.pair[0] = name,
        4 if draft.blob.len() > 2 => draft.blob[1] = name,
        5 if draft.pair.len() > 2 => draft.pair[1] = name,
        _ => {
            draft.blob[0] = name.clone();
            draft.pair[0] = name;
        }
    }
}

fn chacha(draft: &mut Draft, rng: &mut Rng) {
    draft.cipher = b"chacha20-poly1305@openssh.com".to_vec();
    let blocks = rng.below(20);
    draft.sealed = Some((rng.bytes(8 * blocks), rng.bytes(16)));
}

/// An RSA key by the name of a signature.
fn signature_name(draft: &mut Draft, rng: &mut Rng) {
    let key = RsaKey::new(1_024, rng);
    (draft.blob, draft.pair) = (key.blob(), key.pair());
    let name: [u8; 12] = **rng.pick(&[b"rsa-sha2-256", b"rsa-sha2-512"]);
    let which = rng.below(3);
    if which != 0 {
        draft.blob[0] = name.to_vec();
    }
    if which != 1 {
        draft.pair[0] = name.to_vec();
    }
}

/// A key of a kind that the crate doesn't know: it takes one string for the public half, one for the private.
fn opaque(draft: &mut Draft, rng: &mut Rng) {
    let (name, public) = (b"oven@example.com".to_vec(), some(0, 40, rng));
    draft.blob = vec![name.clone(), public.clone()];
    draft.pair = vec![name, public, some(0, 40, rng)];
}

/// The last string of the blob, and the same string of the section.
fn public_places(draft: &Draft) -> (usize, usize) {
    let place = draft.blob.len() - 1;
    (place, place.min(draft.pair.len() - 1))
}

fn in_some(draft: &mut Draft, rng: &mut Rng, new: Vec<u8>) {
    let (blob, pair) = public_places(draft);
    let which = rng.below(3);
    if which != 0 {
        draft.blob[blob] = new.clone();
    }
    if which != 1 {
        draft.pair[pair] = new;
    }
}

/// A point of any tag with a length that belongs to some curve, compressed or not, or nearly one.
fn point(draft: &mut Draft, rng: &mut Rng) {
    let size = *rng.pick(&[32, 48, 66]);
    let length = match rng.below(4) {
        0 => 1 + size,
        1 => 1 + 2 * size,
        2 => 2 + 2 * size,
        _ => rng.below(140),
    };
    let mut new = rng.bytes(length);
    if let Some(tag) = new.first_mut() {
        *tag = *rng.pick(&[0, 1, 2, 3, 4, 4, 5, 6, 0xff]);
    }
    in_some(draft, rng, new);
}

/// The right public string with some bytes more.
fn longer_public(draft: &mut Draft, rng: &mut Rng) {
    let new = [&draft.blob[public_places(draft).0][..], &some(1, 9, rng)].concat();
    in_some(draft, rng, new);
}

fn longer_private(draft: &mut Draft, rng: &mut Rng) {
    let more = some(1, 9, rng);
    let last = draft.pair.len() - 1;
    draft.pair[last].extend(more);
}

/// An RSA number that is empty, negative, or of a size that only the crate takes; of n and e mostly in blob and section.
fn number(draft: &mut Draft, rng: &mut Rng) {
    let key = RsaKey::new(1_024, rng);
    (draft.blob, draft.pair) = (key.blob(), key.pair());
    let bits = *rng.pick(&[1, 500, 1_023, 1_025, 8_193, 16_384]);
    let new = match rng.below(4) {
        0 => Vec::new(),
        1 => [&[0x80 | rng.byte()], &some(0, 130, rng)[..]].concat(),
        _ => mpint(bits, rng),
    };
    let place = 1 + rng.below(6);
    draft.pair[place] = new.clone();
    if place < 3 && !rng.one_in(8) {
        draft.blob[3 - place] = new;
    }
}

fn options(draft: &mut Draft, rng: &mut Rng) {
    draft.options_rest = some(0, 12, rng);
}

/// A scalar with any number of zeros before it, of any length up to three bytes too many.
fn scalar(draft: &mut Draft, rng: &mut Rng) {
    let algorithm = 1 + rng.below(3);
    let size = [32, 48, 66][algorithm - 1];
    let length = rng.below(size + 4);
    let zeros = if rng.one_in(2) { rng.below(3).min(length) } else { rng.below(length + 1) };
    let mut stored = rng.bytes(length);
    stored[..zeros].fill(0);
    let key = Key::new(algorithm as u8, rng);
    (draft.blob, draft.pair) = (key.blob(), key.pair_of(stored));
    if rng.one_in(8) {
        draft.pair[0] = ALGORITHMS[1 + rng.below(3)].into();
    }
}

const CHANGES: [fn(&mut Draft, &mut Rng); 12] = [
    named, named, chacha, signature_name, opaque, point, longer_public, longer_private, number, options, scalar, scalar,
];

/// Lengths around the crate's limit.
const LENGTHS: [u32; 8] =
    [0xfffff, 0x10_0000, 0x10_0001, 0xff_ffff, 0x0100_0000, 0x0100_0001, 0x8000_0000, 0xffff_ffff];

/// One or two changes; now and then a length around the crate's limit, a wrong one, or a wrong end.
pub fn changed(draft: &Draft, rng: &mut Rng) -> Vec<u8> {
    let mut draft = draft.clone();
    for _ in 0..1 + rng.below(2) {
        rng.pick(&CHANGES)(&mut draft, rng);
    }
    draft.pad();
    let mut flat = draft.flat();
    let place = *rng.pick(&flat.uint32s);
    let old = u32::from_be_bytes(flat.bytes[place..place + 4].try_into().expect("four bytes"));
    let new = match rng.below(12) {
        0 => *rng.pick(&LENGTHS),
        1 => old.wrapping_add(1 + rng.below(9) as u32),
        2 => old.wrapping_sub(1 + rng.below(9) as u32),
        _ => old,
    };
    flat.bytes[place..place + 4].copy_from_slice(&new.to_be_bytes());
    if rng.one_in(16) {
        flat.bytes.truncate(rng.below(flat.bytes.len() + 1));
    }
    flat.bytes
}

/// Every length of an image set to each of those around the crate's limit.
pub fn with_long_lengths(draft: &Draft) -> Vec<Vec<u8>> {
    let flat = draft.flat();
    let mut images = Vec::new();
    for place in flat.uint32s {
        for length in LENGTHS {
            let mut image = flat.bytes.clone();
            image[place..place + 4].copy_from_slice(&length.to_be_bytes());
            images.push(image);
        }
    }
    images
}
