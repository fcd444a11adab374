//! The images: 4,000 of all kinds but RSA, and 400 of RSA, all accepted and in the writer's form.

use crate::random::Random;
use saltorchard::raw;

pub const COUNT: usize = 4_000;
pub const RSA_COUNT: usize = 400;
pub const LIMIT: usize = 65_535;
const SEED: u64 = 0x5a17_04c8;

/// SIZE of each algorithm, by its code.
pub const SIZES: [usize; 4] = [32, 32, 48, 66];
/// Block and tag length of each cipher, by its code.
const CIPHERS: [(usize, usize); 10] =
    [(8, 0), (8, 0), (16, 0), (16, 0), (16, 0), (16, 0), (16, 0), (16, 0), (16, 16), (16, 16)];

/// One in forty is long: its comment, or its ciphertext, has 4,000 to 60,000 bytes.
pub struct Images {
    pub small: Vec<Vec<u8>>,
    pub long: Vec<Vec<u8>>,
    pub rsa: Vec<Vec<u8>>,
}

pub fn all() -> Images {
    let mut random = Random::new(SEED);
    let mut images = Images { small: Vec::new(), long: Vec::new(), rsa: rsa_images() };
    for i in 0..COUNT {
        let long = i % 40 == 39;
        let image = one(&mut random, long);
        if long {
            images.long.push(image);
        } else {
            images.small.push(image);
        }
    }
    images
}

/// From a seed of their own, so that the others are what they were without them.
fn rsa_images() -> Vec<Vec<u8>> {
    let mut random = Random::new(SEED + 2);
    (0..RSA_COUNT).map(|_| one_rsa(&mut random)).collect()
}

/// Of four images three are plain; most keys have 2,048 to 4,096 bits.
pub fn one_rsa(random: &mut Random) -> Vec<u8> {
    let bits = random.one_of(&[1_024, 2_048, 2_048, 3_072, 3_072, 3_072, 4_096, 8_192]);
    match random.within(0, 4) {
        0 => {
            let cipher = random.within(1, 10);
            let blob = blob_of(&rsa(random, bits));
            encrypted(random, &blob, cipher, 1, false)
        }
        _ => rsa(random, bits),
    }
}

/// Of ten images four are Ed25519, three ECDSA, one for each curve, and three encrypted.
pub fn one(random: &mut Random, long: bool) -> Vec<u8> {
    match random.within(0, 10) {
        0..=3 => plain(random, 0, long),
        4 => plain(random, 1, long),
        5 => plain(random, 2, long),
        6 => plain(random, 3, long),
        _ => {
            let (algorithm, cipher, kdf) = (random.within(0, 4), random.within(1, 10), random.within(0, 8).min(1));
            let blob = blob(random, algorithm);
            encrypted(random, &blob, cipher, kdf, long)
        }
    }
}

/// One image of each kind, to be damaged byte by byte.
pub fn of_each_kind() -> Vec<Vec<u8>> {
    let mut random = Random::new(SEED + 1);
    let mut images = Vec::new();
    for algorithm in 0..4 {
        images.push(plain(&mut random, algorithm, false));
        images.push(plain(&mut random, algorithm, false));
    }
    for cipher in 1..10 {
        for (algorithm, kdf) in [(cipher % 4, cipher % 5 % 2), ((cipher + 1) % 4, 1)] {
            let blob = blob(&mut random, algorithm);
            images.push(encrypted(&mut random, &blob, cipher, kdf, false));
        }
    }
    let rsa = rsa(&mut random, 1_024);
    images.push(encrypted(&mut random, &blob_of(&rsa), 7, 1, false));
    images.push(rsa);
    images
}

/// Made-up public bytes: 32, or a point with its tag.
fn public(random: &mut Random, algorithm: usize) -> Vec<u8> {
    if algorithm == 0 {
        return random.bytes(32);
    }
    let mut point = random.bytes(1 + 2 * SIZES[algorithm]);
    point[0] = 4;
    point
}

/// Made-up private bytes. A scalar of P-521 has 521 bits at most, so its first byte is 0 or 1.
fn private(random: &mut Random, algorithm: usize) -> Vec<u8> {
    let mut private = random.bytes(SIZES[algorithm]);
    if algorithm == 3 {
        private[0] &= 1;
    }
    private
}

fn plain(random: &mut Random, algorithm: usize, long: bool) -> Vec<u8> {
    let (public, private) = (public(random, algorithm), private(random, algorithm));
    let length = if long { random.within(4_000, 60_000) } else { random.within(0, 90) };
    let comment = random.comment(length);
    let mut out = vec![0; LIMIT];
    let reply = raw::write_plain(algorithm as u8, &public, &private, 1, 0, &comment, &mut out);
    kept(out, reply)
}

/// A made-up number of that many bits, as an mpint.
fn mpint(random: &mut Random, bits: usize) -> Vec<u8> {
    let mut number = random.bytes(bits / 8 + 1);
    let highest = 1 << (bits % 8);
    number[0] = (number[0] % highest) | (highest / 2);
    if bits % 8 == 0 {
        number[1] |= 0x80;
    }
    number
}

fn rsa(random: &mut Random, bits: usize) -> Vec<u8> {
    let sizes = [bits, 17, bits - random.within(0, 4), bits / 2 - random.within(0, 4), bits / 2, bits / 2];
    let numbers = sizes.map(|bits| mpint(random, bits));
    let [n, e, d, iqmp, p, q] = &numbers;
    let length = random.within(0, 90);
    let comment = random.comment(length);
    let mut out = vec![0; LIMIT];
    let reply = raw::write_rsa([n, e, d, iqmp, p, q], 1, 0, &comment, &mut out);
    kept(out, reply)
}

fn encrypted(random: &mut Random, blob: &[u8], cipher: usize, kdf: usize, long: bool) -> Vec<u8> {
    let (block, tag) = CIPHERS[cipher];
    let length = if long { random.within(4_000, 60_000) } else { random.within(136, 300) };
    let ciphertext = random.bytes(length / block * block);
    let (salt, rounds) = if kdf == 1 { (random.bytes(16), 24) } else { (Vec::new(), 0) };
    let tag = random.bytes(tag);
    let mut out = vec![0; LIMIT];
    let reply = raw::write_encrypted(cipher as u8, kdf as u8, &salt, rounds, blob, &ciphertext, &tag, &mut out);
    kept(out, reply)
}

/// The blob of a made-up key, out of a plain image of it.
fn blob(random: &mut Random, algorithm: usize) -> Vec<u8> {
    blob_of(&plain(random, algorithm, false))
}

fn blob_of(image: &[u8]) -> Vec<u8> {
    let blob = raw::read(image).blob;
    image[blob.start as usize..(blob.start + blob.length) as usize].to_vec()
}

fn kept(mut out: Vec<u8>, reply: raw::Reply) -> Vec<u8> {
    assert_eq!(reply.number, 0, "the library refused to write one of the images");
    out.truncate(reply.length as usize);
    out.shrink_to_fit();
    out
}
