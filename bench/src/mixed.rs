//! A mixed set of 4,000 images, all of which the crate ssh-key reads too.

use crate::images::{self, SIZES};
use crate::random::Random;
use saltorchard::raw;

const COUNT: usize = 4_000;
const SEED: u64 = 0x4000_f11e;
const PLAIN: u64 = 1;

/// In no order of kinds, all in the writer's form.
pub fn all() -> Vec<Vec<u8>> {
    let mut random = Random::new(SEED);
    let mut images: Vec<_> = (0..COUNT).map(|i| one(&mut random, i % 40)).collect();
    for i in (1..COUNT).rev() {
        images.swap(i, random.within(0, i + 1));
    }
    images
}

/// Of forty one is long and four are of RSA keys.
fn one(random: &mut Random, of_forty: usize) -> Vec<u8> {
    loop {
        let image = match of_forty {
            0 => images::one(random, true),
            1..=4 => images::one_rsa(random),
            _ => images::one(random, false),
        };
        if !has_short_scalar(&image) {
            return image;
        }
    }
}

/// A scalar stored in fewer than SIZE bytes: the crate refuses such an image.
fn has_short_scalar(image: &[u8]) -> bool {
    let record = raw::read(image);
    let scalar = record.scalar;
    if record.kind != PLAIN || scalar.length == 0 {
        return false;
    }
    let zero = usize::from(image[scalar.start as usize] >= 0x80);
    zero + (scalar.length as usize) < SIZES[record.algorithm as usize]
}
