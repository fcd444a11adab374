//! New images: the same key written by both with a derived checkint.

use crate::support::images::{strings_bytes, Key, RsaKey};
use crate::support::Rng;
use crate::theirs;
use saltorchard_replay::causes::{Cause, ABOVE_THE_LIMIT, ZERO_SCALAR};
use saltorchard_replay::judge::of_written;
use saltorchard_replay::ours::{new_plain, new_rsa, Written};

const SIZES: [usize; 4] = [32, 32, 48, 66];

/// A key of any kind, its private half with any number of zeros first; now and then M16's, zero but the last two bytes.
pub fn one(rng: &mut Rng, spoil: impl Fn(Written) -> Written) -> Result<Option<Cause>, String> {
    let length = *rng.pick(&[0, 1, 5, 6, 7, 8, 40, 300]);
    let comment: String = (0..length).map(|_| char::from(0x20 + rng.byte() % 0x5f)).collect();
    if rng.one_in(8) {
        let key = RsaKey::new(1_024 + rng.below(64), rng);
        return same(spoil(new_rsa(key.numbers(), &comment)), &strings_bytes(&key.pair()), &comment, false);
    }
    let algorithm = rng.below(4) as u8;
    let size = SIZES[usize::from(algorithm)];
    let some = rng.below(size);
    let zeros = *rng.pick(&[0, 0, 0, 1, 1, 2, some, size - 2, size - 1, size]);
    let mut key = Key::new(algorithm, rng);
    key.private[..zeros].fill(0);
    let zero_scalar = algorithm > 0 && key.private.iter().all(|byte| *byte == 0);
    let ours = spoil(new_plain(algorithm, &key.public, &key.private, &comment));
    same(ours, &strings_bytes(&key.pair(false)), &comment, zero_scalar)
}

fn same(ours: Written, keypair: &[u8], comment: &str, zero_scalar: bool) -> Result<Option<Cause>, String> {
    let theirs = theirs::new_image(keypair, comment).map_err(|answer| format!("new: {answer} there"))?;
    match ours {
        Err(2) if zero_scalar => Ok(Some(ZERO_SCALAR)),
        Err(11) if theirs.len() > 65_535 => Ok(Some(ABOVE_THE_LIMIT)),
        ours => of_written(&ours, &theirs).map_err(|words| format!("new: {words}")),
    }
}
