//! The crate's part of the jobs.

use crate::images::LIMIT;
use crate::night::{right_verdict, Verdict, Worker};
use crate::night_files::Made;
use ssh_key::{Error, PrivateKey};
use std::ops::Deref;

/// The key is dropped here; the bytes, which are wiped when they are dropped, by the caller.
pub fn rewrite(image: &[u8], _: &mut [u8]) -> Result<impl Deref<Target = Vec<u8>>, Error> {
    PrivateKey::from_bytes(image)?.to_bytes()
}

pub const CRATE: Worker = Worker { name: "crate", judge, of_made };

/// The crate has no limit of length, but of a file above ours the job doesn't read all.
fn judge(image: &[u8], out: &mut [u8]) -> Verdict {
    if image.len() > LIMIT {
        return Verdict::Refused(0);
    }
    match rewrite(image, out) {
        Err(_) => Verdict::Refused(0),
        Ok(bytes) if **bytes == *image => Verdict::Equal,
        Ok(_) => Verdict::NotInForm,
    }
}

/// The crate writes a scalar in SIZE bytes, and a zero before 0x80 or more.
fn of_made(made: Made) -> Verdict {
    match made {
        Made::FullWidth => Verdict::Equal,
        Made::CutShort => Verdict::Refused(0),
        _ => right_verdict(made),
    }
}
