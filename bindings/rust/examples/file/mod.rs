//! What the examples `inspect` and `compare` share: a key file's image.
use std::ffi::OsStr;
use std::fs::File;
use std::io::{self, Read};

use saltorchard::{armour, Error};

/// So much of a file is looked at. An image has less, armoured or not, so what is cut off here is refused with 11.
const LONGEST: usize = 1 << 20;

/// Why a file has no image.
pub enum Trouble {
    NotRead(io::Error),
    Refused(Error),
}

/// The image that a file is, or that it carries as a text.
pub fn image(name: &OsStr) -> Result<Vec<u8>, Trouble> {
    let bytes = bytes(name).map_err(Trouble::NotRead)?;
    if bytes.starts_with(b"-----BEGIN") && bytes.len() < LONGEST {
        return armour::imported(&bytes).map_err(Trouble::Refused);
    }
    Ok(bytes)
}

/// The file's bytes, in one buffer that isn't moved: one that grows would leave copies of private bytes behind.
fn bytes(name: &OsStr) -> io::Result<Vec<u8>> {
    let mut bytes = Vec::with_capacity(LONGEST);
    File::open(name)?.take(LONGEST as u64).read_to_end(&mut bytes)?;
    Ok(bytes)
}
