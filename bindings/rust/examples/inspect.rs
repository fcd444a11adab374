//! `inspect FILE`: says what a private-key file is, by kind, names, lengths and form, in the lines of the project's own
//! `./inspect`, or how it is refused: `refused NUMBER COUNT PLACE` on standard output, and the sentence on standard error. FILE is
//! an openssh-key-v1 image, binary or in its text armour, in the one spelling that ssh-keygen writes.
//!
//! Status: 0 accepted, 1 refused, 2 not looked at.
use std::ffi::{OsStr, OsString};
use std::io::{self, Write};

use saltorchard::{Error, Image};

mod file;

/// The lines on an accepted image. None of them has a private byte.
fn put_report(image: &Image, out: &mut dyn Write) -> io::Result<()> {
    writeln!(out, "kind {}", if image.is_encrypted() { "encrypted" } else { "plain" })?;
    writeln!(out, "algorithm {}", image.algorithm())?;
    if image.bits() > 0 {
        writeln!(out, "bits {}", image.bits())?;
    }
    writeln!(out, "cipher {}\nkdf {}", image.cipher(), image.kdf())?;
    if image.is_encrypted() {
        writeln!(out, "ciphertext {}\ntag {}", image.ciphertext().len(), image.tag().len())?;
        return writeln!(out, "image {}", image.as_bytes().len());
    }
    writeln!(out, "comment {}\npadding {}", image.comment().len(), image.padding_len())?;
    writeln!(out, "image {}", image.as_bytes().len())?;
    writeln!(out, "form {}", if image.is_in_form() { "yes" } else { "no" })
}

fn put_refusal(name: &OsStr, refusal: Error, out: &mut dyn Write, err: &mut dyn Write) -> io::Result<i32> {
    writeln!(out, "refused {} {} {}", refusal.number(), refusal.count(), refusal.place())?;
    writeln!(err, "inspect: {:?}: {}", name, refusal)?;
    Ok(1)
}

/// The program, by its arguments and where it writes; answers the status.
pub fn run(arguments: &[OsString], out: &mut dyn Write, err: &mut dyn Write) -> io::Result<i32> {
    let name = match arguments {
        [name] => name,
        _ => return writeln!(err, "usage: inspect FILE").map(|()| 2),
    };
    let bytes = match file::image(name) {
        Ok(bytes) => bytes,
        Err(file::Trouble::Refused(refusal)) => return put_refusal(name, refusal, out, err),
        Err(file::Trouble::NotRead(why)) => {
            return writeln!(err, "inspect: {:?} can't be read: {}", name, why).map(|()| 2);
        }
    };
    match Image::read(&bytes) {
        Ok(image) => put_report(&image, out).map(|()| 0),
        Err(refusal) => put_refusal(name, refusal, out, err),
    }
}

pub fn main() {
    let arguments: Vec<OsString> = std::env::args_os().skip(1).collect();
    let status = run(&arguments, &mut io::stdout(), &mut io::stderr()).unwrap_or(2);
    std::process::exit(status);
}
