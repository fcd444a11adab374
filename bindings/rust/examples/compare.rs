//! `compare A B`: says in one line how two private-key files are alike. Each is an openssh-key-v1 image, binary or in its text
//! armour; the images are compared, without armour:
//!
//! - `same bytes`
//! - `same fields in another form`: a scalar has another number of zeros before it
//! - `same key, other comment or checkint`
//! - `same key, encrypted otherwise`: one of them is encrypted, or both, and what is inside isn't known
//! - `same public key, other private bytes`
//! - `other key`
//!
//! Of files of several keys the first key of one is compared with the first of the other, the second with the second, and so on: it is
//! the same key where each is, and as many.
//!
//! Status, as cmp has it: 0 for the same bytes alone, 1 for every other line, 2 where a file can't be read or is refused, which
//! standard error says.
use std::ffi::{OsStr, OsString};
use std::io::{self, Write};

use saltorchard::{Error, Image, Key};

mod file;

const SAME: &str = "same bytes";

/// Is each key of one like that of the other?
fn all_keys(a: &Image, b: &Image, like: fn(&Key, &Key) -> bool) -> bool {
    a.key_count() == b.key_count() && a.keys().zip(b.keys()).all(|(a, b)| like(&a, &b))
}

fn same_private_bytes(a: &Key, b: &Key) -> bool {
    [a.scalar(), a.d(), a.iqmp(), a.p(), a.q()] == [b.scalar(), b.d(), b.iqmp(), b.p(), b.q()]
}

fn same_comments(a: &Image, b: &Image) -> bool {
    all_keys(a, b, |a, b| a.comment() == b.comment())
}

/// How two images are alike.
fn likeness(a: &Image, b: &Image) -> &'static str {
    match all_keys(a, b, |a, b| a.same_key(b)) {
        _ if a == b => SAME,
        false => "other key",
        true if a.is_encrypted() || b.is_encrypted() => "same key, encrypted otherwise",
        true if !all_keys(a, b, same_private_bytes) => "same public key, other private bytes",
        true if same_comments(a, b) && a.checkint() == b.checkint() => "same fields in another form",
        true => "same key, other comment or checkint",
    }
}

/// What is said of two files, or why nothing can be said.
fn compared(names: [&OsStr; 2]) -> Result<&'static str, String> {
    let refused = |name: &OsStr, refusal: Error| format!("{:?}: {}", name, refusal);
    let image = |name| {
        file::image(name).map_err(|trouble| match trouble {
            file::Trouble::Refused(refusal) => refused(name, refusal),
            file::Trouble::NotRead(why) => format!("{:?} can't be read: {}", name, why),
        })
    };
    let (a, b) = (image(names[0])?, image(names[1])?);
    let a = Image::read(&a).map_err(|refusal| refused(names[0], refusal))?;
    let b = Image::read(&b).map_err(|refusal| refused(names[1], refusal))?;
    Ok(likeness(&a, &b))
}

/// The program, by its arguments and where it writes; answers the status.
pub fn run(arguments: &[OsString], out: &mut dyn Write, err: &mut dyn Write) -> io::Result<i32> {
    let said = match arguments {
        [a, b] => compared([a, b]),
        _ => return writeln!(err, "usage: compare A B").map(|()| 2),
    };
    match said {
        Ok(likeness) => writeln!(out, "{}", likeness).map(|()| i32::from(likeness != SAME)),
        Err(why) => writeln!(err, "compare: {}", why).map(|()| 2),
    }
}

pub fn main() {
    let arguments: Vec<OsString> = std::env::args_os().skip(1).collect();
    let status = run(&arguments, &mut io::stdout(), &mut io::stderr()).unwrap_or(2);
    std::process::exit(status);
}
