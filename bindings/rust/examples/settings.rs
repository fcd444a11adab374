//! `settings FILE`: prints the used places of a store of reconnect settings, a file of 128 bytes, a line each with device, kind of key
//! and delay: `7 ssh-ed25519 1500 ms`. A place that is refused has `7 refused 4`, and the sentence stands on standard error.
//!
//! `settings --move FILE NEW`: writes the store, moved to version 2, to a new file. FILE stays as it is, and where NEW is there already
//! or the move is refused nothing is written.
//!
//! Status: 0 done, 1 refused, be it the file, a place or the move, 2 not looked at or not written.
use std::ffi::{OsStr, OsString};
use std::fs::{self, OpenOptions};
use std::io::{self, Write};

use saltorchard::settings::{Store, DEVICES};
use saltorchard::Error;

fn put_refusal(name: &OsStr, refusal: Error, out: &mut dyn Write, err: &mut dyn Write) -> io::Result<i32> {
    writeln!(out, "refused {}", refusal.number())?;
    writeln!(err, "settings: {:?}: {}", name, refusal)?;
    Ok(1)
}

fn put_places(name: &OsStr, store: &Store, out: &mut dyn Write, err: &mut dyn Write) -> io::Result<i32> {
    let mut status = 0;
    for device in 0..DEVICES {
        match store.get(device) {
            Ok(None) => {}
            Ok(Some(setting)) => writeln!(out, "{} {} {} ms", device, setting.kind, setting.delay.as_millis())?,
            Err(refusal) => {
                write!(out, "{} ", device)?;
                status = put_refusal(name, refusal, out, err)?;
            }
        }
    }
    Ok(status)
}

/// Writes a file that wasn't there; where that fails, it isn't there after either.
fn write_new(name: &OsStr, bytes: &[u8]) -> io::Result<()> {
    let mut file = OpenOptions::new().write(true).create_new(true).open(name)?;
    file.write_all(bytes).and_then(|()| file.sync_all()).map_err(|why| {
        let _ = fs::remove_file(name);
        why
    })
}

/// The program, by its arguments and where it writes; answers the status.
pub fn run(arguments: &[OsString], out: &mut dyn Write, err: &mut dyn Write) -> io::Result<i32> {
    let (name, new) = match arguments {
        [name] if name != "--move" => (name, None),
        [switch, name, new] if switch == "--move" => (name, Some(new)),
        _ => return writeln!(err, "usage: settings FILE, or settings --move FILE NEW").map(|()| 2),
    };
    let mut bytes = match fs::read(name) {
        Ok(bytes) => bytes,
        Err(why) => return writeln!(err, "settings: {:?} can't be read: {}", name, why).map(|()| 2),
    };
    let mut store = match Store::try_from(&mut bytes[..]) {
        Ok(store) => store,
        Err(refusal) => return put_refusal(name, refusal, out, err),
    };
    let new = match new {
        Some(new) => new,
        None => return put_places(name, &store, out, err),
    };
    if let Err(refusal) = store.move_to_v2() {
        return put_refusal(name, refusal, out, err);
    }
    match write_new(new, store.as_bytes()) {
        Ok(()) => Ok(0),
        Err(why) => writeln!(err, "settings: {:?} can't be written: {}", new, why).map(|()| 2),
    }
}

pub fn main() {
    let arguments: Vec<OsString> = std::env::args_os().skip(1).collect();
    let status = run(&arguments, &mut io::stdout(), &mut io::stderr()).unwrap_or(2);
    std::process::exit(status);
}
