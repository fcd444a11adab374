//! A plain model of reconnect settings, written from their rules alone: a record is one number, which is taken apart by division.

use super::{refuse, refuse_part, Refusal};

pub const RECORD: usize = 4;
pub const STORE: usize = 128;
pub const DEVICES: u64 = 32;
/// A delay has 24 bits.
pub const DELAYS: u64 = 1 << 24;

const SETTING: &str = "the setting";

/// A kind's code, and milliseconds.
#[derive(Clone, Copy, Debug, PartialEq, Eq)]
pub struct Setting {
    pub kind: u8,
    pub milliseconds: u64,
}

/// The milliseconds of a version's unit.
fn unit(version: u64) -> Option<u64> {
    match version {
        1 => Some(1_000),
        2 => Some(1),
        _ => None,
    }
}

/// The record that a number is.
pub fn record_of(version: u64, kind: u64, delay: u64) -> [u8; RECORD] {
    let mut number = (version * 16 + kind) * DELAYS + delay;
    let mut record = [0; RECORD];
    for byte in record.iter_mut().rev() {
        *byte = (number % 256) as u8;
        number /= 256;
    }
    record
}

pub fn read(record: &[u8]) -> Result<Setting, Refusal> {
    if record.len() != RECORD {
        return refuse(1, 0, SETTING);
    }
    let number = record.iter().fold(0, |number, byte| 256 * number + u64::from(*byte));
    let (version, kind, delay) = (number / DELAYS / 16, number / DELAYS % 16, number % DELAYS);
    match unit(version) {
        Some(unit) if kind <= 4 => Ok(Setting { kind: kind as u8, milliseconds: delay * unit }),
        _ => refuse(4, 0, SETTING),
    }
}

/// What is to be written, whatever it is to be written to.
fn made(version: u8, kind: u8, milliseconds: u64) -> Result<[u8; RECORD], Refusal> {
    let unit = match unit(version.into()) {
        Some(unit) if kind <= 4 => unit,
        _ => return refuse_part(4, ""),
    };
    if milliseconds % unit != 0 || milliseconds / unit >= DELAYS {
        return refuse_part(11, "the delay");
    }
    Ok(record_of(version.into(), kind.into(), milliseconds / unit))
}

pub fn write(version: u8, kind: u8, milliseconds: u64, record: &mut [u8]) -> Result<usize, Refusal> {
    if record.len() != RECORD {
        return refuse(1, 0, SETTING);
    }
    record.copy_from_slice(&made(version, kind, milliseconds)?);
    Ok(RECORD)
}

fn length_fits(store: &[u8]) -> Result<(), Refusal> {
    match store.len() {
        STORE => Ok(()),
        _ => refuse(1, 0, "the store"),
    }
}

/// Where a device's place begins.
fn start(store: &[u8], device: u64) -> Result<usize, Refusal> {
    length_fits(store)?;
    match device {
        0..=31 => Ok(RECORD * device as usize),
        _ => refuse_part(1, "the device"),
    }
}

/// None where the place is unused.
pub fn get(store: &[u8], device: u64) -> Result<Option<Setting>, Refusal> {
    let start = start(store, device)?;
    let record = &store[start..start + RECORD];
    if record == [0; RECORD] {
        return Ok(None);
    }
    read(record).map(Some).map_err(|refusal| Refusal { device: Some(device), ..refusal })
}

pub fn put(store: &mut [u8], device: u64, version: u8, kind: u8, milliseconds: u64) -> Result<usize, Refusal> {
    let start = start(store, device)?;
    store[start..start + RECORD].copy_from_slice(&made(version, kind, milliseconds)?);
    Ok(STORE)
}

/// All places are looked at for each number before the next.
pub fn move_to_v2(store: &mut [u8]) -> Result<usize, Refusal> {
    length_fits(store)?;
    let mut used = Vec::new();
    for device in 0..DEVICES {
        used.extend(get(store, device)?.map(|setting| (device, setting)));
    }
    if let Some((device, _)) = used.iter().find(|(_, setting)| setting.milliseconds >= DELAYS) {
        return refuse(11, 0, SETTING).map_err(|refusal| Refusal { device: Some(*device), ..refusal });
    }
    for (device, Setting { kind, milliseconds }) in used {
        put(store, device, 2, kind, milliseconds)?;
    }
    Ok(STORE)
}
