//! The same for reconnect settings: records, and stores.

use std::time::Duration;

use super::model::settings as model;
use super::{guarded, hex, lent, lent_again, raw, Answer, Error, Refusal, Tally, ALGORITHMS};
use saltorchard::settings::{Setting, Store, Version};

/// What is answered of a place or a record: none of an unused place.
type Found = Result<Option<model::Setting>, Refusal>;

fn numbers_of(found: &Found) -> raw::Setting {
    let (number, used, kind, milliseconds) = match *found {
        Err(Refusal { number, .. }) => (number, 0, 0, 0),
        Ok(None) => (0, 0, 0, 0),
        Ok(Some(model::Setting { kind, milliseconds })) => (0, 1, u64::from(kind), milliseconds),
    };
    raw::Setting { number, used, kind, milliseconds }
}

/// Is it the model's, to the last nanosecond?
fn is_setting(setting: Setting, right: model::Setting) -> bool {
    setting.kind == ALGORITHMS[usize::from(right.kind)]
        && setting.delay.as_nanos() == u128::from(right.milliseconds) * 1_000_000
}

/// The crate's version and setting, where it has any.
fn named(version: u8, kind: u8, milliseconds: u64) -> Option<(Version, Setting)> {
    let version = match version {
        1 => Version::V1,
        2 => Version::V2,
        _ => return None,
    };
    let kind = *ALGORITHMS.get(usize::from(kind))?;
    Some((version, Setting { kind, delay: Duration::from_millis(milliseconds) }))
}

impl Tally {
    /// Reads a record with both.
    pub fn read_setting(&mut self, record: &[u8]) {
        let right = model::read(record).map(Some);
        let own = Setting::read(record).map(Some);
        self.same_setting("read_setting", (raw::read_setting(record), own), right, &|| hex(record));
    }

    /// Gets a device's setting with both.
    pub fn store_get(&mut self, store: &[u8], device: u64) {
        let right = model::get(store, device);
        let mut copy = store.to_vec();
        let own = Store::try_from(&mut copy[..]).and_then(|store| store.get(device));
        let input = || format!("{} device {}", hex(store), device);
        self.same_setting("store_get", (raw::store_get(store, device), own), right, &input);
    }

    fn same_setting(
        &mut self,
        what: &str,
        (library, own): (raw::Setting, Result<Option<Setting>, Error>),
        right: Found,
        input: &dyn Fn() -> String,
    ) {
        if library != numbers_of(&right) {
            self.fail(&format!("{}: library {:?}, model {:?}", what, library, right), &input());
        }
        let unlike = match (own, &right) {
            (Err(error), Err(refusal)) => self.refusal_unlike(error, refusal),
            (Ok(None), Ok(None)) => None,
            (Ok(Some(setting)), Ok(Some(right))) if is_setting(setting, *right) => None,
            _ => Some("answer"),
        };
        if let Some(name) = unlike {
            self.fail(
                &format!("{} of the crate: {} of {:?} unlike the model's {:?}", what, name, own, right),
                &input(),
            );
        }
        self.count(library.number);
    }

    /// Writes a record with both into buffers of `room` bytes.
    pub fn write_setting(&mut self, version: u8, kind: u8, milliseconds: u64, room: usize) -> Answer {
        let input = || format!("{} {} {} room {}", version, kind, milliseconds, room);
        let before = guarded(room);
        let (mut right, mut buffer) = (before.clone(), before.clone());
        let model = model::write(version, kind, milliseconds, lent(&mut right));
        let reply = raw::write_setting(version, kind, milliseconds, lent(&mut buffer));
        self.same("write_setting", (reply, &buffer), (model, &right), &input);
        if let Some((version, setting)) = named(version, kind, milliseconds).filter(|_| room == model::RECORD) {
            let mut buffer = before;
            let answer = setting.to_bytes(version).map(|record| {
                lent(&mut buffer).copy_from_slice(&record);
                record.len()
            });
            self.same_written("to_bytes", (answer, &buffer), (model, &right), &input);
        }
        self.count(reply.number);
        Answer { written: model.ok(), buffer: lent(&mut right).to_vec() }
    }

    /// Puts a device's setting with both.
    pub fn store_put(&mut self, store: &[u8], device: u64, version: u8, kind: u8, milliseconds: u64) -> Answer {
        let input = || format!("{} device {}: {} {} {}", hex(store), device, version, kind, milliseconds);
        let before = lent_again(store);
        let (mut right, mut buffer) = (before.clone(), before.clone());
        let model = model::put(lent(&mut right), device, version, kind, milliseconds);
        let reply = raw::store_put(lent(&mut buffer), device, version, kind, milliseconds);
        self.same("store_put", (reply, &buffer), (model, &right), &input);
        if let Some((version, setting)) = named(version, kind, milliseconds) {
            let mut buffer = before;
            let answer = Store::try_from(lent(&mut buffer)).and_then(|mut store| store.put(device, version, setting));
            self.same_written("put", (answer.map(|()| store.len()), &buffer), (model, &right), &input);
        }
        self.count(reply.number);
        Answer { written: model.ok(), buffer: lent(&mut right).to_vec() }
    }

    /// Moves a store with both.
    pub fn store_move(&mut self, store: &[u8]) -> Answer {
        let input = || hex(store);
        let before = lent_again(store);
        let (mut right, mut buffer, mut own) = (before.clone(), before.clone(), before);
        let model = model::move_to_v2(lent(&mut right));
        let reply = raw::store_move(lent(&mut buffer));
        self.same("store_move", (reply, &buffer), (model, &right), &input);
        let answer = Store::try_from(lent(&mut own)).and_then(|mut store| store.move_to_v2());
        self.same_written("move_to_v2", (answer.map(|()| store.len()), &own), (model, &right), &input);
        self.count(reply.number);
        Answer { written: model.ok(), buffer: lent(&mut right).to_vec() }
    }
}
