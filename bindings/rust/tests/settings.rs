//! Reconnect settings, by themselves and in stores, held against the model.

use crate::support;

use std::time::Duration;

use saltorchard::settings::{Setting, Store, Version, DEVICES, SETTING_LEN, STORE_LEN};
use saltorchard::{Algorithm, Error, ErrorKind, Field};
use support::compare::{Tally, ALGORITHMS};
use support::model::settings::{self as model, get, record_of, DELAYS};
use support::Rng;

const SECOND: u64 = 1_000;

/// Milliseconds around each border: of seconds, of 24 bits in both versions, of 32 bits, of 64.
fn borders() -> Vec<u64> {
    let most = (DELAYS - 1) * SECOND;
    let mut borders = vec![2, 1_999, DELAYS - 216, DELAYS + 784, most - SECOND, most + SECOND, 1 << 56, u64::MAX - 615];
    for middle in [1, SECOND, DELAYS, most, most + SECOND, 1 << 32, (1 << 32) * SECOND, 1 << 63, u64::MAX - 1] {
        borders.extend([middle - 1, middle, middle + 1]);
    }
    borders
}

/// Numbers that are no device's.
const NO_DEVICES: [u64; 12] = [32, 33, 63, 64, 255, 256, 1 << 31, 1 << 32, 1 << 59, 1 << 62, u64::MAX - 31, u64::MAX];

/// A record that can be moved, in either version.
fn good_record(rng: &mut Rng) -> [u8; SETTING_LEN] {
    let kind = rng.below(5) as u64;
    match rng.one_in(2) {
        true => record_of(1, kind, rng.below(16_778) as u64),
        false => record_of(2, kind, rng.below(DELAYS as usize) as u64),
    }
}

/// A store that can be moved; about one place of three is unused.
fn good_store(rng: &mut Rng) -> Vec<u8> {
    let places = (0..DEVICES).map(|_| if rng.one_in(3) { [0; SETTING_LEN] } else { good_record(rng) });
    places.collect::<Vec<_>>().concat()
}

fn with_place(store: &[u8], device: u64, record: [u8; SETTING_LEN]) -> Vec<u8> {
    let start = SETTING_LEN * device as usize;
    [&store[..start], &record, &store[start + SETTING_LEN..]].concat()
}

/// Records that no read takes: of every other version, with and without something after it, and of every other kind.
fn bad_records() -> Vec<[u8; SETTING_LEN]> {
    let tops = (0..=255).filter(|top| !matches!(top, 0x10..=0x14 | 0x20..=0x24));
    let records = tops.flat_map(|top: u64| [0, 1, DELAYS - 1].map(|delay| record_of(top / 16, top % 16, delay)));
    records.filter(|record| *record != [0; SETTING_LEN]).collect()
}

/// Records that are read and can't be moved.
fn long_records() -> Vec<[u8; SETTING_LEN]> {
    [16_778, 16_779, 65_536, DELAYS - 1].iter().zip(0..).map(|(seconds, kind)| record_of(1, kind, *seconds)).collect()
}

#[test]
fn every_version_and_kind() {
    let mut tally = Tally::new("settings, every version and kind");
    for version in 0..=255 {
        for kind in 0..=255 {
            for milliseconds in [0, SECOND, DELAYS] {
                tally.write_setting(version, kind, milliseconds, SETTING_LEN);
            }
        }
    }
    let near = (0..=20).chain([31, 32, 33, 34, 64, 128, 254, 255]);
    for (version, kind) in near.clone().flat_map(|version| near.clone().map(move |kind| (version, kind))) {
        for milliseconds in borders() {
            tally.write_setting(version, kind, milliseconds, SETTING_LEN);
        }
    }
    tally.expect_replies(&[0, 11], 100);
    tally.end(220_000);
}

#[test]
fn every_first_half() {
    let mut tally = Tally::new("settings, every first half of a record");
    let mut rng = Rng::new("settings, every first half of a record");
    for half in 0..=0xffff {
        for end in [0, 1, 0xff, 0xffff, rng.uint32() & 0xffff] {
            tally.read_setting(&(half << 16 | end).to_be_bytes());
        }
    }
    tally.expect_replies(&[0], 12_000);
    tally.end(327_680);
}

/// 1 comes before 4, and 4 before 11.
#[test]
fn lengths() {
    let mut tally = Tally::new("settings, lengths");
    let mut rng = Rng::new("settings, lengths");
    for length in (0..=140).chain([255, 256, 260, 512, 1_000]) {
        let junk = rng.bytes(length);
        tally.read_setting(&junk);
        tally.store_move(&junk);
        for (version, kind, milliseconds) in [(1, 4, SECOND), (2, 0, 5), (1, 0, 5), (3, 0, 5), (2, 5, u64::MAX)] {
            tally.write_setting(version, kind, milliseconds, length);
            for device in [0, 31, 32, u64::MAX] {
                tally.store_put(&junk, device, version, kind, milliseconds);
            }
        }
        for device in [0, 31, 32, u64::MAX] {
            tally.store_get(&junk, device);
        }
    }
    tally.expect_replies(&[1], 4_000);
    tally.end(4_500);
}

/// Every byte of a store made every other: its own device's answer changes, and no other's.
#[test]
fn a_byte_of_a_store_changed() {
    let mut tally = Tally::new("settings, a byte of a store changed");
    let mut store = good_store(&mut Rng::new("settings, a byte of a store changed"));
    for at in 0..STORE_LEN {
        let old = store[at];
        for byte in 0..=0xff {
            store[at] = byte;
            for device in 0..DEVICES {
                tally.store_get(&store, device);
            }
            tally.store_move(&store);
        }
        store[at] = old;
    }
    tally.expect_replies(&[0, 4], 10_000);
    tally.expect_replies(&[11], 100);
    tally.end(1_081_344);
}

/// Every device, over places that hold anything, its own among them.
#[test]
fn puts() {
    let mut tally = Tally::new("settings, puts");
    let mut rng = Rng::new("settings, puts");
    for device in 0..DEVICES {
        for (version, kind) in (0..=4).flat_map(|version| (0..=6).map(move |kind| (version, kind))) {
            for milliseconds in borders() {
                let after = tally.store_put(&rng.bytes(STORE_LEN), device, version, kind, milliseconds);
                tally.store_get(&after.buffer, device);
                if after.written.is_some() {
                    assert_eq!(get(&after.buffer, device), Ok(Some(model::Setting { kind, milliseconds })));
                }
            }
        }
        for byte in 0..=255 {
            let store = rng.bytes(STORE_LEN);
            tally.store_put(&store, device, byte, 4, SECOND);
            tally.store_put(&store, device, 1, byte, SECOND);
            tally.store_put(&store, device, 2, byte, SECOND);
        }
    }
    tally.expect_replies(&[0, 4, 11], 2_000);
    tally.end(100_000);
}

#[test]
fn no_such_device() {
    let mut tally = Tally::new("settings, no such device");
    let store = good_store(&mut Rng::new("settings, no such device"));
    for device in NO_DEVICES {
        tally.store_get(&store, device);
        for (version, kind, milliseconds) in [(2, 4, 5), (3, 4, 5), (2, 5, 5), (2, 4, u64::MAX), (1, 4, 5)] {
            tally.store_put(&store, device, version, kind, milliseconds);
        }
    }
    tally.expect_replies(&[1], 72);
    tally.end(72);
}

/// What is moved, and moved again, answers as it did.
fn moved(tally: &mut Tally, store: &[u8]) {
    let once = tally.store_move(store);
    assert_eq!(once.written, Some(STORE_LEN));
    for (device, place) in (0..DEVICES).zip(once.buffer.chunks(SETTING_LEN)) {
        assert_eq!(get(&once.buffer, device), get(store, device));
        assert!(matches!(place, [0, 0, 0, 0] | [0x20..=0x24, ..]));
        tally.store_get(&once.buffer, device);
    }
    assert_eq!(tally.store_move(&once.buffer).buffer, once.buffer);
}

#[test]
fn moves() {
    let mut tally = Tally::new("settings, moves");
    let mut rng = Rng::new("settings, moves");
    moved(&mut tally, &[0; STORE_LEN]);
    for device in 0..DEVICES {
        for record in [record_of(1, 0, 0), record_of(1, 4, 16_777), record_of(2, 0, 0), record_of(2, 4, DELAYS - 1)] {
            moved(&mut tally, &with_place(&[0; STORE_LEN], device, record));
        }
    }
    for _ in 0..2_000 {
        moved(&mut tally, &good_store(&mut rng));
    }
    tally.end(70_000);
}

/// Each fault at each place, among good places and among unused ones.
#[test]
fn moves_refused() {
    let mut tally = Tally::new("settings, moves refused");
    let mut rng = Rng::new("settings, moves refused");
    let (bad, long) = (bad_records(), long_records());
    for device in 0..DEVICES {
        for (record, number) in bad.iter().map(|record| (record, 4)).chain(long.iter().map(|record| (record, 11))) {
            for store in [good_store(&mut rng), vec![0; STORE_LEN]] {
                let store = with_place(&store, device, *record);
                let refusal = Store::try_from(&mut store.clone()[..]).expect("a store").move_to_v2();
                assert_eq!(refusal.map_err(|error| (error.number(), error.device())), Err((number, Some(device))));
                assert_eq!(tally.store_move(&store).buffer, store);
            }
        }
    }
    tally.expect_replies(&[4], 40_000);
    tally.expect_replies(&[11], 256);
    tally.end(47_000);
}

/// 4 comes before 11, whichever place is first.
#[test]
fn moves_refused_twice() {
    let mut tally = Tally::new("settings, moves refused twice");
    let mut rng = Rng::new("settings, moves refused twice");
    let (bad, long) = (bad_records(), long_records());
    for (one, other) in (0..DEVICES).flat_map(|one| (0..DEVICES).map(move |other| (one, other))) {
        let store = with_place(&good_store(&mut rng), one, *rng.pick(&long));
        if one != other {
            tally.store_move(&with_place(&store, other, *rng.pick(&bad)));
            tally.store_move(&with_place(&store, other, *rng.pick(&long)));
        }
    }
    tally.expect_replies(&[4, 11], 992);
    tally.end(1_984);
}

/// A place of any sort, most of them good.
fn any_record(rng: &mut Rng) -> [u8; SETTING_LEN] {
    match rng.below(40) {
        0 => rng.uint32().to_be_bytes(),
        1 => *rng.pick(&long_records()),
        2 => record_of(rng.below(16) as u64, rng.below(16) as u64, rng.below(3) as u64),
        _ => good_record(rng),
    }
}

/// A delay that a version may take or not.
fn any_delay(rng: &mut Rng) -> u64 {
    match rng.below(5) {
        0 => rng.next() >> rng.below(64),
        1 => SECOND * (rng.next() >> 16 >> rng.below(40)),
        2 => *rng.pick(&borders()),
        3 => SECOND * rng.below(16_778) as u64,
        _ => rng.below(DELAYS as usize) as u64,
    }
}

/// Calls in a row on one store, refused ones among them.
#[test]
fn in_a_row() {
    let mut tally = Tally::new("settings, in a row");
    let mut rng = Rng::new("settings, in a row");
    for _ in 0..3_000 {
        let mut store = good_store(&mut rng);
        for _ in 0..40 {
            let device = if rng.one_in(20) { *rng.pick(&NO_DEVICES) } else { rng.below(32) as u64 };
            match rng.below(10) {
                0 => store = tally.store_move(&store).buffer,
                1 => store = with_place(&store, device % DEVICES, any_record(&mut rng)),
                2..=4 => tally.store_get(&store, device),
                _ => {
                    let version = if rng.one_in(12) { rng.byte() } else { 1 + rng.below(2) as u8 };
                    let kind = if rng.one_in(12) { rng.byte() } else { rng.below(5) as u8 };
                    store = tally.store_put(&store, device, version, kind, any_delay(&mut rng)).buffer;
                }
            }
        }
    }
    tally.expect_replies(&[0, 1, 4, 11], 3_000);
    tally.end(100_000);
}

/// Stores and records of any bytes.
#[test]
fn at_random() {
    let mut tally = Tally::new("settings, at random");
    let mut rng = Rng::new("settings, at random");
    for _ in 0..20_000 {
        let places = (0..DEVICES).map(|_| if rng.one_in(2) { [0; SETTING_LEN] } else { any_record(&mut rng) });
        let store = places.collect::<Vec<_>>().concat();
        tally.store_move(&store);
        tally.store_get(&store, rng.below(34) as u64);
        tally.read_setting(&rng.uint32().to_be_bytes());
    }
    tally.expect_replies(&[0, 4, 11], 1_000);
    tally.end(60_000);
}

/// A delay that a `Duration` has and milliseconds haven't is refused, in its place among the refusals, and nothing is rounded.
#[test]
fn finer_and_longer_than_milliseconds() {
    let most = Duration::from_millis(u64::MAX);
    let durations = [
        Duration::from_nanos(1),
        Duration::from_nanos(999_999),
        Duration::from_nanos(1_000_001),
        Duration::new(1, 1),
        Duration::new(5, 999_999_999),
        Duration::new(16_777, 215_000_001),
        Duration::new(16_777_215, 1),
        most,
        most + Duration::from_nanos(1),
        most + Duration::from_millis(1),
        most + Duration::from_millis(6),
        Duration::new(18_446_744_073_709_552, 0), // 384 milliseconds, if 64 bits were all
        Duration::from_secs(u64::MAX),
        Duration::MAX,
    ];
    for (delay, version) in durations.iter().flat_map(|delay| [(*delay, Version::V1), (*delay, Version::V2)]) {
        let setting = Setting { kind: Algorithm::Rsa, delay };
        let refusal = setting.to_bytes(version).expect_err("a refusal");
        assert_eq!((refusal.number(), refusal.kind(), refusal.count()), (11, ErrorKind::TooLarge, 0));
        assert_eq!((refusal.field(), refusal.place(), refusal.device()), (Field::HandedIn, 0, None));
        let mut bytes = [7; STORE_LEN];
        let mut store = Store::new(&mut bytes);
        assert_eq!(store.put(31, version, setting), Err(refusal));
        assert_eq!(store.put(32, version, setting).map_err(Error::number), Err(1), "the device comes first");
        assert_eq!(store.as_bytes(), &[7; STORE_LEN]);
    }
}

/// The longest of each version, and each kind, there and back.
#[test]
fn there_and_back() {
    let mut bytes = [0; STORE_LEN];
    let mut store = Store::new(&mut bytes);
    for (kind, device) in ALGORITHMS.into_iter().zip(27..) {
        for (version, delay) in [
            (Version::V1, Duration::from_secs(0)),
            (Version::V1, Duration::from_secs(16_777_215)),
            (Version::V2, Duration::from_millis(0)),
            (Version::V2, Duration::from_millis(16_777_215)),
        ] {
            let setting = Setting { kind, delay };
            assert_eq!(setting.to_bytes(version).and_then(|record| Setting::read(&record)), Ok(setting));
            assert_eq!(store.put(device, version, setting), Ok(()));
            assert_eq!(store.get(device), Ok(Some(setting)));
        }
    }
    assert_eq!((store.get(26), store.get(32).is_err()), (Ok(None), true));
    assert_eq!(format!("{:?}", store), "Store { used: 5, .. }");
    assert_eq!(AsRef::<[u8]>::as_ref(&store), store.as_bytes());
    assert_eq!(bytes[..4 * 27], [0; 4 * 27]);
}

#[test]
fn what_settings_show() {
    let setting = Setting { kind: Algorithm::Ed25519, delay: Duration::from_millis(1_500) };
    assert_eq!(format!("{:?} {:?}", setting, Version::V2), "Setting { kind: Ed25519, delay: 1.5s } V2");
    assert!(Version::V1 < Version::V2 && (Version::V1 as u8, Version::V2 as u8) == (1, 2));
    let mut bytes = [0; STORE_LEN];
    bytes[4 * 9] = 0x30;
    let refusal = Store::new(&mut bytes).get(9).expect_err("a refusal");
    assert_eq!(
        format!("{:?}", refusal),
        "Error { kind: AlgorithmUnknown, count: 0, at: 0, field: Setting, key: None, device: Some(9), part: None, cause: Version(3) }"
    );
}
