//! The writer of several keys, from a list and from one text with a table, held against the model.

use crate::support;

use saltorchard::{write_keys_in, Algorithm, Checkint, KeyPlaces};
use support::compare::{Keys, Tally};
use support::damage::{comment, spoiled, COMMENTS};
use support::images::{RsaKey, SIZES};
use support::model::{MOST_KEYS, ROW};
use support::rings::{image_of, mixed, tabled, Any, Commented};
use support::Rng;

const PARTS: usize = 9;

fn call<'a>(table: &'a [u64], text: &'a [u8]) -> Keys<'a> {
    Keys { table, text, derive: 0, checkint: 0x5a17 }
}

#[test]
fn every_number_of_keys() {
    let mut tally = Tally::new("writing several, every number of keys");
    let mut rng = Rng::new("writing several, every number of keys");
    for (count, first) in (0..=18).flat_map(|count| (0..5).map(move |first| (count, first))) {
        let keys = mixed(count, first, true, &mut rng);
        let checkint = rng.uint32();
        let image = if count == 0 { Vec::new() } else { image_of(&keys, checkint) };
        for room in [0, image.len().saturating_sub(1), image.len(), image.len() + 9] {
            for derive in [0, 1, 2, 255] {
                let answer = tally.write_list(&keys, derive, checkint, room);
                let fits = (1..=MOST_KEYS).contains(&count) && room >= image.len();
                assert_eq!(answer.written, Some(image.len()).filter(|_| fits));
                if fits && derive == 0 {
                    assert_eq!(answer.buffer[..image.len()], image, "seed {}", support::seed());
                }
            }
        }
    }
    tally.expect_replies(&[0, 1, 9], 100);
    tally.end(1_500);
}

/// What can be wrong with a key over a curve: its lengths, its first bytes, its comment; the first two with their numbers.
fn spoiled_curve(good: &Commented) -> Vec<Commented> {
    let key = match &good.key {
        Any::Curve(key) => key,
        Any::Rsa(_) => return Vec::new(),
    };
    let size = SIZES[usize::from(key.algorithm)];
    let with = |public: Vec<u8>, private: Vec<u8>| {
        let key = support::images::Key { public, private, ..key.clone() };
        Commented { key: Any::Curve(key), ..good.clone() }
    };
    let (public, private) = (&key.public, &key.private);
    let mut five = public.clone();
    five[0] = 5;
    vec![
        with(public[1..].to_vec(), private.clone()),
        with([&public[..], &[7]].concat(), private.clone()),
        with(public.clone(), private[1..].to_vec()),
        with(public.clone(), [&[0], &private[..]].concat()),
        with(vec![], vec![]),
        with(five, private.clone()),
        with(public.clone(), vec![0; size]),
    ]
}

fn spoiled_rsa(good: &Commented) -> Vec<Commented> {
    let key = match &good.key {
        Any::Rsa(key) => key,
        Any::Curve(_) => return Vec::new(),
    };
    let mut all = Vec::new();
    for which in 0..6 {
        let mut wrong = spoiled(&key.0[which]);
        wrong.extend([vec![1; 1_026], vec![1; 127]]);
        for number in wrong {
            let mut numbers = key.0.clone();
            numbers[which] = number;
            all.push(Commented { key: Any::Rsa(RsaKey(numbers)), ..good.clone() });
        }
    }
    all
}

/// The key with each thing wrong with it, and with comments at the borders of UTF-8.
fn spoiled_key(good: &Commented) -> Vec<Commented> {
    let mut all = [spoiled_curve(good), spoiled_rsa(good)].concat();
    all.extend(COMMENTS.iter().map(|comment| good.commented(comment)));
    all.extend(spoiled_curve(good).iter().take(6).map(|key| key.commented(b"\xff")));
    all
}

#[test]
fn each_condition_at_each_key() {
    let mut tally = Tally::new("writing several, each condition at each key");
    let mut rng = Rng::new("writing several, each condition at each key");
    for (count, first) in [(2, 0), (3, 1), (3, 2), (5, 4), (16, 3)] {
        let keys = mixed(count, first, true, &mut rng);
        for place in (0..count).filter(|place| count < 16 || [0, 1, 7, 15].contains(place)) {
            for wrong in spoiled_key(&keys[place]) {
                let mut with_one = keys.clone();
                with_one[place] = wrong;
                for room in [0, 9_000] {
                    tally.write_list(&with_one, 1, 0, room);
                }
            }
        }
    }
    tally.expect_replies(&[0, 1, 2, 7, 9], 50);
    tally.end(1_300);
}

/// The first key in order that something is wrong with is the one, whatever it is.
#[test]
fn two_wrong_keys() {
    let mut tally = Tally::new("writing several, two wrong keys");
    let mut rng = Rng::new("writing several, two wrong keys");
    for (first, second) in [(0, 1), (1, 4), (4, 3), (2, 2)] {
        let keys = [first, second].map(|kind| Commented::new(kind, b"oven7", &mut rng));
        for one in spoiled_key(&keys[0]) {
            for other in spoiled_key(&keys[1]) {
                tally.write_list(&[one.clone(), other], 0, 7, 40);
            }
        }
    }
    tally.expect_replies(&[1, 2, 7, 9], 50);
    tally.end(5_000);
}

/// Tables of every length, of zeros and of good keys: only a multiple of 19, up to 16 times, is one.
#[test]
fn lengths_of_the_table() {
    let mut tally = Tally::new("writing several, lengths of the table");
    let mut rng = Rng::new("writing several, lengths of the table");
    let (table, text) = tabled(&mixed(17, 0, false, &mut rng));
    for length in 0..=table.len() {
        let written = tally.write_keys(call(&table[..length], &text), 9_000).written;
        assert_eq!(written.is_some(), length > 0 && length % ROW == 0 && length <= ROW * MOST_KEYS);
        tally.write_keys(call(&vec![0; length], &text), 9_000);
        tally.write_keys(call(&vec![u64::MAX; length], &text), 9_000);
    }
    tally.end(970);
}

/// Each part of each key, used or not, begins or ends outside of the text by a little or by much.
#[test]
fn parts_outside_the_text() {
    let mut tally = Tally::new("writing several, parts outside the text");
    let mut rng = Rng::new("writing several, parts outside the text");
    for (count, first) in [(1, 0), (1, 4), (2, 3), (3, 2), (16, 0)] {
        let (table, text) = tabled(&mixed(count, first, true, &mut rng));
        let end = text.len() as u64;
        for (k, part) in (0..count).flat_map(|k| (0..PARTS).map(move |part| (k, part))) {
            let at = ROW * k + 1 + 2 * part;
            let places = [
                [end, 0],
                [end, 1],
                [end + 1, 0],
                [end - 1, 2],
                [0, end],
                [0, end + 1],
                [1, u64::MAX],
                [u64::MAX, 0],
                [u64::MAX, 1],
                [u64::MAX, u64::MAX],
                [1 << 63, 1 << 63],
                [1 << 32, 0],
                [(1 << 32) + 1, table[at + 1]],
                [table[at], table[at + 1] + (1 << 32)],
            ];
            for place in places {
                let mut outside = table.clone();
                outside[at..at + 2].copy_from_slice(&place);
                tally.write_keys(call(&outside, &text), 20_000);
                outside[0] = 5;
                tally.write_keys(call(&outside, &text), 20_000);
            }
        }
    }
    tally.expect_replies(&[1, 4], 400);
    tally.end(5_700);
}

/// Codes that name nothing, low bits that are right among them, at each key; they come before every key's own refusals.
#[test]
fn codes() {
    let mut tally = Tally::new("writing several, codes");
    let mut rng = Rng::new("writing several, codes");
    let good = mixed(5, 0, true, &mut rng);
    let mut wrong = good.clone();
    wrong[0] = wrong[0].commented(b"\xff");
    for keys in [good, wrong] {
        let (table, text) = tabled(&keys);
        for k in 0..5 {
            let own = table[ROW * k];
            for code in (0..=260).chain((8..64).map(|bit| own | 1 << bit)).chain([u64::MAX]) {
                let mut other = table.clone();
                other[ROW * k] = code;
                tally.write_keys(call(&other, &text), 9_000);
            }
        }
    }
    tally.expect_replies(&[0, 1, 2, 4, 7], 5);
    tally.end(3_100);
}

/// Parts anywhere in the text: shifted, in another order, over each other; unused ones of any length.
#[test]
fn parts_anywhere() {
    let mut tally = Tally::new("writing several, parts anywhere");
    let mut rng = Rng::new("writing several, parts anywhere");
    for round in 0..1_500 {
        let keys = mixed(1 + round % 16, round % 5, round % 3 == 0, &mut rng);
        let (mut table, text) = tabled(&keys);
        let before = rng.below(30);
        let after = rng.below(30);
        let text = [rng.bytes(before), text, rng.bytes(after)].concat();
        for row in table.chunks_mut(ROW) {
            let used = if row[0] == 4 { [2, 3, 4, 5, 6, 7, 8].to_vec() } else { [0, 1, 2].to_vec() };
            for part in 0..PARTS {
                row[1 + 2 * part] += before as u64;
                if !used.contains(&part) {
                    let start = rng.below(text.len() + 1);
                    row[1 + 2 * part] = start as u64;
                    row[2 + 2 * part] = rng.below(text.len() + 1 - start) as u64;
                }
            }
        }
        if rng.one_in(4) {
            let place = rng.below(table.len());
            table[place] = table[place].wrapping_add(*rng.pick(&[1, 2, u64::MAX, 1 << 40]));
        }
        let checkint = rng.uint32();
        let derive = rng.below(2) as u8;
        tally.write_keys(Keys { table: &table, text: &text, derive, checkint }, 20_000);
    }
    tally.expect_replies(&[0, 1], 100);
    tally.end(1_500);
}

/// Random lists, mostly right, and rooms around what is needed.
#[test]
fn random_lists() {
    let mut tally = Tally::new("writing several, random lists");
    let mut rng = Rng::new("writing several, random lists");
    for _ in 0..3_000 {
        let count = 1 + rng.below(6);
        let mut keys: Vec<Commented> = (0..count)
            .map(|_| {
                let kind = *rng.pick(&[0, 0, 1, 1, 2, 3, 3, 4]);
                let comment = comment(40, &mut rng);
                Commented::new(kind, &comment, &mut rng)
            })
            .collect();
        if rng.one_in(3) {
            let place = rng.below(count);
            let wrong = spoiled_key(&keys[place]);
            keys[place] = rng.pick(&wrong).clone();
        }
        let room = image_of(&mixed(count, 0, true, &mut rng), 0).len() + rng.below(900);
        let (derive, checkint) = (rng.below(2) as u8, rng.uint32());
        tally.write_list(&keys, derive, checkint, room);
    }
    tally.expect_replies(&[0, 1, 2, 7, 9], 20);
    tally.end(3_000);
}

#[test]
fn around_the_limit() {
    let mut tally = Tally::new("writing several around the limit");
    let mut rng = Rng::new("writing several around the limit");
    let keys = mixed(3, 1, true, &mut rng);
    let short = image_of(&keys, 7).len();
    for place in 0..3 {
        for length in 65_535 - short - 8..65_535 - short + 30 {
            let mut long = keys.clone();
            long[place].comment = vec![b'c'; length];
            for room in [65_000, 65_535, 70_000] {
                tally.write_list(&long, 0, 7, room);
            }
        }
    }
    let mut wrong = keys;
    wrong[2].comment = [&vec![b'c'; 66_000][..], b"\xff"].concat();
    assert_eq!(tally.write_list(&wrong, 0, 7, 70_000).written, None);
    tally.expect_replies(&[0, 7, 9, 11], 1);
    tally.end(340);
}

/// A range that ends before it begins is within no text.
#[test]
#[allow(clippy::reversed_empty_ranges)]
fn a_range_that_ends_before_it_begins() {
    let text = [7; 64];
    for key in [
        KeyPlaces::plain(Algorithm::Ed25519, 32..0, 0..32, 0..0),
        KeyPlaces::plain(Algorithm::Ed25519, 0..32, 32..64, 1..0),
    ] {
        let refused = |keys: &[KeyPlaces]| {
            let refusal = write_keys_in(&text, keys, Checkint::Derived, &mut [0; 300]).expect_err("a refusal");
            (refusal.number(), refusal.key())
        };
        assert_eq!((refused(&[key]), refused(&[key; 2])), ((1, None), (1, Some(1))));
    }
}
