//! Edits of an image in one lent buffer, held against the model, and against the image that is written afresh: comments changed, keys
//! added and removed.

use crate::support;

use saltorchard::raw;
use support::compare::{Edit, Tally};
use support::damage::{changed_parts, comment};
use support::images::{drafts, sealed, Draft, Key};
use support::model::MOST_KEYS;
use support::rings::{image_of, mixed, tabled, Commented, Ring};
use support::Rng;

/// A buffer of `room` bytes that begins with `image`; what follows is junk without a zero.
fn buffer(image: &[u8], room: usize) -> Vec<u8> {
    let mut buffer: Vec<u8> = (0..room).map(|place| 1 + (place % 255) as u8).collect();
    let length = image.len().min(room);
    buffer[..length].copy_from_slice(&image[..length]);
    buffer
}

/// The first, a middle and the last number of so many keys.
fn some_of(count: usize) -> Vec<u64> {
    let mut some = vec![1, (count as u64 + 1) / 2, count as u64];
    some.dedup();
    some
}

/// Numbers that no key of so many has.
fn missing(count: usize) -> Vec<u64> {
    let count = count as u64;
    vec![0, count + 1, count + 256, 17, 1 << 32, 1 << 32 | 1, 1 << 63, u64::MAX]
}

/// The rooms around what a new image needs, and around the old one's.
fn rooms(old: usize, new: usize) -> Vec<usize> {
    let mut rooms = vec![old, new.max(old) - 1, new.max(old), new.max(old) + 1, new.max(old) + 40];
    rooms.retain(|room| *room >= old);
    rooms
}

/// What the buffer must hold: the new image, zeros up to the old end, and what was past both.
fn holds(after: &[u8], before: &[u8], n: usize, image: &[u8]) {
    let end = n.max(image.len());
    assert!(after.starts_with(image), "seed {}", support::seed());
    assert!(after[image.len()..end].iter().all(|byte| *byte == 0), "seed {}", support::seed());
    assert_eq!(after[end..], before[end..], "seed {}", support::seed());
}

#[test]
fn comments_changed() {
    let mut tally = Tally::new("editing, comments changed");
    let mut rng = Rng::new("editing, comments changed");
    for (count, first) in [(1, 0), (2, 1), (3, 2), (3, 4), (15, 0), (16, 3)] {
        let keys = mixed(count, first, true, &mut rng);
        let image = image_of(&keys, 7);
        for k in some_of(count) {
            for length in [0, 1, 2, 3, 4, 5, 7, 8, 9, 15, 16, 17, 40] {
                let mut changed = keys.clone();
                changed[k as usize - 1].comment = vec![b'n'; length];
                let new = image_of(&changed, 7);
                for room in rooms(image.len(), new.len()) {
                    let contents = buffer(&image, room);
                    let answer = tally.edit(&contents, image.len(), Edit::Change(k, &vec![b'n'; length]));
                    assert_eq!(answer.written, Some(new.len()).filter(|length| *length <= room));
                    if answer.written.is_some() {
                        holds(&answer.buffer, &contents, image.len(), &new);
                    }
                }
            }
            tally.edit(&buffer(&image, image.len() + 9), image.len(), Edit::Change(k, b"\xff"));
        }
    }
    tally.expect_replies(&[0, 7, 9], 10);
    tally.end(850);
}

#[test]
fn keys_added() {
    let mut tally = Tally::new("editing, keys added");
    let mut rng = Rng::new("editing, keys added");
    for (count, first) in [(1, 0), (1, 3), (2, 1), (3, 2), (14, 0), (15, 4), (16, 0)] {
        let keys = mixed(count, first, true, &mut rng);
        let image = image_of(&keys, 7);
        for (kind, comment) in (0..5).flat_map(|kind| [&b""[..], b"mixer 4"].map(|comment| (kind, comment))) {
            let key = Commented::new(kind, comment, &mut rng);
            let new = image_of(&[&keys[..], std::slice::from_ref(&key)].concat(), 7);
            for room in rooms(image.len(), new.len()) {
                let contents = buffer(&image, room);
                let answer = tally.edit(&contents, image.len(), Edit::Add(&key));
                let fits = count < MOST_KEYS && new.len() <= room;
                assert_eq!(answer.written, Some(new.len()).filter(|_| fits));
                if fits {
                    holds(&answer.buffer, &contents, image.len(), &new);
                }
            }
            let wrong = key.commented(b"\xc3");
            tally.edit(&buffer(&image, image.len()), image.len(), Edit::Add(&wrong));
        }
    }
    tally.expect_replies(&[0, 1, 7, 9], 40);
    tally.end(400);
}

#[test]
fn keys_removed() {
    let mut tally = Tally::new("editing, keys removed");
    let mut rng = Rng::new("editing, keys removed");
    for (count, first) in (1..=MOST_KEYS).flat_map(|count| (0..5).map(move |first| (count, first))) {
        let keys = mixed(count, first, true, &mut rng);
        let image = image_of(&keys, 7);
        for k in 1..=count {
            let contents = buffer(&image, image.len() + 9 * (k % 2));
            let answer = tally.edit(&contents, image.len(), Edit::Remove(k as u64));
            assert_eq!(answer.written.is_some(), count > 1);
            if count > 1 {
                let mut left = keys.clone();
                left.remove(k - 1);
                holds(&answer.buffer, &contents, image.len(), &image_of(&left, 7));
            }
        }
        for k in missing(count) {
            tally.edit(&image, image.len(), Edit::Remove(k));
        }
    }
    tally.expect_replies(&[0, 1], 400);
    tally.end(1_300);
}

/// A missing key comes before what is wrong with the comment, and before size and room.
#[test]
fn missing_keys() {
    let mut tally = Tally::new("editing, missing keys");
    let mut rng = Rng::new("editing, missing keys");
    let long = vec![b'c'; 66_000];
    for count in [1, 2, 3, 15, 16] {
        let image = image_of(&mixed(count, 1, false, &mut rng), 7);
        for k in missing(count) {
            for comment in [&b""[..], b"oven7", b"\xff", &long] {
                for room in [image.len(), image.len() + 300] {
                    let answer = tally.edit(&buffer(&image, room), image.len(), Edit::Change(k, comment));
                    assert_eq!(answer.written, None);
                }
            }
        }
    }
    tally.end(320);
}

/// Any length of the image, and any buffer: too long, longer than the buffer, refused by the reader.
#[test]
fn any_length_of_the_image() {
    let mut tally = Tally::new("editing, any length of the image");
    let mut rng = Rng::new("editing, any length of the image");
    let added = Commented::new(0, b"new", &mut rng);
    let wrong = Commented::new(1, b"\xff", &mut rng);
    for (count, first) in [(1, 0), (2, 0), (3, 1)] {
        let image = image_of(&mixed(count, first, false, &mut rng), 7);
        for room in [0, 1, image.len() - 1, image.len(), image.len() + 300] {
            let contents = buffer(&image, room);
            let edits =
                [Edit::Change(2, b"new"), Edit::Add(&added), Edit::Add(&wrong), Edit::Remove(1), Edit::Remove(9)];
            for n in (0..image.len() + 20).step_by(3).chain([image.len(), 65_535, 65_536, usize::MAX]) {
                for edit in edits {
                    tally.edit(&contents, n, edit);
                }
            }
        }
    }
    tally.expect_replies(&[0, 1, 6, 7, 9, 11], 3);
    tally.end(15_000);
}

/// Images of every kind, encrypted, out of the form and damaged: the reader's refusals, 8 and 10 before the edit's own.
#[test]
fn every_kind_of_image() {
    let mut tally = Tally::new("editing, every kind of image");
    let mut rng = Rng::new("editing, every kind of image");
    let added = [Commented::new(0, b"new", &mut rng), Commented::new(4, b"\xff", &mut rng)];
    let mut images: Vec<Vec<u8>> = drafts(&mut rng).iter().map(Draft::bytes).collect();
    let rings: Vec<Ring> = (0..5).map(|first| Ring::of(&mixed(3, first, true, &mut rng), 7)).collect();
    for _ in 0..3_000 {
        let ring = rng.pick(&rings);
        let place = rng.below(3);
        let mut damaged = ring.with(place, changed_parts(&ring.0[place], &mut rng));
        if !rng.one_in(8) {
            damaged.pad();
        }
        images.push(damaged.bytes());
    }
    for image in images {
        let contents = buffer(&image, image.len() + rng.below(400));
        let new = comment(40, &mut rng);
        let k = 1 + rng.below(4) as u64;
        for edit in [Edit::Change(k, &new), Edit::Add(&added[0]), Edit::Add(&added[1]), Edit::Remove(k)] {
            tally.edit(&contents, image.len(), edit);
        }
    }
    tally.expect_replies(&[0, 1, 2, 3, 4, 5, 6, 7, 8, 9, 10], 15);
    tally.end(12_000);
}

/// An image out of the form is 10 whichever key's scalar is, before a key that is missing, one too many, or the only one.
#[test]
fn out_of_the_form() {
    let mut tally = Tally::new("editing, out of the form");
    let mut rng = Rng::new("editing, out of the form");
    let added = Commented::new(0, b"\xff", &mut rng);
    for count in [1, 2, 3, 16] {
        for place in 0..count {
            let key = Key::new(1, &mut rng);
            let mut ring = Ring::of(&mixed(count, 0, false, &mut rng), 7);
            let stored = Draft::stored(&key, vec![0x80; 1 + rng.below(32)], 7, b"oven7");
            ring.0[place] = Draft { count: count as u32, ..stored };
            ring.pad();
            let image = ring.bytes();
            for edit in [Edit::Change(1, b"\xff"), Edit::Change(0, b""), Edit::Add(&added), Edit::Remove(1)] {
                tally.edit(&buffer(&image, image.len() + 50), image.len(), edit);
            }
        }
    }
    let sealed = sealed(1, 9, true, 2, &mut rng).bytes();
    for edit in [Edit::Change(1, b"\xff"), Edit::Change(2, b""), Edit::Add(&added), Edit::Remove(1)] {
        tally.edit(&sealed, sealed.len(), edit);
    }
    tally.expect_replies(&[10], 88);
    tally.expect_replies(&[8], 4);
    tally.end(92);
}

/// The keys that are in an image now, each with its last accepted comment, written afresh by the library.
fn afresh(keys: &[Commented], checkint: u32) -> Vec<u8> {
    let (table, text) = tabled(keys);
    let mut out = vec![0; 65_535];
    let reply = raw::write_keys(&table, &text, 0, checkint, &mut out);
    assert_eq!(reply.number, 0);
    out.truncate(reply.length as usize);
    out
}

/// Any of the edits, some of them wrong, and what it leaves of the keys if it is accepted.
fn any_edit(keys: &[Commented], rng: &mut Rng) -> (Vec<Commented>, Made) {
    let count = keys.len() as u64;
    let k = if rng.one_in(12) { *rng.pick(&missing(keys.len())) } else { 1 + rng.below(keys.len()) as u64 };
    let there = (1..=count).contains(&k);
    let mut after = keys.to_vec();
    match rng.below(5) {
        0 | 1 => {
            let comment = comment(60, rng);
            if there {
                after[k as usize - 1].comment = comment.clone();
            }
            (after, Made::Change(k, comment))
        }
        2 | 3 => {
            let kind = *rng.pick(&[0, 0, 1, 1, 2, 3, 4]);
            let comment = comment(30, rng);
            let mut key = Commented::new(kind, &comment, rng);
            if rng.one_in(8) {
                key = spoiled(key);
            }
            after.push(key.clone());
            (after, Made::Add(Box::new(key)))
        }
        _ => {
            if there {
                after.remove(k as usize - 1);
            }
            (after, Made::Remove(k))
        }
    }
}

/// An edit with what is handed in.
enum Made {
    Change(u64, Vec<u8>),
    Add(Box<Commented>),
    Remove(u64),
}

impl Made {
    fn edit(&self) -> Edit<'_> {
        match self {
            Self::Change(k, comment) => Edit::Change(*k, comment),
            Self::Add(key) => Edit::Add(key),
            Self::Remove(k) => Edit::Remove(*k),
        }
    }
}

/// The key with a byte too few, or with an empty number.
fn spoiled(mut key: Commented) -> Commented {
    match &mut key.key {
        support::rings::Any::Curve(curve) => drop(curve.private.pop()),
        support::rings::Any::Rsa(rsa) => rsa.0[4].clear(),
    }
    key
}

/// Edits in one buffer, refused ones among them: after each the image is the one written afresh, and the buffer the model's.
#[test]
fn sequences() {
    let mut tally = Tally::new("editing, sequences");
    let mut rng = Rng::new("editing, sequences");
    for round in 0..300 {
        let mut keys = mixed(1 + round % MOST_KEYS, round % 5, true, &mut rng);
        let checkint = rng.uint32();
        let first = image_of(&keys, checkint);
        let mut n = first.len();
        let mut contents = buffer(&first, n + rng.below(1_500));
        for _ in 0..40 {
            let (after, made) = any_edit(&keys, &mut rng);
            let answer = tally.edit(&contents, n, made.edit());
            match answer.written {
                Some(length) => {
                    let image = afresh(&after, checkint);
                    assert_eq!(length, image.len());
                    holds(&answer.buffer, &contents, n, &image);
                    (keys, n) = (after, length);
                }
                None => assert_eq!(answer.buffer, contents, "seed {}", support::seed()),
            }
            contents = answer.buffer;
        }
    }
    tally.expect_replies(&[0, 1, 2, 7, 9], 40);
    tally.end(12_000);
}

/// From one key to sixteen and back, with a buffer that is exact: what a removal frees serves an addition.
#[test]
fn up_to_sixteen_and_down() {
    let mut tally = Tally::new("editing, up to sixteen and down");
    let mut rng = Rng::new("editing, up to sixteen and down");
    for first in 0..5 {
        let keys = mixed(MOST_KEYS, first, true, &mut rng);
        let room = image_of(&keys, 7).len();
        let mut n = image_of(&keys[..1], 7).len();
        let mut contents = buffer(&image_of(&keys[..1], 7), room);
        let mut do_edit = |edit, right: &[Commented]| {
            let answer = tally.edit(&contents, n, edit);
            n = answer.written.expect("room for it");
            contents = answer.buffer;
            assert_eq!(contents[..n], image_of(right, 7));
        };
        for count in 2..=MOST_KEYS {
            do_edit(Edit::Add(&keys[count - 1]), &keys[..count]);
        }
        for k in 1..=MOST_KEYS as u64 {
            let turned = [&keys[k as usize..], &keys[..k as usize]].concat();
            do_edit(Edit::Remove(1), &turned[..MOST_KEYS - 1]);
            do_edit(Edit::Add(&keys[k as usize - 1]), &turned);
        }
        for count in (1..MOST_KEYS).rev() {
            do_edit(Edit::Remove(count as u64 + 1), &keys[..count]);
        }
        assert!(tally.edit(&contents, n, Edit::Remove(1)).written.is_none());
    }
    tally.end(315);
}

/// The comment change without a number is the first key's.
#[test]
fn the_first_key() {
    let mut tally = Tally::new("editing, the first key");
    let mut rng = Rng::new("editing, the first key");
    for (count, first) in (1..=MOST_KEYS).flat_map(|count| (0..4).map(move |first| (count, first))) {
        let image = image_of(&mixed(count, first, false, &mut rng), 7);
        for new in [&b""[..], b"oven7", b"a comment that is longer than the one before", b"\xff"] {
            let contents = buffer(&image, image.len() + rng.below(60));
            let by_number = tally.edit(&contents, image.len(), Edit::Change(1, new));
            let without = tally.change_comment(&contents, image.len(), new);
            assert_eq!((by_number.written, by_number.buffer), (without.written, without.buffer));
        }
    }
    tally.expect_replies(&[0, 7, 9], 50);
    tally.end(512);
}

#[test]
fn around_the_limit() {
    let mut tally = Tally::new("editing around the limit");
    let mut rng = Rng::new("editing around the limit");
    let keys = mixed(3, 1, false, &mut rng);
    let (image, long) = (image_of(&keys, 7), vec![b'n'; 66_000]);
    for room in [65_520, 65_535, 65_536, 70_000] {
        let contents = buffer(&image, room);
        for length in 65_535 - image.len() - 8..65_535 - image.len() + 32 {
            for k in [1, 3] {
                tally.edit(&contents, image.len(), Edit::Change(k, &long[..length]));
            }
            let added = keys[0].commented(&long[..length - 300]);
            tally.edit(&contents, image.len(), Edit::Add(&added));
        }
    }
    let mut full = keys.clone();
    full[1].comment = vec![b'n'; 65_500 - image.len()];
    let image = image_of(&full, 7);
    for room in [image.len(), 65_535, 70_000] {
        let contents = buffer(&image, room);
        for edit in [Edit::Change(2, b"short"), Edit::Add(&keys[0]), Edit::Remove(2), Edit::Remove(1)] {
            tally.edit(&contents, image.len(), edit);
            tally.edit(&contents, 65_536, edit);
        }
    }
    tally.expect_replies(&[0, 9, 11], 5);
    tally.end(500);
}

/// Codes of no kind, and RSA's, are 4 before all else.
#[test]
fn codes_of_added_keys() {
    let mut rng = Rng::new("editing, codes of added keys");
    let image = image_of(&mixed(2, 0, false, &mut rng), 7);
    for algorithm in 4..=255 {
        for n in [0, 20, image.len(), 65_535, usize::MAX] {
            let mut contents = image.clone();
            let reply = raw::add_key(&mut contents, n, algorithm, b"", b"", b"\xff");
            assert_eq!((reply.number, reply.count, reply.at, reply.length), (4, 0, 0, 0));
            assert_eq!(contents, image);
        }
    }
}
