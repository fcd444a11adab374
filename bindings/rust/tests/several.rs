//! Images of several keys: read whole, in halves and key by key, rewritten, and held against the model.

use crate::support;

use saltorchard::raw;
use support::compare::{numbers_of, raw_of, Tally};
use support::damage::{number_changes, set_uint32, spliced, structured, with_a_fault};
use support::images::{sealed, Draft, Flat, Key};
use support::model::MOST_KEYS;
use support::rings::{image_of, mixed, Any, Commented, Ring};
use support::Rng;

/// Rings of 1, 2, 3, 15, 16 and 17 keys, each beginning with another kind; the long ones without RSA.
fn rings(rng: &mut Rng) -> Vec<Vec<Commented>> {
    let mut rings = Vec::new();
    for count in [1, 2, 3, 15, 16, 17] {
        let kinds = if count > 3 { 4 } else { 5 };
        rings.extend((0..kinds).map(|first| mixed(count, first, count <= 3, rng)));
    }
    rings.push(mixed(16, 4, true, rng));
    rings
}

/// Images of two and three keys, not of RSA: small ones of all other kinds.
fn small(rng: &mut Rng) -> Vec<Ring> {
    let counts = [(2, 0), (2, 1), (3, 0), (3, 1), (3, 2), (3, 3)];
    counts.map(|(count, first)| Ring::of(&mixed(count, first, false, rng), rng.uint32())).to_vec()
}

#[test]
fn every_number_of_keys() {
    let mut tally = Tally::new("several, every number of keys");
    let mut rng = Rng::new("several, every number of keys");
    for keys in rings(&mut rng) {
        let image = image_of(&keys, rng.uint32());
        assert_eq!(tally.read(&image), keys.len() <= MOST_KEYS);
        tally.keys(&image);
        for room in [0, image.len() - 1, image.len(), image.len() + 9] {
            tally.rewrite(&image, room);
        }
    }
    for count in 1..=MOST_KEYS {
        for first in 0..5 {
            let image = image_of(&mixed(count, first, true, &mut rng), rng.uint32());
            assert!(tally.read(&image));
            tally.keys(&image);
        }
    }
    tally.expect_replies(&[0, 1, 9], 20);
    tally.end(2_000);
}

#[test]
fn every_prefix() {
    let mut tally = Tally::new("several, every prefix");
    let mut rng = Rng::new("several, every prefix");
    let rings = [mixed(2, 4, true, &mut rng), mixed(3, 0, true, &mut rng), mixed(3, 2, true, &mut rng)];
    let long = [mixed(15, 0, false, &mut rng), mixed(16, 0, false, &mut rng)];
    for keys in rings.iter().chain(&long) {
        let image = image_of(keys, rng.uint32());
        for end in 0..=image.len() {
            assert_eq!(tally.read(&image[..end]), end == image.len());
        }
    }
    tally.end(36_000);
}

/// Byte values that damage a length, a name or a number, and each bit changed.
fn values(old: u8) -> impl Iterator<Item = u8> {
    let others = [0, 1, 2, 3, 4, 7, 8, 16, 17, 31, 33, 64, 0x7f, 0x80, 0xfe, 0xff];
    others.into_iter().chain((0..8).map(move |bit| old ^ 1 << bit))
}

#[test]
fn every_byte_of_three_keys() {
    let mut tally = Tally::new("several, every byte of three keys");
    let mut rng = Rng::new("several, every byte of three keys");
    for first in 0..2 {
        let good = image_of(&mixed(3, first, false, &mut rng), 0x5a17);
        for place in 0..good.len() {
            let mut image = good.clone();
            for value in values(good[place]) {
                image[place] = value;
                tally.read(&image);
            }
        }
    }
    tally.expect_replies(&[0, 1, 2, 3, 4, 5, 6], 40);
    tally.end(110_000);
}

/// A key count that isn't the number of the blobs, with a plain section and with a cipher.
#[test]
fn counts_unlike_the_blobs() {
    let mut tally = Tally::new("several, counts unlike the blobs");
    let mut rng = Rng::new("several, counts unlike the blobs");
    let counts: Vec<u32> = (0..=18).chain([32, 255, 256, 257, 0x0100_0001, 0x8000_0001, u32::MAX]).collect();
    for keys in rings(&mut rng) {
        let good = Ring::of(&keys, rng.uint32());
        for count in &counts {
            let mut ring = good.clone();
            ring.0[0].count = *count;
            let image = ring.bytes();
            let right = *count as usize == keys.len() && keys.len() <= MOST_KEYS;
            assert_eq!(tally.read(&image), right);
            tally.key(&image, u64::from(*count));
            for bcrypt in [false, true] {
                let mut sealed = ring.clone();
                sealed.0[0] = sealed.0[0].clone().sealed(1 + rng.below(9) as u8, bcrypt, 2, &mut rng);
                assert_eq!(tally.read(&sealed.bytes()), *count == 1 && keys.len() == 1);
            }
        }
    }
    tally.end(7_200);
}

/// Blobs or keypairs in another order: 5 at the first keypair that isn't its blob's. Both, with their comments: another image.
#[test]
fn orders_swapped() {
    let mut tally = Tally::new("several, orders swapped");
    let mut rng = Rng::new("several, orders swapped");
    let equal = vec![Commented::new(1, b"twice", &mut rng); 3];
    let rings = [mixed(2, 4, true, &mut rng), mixed(3, 3, true, &mut rng), mixed(16, 0, false, &mut rng), equal];
    for keys in rings {
        let good = Ring::of(&keys, rng.uint32());
        for (one, other) in (0..keys.len()).flat_map(|one| (0..keys.len()).map(move |other| (one, other))) {
            let mut blobs = good.clone();
            let blob = std::mem::replace(&mut blobs.0[one].blob, good.0[other].blob.clone());
            blobs.0[other].blob = blob;
            let same = good.0[one].blob == good.0[other].blob;
            assert_eq!(tally.read(&blobs.bytes()), same);
            let mut comments = good.clone();
            (comments.0[one].comment, comments.0[other].comment) =
                (good.0[other].comment.clone(), good.0[one].comment.clone());
            assert!(tally.read(&comments.bytes()));
            let mut whole = keys.clone();
            whole.swap(one, other);
            let image = image_of(&whole, 7);
            assert!(tally.read(&image));
            tally.key(&image, 1 + one as u64);
        }
    }
    tally.expect_replies(&[5], 200);
    tally.end(2_700);
}

/// How a scalar may be stored: in the form, with zeros that it doesn't need, without the one that it needs, and as it must not be.
fn stored_scalars(size: usize) -> Vec<Vec<u8>> {
    let low = |length: usize| [&[0x11][..], &vec![0x22; length - 1]].concat();
    let high = |length: usize| [&[0x81][..], &vec![0x22; length - 1]].concat();
    vec![
        low(size),
        [&[0], &high(size)[..]].concat(),
        low(3),
        [&[0], &low(size)[..]].concat(),
        high(size),
        [&[0, 0], &low(size - 2)[..]].concat(),
        [&[0, 0], &high(2)[..]].concat(),
        high(1),
        vec![],
        vec![0; 5],
        high(size + 1),
        [&[0, 0], &low(size)[..]].concat(),
    ]
}

/// So many of these are read, and the first three of them are in the form.
const READ: usize = 8;
const IN_FORM: usize = 3;

#[test]
fn scalars_out_of_form_at_each_key() {
    let mut tally = Tally::new("several, scalars out of form");
    let mut rng = Rng::new("several, scalars out of form");
    for curve in [1, 2, 3] {
        let keys: Vec<Key> = (0..3).map(|_| Key::new(curve, &mut rng)).collect();
        let stored = stored_scalars(support::images::SIZES[usize::from(curve)]);
        let all = stored.len();
        for (first, second, third) in
            (0..all).flat_map(|a| (0..all).flat_map(move |b| (0..all).map(move |c| (a, b, c))))
        {
            let drafts = keys.iter().zip([first, second, third]);
            let drafts = drafts.map(|(key, which)| Draft::stored(key, stored[which].clone(), 7, b"oven7"));
            let mut ring = Ring(drafts.collect());
            ring.0[0].count = 3;
            ring.pad();
            let image = ring.bytes();
            let read = tally.read(&image);
            assert_eq!(read, first.max(second).max(third) < READ);
            let in_form = first.max(second).max(third) < IN_FORM;
            assert_eq!(raw::read(&image).form == 1, in_form);
            if read {
                tally.key(&image, 2);
                tally.rewrite(&image, image.len() + rng.below(11));
            }
            assert_eq!(tally.change_comment(&image, image.len(), b"oven8").written.is_some(), in_form);
        }
    }
    tally.expect_replies(&[0, 1, 2, 6, 10], 100);
    tally.end(23_000);
}

/// The image with each fault at each of its keys.
#[test]
fn a_fault_at_each_key() {
    let mut tally = Tally::new("several, a fault at each key");
    let mut rng = Rng::new("several, a fault at each key");
    let mut rings = small(&mut rng);
    rings.push(Ring::of(&mixed(3, 3, true, &mut rng), 9));
    rings.push(Ring::of(&mixed(16, 2, false, &mut rng), 9));
    for ring in &rings {
        for (place, key) in ring.0.iter().enumerate() {
            for fault in with_a_fault(key) {
                let mut faulty = ring.with(place, fault);
                tally.read(&faulty.bytes());
                faulty.pad();
                tally.read(&faulty.bytes());
            }
        }
    }
    tally.expect_replies(&[0, 1, 2, 3, 4, 5, 6, 7], 30);
    tally.end(8_000);
}

/// Which of two faults is found first, each at any of the keys?
#[test]
fn order_of_reading() {
    let mut tally = Tally::new("several, order of reading");
    let mut rng = Rng::new("several, order of reading");
    for keys in [mixed(2, 0, false, &mut rng), mixed(2, 4, true, &mut rng)] {
        let ring = Ring::of(&keys, 7);
        for first in with_a_fault(&ring.0[0]) {
            for second in with_a_fault(&ring.0[1]) {
                let mut faulty = ring.with(0, first.clone()).with(1, second);
                faulty.pad();
                tally.read(&faulty.bytes());
            }
        }
    }
    tally.expect_replies(&[0, 1, 2, 3, 4, 5, 6, 7], 30);
    tally.end(11_000);
}

#[test]
fn parts_changed() {
    let mut tally = Tally::new("several, parts changed");
    let mut rng = Rng::new("several, parts changed");
    let rings = small(&mut rng);
    for _ in 0..15_000 {
        let ring = rng.pick(&rings);
        let place = rng.below(ring.0.len());
        let mut damaged = ring.with(place, support::damage::changed_parts(&ring.0[place], &mut rng));
        if !rng.one_in(8) {
            damaged.pad();
        }
        let image = damaged.bytes();
        if tally.read(&image) {
            tally.keys(&image);
        }
    }
    tally.expect_replies(&[0, 1, 2, 3, 4, 5, 6, 7], 50);
    tally.end(45_000);
}

#[test]
fn numbers_changed() {
    let mut tally = Tally::new("several, numbers changed");
    let mut rng = Rng::new("several, numbers changed");
    let mut flats: Vec<Flat> = small(&mut rng).iter().map(Ring::flat).collect();
    flats.push(Ring::of(&mixed(16, 1, false, &mut rng), 7).flat());
    for flat in &flats {
        for place in &flat.uint32s {
            for number in number_changes(flat, *place) {
                let mut image = flat.bytes.clone();
                set_uint32(&mut image, *place, number);
                tally.read(&image);
            }
        }
    }
    tally.expect_replies(&[1, 3, 4, 6], 50);
    tally.end(13_000);
}

#[test]
fn bytes_lost_put_in_and_swapped() {
    let mut tally = Tally::new("several, bytes lost, put in and swapped");
    let mut rng = Rng::new("several, bytes lost, put in and swapped");
    for ring in small(&mut rng) {
        let good = ring.bytes();
        for place in 0..good.len() {
            let mut image = good.clone();
            image.remove(place);
            tally.read(&image);
            image.insert(place, rng.byte());
            tally.read(&image);
            image = good.clone();
            image.insert(place, *rng.pick(&[0, 1, 4, 0x7f, 0x80, 0xff]));
            tally.read(&image);
            image = good.clone();
            image.swap(place, rng.below(good.len()));
            tally.read(&image);
        }
    }
    tally.end(45_000);
}

/// The first bytes of one image and the last of another, of one key or of several.
#[test]
fn images_spliced() {
    let mut tally = Tally::new("several, images spliced");
    let mut rng = Rng::new("several, images spliced");
    let mut flats: Vec<Flat> = small(&mut rng).iter().map(Ring::flat).collect();
    flats.extend((0..4).map(|kind| Draft::in_form(&Key::new(kind, &mut rng), 7, b"oven7").flat()));
    flats.push(sealed(1, 9, true, 2, &mut rng).flat());
    for _ in 0..6_000 {
        let (first, second) = (rng.pick(&flats), rng.pick(&flats));
        tally.read(&spliced(first, second, &mut rng));
    }
    tally.expect_replies(&[0, 1, 3, 4, 6], 20);
    tally.end(18_000);
}

/// A half that isn't the image's header is refused as nothing else is.
#[test]
fn halves_forged() {
    let mut tally = Tally::new("several, halves forged");
    let mut rng = Rng::new("several, halves forged");
    let images: Vec<Vec<u8>> = small(&mut rng).iter().map(Ring::bytes).collect();
    for image in &images {
        let header = numbers_of(&raw::read_header(image));
        for place in 0..header.len() {
            for step in [1, 1 << 8, 1 << 16, 1 << 32, 1 << 63, u64::MAX] {
                let mut half = header;
                half[place] = half[place].wrapping_add(step);
                assert_eq!(numbers_of(&tally.section(image, raw_of(half)))[..4], [1, 0, 0, 0]);
            }
        }
        for other in &images {
            let half = raw::read_header(other);
            assert_eq!(tally.section(image, half).number == 0, numbers_of(&half) == header);
        }
    }
    tally.end(6 * 40 * 6 + 36);
}

/// The header of the good image, for one that is damaged behind it or in it.
#[test]
fn damaged_after_the_header_was_read() {
    let mut tally = Tally::new("several, damaged after the header was read");
    let mut rng = Rng::new("several, damaged after the header was read");
    let rings = small(&mut rng);
    for _ in 0..6_000 {
        let ring = rng.pick(&rings);
        let header = raw::read_header(&ring.bytes());
        let place = rng.below(ring.0.len());
        let mut damaged = ring.with(place, support::damage::changed_parts(&ring.0[place], &mut rng));
        damaged.pad();
        let image = damaged.bytes();
        let section = tally.section(&image, header);
        assert!(raw::read_header(&image) != header || section == raw::read(&image));
    }
    tally.expect_of_sections(&[0, 1, 2, 4, 5, 6, 7], 10);
    tally.end(6_000);
}

/// Keys by their numbers, of images that are refused too.
#[test]
fn keys_of_damaged_images() {
    let mut tally = Tally::new("several, keys of damaged images");
    let mut rng = Rng::new("several, keys of damaged images");
    let rings = small(&mut rng);
    for _ in 0..2_000 {
        let ring = rng.pick(&rings);
        let place = rng.below(ring.0.len());
        let mut damaged = ring.with(place, support::damage::changed_parts(&ring.0[place], &mut rng));
        damaged.pad();
        tally.keys(&damaged.bytes());
    }
    for kind in 0..5 {
        for cipher in [1, 7, 9] {
            let key = Commented::new(kind, b"", &mut rng);
            tally.keys(&key.draft(0).sealed(cipher, true, 2, &mut rng).bytes());
        }
    }
    for draft in support::images::plain_drafts(&mut rng) {
        tally.keys(&structured(&draft, &mut rng));
    }
    tally.expect_replies(&[0, 1, 2, 4, 5, 6, 7], 50);
    tally.end(16_000);
}

/// The limit, by the comment of each of three keys.
#[test]
fn around_the_limit() {
    let mut tally = Tally::new("several, reading around the limit");
    let mut rng = Rng::new("several, reading around the limit");
    let keys = mixed(3, 1, false, &mut rng);
    let short = image_of(&keys, 7).len();
    for place in 0..3 {
        for length in 65_535 - short - 12..65_535 - short + 24 {
            let mut long = keys.clone();
            long[place].comment = vec![b'c'; length];
            let image = image_of(&long, 7);
            tally.read(&image);
            tally.key(&image, 3);
            tally.rewrite(&image, 65_535);
        }
    }
    tally.expect_replies(&[0, 11], 20);
    tally.end(500);
}

/// Sixteen RSA keys of 2,048 bits, and as many as an image may have of 8,192.
#[test]
fn long_keys() {
    let mut tally = Tally::new("several, long keys");
    let mut rng = Rng::new("several, long keys");
    for (bits, most) in [(2_048, MOST_KEYS), (8_192, 12)] {
        for count in [2, most - 1, most, most + 1] {
            let key = |rng: &mut Rng| Any::Rsa(support::images::RsaKey::new(bits, rng));
            let keys: Vec<Commented> =
                (0..count).map(|_| Commented { key: key(&mut rng), comment: b"silo".to_vec() }).collect();
            let image = image_of(&keys, 7);
            tally.read(&image);
            tally.keys(&image);
            tally.rewrite(&image, image.len());
        }
    }
    tally.end(100);
}
