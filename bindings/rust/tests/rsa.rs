//! RSA keys: read, written, rewritten and commented anew, held against the model.

use crate::support;

use saltorchard::{write_rsa, Checkint, LentImage};
use support::compare::{Encrypted, Rsa, Tally};
use support::damage::{comment, number_changes, set_uint32, spoiled, structured, COMMENTS};
use support::images::{mpint, rsa_drafts, strings_bytes, Draft, Flat, RsaKey};
use support::Rng;

/// Sizes at the ends of the range, at a byte's border, and of keys in use.
const BITS: [usize; 14] =
    [1_024, 1_025, 1_026, 1_030, 1_031, 1_032, 1_033, 1_536, 2_047, 2_048, 3_072, 4_096, 8_191, 8_192];

fn call<'a>(key: &'a RsaKey, comment: &'a [u8]) -> Rsa<'a> {
    Rsa { numbers: key.numbers(), derive: 0, checkint: 0x0102_0304, comment }
}

/// The key with another number at `place`.
fn with_number(key: &RsaKey, place: usize, number: &[u8]) -> RsaKey {
    let mut other = key.clone();
    other.0[place] = number.to_vec();
    other
}

/// Images with the good key and the other one: the other's in the blob alone, in the section alone, in both.
fn mixed(good: &RsaKey, other: &RsaKey) -> [Draft; 3] {
    let (good, other) = (Draft::rsa(good, 5, b"silo 3"), Draft::rsa(other, 5, b"silo 3"));
    let mut in_the_blob = good.clone();
    in_the_blob.blob = other.blob.clone();
    let mut in_the_section = good;
    in_the_section.pair = other.pair.clone();
    in_the_section.pad();
    [in_the_blob, in_the_section, other]
}

#[test]
fn every_size() {
    let mut tally = Tally::new("RSA, every size");
    let mut rng = Rng::new("RSA, every size");
    for bits in BITS {
        let key = RsaKey::new(bits, &mut rng);
        for comment in [&b""[..], b"silo 3", &[b'c'; 300]] {
            let image = Draft::rsa(&key, 0x0102_0304, comment).bytes();
            assert!(tally.read(&image));
            assert_eq!(saltorchard::Image::read(&image).expect("a good image").bits(), bits);
            let written = tally.write_rsa(call(&key, comment), image.len());
            assert_eq!(written.buffer, image);
            assert_eq!(tally.rewrite(&image, image.len()).buffer, image);
            tally.rewrite(&image, image.len() - 1);
            tally.change_comment(&[&image[..], &[7; 50]].concat(), image.len(), b"another");
        }
        let sealed = Draft::rsa(&key, 0, b"").sealed(1 + (bits % 9) as u8, bits % 2 == 0, 3, &mut rng).bytes();
        assert!(tally.read(&sealed));
        tally.rewrite(&sealed, sealed.len());
        tally.change_comment(&sealed, sealed.len(), b"");
    }
    tally.expect_replies(&[0], 14 * 14);
    tally.expect_replies(&[8, 9], 14);
    tally.end(14 * (3 * 7 + 5));
}

/// Every modulus around the ends of the range.
#[test]
fn sizes_of_the_modulus() {
    let mut tally = Tally::new("RSA, sizes of the modulus");
    let mut rng = Rng::new("RSA, sizes of the modulus");
    let good = RsaKey::new(1_024, &mut rng);
    for bits in (1..4).chain(1_000..1_040).chain(8_180..8_204) {
        let other = with_number(&good, 0, &mpint(bits, &mut rng));
        for draft in mixed(&good, &other) {
            tally.read(&draft.bytes());
        }
        tally.write_rsa(call(&other, b"silo 3"), 9_000);
    }
    tally.expect_replies(&[0, 1, 5], 13);
    tally.end(67 * 10);
}

/// Each other number with as many bits as the modulus, one less and one more.
#[test]
fn sizes_of_the_others() {
    let mut tally = Tally::new("RSA, sizes of the others");
    let mut rng = Rng::new("RSA, sizes of the others");
    for modulus in [1_024, 1_025, 1_031, 2_048, 8_191, 8_192] {
        let good = RsaKey::new(modulus, &mut rng);
        for place in 1..6 {
            for bits in [1, 7, 8, 9, modulus - 1, modulus, modulus + 1, modulus + 9] {
                let other = with_number(&good, place, &mpint(bits, &mut rng));
                for draft in mixed(&good, &other) {
                    tally.read(&draft.bytes());
                }
                tally.write_rsa(call(&other, b"silo 3"), 9_000);
            }
        }
    }
    tally.expect_replies(&[0, 1, 5], 60);
    tally.end(6 * 5 * 8 * 10);
}

/// Two numbers of wrong sizes, two spoiled ones, and one of each: which is found first?
#[test]
fn two_wrong_numbers() {
    let mut tally = Tally::new("RSA, two wrong numbers");
    let mut rng = Rng::new("RSA, two wrong numbers");
    let good = RsaKey::new(1_024, &mut rng);
    let wrong = [vec![], vec![0x81; 30], mpint(1_000, &mut rng), mpint(1_100, &mut rng), mpint(8_193, &mut rng)];
    for (first, second) in (0..6).flat_map(|first| (0..6).map(move |second| (first, second))) {
        for one in &wrong {
            let other = with_number(&good, first, one);
            for two in &wrong {
                let other = with_number(&other, second, two);
                for draft in mixed(&good, &other) {
                    tally.read(&draft.bytes());
                }
                tally.write_rsa(call(&other, b"\xff"), 10);
            }
        }
    }
    tally.expect_replies(&[1, 2, 5], 100);
    tally.end(36 * 25 * 10);
}

/// An exponent that is the modulus itself: where that is too small or too large, the modulus is at fault.
#[test]
fn equal_numbers() {
    let mut tally = Tally::new("RSA, equal numbers");
    let mut rng = Rng::new("RSA, equal numbers");
    for bits in [8, 1_016, 1_023, 1_024, 8_192, 8_193, 9_000] {
        let key = RsaKey([(); 6].map(|()| mpint(bits, &mut rng)));
        let number = mpint(bits, &mut rng);
        let equal = RsaKey([(); 6].map(|()| number.clone()));
        for draft in mixed(&key, &equal) {
            tally.read(&draft.bytes());
        }
        tally.write_rsa(call(&equal, b"silo 3"), 10_000);
    }
    tally.end(7 * 10);
}

#[test]
fn spoiled_numbers() {
    let mut tally = Tally::new("RSA, spoiled numbers");
    let mut rng = Rng::new("RSA, spoiled numbers");
    for bits in [1_024, 1_031, 2_048] {
        let good = RsaKey::new(bits, &mut rng);
        for place in 0..6 {
            for number in spoiled(&good.0[place]) {
                let other = with_number(&good, place, &number);
                for draft in mixed(&good, &other) {
                    tally.read(&draft.bytes());
                }
                tally.write_rsa(call(&other, b"\xff"), 0);
            }
        }
    }
    tally.expect_replies(&[2], 3 * 6 * 7 * 2);
    tally.end(3 * 6 * 7 * 10);
}

/// The places of the numbers' length fields: those of the blob, then those of the section.
fn length_fields(flat: &Flat) -> Vec<usize> {
    let [blob, section] = [6, 12];
    [&flat.uint32s[blob..blob + 2], &flat.uint32s[section..section + 6]].concat()
}

/// Every value of each length byte and of the first two bytes of each number.
#[test]
fn first_bytes_of_each_number() {
    let mut tally = Tally::new("RSA, first bytes of each number");
    let mut rng = Rng::new("RSA, first bytes of each number");
    let flat = Draft::rsa(&RsaKey::new(1_024, &mut rng), 0x5a17, b"silo 3").flat();
    for field in length_fields(&flat) {
        for place in field..field + 6 {
            let mut image = flat.bytes.clone();
            for value in 0..=255 {
                image[place] = value;
                tally.read(&image);
            }
        }
    }
    tally.expect_replies(&[1, 2, 5], 100);
    tally.end(8 * 6 * 256 * 3);
}

/// Each length of a number set near what it was, so that one number takes bytes of the next.
#[test]
fn lengths_changed() {
    let mut tally = Tally::new("RSA, lengths changed");
    let mut rng = Rng::new("RSA, lengths changed");
    for bits in [1_024, 4_096, 8_192] {
        let flat = Draft::rsa(&RsaKey::new(bits, &mut rng), 0x5a17, b"").flat();
        for field in length_fields(&flat) {
            for number in number_changes(&flat, field) {
                let mut image = flat.bytes.clone();
                set_uint32(&mut image, field, number);
                tally.read(&image);
            }
        }
    }
    tally.end(3 * 8 * 16 * 3);
}

#[test]
fn long_images_cut() {
    let mut tally = Tally::new("RSA, long images cut");
    let mut rng = Rng::new("RSA, long images cut");
    for bits in [2_048, 8_192] {
        let flat = Draft::rsa(&RsaKey::new(bits, &mut rng), 0x5a17, b"silo 3").flat();
        for place in &flat.uint32s {
            for end in place.saturating_sub(2)..place + 8 {
                tally.read(&flat.bytes[..end]);
            }
        }
    }
    tally.end(2 * 19 * 10 * 3);
}

#[test]
fn parts_changed() {
    let mut tally = Tally::new("RSA, parts changed");
    let mut rng = Rng::new("RSA, parts changed");
    let mut drafts = rsa_drafts(&mut rng);
    drafts.push(Draft::rsa(&RsaKey::new(2_048, &mut rng), 9, b"silo 3"));
    for _ in 0..10_000 {
        let draft = rng.pick(&drafts);
        let image = structured(draft, &mut rng);
        tally.read(&image);
        let room = *rng.pick(&[0, 700, 3_000]);
        tally.rewrite(&image, room);
        tally.change_comment(&[&image[..], &[3; 20]].concat(), image.len(), &comment(40, &mut rng));
    }
    tally.expect_replies(&[0, 1, 2, 3, 4, 5, 6, 7, 8, 9], 80);
    tally.end(50_000);
}

/// Every set of faults of an RSA key: which comes first?
#[test]
fn order_of_the_writer() {
    let mut tally = Tally::new("RSA, order of the writer");
    let key = RsaKey::new(1_024, &mut Rng::new("RSA, order of the writer"));
    let long = vec![b'c'; 70_000];
    let long_and_bad = [&long[..], b"\xff"].concat();
    for faults in 0..256 {
        let has = |fault: u32| faults >> fault & 1 == 1;
        let mut key = key.clone();
        if has(0) {
            key.0[5].insert(0, 0);
        }
        if has(1) {
            key.0[2][0] |= 0x80;
        }
        if has(2) {
            key.0[0].truncate(128);
        }
        if has(3) {
            key.0[4].extend([1; 128]);
        }
        let comment: &[u8] = match (has(4), has(5)) {
            (false, false) => b"silo 3",
            (true, false) => b"silo\xff",
            (false, true) => &long,
            (true, true) => &long_and_bad,
        };
        let room = if has(6) { 700 } else { 80_000 };
        tally.write_rsa(Rsa { derive: u8::from(has(7)), ..call(&key, comment) }, room);
    }
    tally.expect_replies(&[0, 1, 2, 7, 9, 11], 2);
    tally.end(256);
}

#[test]
fn every_room() {
    let mut tally = Tally::new("RSA, every room");
    let key = RsaKey::new(1_024, &mut Rng::new("RSA, every room"));
    let length = Draft::rsa(&key, 0, b"silo 3").bytes().len();
    for room in 0..length + 10 {
        tally.write_rsa(call(&key, b"silo 3"), room);
    }
    tally.expect_replies(&[0], 10);
    tally.end(700);
}

/// d of every length up to two groups and more: a zero before it counts, a shorter rest doesn't.
#[test]
fn derived_checkints() {
    let mut tally = Tally::new("RSA, derived checkints");
    let mut rng = Rng::new("RSA, derived checkints");
    let good = RsaKey::new(1_024, &mut rng);
    for bits in 1..=120 {
        let key = with_number(&good, 2, &mpint(bits, &mut rng));
        for derive in [0, 1, 2, 255] {
            let answer = tally.write_rsa(Rsa { derive, ..call(&key, b"silo 3") }, 1_000);
            let length = answer.written.expect("nothing is wrong with it");
            tally.read(&answer.buffer[..length]);
        }
    }
    let key = with_number(&good, 2, &[0x00, 0x81, 0x02, 0x03, 0x10, 0x20, 0x30, 0x40, 0x55]);
    let answer = tally.write_rsa(Rsa { derive: 1, ..call(&key, b"") }, 1_000);
    let image = &answer.buffer[..answer.written.expect("nothing is wrong with it")];
    assert_eq!(saltorchard::Image::read(image).expect("it is read").checkint(), Some(0x10a1_3243));
    tally.end(120 * 4 * 4 + 1);
}

#[test]
fn random_calls() {
    let mut tally = Tally::new("RSA, random calls");
    let mut rng = Rng::new("RSA, random calls");
    for _ in 0..600 {
        let key = RsaKey::new(1_024 + rng.below(1_100), &mut rng);
        let comment = comment(60, &mut rng);
        let length = Draft::rsa(&key, 0, &comment).bytes().len();
        for room in [0, length - 1, length, length + 40] {
            let derive = *rng.pick(&[0, 0, 1, 2, 128, 255]);
            let answer = tally.write_rsa(Rsa { derive, checkint: rng.uint32(), ..call(&key, &comment) }, room);
            if let Some(length) = answer.written {
                assert!(tally.read(&answer.buffer[..length]), "what was written is read");
            }
        }
    }
    tally.expect_replies(&[0, 7, 9], 300);
    tally.end(5_000);
}

#[test]
fn comments_of_the_writer() {
    let mut tally = Tally::new("RSA, comments of the writer");
    let key = RsaKey::new(1_024, &mut Rng::new("RSA, comments of the writer"));
    for before in 0..20 {
        for odd in COMMENTS {
            tally.write_rsa(call(&key, &[&vec![b'b'; before][..], odd].concat()), 1_000);
        }
    }
    tally.expect_replies(&[0, 7], 100);
    tally.end(400);
}

/// The encrypted writer's blob: cut, longer, and with spoiled numbers and sizes.
#[test]
fn blobs_damaged() {
    let mut tally = Tally::new("RSA, blobs damaged");
    let mut rng = Rng::new("RSA, blobs damaged");
    let key = RsaKey::new(1_024, &mut rng);
    let good = strings_bytes(&key.blob());
    let call = Encrypted { cipher: 1, kdf: 0, salt: b"", rounds: 0, blob: b"", ciphertext: b"", tag: b"" };
    for end in 0..good.len() {
        tally.write_encrypted(Encrypted { blob: &good[..end], ..call }, 300);
        let mut blob = good.clone();
        blob.insert(end, rng.byte());
        tally.write_encrypted(Encrypted { blob: &blob, ..call }, 300);
        for value in (0..=255).filter(|_| end < 30) {
            blob[end] = value;
            tally.write_encrypted(Encrypted { blob: &blob[..good.len()], ..call }, 300);
        }
    }
    for place in [0, 1] {
        let sizes = [1_000, 1_023, 1_024, 1_025, 8_192, 8_193].map(|bits| mpint(bits, &mut rng));
        for number in spoiled(&key.0[place]).iter().chain(&sizes) {
            let mut blob = strings_bytes(&with_number(&key, place, number).blob());
            tally.write_encrypted(Encrypted { blob: &blob, ..call }, 2_000);
            blob.push(0);
            tally.write_encrypted(Encrypted { blob: &blob, ..call }, 2_000);
        }
    }
    tally.expect_replies(&[0, 1, 2, 4, 6], 3);
    tally.end(8_000);
}

#[test]
fn around_the_limit() {
    let mut tally = Tally::new("RSA, around the limit");
    let mut rng = Rng::new("RSA, around the limit");
    let long = vec![b'c'; 65_600];
    for bits in [1_024, 8_192] {
        let key = RsaKey::new(bits, &mut rng);
        let short = Draft::rsa(&key, 7, b"").bytes();
        for length in 65_535 - short.len() - 9..65_535 - short.len() + 9 {
            tally.read(&Draft::rsa(&key, 7, &long[..length]).bytes());
            for room in [65_529, 65_535, 65_536] {
                tally.write_rsa(call(&key, &long[..length]), room);
                let contents = [&short[..], &long[..room - short.len()]].concat();
                tally.change_comment(&contents, short.len(), &long[..length]);
            }
        }
    }
    tally.expect_replies(&[0, 9, 11], 20);
    tally.end(2 * 18 * 9);
}

/// The image of `key` with this comment, from the library's own writer.
fn afresh(key: &RsaKey, checkint: u32, comment: &[u8]) -> Vec<u8> {
    let [n, e, d, iqmp, p, q] = key.numbers();
    let key = saltorchard::RsaKey { n, e, d, iqmp, p, q, checkint: Checkint::Given(checkint) };
    let mut out = vec![0; 3_000];
    let length = write_rsa(&key, comment, &mut out).expect("an accepted comment can be written");
    out.truncate(length);
    out
}

#[test]
fn sequences_of_comments() {
    let mut tally = Tally::new("RSA, sequences of comments");
    let mut rng = Rng::new("RSA, sequences of comments");
    for round in 0..60 {
        let (key, checkint) = (RsaKey::new(1_024 + 17 * round, &mut rng), rng.uint32());
        let first = Draft::rsa(&key, checkint, b"first").bytes();
        let (mut last, mut n) = (b"first".to_vec(), first.len());
        let mut contents = first;
        contents.resize(n + rng.below(90), 0xa5);
        let mut crate_buffer = contents.clone();
        let mut lent = LentImage::new(&mut crate_buffer, n).expect("a good image");
        for _ in 0..20 {
            let comment = comment(120, &mut rng);
            let answer = tally.change_comment(&contents, n, &comment);
            assert_eq!(lent.set_comment(&comment).ok(), answer.written, "seed {}", support::seed());
            if let Some(length) = answer.written {
                (n, last) = (length, comment);
            }
            contents = answer.buffer;
            assert_eq!(&contents[..n], afresh(&key, checkint, &last), "seed {}", support::seed());
        }
        assert_eq!(crate_buffer, contents);
    }
    tally.expect_replies(&[0, 7, 9], 100);
    tally.end(1_200);
}
