//! Reading, whole and in halves, held against the model.

use crate::support;

use support::compare::Tally;
use support::damage::{comment, number_changes, set_uint32, spliced, structured, with_two_faults};
use support::images::{drafts, plain_drafts, rsa_drafts, sealed, sealed_drafts, Draft, Flat, Key};
use support::images::{DRAFTS, MAGIC, PLAIN_DRAFTS};
use support::Rng;

#[test]
fn short_images() {
    let mut tally = Tally::new("short images");
    tally.read(b"");
    for length in 0..=MAGIC.len() {
        for value in 0..=255 {
            let mut image = MAGIC[..length].to_vec();
            image.push(value);
            tally.read(&image);
        }
    }
    for value in 0..=255 {
        tally.read(&[value]);
        tally.read(&[value; 14]);
        tally.read(&[value; 15]);
        tally.read(&[value; 16]);
    }
    tally.end(15_363);
}

#[test]
fn every_prefix() {
    let mut tally = Tally::new("every prefix");
    let mut accepted = 0;
    for draft in drafts(&mut Rng::new("every prefix")) {
        let image = draft.bytes();
        for end in 0..=image.len() {
            accepted += u64::from(tally.read(&image[..end]));
        }
    }
    assert_eq!(accepted, DRAFTS, "each image whole and no prefix of it");
    tally.expect_of_headers(&[0], 10_000);
    tally.expect_of_sections(&[0], DRAFTS);
    tally.end(81_000);
}

fn every_byte_value(entry: &'static str, draft: &dyn Fn(&mut Rng) -> Draft, least: u64) {
    let mut tally = Tally::new(entry);
    let good = draft(&mut Rng::new(entry)).bytes();
    for place in 0..good.len() {
        let mut image = good.clone();
        for value in 0..=255 {
            image[place] = value;
            tally.read(&image);
        }
    }
    tally.end(least);
}

#[test]
fn every_byte_value_of_ed25519() {
    let draft = |rng: &mut Rng| Draft::in_form(&Key::new(0, rng), 0x5a17, b"oven\xc3\xb6");
    every_byte_value("every byte value, Ed25519", &draft, 183_000);
}

#[test]
fn every_byte_value_of_p256() {
    let draft = |rng: &mut Rng| Draft::in_form(&Key::new(1, rng).beginning(0x80), 0x5a17, b"");
    every_byte_value("every byte value, P-256", &draft, 237_000);
}

#[test]
fn every_byte_value_of_encrypted_images() {
    every_byte_value("every byte value, 3des-cbc", &|rng| sealed(0, 1, false, 0, rng), 78_000);
    every_byte_value("every byte value, aes256-gcm", &|rng| sealed(1, 9, true, 1, rng), 171_000);
}

#[test]
fn numbers_changed() {
    let mut tally = Tally::new("numbers changed");
    for draft in drafts(&mut Rng::new("numbers changed")) {
        let flat = draft.flat();
        for place in &flat.uint32s {
            for number in number_changes(&flat, *place) {
                let mut image = flat.bytes.clone();
                set_uint32(&mut image, *place, number);
                tally.read(&image);
            }
        }
    }
    tally.expect_replies(&[1, 3, 4, 6], 50);
    tally.end(54_000);
}

#[test]
fn bytes_dropped() {
    let mut tally = Tally::new("bytes dropped");
    for draft in drafts(&mut Rng::new("bytes dropped")) {
        let good = draft.bytes();
        for place in 0..good.len() {
            let mut image = good.clone();
            image.remove(place);
            tally.read(&image);
        }
    }
    tally.end(81_000);
}

#[test]
fn bytes_inserted() {
    let mut tally = Tally::new("bytes inserted");
    let mut rng = Rng::new("bytes inserted");
    for draft in drafts(&mut rng) {
        let good = draft.bytes();
        for place in 0..=good.len() {
            let mut image = good.clone();
            image.insert(place, *rng.pick(&[0, 1, 4, 0x7f, 0x80, 0xff]));
            tally.read(&image);
        }
    }
    tally.end(81_000);
}

#[test]
fn bytes_swapped() {
    let mut tally = Tally::new("bytes swapped");
    let mut rng = Rng::new("bytes swapped");
    for draft in drafts(&mut rng) {
        let good = draft.bytes();
        for place in 0..good.len() - 1 {
            let mut image = good.clone();
            let other = if rng.one_in(2) { place + 1 } else { rng.below(good.len()) };
            image.swap(place, other);
            tally.read(&image);
        }
    }
    tally.end(81_000);
}

#[test]
fn images_spliced() {
    let mut tally = Tally::new("images spliced");
    let mut rng = Rng::new("images spliced");
    let flats: Vec<Flat> = drafts(&mut rng).iter().map(Draft::flat).collect();
    for _ in 0..20_000 {
        let (first, second) = (rng.pick(&flats), rng.pick(&flats));
        tally.read(&spliced(first, second, &mut rng));
    }
    tally.expect_replies(&[0, 1, 3, 4, 6], 50);
    tally.end(60_000);
}

#[test]
fn parts_changed() {
    let mut tally = Tally::new("parts changed");
    let mut rng = Rng::new("parts changed");
    let (plain, encrypted) = (plain_drafts(&mut rng), sealed_drafts(&mut rng));
    for round in 0..40_000 {
        let good = if round % 4 == 0 { rng.pick(&encrypted) } else { rng.pick(&plain) };
        tally.read(&structured(good, &mut rng));
    }
    tally.expect_replies(&[0, 1, 2, 3, 4, 5, 6, 7], 300);
    tally.expect_of_headers(&[0, 1, 2, 3, 4, 6], 80);
    tally.expect_of_sections(&[0, 1, 2, 3, 4, 5, 6, 7], 80);
    tally.end(120_000);
}

/// Which of two faults is found first?
#[test]
fn order_of_reading() {
    let mut tally = Tally::new("order of reading");
    let mut rng = Rng::new("order of reading");
    let (plain, encrypted, rsa) = (plain_drafts(&mut rng), sealed_drafts(&mut rng), rsa_drafts(&mut rng));
    let with_a_comment = plain[PLAIN_DRAFTS..2 * PLAIN_DRAFTS].iter();
    for draft in with_a_comment.chain(encrypted.iter().step_by(5)).chain(rsa.iter().skip(1).step_by(2)) {
        for image in with_two_faults(draft) {
            tally.read(&image);
        }
    }
    tally.expect_replies(&[0, 1, 2, 3, 4, 5, 6, 7], 50);
    tally.end(39_000);
}

#[test]
fn random_bytes_after_the_magic() {
    let mut tally = Tally::new("random bytes");
    let mut rng = Rng::new("random bytes");
    for _ in 0..5_000 {
        let mut image = MAGIC.to_vec();
        let length = rng.below(64);
        image.extend((0..length).map(|_| if rng.one_in(2) { 0 } else { rng.byte() }));
        tally.read(&image);
    }
    tally.end(15_000);
}

#[test]
fn comment_lengths() {
    let mut tally = Tally::new("comment lengths");
    let mut rng = Rng::new("comment lengths");
    for algorithm in 0..4 {
        let key = Key::new(algorithm, &mut rng);
        for length in 0..=300 {
            let image = Draft::in_form(&key, rng.uint32(), &vec![b'c'; length]).bytes();
            assert!(tally.read(&image));
            tally.read(&Draft::plain(&key, key.private[0] < 0x80, 0, &vec![b'c'; length]).bytes());
        }
    }
    tally.end(7_200);
}

#[test]
fn comments_in_an_image() {
    let mut tally = Tally::new("comments in an image");
    let mut rng = Rng::new("comments in an image");
    let mut draft = Draft::in_form(&Key::new(0, &mut rng), 1, b"");
    for _ in 0..10_000 {
        draft.comment = comment(90, &mut rng);
        draft.pad();
        tally.read(&draft.bytes());
    }
    tally.expect_replies(&[0, 7], 1_000);
    tally.end(30_000);
}

#[test]
fn around_the_limit() {
    let mut tally = Tally::new("reading around the limit");
    let mut rng = Rng::new("reading around the limit");
    for algorithm in 0..4 {
        let key = Key::new(algorithm, &mut rng);
        let short = Draft::in_form(&key, 7, b"").bytes().len();
        for length in 65_535 - short - 16..65_535 - short + 16 {
            tally.read(&Draft::in_form(&key, 7, &vec![b'c'; length]).bytes());
        }
    }
    for rest in 65_300..65_560 {
        let mut draft = sealed(0, 7, true, 1, &mut rng);
        draft.options = Some((vec![b's'; rest - 150], 9));
        tally.read(&draft.bytes());
    }
    for length in [65_534, 65_535, 65_536, 65_537, 70_000, 1 << 20] {
        tally.read(&vec![0; length]);
        tally.read(&[MAGIC, &vec![0; length - MAGIC.len()]].concat());
    }
    tally.expect_replies(&[0, 11], 40);
    tally.end(1_170);
}
