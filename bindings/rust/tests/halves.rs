//! The section's read from halves that are the image's header and from halves that aren't, held against the model.

use crate::support;

use saltorchard::raw;
use support::compare::{numbers_of, raw_of, Tally};
use support::damage::structured;
use support::images::{drafts, Draft, Key, DRAFTS};
use support::model::Numbers;
use support::Rng;

/// The places of kind, algorithm, cipher and KDF among the numbers, and of the key count.
const CODES: [usize; 4] = [3, 4, 5, 6];
const KEYS: usize = 39;

/// Images of every kind, each with its header's numbers.
fn images(rng: &mut Rng) -> Vec<(Vec<u8>, Numbers)> {
    let with_header = |draft: &Draft| {
        let image = draft.bytes();
        let header = raw::read_header(&image);
        assert_eq!((header.number, header.kind), (0, 3));
        (image, numbers_of(&header))
    };
    drafts(rng).iter().map(with_header).collect()
}

/// A half that isn't the image's header: the model says so too, and it is refused as nothing else is.
fn forged(tally: &mut Tally, image: &[u8], half: Numbers) {
    let refusal = numbers_of(&tally.section(image, raw_of(half)));
    assert_eq!(refusal[0], 1);
    assert_eq!(refusal[1..], [0; 39]);
}

#[test]
fn headers_of_every_prefix() {
    let mut tally = Tally::new("headers of every prefix");
    for (image, header) in images(&mut Rng::new("headers of every prefix")) {
        for end in 0..=image.len() {
            let accepted = tally.header(&image[..end]).number == 0;
            assert_eq!(accepted, end as u64 >= header[25], "the header ends where the section begins");
            let section = tally.section(&image[..end], raw_of(header));
            let whole = raw::read(&image[..end]);
            assert!(if accepted { section == whole } else { numbers_of(&section)[..3] == [1, 0, 0] });
        }
    }
    tally.expect_of_sections(&[0], DRAFTS);
    tally.end(54_000);
}

#[test]
fn numbers_changed() {
    let mut tally = Tally::new("halves, numbers changed");
    for (image, header) in images(&mut Rng::new("halves, numbers changed")) {
        for place in 0..header.len() {
            for step in [1, 1 << 8, 1 << 16, 1 << 32, 1 << 63, u64::MAX] {
                let mut half = header;
                half[place] = half[place].wrapping_add(step);
                forged(&mut tally, &image, half);
            }
        }
    }
    tally.end(DRAFTS * 40 * 6);
}

#[test]
fn codes_changed() {
    let mut tally = Tally::new("halves, codes changed");
    for (image, header) in images(&mut Rng::new("halves, codes changed")) {
        for place in CODES {
            let others = (0..=256).filter(|code| *code != header[place]);
            let low_bits_right = (8..64).map(|bit| header[place] | 1 << bit);
            for code in others.chain(low_bits_right) {
                let mut half = header;
                half[place] = code;
                forged(&mut tally, &image, half);
            }
        }
    }
    tally.end(DRAFTS * 4 * (256 + 56));
}

#[test]
fn counts_changed() {
    let mut tally = Tally::new("halves, counts of keys changed");
    for (image, header) in images(&mut Rng::new("halves, counts of keys changed")) {
        assert_eq!(header[KEYS], 1);
        for count in [0, 2, 16, 17, 1 << 32 | 1, 1 << 63, u64::MAX] {
            let mut half = header;
            half[KEYS] = count;
            forged(&mut tally, &image, half);
        }
    }
    tally.end(DRAFTS * 7);
}

#[test]
fn other_answers() {
    let mut tally = Tally::new("halves, other answers");
    for (image, header) in images(&mut Rng::new("halves, other answers")) {
        let mut whole = numbers_of(&raw::read(&image));
        forged(&mut tally, &image, whole);
        whole[3] = header[3];
        forged(&mut tally, &image, whole);
        for number in 0..12 {
            let mut refusal = [0; 40];
            refusal[0] = number;
            forged(&mut tally, &image, refusal);
        }
        for end in [0, 14, 15, header[25] as usize - 1] {
            forged(&mut tally, &image, numbers_of(&raw::read_header(&image[..end])));
            forged(&mut tally, &image[..end], header);
        }
        forged(&mut tally, &image, numbers_of(&raw::read(&image[..image.len() - 1])));
    }
    tally.end(DRAFTS * 23);
}

/// Some of the images have the same numbers in their headers, and these headers are each other's.
#[test]
fn headers_of_other_images() {
    let mut tally = Tally::new("headers of other images");
    let images = images(&mut Rng::new("headers of other images"));
    for (image, header) in &images {
        for (_, other) in &images {
            let section = tally.section(image, raw_of(*other));
            assert_eq!(section.number == 0, header == other);
        }
    }
    tally.expect_of_sections(&[0, 1], 800);
    tally.end(DRAFTS * DRAFTS);
}

/// Each number is one header's or another's.
#[test]
fn headers_mixed() {
    let mut tally = Tally::new("headers mixed");
    let mut rng = Rng::new("headers mixed");
    let images = images(&mut rng);
    for _ in 0..20_000 {
        let ((image, header), (_, other)) = (rng.pick(&images), rng.pick(&images));
        let mut half = *header;
        for place in 0..half.len() {
            if rng.one_in(8) {
                half[place] = other[place];
            }
        }
        let section = tally.section(image, raw_of(half));
        assert_eq!(section.number == 0, half == *header);
    }
    tally.expect_of_sections(&[0, 1], 1_000);
    tally.end(20_000);
}

/// The header of the good image, for a damaged one: it is that one's too where the damage is behind it, or changes no number.
#[test]
fn damaged_after_the_header_was_read() {
    let mut tally = Tally::new("damaged after the header was read");
    let mut rng = Rng::new("damaged after the header was read");
    let drafts = drafts(&mut rng);
    for _ in 0..30_000 {
        let draft = rng.pick(&drafts);
        let header = raw::read_header(&draft.bytes());
        let damaged = structured(draft, &mut rng);
        let section = tally.section(&damaged, header);
        if raw::read_header(&damaged) == header {
            assert!(section == raw::read(&damaged));
        } else {
            assert_eq!((section.number, section.count, section.at), (1, 0, 0));
        }
    }
    tally.expect_of_sections(&[0, 1, 2, 3, 5, 6, 7], 100);
    tally.end(30_000);
}

#[test]
fn around_the_limit() {
    let mut tally = Tally::new("halves around the limit");
    let mut rng = Rng::new("halves around the limit");
    for algorithm in 0..4 {
        let key = Key::new(algorithm, &mut rng);
        let short = Draft::in_form(&key, 7, b"").bytes();
        let header = raw::read_header(&short);
        for length in 65_535 - short.len() - 16..65_535 - short.len() + 16 {
            let image = Draft::in_form(&key, 7, &vec![b'c'; length]).bytes();
            let section = tally.section(&image, header);
            assert_eq!(section.number, u64::from(image.len() > 65_535), "above the limit it is 1, not 11");
            forged(&mut tally, &image, [0; 40]);
        }
    }
    tally.expect_of_sections(&[0], 60);
    tally.end(4 * 32 * 2);
}
