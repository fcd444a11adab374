//! The comment change in place, held against the model and against the image written afresh.

use crate::support;

use saltorchard::{write_plain, Checkint, LentImage, PlainKey};
use support::compare::{Tally, ALGORITHMS};
use support::damage::{comment, structured};
use support::images::{after_zeros, drafts, Draft, Key};
use support::Rng;

/// A buffer of `room` bytes that begins with `image`; what follows is junk without a zero.
fn buffer(image: &[u8], room: usize) -> Vec<u8> {
    let mut buffer: Vec<u8> = (0..room).map(|place| 1 + (place % 255) as u8).collect();
    let length = image.len().min(room);
    buffer[..length].copy_from_slice(&image[..length]);
    buffer
}

#[test]
fn any_length_of_the_image() {
    let mut tally = Tally::new("any length of the image");
    let mut rng = Rng::new("any length of the image");
    for draft in drafts(&mut rng).iter().step_by(7) {
        let image = draft.bytes();
        for room in [0, 1, image.len() - 1, image.len(), image.len() + 30] {
            let contents = buffer(&image, room);
            for n in 0..image.len() + 40 {
                tally.change_comment(&contents, n, b"new");
            }
            for n in [65_535, 65_536, 70_000, usize::MAX - 1, usize::MAX] {
                tally.change_comment(&contents, n, b"new");
            }
        }
    }
    tally.expect_replies(&[0, 1, 11], 8);
    tally.end(22_000);
}

fn every_new_length(tally: &mut Tally, image: &[u8]) {
    for new in 0..40 {
        for more in [0, 1, 7, 8, 9, 16, 24, 40] {
            let contents = buffer(image, image.len() + more);
            tally.change_comment(&contents, image.len(), &vec![b'n'; new]);
        }
    }
}

#[test]
fn comment_lengths_and_rooms() {
    let mut tally = Tally::new("comment lengths and rooms");
    let mut rng = Rng::new("comment lengths and rooms");
    for algorithm in 0..4 {
        let key = Key::new(algorithm, &mut rng);
        for old in [0, 3, 11, 30] {
            let image = Draft::in_form(&key, rng.uint32(), &vec![b'o'; old]).bytes();
            every_new_length(&mut tally, &image);
        }
    }
    tally.expect_replies(&[0, 9], 500);
    tally.end(5_120);
}

#[test]
fn every_kind_of_image() {
    let mut tally = Tally::new("every kind of image");
    let mut rng = Rng::new("every kind of image");
    for draft in drafts(&mut rng) {
        let image = draft.bytes();
        for _ in 0..30 {
            let contents = buffer(&image, image.len() + rng.below(40));
            tally.change_comment(&contents, image.len(), &comment(40, &mut rng));
        }
        for _ in 0..60 {
            let damaged = structured(&draft, &mut rng);
            let contents = buffer(&damaged, damaged.len() + rng.below(40));
            tally.change_comment(&contents, damaged.len(), &comment(40, &mut rng));
        }
    }
    tally.expect_replies(&[0, 1, 2, 3, 4, 5, 6, 7, 8, 9, 10], 30);
    tally.end(7_900);
}

/// The image of `key` with this comment, from the library's own writer.
fn afresh(key: &Key, checkint: u32, comment: &[u8]) -> Vec<u8> {
    let mut out = vec![0; 1_000];
    let key = PlainKey {
        algorithm: ALGORITHMS[usize::from(key.algorithm)],
        public: &key.public,
        private: &key.private,
        checkint: Checkint::Given(checkint),
    };
    let length = write_plain(&key, comment, &mut out).expect("an accepted comment can be written");
    out.truncate(length);
    out
}

#[test]
fn sequences() {
    let mut tally = Tally::new("sequences");
    let mut rng = Rng::new("sequences");
    for round in 0..400 {
        let key = Key::new((round % 4) as u8, &mut rng).short(rng.below(1 + round % 32), 1 | rng.byte());
        let checkint = rng.uint32();
        let first = Draft::in_form(&key, checkint, b"first").bytes();
        let (mut last, mut n) = (b"first".to_vec(), first.len());
        let mut contents = buffer(&first, n + rng.below(90));
        let mut crate_buffer = contents.clone();
        let mut lent = LentImage::new(&mut crate_buffer, n).expect("a good image");
        for _ in 0..30 {
            let comment = comment(120, &mut rng);
            let answer = tally.change_comment(&contents, n, &comment);
            assert_eq!(lent.set_comment(&comment).ok(), answer.written, "seed {}", support::seed());
            if let Some(length) = answer.written {
                (n, last) = (length, comment);
            }
            contents = answer.buffer;
            assert_eq!(lent.len(), n);
            assert_eq!(lent.as_bytes(), &contents[..n]);
            assert_eq!(&contents[..n], afresh(&key, checkint, &last), "seed {}", support::seed());
        }
        assert_eq!(lent.image().expect("still an image").comment().as_bytes(), last);
        assert_eq!(crate_buffer, contents);
    }
    tally.expect_replies(&[0, 7, 9], 1_000);
    tally.end(12_000);
}

#[test]
fn around_the_limit() {
    let mut tally = Tally::new("changing around the limit");
    let mut rng = Rng::new("changing around the limit");
    let long = vec![b'n'; 65_600];
    for algorithm in 0..4 {
        let key = Key::new(algorithm, &mut rng);
        let image = Draft::in_form(&key, 3, b"").bytes();
        for room in [65_520, 65_535, 65_536, 70_000] {
            let contents = buffer(&image, room);
            for new in 65_535 - image.len() - 4..65_535 - image.len() + 14 {
                tally.change_comment(&contents, image.len(), &long[..new]);
            }
            tally.change_comment(&contents, room, b"");
        }
        let full = Draft::in_form(&key, 3, &long[..65_528 - image.len()]).bytes();
        for room in [full.len(), 65_535, 70_000] {
            let contents = buffer(&full, room);
            tally.change_comment(&contents, full.len(), b"short");
            tally.change_comment(&contents, full.len(), &[&long[..], b"\xff"].concat());
            tally.change_comment(&contents, 65_536, b"\xff");
        }
    }
    tally.expect_replies(&[0, 7, 9, 11], 10);
    tally.end(300);
}

/// An image out of the form near the limit is 10, even where its rewritten image would be 11.
#[test]
fn out_of_the_form_near_the_limit() {
    let mut tally = Tally::new("out of the form near the limit");
    let mut rng = Rng::new("out of the form near the limit");
    let long = vec![b'n'; 65_600];
    let key = Key::new(1, &mut rng);
    for (zeros, byte, times) in [(0, 0x80, 32), (1, 0x7f, 32), (0, 0x80, 7), (30, 1, 3)] {
        let stored = after_zeros(zeros, byte, times);
        let short = Draft::stored(&key, stored.clone(), 0, b"").bytes().len();
        for length in 65_535 - short - 8..=65_535 - short {
            let image = Draft::stored(&key, stored.clone(), 0, &long[..length]).bytes();
            tally.change_comment(&buffer(&image, 65_535), image.len(), b"\xff");
        }
    }
    tally.expect_replies(&[10], 36);
    tally.end(36);
}
