//! ECDSA scalars of every length and with every number of leading zeros, held against the model and against the rules' words.

use crate::support;

use saltorchard::{set_comment, Image};
use support::compare::{Plain, Tally};
use support::damage::{set_uint32, with_a_fault};
use support::images::{after_zeros, Draft, Key, ALGORITHMS, SIZES};
use support::Rng;

/// First bytes after the leading zeros.
const FIRSTS: [u8; 4] = [0x01, 0x7f, 0x80, 0xff];

fn size(algorithm: u8) -> usize {
    SIZES[usize::from(algorithm)]
}

/// A stored scalar of `length` bytes: zeros, then `first`, then any bytes.
fn stored(length: usize, zeros: usize, first: u8, rng: &mut Rng) -> Vec<u8> {
    let mut scalar = rng.bytes(length);
    scalar[..zeros].fill(0);
    scalar[zeros..].iter_mut().take(1).for_each(|byte| *byte = first);
    scalar
}

/// Stored scalars of each length up to three bytes too many, with each number of leading zeros and each first byte after them.
fn every_stored(size: usize, rng: &mut Rng) -> Vec<Vec<u8>> {
    let mut all = Vec::new();
    for length in 0..=size + 3 {
        for zeros in 0..=length {
            all.extend(FIRSTS.map(|first| stored(length, zeros, first, rng)));
        }
    }
    all
}

/// Read, rewritten, and its comment changed with some room to spare.
fn all_calls(tally: &mut Tally, image: &[u8]) {
    tally.read(image);
    tally.rewrite(image, image.len() + 8);
    tally.change_comment(&[image, &[7; 16]].concat(), image.len(), b"oven 7, line 2");
}

#[test]
fn every_length() {
    let mut tally = Tally::new("scalars of every length");
    let mut rng = Rng::new("scalars of every length");
    for algorithm in 1..4 {
        let key = Key::new(algorithm, &mut rng);
        for scalar in every_stored(size(algorithm), &mut rng) {
            all_calls(&mut tally, &Draft::stored(&key, scalar, 5, b"oven7").bytes());
        }
    }
    tally.expect_replies(&[0, 1, 2, 6, 10], 20);
    tally.end(5 * (2_664 + 5_512 + 9_940));
}

/// A P-256 image whose scalar's field is at byte 263.
fn p256(stored: &[u8]) -> Vec<u8> {
    Draft::stored(&Key::new(1, &mut Rng::new("scalars in numbers")), stored.to_vec(), 5, b"oven7").bytes()
}

#[test]
fn refusals_in_numbers() {
    let rows: [(&[u8], u64, usize, usize); 9] = [
        (&[], 1, 0, 263),
        (&[0], 2, 0, 263),
        (&[0; 31], 2, 0, 263),
        (&[0; 32], 2, 0, 263),
        (&[0; 33], 2, 0, 263),
        (&[1; 33], 2, 0, 263),
        (&[0xff; 33], 2, 0, 263),
        (&[0; 34], 6, 2, 299),
        (&[1; 40], 6, 8, 299),
    ];
    for (stored, number, count, place) in rows {
        let refusal = Image::read(&p256(stored)).expect_err("a refusal");
        assert_eq!((refusal.number(), refusal.count(), refusal.place()), (number, count, place), "{:?}", stored);
    }
}

#[test]
fn views_in_numbers() {
    let rows: [(&[u8], usize, bool); 12] = [
        (&[1], 0, true),
        (&[0x80], 0, false),
        (&[0, 0x80], 1, true),
        (&[0, 0x7f], 1, false),
        (&[0, 0, 0x80], 2, false),
        (&[0x7f; 31], 0, true),
        (&[0xff; 31], 0, false),
        (&[0x7f; 32], 0, true),
        (&[0xff; 32], 0, false),
        (&after_zeros(1, 0x80, 32), 1, true),
        (&after_zeros(1, 0x7f, 32), 1, false),
        (&after_zeros(32, 0x80, 1), 32, false),
    ];
    for (stored, zeros, form) in rows {
        let bytes = p256(stored);
        let image = Image::read(&bytes).expect("it is read");
        assert_eq!((image.scalar(), image.is_in_form()), (&stored[zeros..], form));
        assert_eq!(image.scalar().as_ptr(), bytes[267 + zeros..].as_ptr());
        let right = [&vec![0; 32 - image.scalar().len()][..], image.scalar()].concat();
        assert_eq!(image.full_scalar(&mut [9; 66]), right);
    }
}

/// The scalar's length field alone is changed: what follows it is then the scalar's, or no longer.
#[test]
fn length_fields() {
    let mut tally = Tally::new("length fields of scalars");
    let mut rng = Rng::new("length fields of scalars");
    for algorithm in 1..4 {
        for comment in [&b""[..], &[b'c'; 90]] {
            let flat = Draft::in_form(&Key::new(algorithm, &mut rng).short(9, 0x11), 5, comment).flat();
            let field = flat.uint32s[flat.uint32s.len() - 2];
            for length in 0..300 {
                let mut image = flat.bytes.clone();
                set_uint32(&mut image, field, length);
                tally.read(&image);
            }
        }
    }
    tally.expect_replies(&[1, 6], 50);
    tally.end(3 * 2 * 300 * 3);
}

/// Stored scalars that are refused, or read and not in the form.
fn wrong(size: usize) -> Vec<Vec<u8>> {
    let zeros = [0, 1, size, size + 1, size + 2].map(|zeros| (zeros, 0, 0));
    let too_long = [(0, 1, size + 1), (0, 9, size + 5)];
    let not_in_form = [(0, 0x80, 5), (2, 1, 1), (0, 0x80, size), (9, 0x80, size - 8)];
    let all = [&zeros[..], &too_long, &not_in_form].concat();
    all.into_iter().map(|(zeros, byte, times)| after_zeros(zeros, byte, times)).collect()
}

#[test]
fn with_another_fault() {
    let mut tally = Tally::new("scalars with another fault");
    let mut rng = Rng::new("scalars with another fault");
    for algorithm in 1..4 {
        let key = Key::new(algorithm, &mut rng);
        for scalar in wrong(size(algorithm)) {
            for draft in with_a_fault(&Draft::stored(&key, scalar, 5, b"oven7")) {
                all_calls(&mut tally, &draft.bytes());
            }
        }
    }
    tally.expect_replies(&[1, 2, 3, 4, 5, 6, 7, 10], 30);
    tally.end(3 * 11 * 38 * 5);
}

/// The curve sets the size, whatever the name says, and the scalar's refusals come before the curve's.
#[test]
fn with_another_curve() {
    let mut tally = Tally::new("scalars with another curve");
    let mut rng = Rng::new("scalars with another curve");
    for (named, curved) in ALGORITHMS[1..4].iter().flat_map(|named| (1..4).map(move |curved| (*named, curved))) {
        let key = Key::new(curved, &mut rng);
        for length in (0..=70).chain([200]) {
            for zeros in [0, length / 2, length] {
                let mut draft = Draft::stored(&key, stored(length, zeros, 0x11, &mut rng), 5, b"");
                draft.pair[0] = named.into();
                tally.read(&draft.bytes());
            }
        }
    }
    tally.expect_replies(&[0, 1, 2, 4, 6], 9);
    tally.end(9 * 72 * 3 * 3);
}

fn call(key: &Key, derive: u8) -> Plain<'_> {
    let Key { algorithm, public, private } = key;
    Plain { algorithm: *algorithm, public, private, derive, checkint: 0x0102_0304, comment: b"oven7" }
}

/// Whatever zeros a scalar begins with, the image is the one with the fewest bytes, and gives the scalar back.
#[test]
fn written() {
    let mut tally = Tally::new("short scalars written");
    let mut rng = Rng::new("short scalars written");
    for algorithm in 1..4 {
        for (zeros, first) in (0..size(algorithm)).flat_map(|zeros| FIRSTS.map(|first| (zeros, first))) {
            let key = Key::new(algorithm, &mut rng).short(zeros, first);
            let right = Draft::in_form(&key, 0x0102_0304, b"oven7").bytes();
            assert_eq!(tally.write_plain(call(&key, 0), right.len()).buffer, right);
            tally.write_plain(call(&key, 0), right.len() - 1);
            tally.write_plain(call(&key, 1), right.len() + 20);
            assert!(tally.read(&right));
            let image = Image::read(&right).expect("it is read");
            assert!(image.is_in_form());
            assert_eq!((image.scalar(), image.full_scalar(&mut [9; 66])), (key.significant(), &key.private[..]));
        }
    }
    tally.expect_replies(&[0], 3 * 4 * (32 + 48 + 66));
    tally.expect_replies(&[9], 4 * (32 + 48 + 66));
    tally.end(6 * 4 * (32 + 48 + 66));
}

/// Refused of every curve, with any comment and room; a seed of zeros is one like another.
#[test]
fn zeros_only() {
    let mut tally = Tally::new("zeros only");
    let mut rng = Rng::new("zeros only");
    for algorithm in 0..4 {
        let mut key = Key::new(algorithm, &mut rng);
        key.private.fill(0);
        for (derive, room) in [(0, 0), (0, 600), (1, 600)] {
            tally.write_plain(Plain { comment: b"\xff", ..call(&key, derive) }, room);
            let refused = tally.write_plain(call(&key, derive), room).written.is_none();
            assert_eq!(refused, algorithm > 0 || room == 0);
        }
    }
    let seed = Key::new(0, &mut rng).short(31, 0);
    let image = Draft::in_form(&seed, 5, b"oven7").bytes();
    all_calls(&mut tally, &image);
    assert_eq!(Image::read(&image).expect("it is read").scalar(), [0; 32]);
    tally.expect_replies(&[2], 18);
    tally.end(24 + 5);
}

/// The writer once stored all of a scalar's bytes, and a zero before a first one of 0x80 or more. Such an image with needless
/// zeros is read, isn't in the form, and gets its new comment once it is rewritten.
#[test]
fn images_with_all_bytes_of_the_scalar() {
    let mut tally = Tally::new("all bytes of the scalar");
    let mut rng = Rng::new("all bytes of the scalar");
    for algorithm in 1..4 {
        for (zeros, first) in (1..size(algorithm)).flat_map(|zeros| FIRSTS.map(|first| (zeros, first))) {
            let key = Key::new(algorithm, &mut rng).short(zeros, first);
            let old = Draft::plain(&key, false, 5, b"oven7").bytes();
            all_calls(&mut tally, &old);
            let in_form = zeros == 1 && first >= 0x80;
            assert_eq!(Image::read(&old).expect("it is read").is_in_form(), in_form);
            let mut buffer = old.clone();
            let change = set_comment(&mut buffer, old.len(), "oven8");
            assert_eq!(change.map_err(|refusal| refusal.number()), if in_form { Ok(old.len()) } else { Err(10) });
            let new = Draft::in_form(&key, 5, b"oven7").bytes();
            assert_eq!(tally.rewrite(&old, new.len()).buffer, new);
            let changed = tally.change_comment(&new, new.len(), b"oven8");
            assert_eq!(changed.buffer, Draft::in_form(&key, 5, b"oven8").bytes());
        }
    }
    tally.expect_replies(&[10], 4 * (31 + 47 + 65) - 6);
    tally.end(7 * 4 * (31 + 47 + 65));
}
