//! The two writers and the rewriting of an image, held against the model.

use crate::support;

use support::compare::{Encrypted, Plain, Tally};
use support::damage::{comment, structured, COMMENTS};
use support::images::{after_zeros, blob_bytes, block, drafts, public_length, tag_length, Draft, Key, SIZES};
use support::Rng;

fn call<'a>(key: &'a Key, comment: &'a [u8]) -> Plain<'a> {
    Plain {
        algorithm: key.algorithm,
        public: &key.public,
        private: &key.private,
        derive: 0,
        checkint: 0x0102_0304,
        comment,
    }
}

/// Rooms that matter for an image of `length` bytes.
fn rooms(length: usize, rng: &mut Rng) -> [usize; 6] {
    [0, length - 1, length, length + 1, length + 40, rng.below(length)]
}

#[test]
fn algorithm_codes() {
    let mut tally = Tally::new("algorithm codes");
    let mut rng = Rng::new("algorithm codes");
    for algorithm in 0..4 {
        let key = Key::new(algorithm, &mut rng);
        for code in 0..=255 {
            tally.write_plain(Plain { algorithm: code, ..call(&key, b"oven7") }, 600);
            tally.write_plain(Plain { algorithm: code, public: &[], ..call(&key, b"\xff") }, 0);
        }
    }
    tally.end(2_048);
}

#[test]
fn cipher_and_kdf_codes() {
    let mut tally = Tally::new("cipher and KDF codes");
    let blob = blob_bytes(&Key::new(0, &mut Rng::new("cipher and KDF codes")));
    for cipher in 0..=255 {
        for kdf in 0..=255 {
            if cipher > 10 && kdf > 2 && cipher ^ kdf != 255 {
                continue;
            }
            let tag = vec![9; tag_length(cipher)];
            let call = Encrypted { cipher, kdf, salt: b"", rounds: 0, blob: &blob, ciphertext: &[5; 16], tag: &tag };
            tally.write_encrypted(call, 300);
            tally.write_encrypted(Encrypted { salt: b"s", blob: b"", ..call }, 0);
        }
    }
    tally.end(7_000);
}

#[test]
fn lengths_of_both_halves() {
    let mut tally = Tally::new("lengths of both halves");
    for algorithm in 0..4 {
        let long = [4; 70_000];
        let (public, private) = (public_length(algorithm), SIZES[usize::from(algorithm)]);
        let mut pairs: Vec<(usize, usize)> = (0..140).map(|length| (length, private)).collect();
        pairs.extend((0..140).map(|length| (public, length)));
        pairs.extend((0..140).map(|length| (length, length)));
        pairs.extend([(70_000, private), (public, 70_000), (70_000, 70_000), (65_535, private), (public, 256)]);
        for (public, private) in pairs {
            let key = Key { algorithm, public: long[..public].to_vec(), private: long[..private].to_vec() };
            tally.write_plain(call(&key, b"oven7"), 600);
        }
    }
    tally.expect_replies(&[0], 8);
    tally.end(1_700);
}

#[test]
fn first_bytes() {
    let mut tally = Tally::new("first bytes");
    let mut rng = Rng::new("first bytes");
    for algorithm in 0..4 {
        let mut key = Key::new(algorithm, &mut rng);
        for first in 0..=255 {
            tally.write_plain(call(&key.clone().beginning(first), b"oven7"), 600);
        }
        for tag in 0..=255 {
            key.public[0] = tag;
            tally.write_plain(call(&key, b"oven7"), 600);
        }
    }
    tally.expect_replies(&[2], 765);
    tally.end(2_048);
}

#[test]
fn every_room() {
    let mut tally = Tally::new("every room");
    let mut rng = Rng::new("every room");
    for algorithm in 0..4 {
        let key = Key::new(algorithm, &mut rng);
        let length = Draft::in_form(&key, 0, b"oven 7").bytes().len();
        for room in 0..length + 10 {
            tally.write_plain(call(&key, b"oven 7"), room);
        }
        let blob = blob_bytes(&key);
        for room in 0..blob.len() + 140 {
            let (ciphertext, tag) = ([3; 32], [9; 16]);
            let (cipher, salt) = (9, b"salt");
            let call = Encrypted { cipher, kdf: 1, salt, rounds: 16, blob: &blob, ciphertext: &ciphertext, tag: &tag };
            tally.write_encrypted(call, room);
        }
    }
    tally.expect_replies(&[0, 9], 50);
    tally.end(2_400);
}

#[test]
fn short_comments() {
    let mut tally = Tally::new("short comments");
    let key = Key::new(0, &mut Rng::new("short comments"));
    for first in 0..=255 {
        tally.write_plain(call(&key, &[first]), 0);
        for second in 0..=255 {
            tally.write_plain(call(&key, &[first, second]), 0);
        }
    }
    tally.expect_replies(&[7, 9], 10_000);
    tally.end(65_792);
}

/// One or two bytes at the borders of what may follow in a character.
fn tails() -> Vec<Vec<u8>> {
    let mut tails = Vec::new();
    for third in [0, 0x7f, 0x80, 0x8f, 0x90, 0x9f, 0xa0, 0xbf, 0xc0, 0xff] {
        tails.push(vec![third]);
        tails.extend([0x7f, 0x80, 0xbf, 0xc0].map(|fourth| vec![third, fourth]));
    }
    tails
}

#[test]
fn comments_at_the_borders_of_utf8() {
    let mut tally = Tally::new("borders of UTF-8");
    let key = Key::new(0, &mut Rng::new("borders of UTF-8"));
    for lead in [0xdf, 0xe0, 0xe1, 0xec, 0xed, 0xee, 0xef, 0xf0, 0xf1, 0xf3, 0xf4, 0xf5, 0xff] {
        for second in 0x70..=0xcf {
            for tail in tails() {
                tally.write_plain(call(&key, &[&[lead, second], &tail[..]].concat()), 0);
            }
        }
    }
    tally.expect_replies(&[7, 9], 2_000);
    tally.end(62_400);
}

#[test]
fn comments_at_every_offset() {
    let mut tally = Tally::new("comments at every offset");
    let mut rng = Rng::new("comments at every offset");
    let key = Key::new(0, &mut rng);
    for before in 0..40 {
        for odd in COMMENTS {
            for after in [0, 1, 7, 8, 20] {
                let comment = [&vec![b'b'; before][..], odd, &vec![b'a'; after]].concat();
                tally.write_plain(call(&key, &comment), 400);
            }
        }
    }
    tally.end(4_000);
}

/// Every set of faults of a plain key: which comes first?
#[test]
fn order_of_the_plain_writer() {
    let mut tally = Tally::new("order of the plain writer");
    let mut rng = Rng::new("order of the plain writer");
    let long = vec![b'c'; 70_000];
    let long_and_bad = [&long[..], b"\xff"].concat();
    for faults in 0..128 {
        let has = |fault: u8| faults >> fault & 1 == 1;
        for algorithm in 0..4 {
            let mut key = Key::new(algorithm, &mut rng);
            if has(0) {
                key.private.pop();
            }
            if has(1) {
                key.public.push(0);
            }
            if has(2) {
                key.public[0] = 5;
            }
            if has(6) {
                key.private.fill(0);
            }
            let comment: &[u8] = match (has(3), has(4)) {
                (false, false) => b"oven7",
                (true, false) => b"oven\xff",
                (false, true) => &long,
                (true, true) => &long_and_bad,
            };
            let enough = if has(4) { 80_000 } else { 1_000 };
            tally.write_plain(call(&key, comment), if has(5) { 100 } else { enough });
        }
    }
    tally.expect_replies(&[0, 1, 2, 7, 9, 11], 3);
    tally.end(512);
}

/// Every set of faults of an encrypted key.
#[test]
fn order_of_the_encrypted_writer() {
    let mut tally = Tally::new("order of the encrypted writer");
    let mut rng = Rng::new("order of the encrypted writer");
    let long = vec![5; 70_400];
    for faults in 0..256 {
        let has = |fault: u32| faults >> fault & 1 == 1;
        for cipher in 1..10 {
            let mut blob = blob_bytes(&Key::new((faults % 4) as u8, &mut rng));
            if has(2) {
                blob.push(0);
            }
            if has(3) {
                blob[5] ^= 1;
            }
            let length = if has(6) { 70_400 } else { 2 * block(cipher) };
            let call = Encrypted {
                cipher: if has(0) { 0 } else { cipher },
                kdf: u8::from(!has(1)),
                salt: if cipher % 2 == 0 { b"salt" } else { b"" },
                rounds: u32::from(cipher % 4),
                blob: &blob,
                ciphertext: &long[..length - usize::from(has(4))],
                tag: &long[..tag_length(cipher) + usize::from(has(5))],
            };
            let enough = if has(6) { 80_000 } else { 1_000 };
            tally.write_encrypted(call, if has(7) { 60 } else { enough });
        }
    }
    tally.expect_replies(&[0, 1, 3, 4, 6, 9, 11], 4);
    tally.end(2_304);
}

#[test]
fn random_plain_calls() {
    let mut tally = Tally::new("random plain calls");
    let mut rng = Rng::new("random plain calls");
    for _ in 0..2_000 {
        let key = Key::new(rng.below(4) as u8, &mut rng);
        let comment = comment(60, &mut rng);
        let length = Draft::in_form(&key, 0, &comment).bytes().len();
        for room in rooms(length, &mut rng) {
            let derive = *rng.pick(&[0, 0, 1, 2, 128, 255]);
            let call = Plain { derive, checkint: rng.uint32(), ..call(&key, &comment) };
            let answer = tally.write_plain(call, room);
            if let Some(length) = answer.written {
                assert!(tally.read(&answer.buffer[..length]), "what was written is read");
            }
        }
    }
    tally.expect_replies(&[0, 7, 9], 1_000);
    tally.end(21_000);
}

#[test]
fn random_encrypted_calls() {
    let mut tally = Tally::new("random encrypted calls");
    let mut rng = Rng::new("random encrypted calls");
    for _ in 0..2_000 {
        let key = Key::new(rng.below(4) as u8, &mut rng);
        let blob = blob_bytes(&key);
        let (cipher, kdf) = (1 + rng.below(9) as u8, rng.below(2) as u8);
        let (blocks, salts) = (rng.below(4), if kdf == 0 { 0 } else { rng.below(40) });
        let (salt, ciphertext) = (rng.bytes(salts), rng.bytes(blocks * block(cipher)));
        let tag = rng.bytes(tag_length(cipher));
        let rounds = if kdf == 0 { 0 } else { rng.uint32() };
        let call = Encrypted { cipher, kdf, salt: &salt, rounds, blob: &blob, ciphertext: &ciphertext, tag: &tag };
        let length = tally.write_encrypted(call, 1_000).written.expect("nothing is wrong with it");
        for room in rooms(length, &mut rng) {
            let answer = tally.write_encrypted(call, room);
            if let Some(length) = answer.written {
                assert!(tally.read(&answer.buffer[..length]), "what was written is read");
            }
        }
        let odd = *rng.pick(&[0, 1, 15, 16, 17, 32]);
        tally.write_encrypted(Encrypted { tag: &[7; 32][..odd], ..call }, 1_000);
    }
    tally.end(32_000);
}

#[test]
fn blobs_damaged() {
    let mut tally = Tally::new("blobs damaged");
    let mut rng = Rng::new("blobs damaged");
    for algorithm in 0..4 {
        let good = blob_bytes(&Key::new(algorithm, &mut rng));
        let call = Encrypted { cipher: 1, kdf: 0, salt: b"", rounds: 0, blob: b"", ciphertext: b"", tag: b"" };
        for end in 0..good.len() {
            tally.write_encrypted(Encrypted { blob: &good[..end], ..call }, 300);
            let mut blob = good.clone();
            blob.insert(end, rng.byte());
            tally.write_encrypted(Encrypted { blob: &blob, ..call }, 300);
            for value in (0..=255).filter(|_| end < 80) {
                blob[end] = value;
                tally.write_encrypted(Encrypted { blob: &blob[..good.len()], ..call }, 300);
            }
        }
        for rest in [1, 2, 100, 65_535, 70_000] {
            let blob = [&good[..], &vec![1; rest]].concat();
            tally.write_encrypted(Encrypted { blob: &blob, ..call }, 300);
        }
    }
    tally.expect_replies(&[0, 1, 2, 4, 6], 20);
    tally.end(70_000);
}

#[test]
fn plain_images_around_the_limit() {
    let mut tally = Tally::new("plain images around the limit");
    let mut rng = Rng::new("plain images around the limit");
    let long = vec![b'c'; 65_600];
    for round in 0..8 {
        let key = Key::new(round / 2, &mut rng).beginning([0x7f, 0x80][usize::from(round % 2)]);
        let short = Draft::in_form(&key, 0, b"").bytes().len();
        for length in 65_535 - short - 9..65_535 - short + 9 {
            for room in [65_529, 65_535, 65_536] {
                tally.write_plain(call(&key, &long[..length]), room);
            }
        }
    }
    tally.expect_replies(&[0, 9, 11], 25);
    tally.end(432);
}

#[test]
fn encrypted_images_around_the_limit() {
    let mut tally = Tally::new("encrypted images around the limit");
    let mut rng = Rng::new("encrypted images around the limit");
    let long = vec![0xee; 65_600];
    for cipher in 1..10 {
        let blob = blob_bytes(&Key::new(cipher % 4, &mut rng));
        let tag = &long[..tag_length(cipher)];
        let call = Encrypted { cipher, kdf: 1, salt: b"", rounds: 1, blob: &blob, ciphertext: b"", tag };
        let short = tally.write_encrypted(call, 65_535).written.expect("a short one fits");
        for length in 65_535 - short - 5..65_535 - short + 6 {
            for room in [65_529, 65_534, 65_535, 65_536] {
                tally.write_encrypted(Encrypted { salt: &long[..length], ..call }, room);
            }
            let ciphertext = &long[..length / 16 * 16];
            tally.write_encrypted(Encrypted { ciphertext, salt: &long[..length % 16], ..call }, 65_536);
        }
    }
    tally.expect_replies(&[0, 9, 11], 50);
    tally.end(500);
}

#[test]
fn images_rewritten() {
    let mut tally = Tally::new("images rewritten");
    let mut rng = Rng::new("images rewritten");
    for draft in drafts(&mut rng) {
        let image = draft.bytes();
        let length = tally.rewrite(&image, 1_000).written.expect("a good image");
        for room in rooms(length, &mut rng) {
            tally.rewrite(&image, room);
        }
        for _ in 0..100 {
            let damaged = structured(&draft, &mut rng);
            tally.rewrite(&damaged, 1_000);
            let room = rng.below(600);
            tally.rewrite(&damaged, room);
        }
    }
    tally.expect_replies(&[0, 1, 2, 3, 4, 5, 6, 7, 9], 60);
    tally.end(18_000);
}

#[test]
fn rewriting_around_the_limit() {
    let mut tally = Tally::new("rewriting around the limit");
    let mut rng = Rng::new("rewriting around the limit");
    let long = vec![b'c'; 65_600];
    let mut grown = 0;
    for algorithm in 1..4 {
        let (key, size) = (Key::new(algorithm, &mut rng), SIZES[usize::from(algorithm)]);
        let all_bytes = [(0, 0x80, size), (1, 0x80, size), (1, 0x7f, size), (0, 0x7f, size)];
        for (zeros, byte, times) in all_bytes.into_iter().chain([(0, 0x80, 9), (20, 0x7f, 9)]) {
            let stored = after_zeros(zeros, byte, times);
            let short = Draft::stored(&key, stored.clone(), 0, b"").bytes().len();
            for length in 65_535 - short - 16..65_535 - short + 9 {
                let image = Draft::stored(&key, stored.clone(), 0, &long[..length]).bytes();
                let accepted = tally.read(&image);
                let written = tally.rewrite(&image, 65_536).written;
                grown += u64::from(accepted && written.is_none());
                tally.rewrite(&image, image.len());
            }
        }
    }
    assert_eq!(grown, 6, "for each curve, two images without their zero grow above the limit");
    tally.expect_replies(&[0, 9, 11], 3);
    tally.end(2_250);
}
