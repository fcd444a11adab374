//! Export and import of every length, with every line end and at the limit, held against the model.

use crate::support;

use saltorchard::armour::exported_len;
use saltorchard::MAX_IMAGE_LEN;
use support::compare::Tally;
use support::model::armour::{text_of, ALPHABET, BEGIN, END};
use support::Rng;

/// Section 10 of RFC 4648.
const VECTORS: [(&str, &str); 7] = [
    ("", ""),
    ("f", "Zg==\n"),
    ("fo", "Zm8=\n"),
    ("foo", "Zm9v\n"),
    ("foob", "Zm9vYg==\n"),
    ("fooba", "Zm9vYmE=\n"),
    ("foobar", "Zm9vYmFy\n"),
];

/// Rooms that matter for a text, or an image, of `length` bytes.
fn rooms(length: usize) -> Vec<usize> {
    let mut rooms = vec![0, length / 2, length.saturating_sub(1), length, length + 1, length + 40];
    rooms.dedup();
    rooms
}

/// The text with each LF whose place among them is picked made CR LF.
fn with_crlf(text: &[u8], picked: impl Fn(usize) -> bool) -> Vec<u8> {
    let mut line = 0;
    let mut with = Vec::new();
    for &byte in text {
        if byte == b'\n' {
            if picked(line) {
                with.push(b'\r');
            }
            line += 1;
        }
        with.push(byte);
    }
    with
}

fn lines(text: &[u8]) -> usize {
    text.iter().filter(|&&byte| byte == b'\n').count()
}

#[test]
fn vectors() {
    let mut tally = Tally::new("RFC 4648's vectors");
    for (bytes, signs) in VECTORS {
        let text = [BEGIN, signs.as_bytes(), END].concat();
        for ends in [text.clone(), with_crlf(&text, |_| true)] {
            let answer = tally.import(&ends, 6);
            assert_eq!(answer.written, Some(bytes.len()));
            assert_eq!(answer.buffer[..bytes.len()], *bytes.as_bytes());
        }
        let answer = tally.export(bytes.as_bytes(), 100);
        assert_eq!(answer.written, Some(text.len()));
        assert_eq!(answer.buffer[..text.len()], text);
    }
    tally.end(21);
}

fn there_and_back(tally: &mut Tally, bytes: &[u8]) {
    let text = text_of(bytes);
    for room in rooms(text.len()) {
        tally.export(bytes, room);
    }
    for text in [with_crlf(&text, |_| true), with_crlf(&text, |line| line % 3 == 1), text] {
        for room in rooms(bytes.len()) {
            tally.import(&text, room);
        }
    }
}

#[test]
fn every_length() {
    let mut tally = Tally::new("every length");
    let mut rng = Rng::new("every length");
    for length in 0..=400 {
        let bytes = rng.bytes(length);
        there_and_back(&mut tally, &bytes);
    }
    tally.expect_replies(&[0], 4_000);
    tally.expect_replies(&[9], 4_000);
    tally.end(9_000);
}

#[test]
fn around_the_limit() {
    let mut tally = Tally::new("around the limit");
    let mut rng = Rng::new("around the limit");
    for length in MAX_IMAGE_LEN - 3..=MAX_IMAGE_LEN + 4 {
        let bytes = rng.bytes(length);
        there_and_back(&mut tally, &bytes);
    }
    tally.expect_replies(&[0, 9, 11], 40);
    tally.end(190);
}

/// A text that carries too much is judged to its end, whatever the room.
#[test]
fn misspelled_above_the_limit() {
    let mut tally = Tally::new("misspelled above the limit");
    let mut rng = Rng::new("misspelled above the limit");
    for length in [MAX_IMAGE_LEN, MAX_IMAGE_LEN + 1, 150_000] {
        let bytes = rng.bytes(length);
        let text = text_of(&bytes);
        for from_the_end in [1, 2, 20, 34, 35, 36, 37, 38, 60, 105, 106, 107, 200, 300, 900] {
            let at = text.len() - from_the_end;
            for byte in [b'A', b'=', b'\n'] {
                let mut wrong = text.clone();
                wrong[at] = byte;
                tally.import(&wrong, rng.below(length));
            }
        }
        tally.import(&text[..text.len() - 1], length);
        tally.import(&[&text[..], b"\n"].concat(), 0);
    }
    tally.expect_replies(&[2, 11], 10);
    tally.end(141);
}

/// As export writes it, whatever the room: 0 where it refuses.
#[test]
fn lengths_told_before() {
    let near = MAX_IMAGE_LEN - 2..=MAX_IMAGE_LEN;
    for length in (0..=1_000).chain(near) {
        assert_eq!(exported_len(length), text_of(&vec![7; length]).len(), "{} bytes", length);
    }
    for length in [MAX_IMAGE_LEN + 1, MAX_IMAGE_LEN + 2, usize::MAX - 1, usize::MAX] {
        assert_eq!(exported_len(length), 0, "{} bytes", length);
    }
}

/// Every choice of line ends, of texts of two to seven lines, and two wrong ends at each line.
#[test]
fn line_ends() {
    let mut tally = Tally::new("line ends");
    let mut rng = Rng::new("line ends");
    for length in [0, 1, 52, 53, 105, 106, 157, 158, 210, 211, 262] {
        let bytes = rng.bytes(length);
        let text = text_of(&bytes);
        for choice in 0..1 << lines(&text) {
            let answer = tally.import(&with_crlf(&text, |line| choice >> line & 1 == 1), length + 1);
            assert_eq!(answer.written, Some(length));
        }
        for (at, _) in text.iter().enumerate().filter(|(_, &byte)| byte == b'\n') {
            for end in [&b""[..], b"\r", b"\n\r", b"\r\r\n", b"\n\n", b"\r\n\n", b"\r\n\r\n", b" \n", b"\n "] {
                let answer = tally.import(&[&text[..at], end, &text[at + 1..]].concat(), length + 1);
                assert_eq!(answer.written, None);
            }
        }
    }
    tally.end(850);
}

/// Every sign before one or two `=`: only those without stray bits are taken, at a line's beginning, in it and at its end.
#[test]
fn stray_bits() {
    let mut tally = Tally::new("stray bits");
    let mut rng = Rng::new("stray bits");
    for length in [1, 2, 4, 5, 49, 50, 52, 53, 103, 104, 106, 107, 65_533, 65_534] {
        let bytes = rng.bytes(length);
        let text = text_of(&bytes);
        let first_padding = text.len() - END.len() - 1 - (3 - length % 3);
        let last = (0..first_padding).rev().find(|&at| text[at] != b'\n').expect("a sign before");
        let mut taken = 0;
        for &sign in ALPHABET {
            let mut changed = text.clone();
            changed[last] = sign;
            taken += usize::from(tally.import(&changed, length).written.is_some());
        }
        assert_eq!(taken, if length % 3 == 1 { 4 } else { 16 });
    }
    tally.end(896);
}
