//! Texts that export doesn't write, short ones exhaustively, held against the model.

use crate::support;

use support::compare::Tally;
use support::model::armour::{text_of, BEGIN, END};
use support::Rng;

/// Lengths whose texts end in each way that there is: with no, one or two `=`, in a line of their own, after signs, and in a full line.
const LENGTHS: [usize; 9] = [0, 1, 2, 3, 51, 52, 53, 105, 106];

fn texts(entry: &str) -> Vec<Vec<u8>> {
    let mut rng = Rng::new(entry);
    LENGTHS.iter().map(|&length| text_of(&rng.bytes(length))).collect()
}

/// More than any text here carries.
const ROOM: usize = 160;

/// Every byte of a text made every other.
#[test]
fn a_byte_changed() {
    let mut tally = Tally::new("a byte changed");
    for text in texts("a byte changed") {
        for at in 0..text.len() {
            let mut changed = text.clone();
            for byte in 0..=0xff {
                changed[at] = byte;
                tally.import(&changed, ROOM);
            }
        }
    }
    tally.expect_replies(&[0], 10_000);
    tally.end(250_000);
}

/// One byte, or two, put in at every place, and one to four left out.
#[test]
fn bytes_put_in_and_left_out() {
    const SIGNS: &[u8] = b"\r\n=- A";
    let mut tally = Tally::new("bytes put in and left out");
    for text in texts("bytes put in and left out") {
        for at in 0..=text.len() {
            let (before, after) = text.split_at(at);
            for &first in SIGNS {
                tally.import(&[before, &[first], after].concat(), ROOM);
                for &second in SIGNS {
                    tally.import(&[before, &[first, second], after].concat(), ROOM);
                }
            }
            for fewer in 1..=after.len().min(4) {
                tally.import(&[before, &after[fewer..]].concat(), ROOM);
            }
        }
    }
    tally.expect_replies(&[0], 10);
    tally.end(50_000);
}

/// All that can be made of so many of these signs, each in turn.
fn each_of(signs: &[u8], longest: usize, mut take: impl FnMut(&[u8])) {
    for length in 0..=longest {
        let mut places = vec![0; length];
        loop {
            let made: Vec<u8> = places.iter().map(|&place: &usize| signs[place]).collect();
            take(&made);
            match places.iter().rposition(|&place| place + 1 < signs.len()) {
                None => break,
                Some(at) => {
                    places[at] += 1;
                    places[at + 1..].fill(0);
                }
            }
        }
    }
}

/// Everything short between the two lines: by itself, after a full line, after a line of 69 columns, and after two full lines.
#[test]
fn between_the_lines() {
    let mut tally = Tally::new("between the lines");
    let line = [b'B'; 70];
    each_of(b"AQ=\r\n-+", 6, |made| {
        tally.import(&[BEGIN, made, END].concat(), ROOM);
    });
    for before in [&line[..], &line[..69], &[&line[..], b"\n", &line].concat()] {
        each_of(b"AQ=\r\n-", 5, |made| {
            tally.import(&[BEGIN, before, made, END].concat(), ROOM);
        });
    }
    tally.expect_replies(&[0], 200);
    tally.end(150_000);
}

/// Everything short before the first line, at its end, before the last line, at its end and after it; and the text's parts alone.
#[test]
fn around_the_lines() {
    let mut tally = Tally::new("around the lines");
    let (begin, end) = (&BEGIN[..BEGIN.len() - 1], &END[..END.len() - 1]);
    for body in [&b""[..], b"\n", b"QQ==\n", b"\nQQ==\n"] {
        each_of(b"A=\r\n- \0", 3, |made| {
            for text in [
                [made, BEGIN, body, END].concat(),
                [begin, made, body, END].concat(),
                [BEGIN, body, made, END].concat(),
                [BEGIN, body, end, made].concat(),
                [BEGIN, body, END, made].concat(),
                [made, body, END].concat(),
                [BEGIN, body, made].concat(),
                [BEGIN, END, body, made, END].concat(),
                [BEGIN, made, BEGIN, body, END].concat(),
                [END, body, made, BEGIN].concat(),
            ] {
                tally.import(&text, ROOM);
            }
        });
    }
    tally.expect_replies(&[0], 10);
    tally.end(15_000);
}

/// Every width of lines: a text of more than one line has 70 columns.
#[test]
fn columns() {
    let mut tally = Tally::new("columns");
    let mut rng = Rng::new("columns");
    for length in [3, 51, 52, 53, 105, 106, 157, 210, 315] {
        let bytes = rng.bytes(length);
        let text = text_of(&bytes);
        let between = &text[BEGIN.len()..text.len() - END.len()];
        let signs: Vec<u8> = between.iter().copied().filter(|&byte| byte != b'\n').collect();
        for first in 0..=145.min(signs.len()) {
            for others in [1, 35, 64, 68, 69, 70, 71, 72, 76, 140] {
                let (first, rest) = signs.split_at(first);
                let lines = rest.chunks(others).map(|line| [line, b"\n"].concat());
                let made = [BEGIN, first, b"\n", &lines.collect::<Vec<_>>().concat(), END].concat();
                tally.import(&made, 400);
            }
        }
    }
    tally.expect_replies(&[0], 9);
    tally.end(7_000);
}

fn damage(text: &mut Vec<u8>, rng: &mut Rng) {
    let at = rng.below(text.len() + 1);
    let there = at < text.len();
    match rng.below(6) {
        0 if there => text[at] = rng.byte(),
        1 if there => text[at] ^= 1 << rng.below(8),
        2 if there => drop(text.remove(at)),
        3 => text.insert(at, *rng.pick(b"\r\n=-A/ \t\0")),
        4 => text.truncate(at),
        _ => {
            let piece = text[at..(at + 75).min(text.len())].to_vec();
            let to = rng.below(text.len() + 1);
            text.splice(to..to, piece);
        }
    }
}

/// Whole texts, some of whose line ends are CR LF, with one to three damages.
#[test]
fn at_random() {
    let mut tally = Tally::new("at random");
    let mut rng = Rng::new("at random");
    for _ in 0..40_000 {
        let length = rng.below(330);
        let bytes = rng.bytes(length);
        let mut text = text_of(&bytes);
        for at in (0..text.len()).rev() {
            if text[at] == b'\n' && rng.one_in(3) {
                text.insert(at, b'\r');
            }
        }
        for _ in 0..rng.below(4) {
            damage(&mut text, &mut rng);
        }
        let room = length + 3 - rng.below(7).min(length);
        tally.import(&text, room);
    }
    tally.expect_replies(&[0, 2, 9], 1_000);
    tally.end(40_000);
}
