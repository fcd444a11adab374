//! The texts that are timed: comments of one sort and length, from a fixed seed.

use crate::random::Random;

/// Texts of one sort. A pass goes over all of them.
pub struct Case {
    pub sort: String,
    pub texts: Vec<Vec<u8>>,
}

/// A pass has about so many bytes, or so many texts where that is more.
const BYTES: usize = 1 << 18;
const TEXTS: usize = 64;

type Piece = fn(&mut Random) -> String;

pub fn cases() -> Vec<Case> {
    let mut cases: Vec<Case> = [7, 15, 16, 32, 256, 4_096, 65_000].iter().map(|&n| case("ASCII", n, ascii)).collect();
    let others: [(&str, Piece); 6] = [
        ("2-byte characters", |random| from(random, 'А', 'я')),
        ("3-byte characters", |random| from(random, '一', '龥')),
        ("4-byte characters", |random| from(random, '🌀', '🗿')),
        ("six ASCII bytes and a 2-byte character", |random| several(random, 6) + &from(random, 'А', 'я')),
        ("words of ASCII, one in four with a 2-byte character", words),
        ("characters of one to four bytes at random", any),
    ];
    for (sort, piece) in others {
        cases.extend([32, 100, 4_096].iter().map(|&n| case(sort, n, piece)));
    }
    cases
}

/// Texts of pieces, in each as many as go into the length.
fn case(sort: &str, length: usize, piece: Piece) -> Case {
    let mut random = Random::new(length as u64);
    let texts = (0..TEXTS.max(BYTES / length)).map(|_| text(&mut random, length, piece)).collect();
    Case { sort: format!("{}, {} bytes", sort, length), texts }
}

fn text(random: &mut Random, length: usize, piece: Piece) -> Vec<u8> {
    let mut text = String::new();
    loop {
        let more = piece(random);
        if text.len() + more.len() > length {
            return text.into_bytes();
        }
        text += &more;
    }
}

/// A character from the first to the last.
fn from(random: &mut Random, first: char, last: char) -> String {
    let number = random.within(first as usize, last as usize + 1) as u32;
    char::from_u32(number).map(String::from).unwrap_or_default()
}

fn ascii(random: &mut Random) -> String {
    from(random, ' ', '~')
}

fn several(random: &mut Random, count: usize) -> String {
    (0..count).map(|_| ascii(random)).collect()
}

/// A word of 3 to 9 letters and a space, as in a list of rooms and ovens.
fn words(random: &mut Random) -> String {
    let letters = random.within(3, 10);
    let word: String = (0..letters).map(|_| from(random, 'a', 'z')).collect();
    match random.within(0, 4) {
        0 => word + "ö ",
        _ => word + " ",
    }
}

/// A character of any length.
fn any(random: &mut Random) -> String {
    let (first, last) = random.one_of(&[(' ', '~'), ('А', 'я'), ('一', '龥'), ('🌀', '🗿')]);
    from(random, first, last)
}
