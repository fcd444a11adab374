//! The checks must give the same answers, at all their places. The texts: every one of up to three bytes; those of four that begin with a
//! byte above 0xEF and whose last two are near a tail's range; each byte at every place of ASCII of every length up to 33 and of lengths near
//! that of one block and of two; characters, whole and broken off, after ASCII of every length up to 17 and near that of a block, and before
//! ASCII of up to 17; each byte at every place of long texts of characters of every length, and every two bytes at some of their places; and
//! comments, and the same with a byte or two overwritten.

use crate::random::Random;
use crate::Check;

/// The check passes ASCII at a text's beginning in blocks of so many bytes.
const BLOCK: usize = 128;

/// How many texts were compared and how many are UTF-8, or the first difference.
pub fn everywhere(checks: &[Check]) -> Result<(usize, usize), String> {
    let mut compared = Compared { checks, texts: 0, accepted: 0 };
    compared.short()?;
    compared.byte_in_ascii()?;
    compared.after_ascii()?;
    compared.byte_among_characters()?;
    compared.random()?;
    Ok((compared.texts, compared.accepted))
}

struct Compared<'a> {
    checks: &'a [Check],
    texts: usize,
    accepted: usize,
}

impl Compared<'_> {
    fn one(&mut self, text: &[u8]) -> Result<(), String> {
        let answer = (self.checks[0].places[0])(text);
        self.texts += 1;
        self.accepted += usize::from(answer);
        match self.checks.iter().find(|check| check.places.iter().any(|is_utf8| is_utf8(text) != answer)) {
            None => Ok(()),
            Some(other) => Err(format!("{} says {} of {:02x?}, {} not", self.checks[0].name, answer, text, other.name)),
        }
    }

    fn short(&mut self) -> Result<(), String> {
        self.one(&[])?;
        for a in 0..=0xFF {
            self.one(&[a])?;
            for b in 0..=0xFF {
                self.one(&[a, b])?;
                for c in 0..=0xFF {
                    self.one(&[a, b, c])?;
                }
            }
        }
        for a in 0xF0..=0xFF {
            for b in 0..=0xFF {
                for c in 0x7E..=0xC1 {
                    for d in 0x7E..=0xC1 {
                        self.one(&[a, b, c, d])?;
                    }
                }
            }
        }
        Ok(())
    }

    fn byte_in_ascii(&mut self) -> Result<(), String> {
        for length in (1..=33).chain(BLOCK - 2..=BLOCK + 17).chain(2 * BLOCK - 1..=2 * BLOCK + 1) {
            for at in 0..length {
                for byte in 0..=0xFF {
                    let mut text = vec![b'a'; length];
                    text[at] = byte;
                    self.one(&text)?;
                }
            }
        }
        Ok(())
    }

    /// A character, whole or broken off, after ASCII and before it.
    fn after_ascii(&mut self) -> Result<(), String> {
        for character in ["ö", "€", "\u{D7FF}", "\u{E000}", "\u{FFFF}", "🔑", "\u{10FFFF}"] {
            for part in 1..=character.len() {
                for before in (0..=17).chain(BLOCK - 2..=BLOCK + 1) {
                    for after in 0..=17 {
                        let bytes = &character.as_bytes()[..part];
                        self.one(&[&vec![b'~'; before], bytes, &vec![0x7F; after]].concat())?;
                    }
                }
            }
        }
        Ok(())
    }

    /// Texts in which the check takes 32 bytes at a step: characters of one to four bytes, first in order and then at random, after ASCII
    /// of every length up to 4. Each byte is overwritten by every other, and of some each two neighbours by every two.
    fn byte_among_characters(&mut self) -> Result<(), String> {
        let mut random = Random::new(13);
        for before in 0..=4 {
            let mut text = "~".repeat(before);
            for i in 0..24 {
                let which = if i < 12 { i % 4 } else { random.within(0, 4) };
                text += ["ö", "€", "🔑", "a"][which];
            }
            let text = text.into_bytes();
            for at in 0..text.len() {
                for byte in 0..=0xFF {
                    let mut other = text.clone();
                    other[at] = byte;
                    self.one(&other)?;
                }
            }
            for at in (before + 3..text.len() - 1).step_by(3) {
                for two in 0..=0xFFFF_u16 {
                    let mut other = text.clone();
                    other[at..at + 2].copy_from_slice(&two.to_be_bytes());
                    self.one(&other)?;
                }
            }
        }
        Ok(())
    }

    /// Comments, and the same with a byte or two overwritten.
    fn random(&mut self) -> Result<(), String> {
        let mut random = Random::new(4);
        for _ in 0..200_000 {
            let length = random.within(1, 80);
            let mut text = random.comment(length);
            self.one(&text)?;
            for _ in 0..2 {
                let at = random.within(0, length);
                text[at] = random.number() as u8;
                self.one(&text)?;
            }
        }
        Ok(())
    }
}
