//! Before export and import are timed: library, model and yardstick must give the same answers, and leave the same bytes. The yardstick
//! that decodes as it judges may leave others where it refuses; there only its reply counts.

use crate::armour::with_crlf;
use crate::images::{self, LIMIT};
use crate::model::armour as model;
use crate::random::Random;
use crate::same::{hold_alike, reply, Call};
use crate::yardstick_armour as yardstick;
use saltorchard::raw;

/// How many inputs were compared, or the first difference.
pub fn everywhere() -> Result<usize, String> {
    let mut compared = Compared { random: Random::new(23), inputs: 0 };
    for length in (0..=320).chain(LIMIT - 2..=LIMIT + 2) {
        let image = compared.random.bytes(length);
        compared.both_ways(&image, 4)?;
    }
    for image in images::of_each_kind() {
        compared.both_ways(&image, 400)?;
    }
    for length in 0..=110 {
        let image = compared.random.bytes(length);
        compared.every_byte(&model::text_of(&image))?;
    }
    Ok(compared.inputs)
}

struct Compared {
    random: Random,
    inputs: usize,
}

impl Compared {
    /// The image exported; its text imported, with LF, with CR LF, and with so many damages, one each time.
    fn both_ways(&mut self, image: &[u8], damages: usize) -> Result<(), String> {
        let text = model::text_of(image);
        self.export(image, text.len())?;
        self.import(&text, image.len())?;
        self.import(&with_crlf(&text), image.len())?;
        for _ in 0..damages {
            let wrong = self.damaged(&text);
            self.import(&wrong, image.len())?;
        }
        Ok(())
    }

    /// Every byte of a text made some other.
    fn every_byte(&mut self, text: &[u8]) -> Result<(), String> {
        for at in 0..text.len() {
            for byte in [text[at] ^ 1, text[at] ^ 0x80, b'A', b'/', b'=', b'\r', b'\n'] {
                let mut changed = text.to_vec();
                changed[at] = byte;
                self.import(&changed, text.len())?;
            }
        }
        Ok(())
    }

    fn damaged(&mut self, text: &[u8]) -> Vec<u8> {
        let mut text = text.to_vec();
        let at = self.random.within(0, text.len());
        match self.random.within(0, 4) {
            0 => text[at] = self.random.number() as u8,
            1 => text.insert(at, self.random.one_of(b"\r\n=-A ")),
            2 => drop(text.remove(at)),
            _ => text.truncate(at),
        }
        text
    }

    /// A room that matters for so many bytes.
    fn room(&mut self, length: usize) -> usize {
        self.random.one_of(&[0, length.saturating_sub(1), length, length, length + 1, length + 150])
    }

    fn export(&mut self, image: &[u8], length: usize) -> Result<(), String> {
        self.inputs += 1;
        let room = self.room(length);
        let library: Call = &|out| raw::export(image, out);
        let model: Call = &|out| reply(model::export(image, out));
        let yardstick: Call = &|out| yardstick::export(image, out);
        hold_alike("export", self.random.bytes(room), [library, model, yardstick])
    }

    fn import(&mut self, text: &[u8], length: usize) -> Result<(), String> {
        self.inputs += 1;
        let room = self.room(length);
        let library: Call = &|out| raw::import(text, out);
        let model: Call = &|out| reply(model::import(text, out));
        let yardstick: Call = &|out| yardstick::import(text, out);
        let at_once: Call = &|out| import_at_once(text, out);
        hold_alike("import", self.random.bytes(room), [library, model, yardstick])?;
        hold_alike("import at once", self.random.bytes(room), [library, model, at_once])
    }
}

/// What a refusal left behind is put back, so that the rest can be compared.
fn import_at_once(text: &[u8], out: &mut [u8]) -> raw::Reply {
    let before = out.to_vec();
    let reply = yardstick::import_at_once(text, out);
    if reply.number != 0 {
        out.copy_from_slice(&before);
    }
    reply
}
