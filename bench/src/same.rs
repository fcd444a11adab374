//! Before anything is timed: library, model and yardstick must give the same answers, and leave the same bytes.

use crate::damage::damaged;
use crate::images::{self, Images, LIMIT};
use crate::model;
use crate::random::Random;
use crate::yardstick;
use saltorchard::raw::{self, Image, Part, Reply};

/// What was compared.
#[derive(Default)]
pub struct Compared {
    pub inputs: usize,
    pub accepted: usize,
}

/// Compares on all images and on damaged copies of them; the first difference is the error.
pub fn everywhere(images: &Images) -> Result<Compared, String> {
    let mut random = Random::new(17);
    let mut compared = Compared::default();
    for image in images::of_each_kind() {
        byte_by_byte(&mut random, &mut compared, &image)?;
    }
    for (group, copies) in [(&images.small, 12), (&images.long, 6), (&images.rsa, 24)] {
        for (i, image) in group.iter().enumerate() {
            one(&mut random, &mut compared, image)?;
            for _ in 0..copies {
                let copy = damaged(&mut random, image, &group[(i + 1) % group.len()]);
                one(&mut random, &mut compared, &copy)?;
            }
        }
    }
    for length in [0, 14, 15, LIMIT, LIMIT + 1, 70_000] {
        one(&mut random, &mut compared, &vec![b'o'; length])?;
    }
    Ok(compared)
}

/// Every byte changed in three ways, and every shorter copy.
fn byte_by_byte(random: &mut Random, compared: &mut Compared, image: &[u8]) -> Result<(), String> {
    for place in 0..image.len() {
        one(random, compared, &image[..place])?;
        for byte in [image[place] ^ 1, image[place].wrapping_add(8), 0xff] {
            let mut copy = image.to_vec();
            copy[place] = byte;
            one(random, compared, &copy)?;
        }
    }
    Ok(())
}

fn one(random: &mut Random, compared: &mut Compared, image: &[u8]) -> Result<(), String> {
    if yardstick::has_several(image) {
        return Ok(());
    }
    compared.inputs += 1;
    compared.accepted += usize::from(reads(image)?);
    halves(image)?;
    rewrites(random, image)?;
    changes(random, image)
}

fn differ(what: &str, image: &[u8], answers: [String; 3]) -> String {
    let shown = &image[..image.len().min(800)];
    let hex: String = shown.iter().map(|byte| format!("{:02x}", byte)).collect();
    let [library, model, yardstick] = answers;
    format!(
        "{}: the answers differ.\nlibrary   {}\nmodel     {}\nyardstick {}\non {} bytes: {}",
        what,
        library,
        model,
        yardstick,
        image.len(),
        hex
    )
}

// ---- read

fn reads(image: &[u8]) -> Result<bool, String> {
    let library = raw::read(image);
    let model = from_model(model::read(image));
    let yardstick = yardstick::read(image);
    if library == model && library == yardstick {
        return Ok(library.number == 0);
    }
    Err(differ("read", image, [shown(&library), shown(&model), shown(&yardstick)]))
}

/// The header's read, and the section's from it, which the yardstick doesn't have apart: its whole read stands for that.
fn halves(image: &[u8]) -> Result<(), String> {
    let library = raw::read_header(image);
    let model = model::read_header(image);
    let half = model::numbers(&model);
    let (model, yardstick) = (from_model(model), yardstick::read_header(image));
    if library != model || library != yardstick {
        return Err(differ("header read", image, [shown(&library), shown(&model), shown(&yardstick)]));
    }
    if library.number != 0 {
        return Ok(());
    }
    let section = raw::read_section(image, library);
    let (model, yardstick) = (from_model(model::read_section(image, &half)), yardstick::read(image));
    if section != model || section != yardstick {
        return Err(differ("section read", image, [shown(&section), shown(&model), shown(&yardstick)]));
    }
    Ok(())
}

fn shown(record: &Image) -> String {
    let numbers = [record.number, record.count, record.at, record.kind, record.algorithm, record.cipher, record.kdf];
    let more = [record.rounds, record.checkint, record.padding, record.form, record.section, record.bits, record.keys];
    let parts = [record.blob, record.point, record.scalar, record.comment, record.salt, record.ciphertext, record.tag];
    let rsa = [record.modulus, record.exponent, record.d, record.iqmp, record.p, record.q];
    let places: Vec<_> = parts.iter().chain(&rsa).map(|part| (part.start, part.length)).collect();
    format!("{:?} {:?} {:?}", numbers, more, places)
}

fn from_model(answer: Result<model::Record, model::Refusal>) -> Image {
    let (record, refusal) = match answer {
        Ok(record) => (record, model::Refusal::default()),
        Err(refusal) => (model::Record::default(), refusal),
    };
    Image {
        number: refusal.number,
        count: refusal.count,
        at: refusal.at,
        kind: record.kind.into(),
        algorithm: record.algorithm.into(),
        cipher: record.cipher.into(),
        kdf: record.kdf.into(),
        rounds: record.rounds.into(),
        checkint: record.checkint.into(),
        padding: record.padding,
        form: record.form.into(),
        blob: part(&record.blob),
        point: part(&record.point),
        scalar: part(&record.scalar),
        comment: part(&record.comment),
        salt: part(&record.salt),
        ciphertext: part(&record.ciphertext),
        tag: part(&record.tag),
        section: record.section,
        bits: record.bits,
        modulus: part(&record.modulus),
        exponent: part(&record.exponent),
        d: part(&record.d),
        iqmp: part(&record.iqmp),
        p: part(&record.p),
        q: part(&record.q),
        keys: record.keys,
    }
}

fn part(part: &model::Part) -> Part {
    Part { start: part.start, length: part.bytes.len() as u64 }
}

// ---- rewrite and comment change: replies and whole buffers

pub fn reply(answer: Result<usize, model::Refusal>) -> Reply {
    match answer {
        Ok(length) => Reply { number: 0, count: 0, at: 0, length: length as u64 },
        Err(refusal) => Reply { number: refusal.number, count: refusal.count, at: refusal.at, length: 0 },
    }
}

pub type Call<'a> = &'a dyn Fn(&mut [u8]) -> Reply;

/// Calls each of the three on a buffer of its own, and compares replies and buffers.
pub fn hold_alike(what: &str, buffer: Vec<u8>, calls: [Call; 3]) -> Result<(), String> {
    let mut buffers = [buffer.clone(), buffer.clone(), buffer];
    let [first, second, third] = &mut buffers;
    let replies = [calls[0](first), calls[1](second), calls[2](third)];
    if replies[0] == replies[1] && replies[0] == replies[2] && first == second && first == third {
        return Ok(());
    }
    Err(differ(what, first, [0, 1, 2].map(|i| format!("{:?}", replies[i]))))
}

fn rewrites(random: &mut Random, image: &[u8]) -> Result<(), String> {
    let n = image.len();
    let room = random.one_of(&[0, n.saturating_sub(1), n, n + 7, n + 8, n + 20]);
    let library: Call = &|out| raw::rewrite(image, out);
    let model: Call = &|out| reply(model::rewrite(image, out));
    let yardstick: Call = &|out| yardstick::rewrite(image, out);
    hold_alike("rewrite", random.bytes(room), [library, model, yardstick])
}

fn changes(random: &mut Random, image: &[u8]) -> Result<(), String> {
    let length = random.one_of(&[0, 1, 5, 8, 40, 41, 90, 300]);
    let mut comment = random.comment(length);
    if random.within(0, 8) == 0 {
        comment.push(0xc3);
    }
    if random.within(0, 100) == 0 {
        comment = random.comment(LIMIT);
    }
    let n = image.len() + random.one_of(&[0, 0, 0, 0, 0, 0, 0, 1]);
    let mut buffer = image.to_vec();
    let slack = random.one_of(&[0, 8, 100, 400]);
    buffer.extend(random.bytes(slack));
    let library: Call = &|buffer| raw::change_comment(buffer, n, &comment);
    let model: Call = &|buffer| reply(model::change_comment(buffer, n, &comment));
    let yardstick: Call = &|buffer| yardstick::change_comment(buffer, n, &comment);
    hold_alike("comment change", buffer, [library, model, yardstick])
}
