//! Damaged copies of an image, most of them refused, some accepted and not in the writer's form.

use crate::random::Random;
use saltorchard::raw::{self, Image, Part};

const ED25519: u64 = 0;
const RSA: u64 = 4;

pub fn end(part: Part) -> usize {
    (part.start + part.length) as usize
}

/// A damaged copy; `other` is another image, to take parts from.
pub fn damaged(random: &mut Random, image: &[u8], other: &[u8]) -> Vec<u8> {
    let mut copy = image.to_vec();
    let place = random.within(0, image.len().min(600));
    match random.within(0, 11) {
        0 => copy[place] ^= 1 << random.within(0, 8),
        1 => copy[place] = random.one_of(&[0, 1, 4, 0x7f, 0x80, 0xff]),
        2 => copy.truncate(random.within(0, image.len())),
        3 => copy.extend(random.bytes(place % 20 + 1)),
        4 => drop(copy.drain(place..(place + 1 + place % 7).min(image.len()))),
        5 => insert(&mut copy, place, random),
        6 => nudge_a_length(random, &mut copy),
        7 => return other_section(image, other),
        8 => return other_key_field(random, image),
        9 => return other_opening(random, image),
        _ => return inside_the_section(random, image),
    }
    copy
}

fn insert(copy: &mut Vec<u8>, place: usize, random: &mut Random) {
    for byte in random.bytes(1 + place % 8) {
        copy.insert(place, byte);
    }
}

/// Adds or takes off a little at one of the length fields.
fn nudge_a_length(random: &mut Random, copy: &mut [u8]) {
    let record = raw::read(copy);
    let part = match record.algorithm {
        RSA => random.one_of(&[record.exponent, record.modulus, record.d, record.iqmp, record.p, record.q]),
        _ => random.one_of(&[record.blob, record.point, record.scalar, record.comment, record.salt, record.ciphertext]),
    };
    let after_blob = end(record.blob) + 3;
    let place = if part.start == 0 { after_blob } else { part.start as usize - 1 };
    let by = random.one_of(&[1, 2, 8, 16, 248, 254, 255]);
    copy[place] = copy[place].wrapping_add(by);
}

/// One image's header with the other's section.
fn other_section(image: &[u8], other: &[u8]) -> Vec<u8> {
    let (ours, theirs) = (raw::read(image), raw::read(other));
    let mut copy = image[..end(ours.blob)].to_vec();
    copy.extend_from_slice(&other[end(theirs.blob)..]);
    copy
}

/// Another name or number of the key.
fn other_key_field(random: &mut Random, image: &[u8]) -> Vec<u8> {
    let record = raw::read(image);
    let mut copy = image.to_vec();
    match record.algorithm {
        RSA if record.kind == 1 => return other_number(random, image, &record),
        ED25519 | RSA => nudge_a_length(random, &mut copy),
        _ => other_algorithm(random, &record, &mut copy),
    }
    copy
}

/// Another ECDSA algorithm's name in the blob, in a plain section, or in both; the curve stays.
fn other_algorithm(random: &mut Random, record: &Image, copy: &mut [u8]) {
    let name: &[u8] = random.one_of(&[b"ecdsa-sha2-nistp256", b"ecdsa-sha2-nistp384", b"ecdsa-sha2-nistp521"]);
    let (in_blob, in_section) = random.one_of(&[(true, false), (false, true), (true, true)]);
    let (blob, section) = (record.blob.start as usize + 4, end(record.blob) + 4 + 8 + 4);
    if in_blob {
        copy[blob..blob + name.len()].copy_from_slice(name);
    }
    if in_section && record.kind == 1 {
        copy[section..section + name.len()].copy_from_slice(name);
    }
}

/// A plain image of an RSA key with one number that is spoiled or of another size, in the blob, in the section, or in both.
fn other_number(random: &mut Random, image: &[u8], record: &Image) -> Vec<u8> {
    let parts = [record.modulus, record.exponent, record.d, record.iqmp, record.p, record.q];
    let numbers = parts.map(|part| image[part.start as usize..end(part)].to_vec());
    let mut others = numbers.clone();
    let which = random.one_of(&[0, 0, 0, 1, 1, 2, 3, 4, 5]);
    spoil(random, &mut others[which]);
    let (in_blob, in_section) = random.one_of(&[(&others, &numbers), (&numbers, &others), (&others, &others)]);
    with_numbers(image, record, in_blob, in_section)
}

/// The image with these numbers in the blob and in the section.
fn with_numbers(image: &[u8], record: &Image, in_blob: &[Vec<u8>; 6], in_section: &[Vec<u8>; 6]) -> Vec<u8> {
    let checkints = end(record.blob) + 4;
    let comment = &image[record.comment.start as usize..end(record.comment)];
    let blob = strings(&[b"ssh-rsa", &in_blob[1], &in_blob[0]]);
    let [n, e, d, iqmp, p, q] = in_section;
    let mut section = image[checkints..checkints + 8].to_vec();
    section.extend(strings(&[b"ssh-rsa", n, e, d, iqmp, p, q, comment]));
    section.extend(1..=(section.len().wrapping_neg() % 8) as u8);
    let mut copy = image[..record.blob.start as usize - 4].to_vec();
    copy.extend(strings(&[&blob, &section]));
    copy
}

fn spoil(random: &mut Random, number: &mut Vec<u8>) {
    match random.within(0, 6) {
        0 => number.clear(),
        1 => number.insert(0, 0),
        2 => number[0] |= 0x80,
        3 => number.truncate(random.within(1, 140)),
        4 => number.resize(random.within(900, 1_100), 1),
        _ => number.insert(0, 1),
    }
}

/// Each with its length before it.
fn strings(list: &[&[u8]]) -> Vec<u8> {
    let mut bytes = Vec::new();
    for string in list {
        bytes.extend_from_slice(&(string.len() as u32).to_be_bytes());
        bytes.extend_from_slice(string);
    }
    bytes
}

/// Cipher, KDF and options anew, that may fit each other and the rest or not.
fn other_opening(random: &mut Random, image: &[u8]) -> Vec<u8> {
    let cipher: &str = random.one_of(&["none", "none", "3des-cbc", "aes192-cbc", "aes256-gcm@openssh.com", "rot13"]);
    let kdf: &str = random.one_of(&["none", "bcrypt", "bcrypt", "scrypt"]);
    let options: &[u8] =
        random.one_of(&[b"", b"", b"\0\0\0\x02ab\0\0\0\x18", b"\0\0\0\0\0\0\0\x01", b"\0\0\0\x01abcdefg"]);
    let mut copy = image[..15].to_vec();
    copy.extend(strings(&[cipher.as_bytes(), kdf.as_bytes(), options]));
    let count = raw::read(image).blob.start as usize - 8;
    copy.extend_from_slice(&image[count..]);
    copy
}

/// A plain section whose private string, comment or padding is another, with the lengths around it right. For RSA the private
/// string is all from d on.
fn inside_the_section(random: &mut Random, image: &[u8]) -> Vec<u8> {
    let record = raw::read(image);
    if record.kind != 1 {
        return image[..image.len() - 1].to_vec();
    }
    let comment = &image[record.comment.start as usize..end(record.comment)];
    let private = private_string(image, &record);
    match random.within(0, 5) {
        0 => with_section(image, &record, &other_scalar(random, &private), comment, 0),
        1 => with_section(image, &record, &private[1..], comment, 0),
        2 => with_section(image, &record, &private, &not_quite_utf8(random, comment), 0),
        3 => with_section(image, &record, &private, comment, 8),
        _ => with_section(image, &record, &[&[0, 0], &private[..]].concat(), comment, 0),
    }
}

fn private_string(image: &[u8], record: &Image) -> Vec<u8> {
    let field = end(record.blob) + 4 + 8 + record.blob.length as usize;
    image[field + 4..record.comment.start as usize - 4].to_vec()
}

/// A zero put before the string, its first byte dropped or changed, the string cut or emptied, or its first bytes made zeros, all of
/// them or some.
fn other_scalar(random: &mut Random, private: &[u8]) -> Vec<u8> {
    let mut other = private.to_vec();
    let place = random.within(0, private.len());
    match random.within(0, 7) {
        0 => other.insert(0, 0),
        1 => drop(other.remove(0)),
        2 => other[0] ^= 0x80,
        3 => other.truncate(place),
        4 => other.clear(),
        5 => other.fill(0),
        _ => other[..place].fill(0),
    }
    other
}

fn not_quite_utf8(random: &mut Random, comment: &[u8]) -> Vec<u8> {
    let wrong: &[u8] = random.one_of(&[
        b"\x80",
        b"\xc3",
        b"\xc0\x80",
        b"\xe2\x82",
        b"\xed\xa0\x80",
        b"\xe0\x9f\xbf",
        b"\xf4\x90\x80\x80",
        b"\xf0\x8f\xbf\xbf",
        b"\xff",
        "\u{10ffff}".as_bytes(),
    ]);
    let middle = random.within(0, comment.len() + 1);
    [&comment[..middle], wrong, &comment[middle..]].concat()
}

/// The plain image with this private string and comment, and so much padding more than it needs.
pub fn with_section(image: &[u8], record: &Image, private: &[u8], comment: &[u8], more_padding: usize) -> Vec<u8> {
    let section = end(record.blob) + 4;
    let mut copy = image[..section + 8 + record.blob.length as usize].to_vec();
    copy.extend(strings(&[private, comment]));
    let padding = (copy.len() - section).wrapping_neg() % 8 + more_padding;
    copy.extend(1..=padding as u8);
    let length = (copy.len() - section) as u32;
    copy[section - 4..section].copy_from_slice(&length.to_be_bytes());
    copy
}
