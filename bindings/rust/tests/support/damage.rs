//! Damage: to an image's parts, so that the lengths around them still fit, and to its bytes.

use super::images::{mpint, Draft, Flat, Key, RsaKey, ALGORITHMS, CIPHERS, CURVES, KDFS, SIZES};
use super::Rng;

/// Comments at the borders of UTF-8, some of them not UTF-8.
pub const COMMENTS: [&[u8]; 20] = [
    b"",
    b"oven7",
    b"\0",
    b"\x7f",
    b"\x80",
    b"oven \xc3\xb6",
    b"\xc0\xaf",
    b"\xc1\xbf",
    b"\xc2",
    b"\xe0\x9f\xbf",
    b"\xe0\xa0\x80",
    b"\xed\x9f\xbf",
    b"\xed\xa0\x80",
    b"\xef\xbf\xbf",
    b"\xf0\x8f\xbf\xbf",
    b"\xf0\x90\x80\x80",
    b"\xf4\x8f\xbf\xbf",
    b"\xf4\x90\x80\x80",
    b"\xf8\x88\x80\x80\x80",
    b"eight or more plain bytes, then one that is not \xff",
];

/// A comment of any length up to `longest`, mostly UTF-8.
pub fn comment(longest: usize, rng: &mut Rng) -> Vec<u8> {
    if rng.one_in(4) {
        return rng.pick(&COMMENTS).to_vec();
    }
    let length = rng.below(longest + 1);
    let mut text: Vec<u8> = (0..length).map(|_| 0x20 + rng.byte() % 0x5f).collect();
    if length > 0 && rng.one_in(8) {
        let place = rng.below(length);
        text[place] = rng.byte();
    }
    text
}

fn name(rng: &mut Rng) -> Vec<u8> {
    let known: Vec<&str> = ALGORITHMS.iter().chain(&CURVES).chain(&CIPHERS).chain(&KDFS).copied().collect();
    let mut name = rng.pick(&known).as_bytes().to_vec();
    match rng.below(8) {
        0 => name.push(0),
        1 => shorten(&mut name),
        2 => name[0] ^= 0x20,
        _ => {}
    }
    name
}

/// A string that could stand at a key's place `place`: a name, a curve, a point, a private half or a number.
fn key_string(place: usize, old: &[u8], rng: &mut Rng) -> Vec<u8> {
    let mut new = old.to_vec();
    match rng.below(8) {
        0 if place == 0 => ALGORITHMS[rng.below(5)].into(),
        1 if place == 1 => CURVES[rng.below(3)].into(),
        0 | 1 => name(rng),
        2 => {
            let length = *rng.pick(&[0, 31, 32, 33, 34, 48, 49, 64, 65, 66, 67, 97, 133]);
            let mut zeros = vec![0; *rng.pick(&[0, 0, 0, length / 2, length])];
            zeros.extend(rng.bytes(length - zeros.len()));
            zeros
        }
        3 => {
            new.insert(0, *rng.pick(&[0, 1, 0x7f, 0x80]));
            new
        }
        4 if !new.is_empty() => {
            new[0] = *rng.pick(&[0, 1, 2, 3, 4, 5, 0x7f, 0x80, 0xff]);
            new
        }
        5 if !new.is_empty() => {
            let place = rng.below(new.len());
            new[place] ^= 1 << rng.below(8);
            new
        }
        6 => {
            let bits = *rng.pick(&[1, 17, 1_023, 1_024, 1_025, 8_192, 8_193]);
            mpint(bits, rng)
        }
        _ => {
            new.truncate(rng.below(old.len() + 1));
            new
        }
    }
}

fn strings(list: &mut Vec<Vec<u8>>, rng: &mut Rng) {
    if list.is_empty() {
        return list.push(name(rng));
    }
    let place = rng.below(list.len());
    match rng.below(8) {
        0 => drop(list.remove(place)),
        1 => list.insert(place, list[place].clone()),
        2 => list.swap(0, place),
        _ => list[place] = key_string(place, &list[place], rng),
    }
}

fn padding(draft: &mut Draft, rng: &mut Rng) {
    draft.pad();
    let least = draft.padding.len();
    let more = *rng.pick(&[0, 0, 0, 8, 16, 1]);
    draft.padding = (1..=(least + more) as u8).collect();
    if !draft.padding.is_empty() && rng.one_in(2) {
        let place = rng.below(draft.padding.len());
        draft.padding[place] = rng.byte();
    }
}

fn sealed_parts(draft: &mut Draft, rng: &mut Rng) {
    let lengths = [0, 1, 7, 8, 9, 15, 16, 17, 24, 32];
    let (ciphertext, tag) = (*rng.pick(&lengths), *rng.pick(&lengths));
    match &mut draft.sealed {
        None => draft.sealed = Some((rng.bytes(ciphertext), rng.bytes(tag))),
        Some(_) if rng.one_in(4) => draft.sealed = None,
        Some((_, old)) if rng.one_in(2) => *old = rng.bytes(tag),
        Some((old, _)) => *old = rng.bytes(ciphertext),
    }
}

/// Another key in the header or in the section, of the same kind or of another.
fn other_key(draft: &mut Draft, rng: &mut Rng) {
    let (blob, pair) = any_key(rng);
    let both = rng.below(3);
    if both != 0 {
        draft.pair = pair;
    }
    if both != 1 {
        draft.blob = blob;
    }
}

/// The strings of a key of any kind, one in two scalars with a zero before all its bytes.
fn any_key(rng: &mut Rng) -> (Vec<Vec<u8>>, Vec<Vec<u8>>) {
    let algorithm = rng.below(5) as u8;
    if algorithm == 4 {
        let key = RsaKey::new(1_024 + rng.below(20), rng);
        return (key.blob(), key.pair());
    }
    let key = Key::new(algorithm, rng);
    (key.blob(), key.pair(rng.one_in(2)))
}

/// A curve that isn't the algorithm's, with a point and a scalar of its size.
fn other_curve(draft: &mut Draft, rng: &mut Rng) {
    let (named, curved) = (1 + rng.below(3), 1 + rng.below(3));
    let key = Key::new(curved as u8, rng);
    let (mut blob, mut pair) = (key.blob(), key.pair_in_form());
    if rng.one_in(2) {
        blob[0] = ALGORITHMS[named].into();
        draft.blob = blob;
    }
    pair[0] = ALGORITHMS[named].into();
    draft.pair = pair;
}

fn kdf(draft: &mut Draft, rng: &mut Rng) {
    match rng.below(5) {
        0 => draft.kdf = name(rng),
        1 => draft.kdf = KDFS[rng.below(2)].into(),
        2 => draft.options_rest = bytes_below(9, rng),
        3 => draft.options = None,
        _ => draft.options = Some((bytes_below(40, rng), rng.uint32())),
    }
}

fn bytes_below(longest: usize, rng: &mut Rng) -> Vec<u8> {
    let length = rng.below(longest);
    rng.bytes(length)
}

/// Changes one part; the lengths around it follow.
fn part(draft: &mut Draft, rng: &mut Rng) {
    match rng.below(19) {
        0 => draft.cipher = name(rng),
        1 => draft.cipher = CIPHERS[rng.below(10)].into(),
        2 | 3 => kdf(draft, rng),
        4 => draft.count = *rng.pick(&[0, 1, 2, 0x0100_0000]),
        5 | 6 => strings(&mut draft.blob, rng),
        7 => draft.blob_rest = bytes_below(9, rng),
        8 => draft.checkints[1] ^= 1 << rng.below(32),
        9 | 10 => strings(&mut draft.pair, rng),
        11 => draft.comment = comment(60, rng),
        17 => draft.comment = rng.pick(&COMMENTS).to_vec(),
        12 | 13 => padding(draft, rng),
        14 => draft.rest = bytes_below(20, rng),
        15 => sealed_parts(draft, rng),
        16 => other_key(draft, rng),
        _ => other_curve(draft, rng),
    }
}

fn shorten(bytes: &mut Vec<u8>) {
    bytes.pop();
}

fn flip_first(bytes: &mut [u8]) {
    bytes.iter_mut().take(1).for_each(|byte| *byte ^= 1);
}

fn flip_last(bytes: &mut [u8]) {
    bytes.iter_mut().rev().take(1).for_each(|byte| *byte ^= 1);
}

/// The string that stands `place` places before the last.
fn back(strings: &mut [Vec<u8>], place: usize) -> &mut Vec<u8> {
    let last = strings.len() - 1;
    &mut strings[last - place]
}

/// Puts another name for the curve; Ed25519 has none.
fn rename_curve(strings: &mut [Vec<u8>], name: &str) {
    if strings[1].starts_with(b"nistp") {
        strings[1] = name.into();
    }
}

/// Keeps the algorithm's name before a key of another curve; the zero is put before its scalar.
fn curve_unlike(strings: &mut Vec<Vec<u8>>, private: bool) {
    let algorithm = if strings[1] == b"nistp384" { 3 } else { 2 };
    let length = SIZES[usize::from(algorithm)];
    let key = Key { algorithm, public: vec![4; 1 + 2 * length], private: vec![0x90; length] };
    if strings[1].starts_with(b"nistp") {
        let other = if private { key.pair(true) } else { key.blob() };
        strings.splice(1.., other.into_iter().skip(1));
    }
}

/// The other KDF with options that fit it: a fault in a plain image only.
fn other_kdf(draft: &mut Draft) {
    let bcrypt = draft.kdf == b"none";
    draft.kdf = KDFS[usize::from(bcrypt)].into();
    draft.options = if bcrypt { Some((b"salt".to_vec(), 1)) } else { None };
}

/// A fault for each rule of the reader, the padding's last.
const FAULTS: [fn(&mut Draft); 38] = [
    |draft| draft.magic[14] = 1,
    |draft| draft.cipher.push(b'x'),
    |draft| draft.kdf.push(b'x'),
    |draft| draft.kdf = KDFS[usize::from(draft.kdf == b"none")].into(),
    other_kdf,
    |draft| draft.options = None,
    |draft| draft.options = Some((b"salt".to_vec(), 1)),
    |draft| draft.options_rest = vec![0; 3],
    |draft| draft.count = 2,
    |draft| draft.blob[0].push(b'x'),
    |draft| rename_curve(&mut draft.blob, "nistp192"),
    |draft| curve_unlike(&mut draft.blob, false),
    |draft| shorten(back(&mut draft.blob, 0)),
    |draft| flip_last(back(&mut draft.blob, 0)),
    |draft| back(&mut draft.blob, 0).extend([4; 5]),
    |draft| back(&mut draft.blob, 0)[0] = 5,
    |draft| draft.blob_rest = vec![0; 4],
    |draft| draft.sealed.iter_mut().for_each(|parts| parts.0.push(0)),
    |draft| draft.sealed.iter_mut().for_each(|parts| parts.1.truncate(15)),
    |draft| draft.rest = vec![0; 2],
    |draft| draft.checkints[1] ^= 1,
    |draft| draft.pair[0].push(b'x'),
    |draft| rename_curve(&mut draft.pair, "nistp192"),
    |draft| curve_unlike(&mut draft.pair, true),
    |draft| shorten(back(&mut draft.pair, 1)),
    |draft| back(&mut draft.pair, 1).extend([4; 5]),
    |draft| back(&mut draft.pair, 1)[0] = 5,
    |draft| shorten(back(&mut draft.pair, 0)),
    |draft| back(&mut draft.pair, 0).extend([1; 6]),
    |draft| flip_first(back(&mut draft.pair, 0)),
    |draft| flip_last(back(&mut draft.pair, 0)),
    |draft| back(&mut draft.pair, 0).insert(0, 0),
    |draft| back(&mut draft.pair, 0).fill(0),
    |draft| back(&mut draft.pair, 0).clear(),
    |draft| draft.comment = b"oven\xff".to_vec(),
    |draft| draft.padding.extend(draft.padding.len() as u8 + 1..draft.padding.len() as u8 + 9),
    |draft| draft.padding.iter_mut().for_each(|byte| *byte += 1),
    |draft| draft.padding.push(1),
];

/// How many of these are in the padding: each fault before them has the section padded anew.
const IN_PADDING: usize = 3;

/// A fault for each rule of RSA's numbers, and for each of the numbers.
const RSA_FAULTS: [fn(&mut Draft); 22] = [
    |draft| draft.blob[1][0] |= 0x80,
    |draft| draft.blob[2][0] |= 0x80,
    |draft| draft.pair[1][0] |= 0x80,
    |draft| draft.pair[2][0] |= 0x80,
    |draft| draft.pair[3].insert(0, 0),
    |draft| draft.pair[4].clear(),
    |draft| draft.pair[5].insert(0, 0),
    |draft| draft.pair[6] = vec![0],
    |draft| draft.blob[1].resize(1_024, 1),
    |draft| draft.blob[2].truncate(128),
    |draft| draft.blob[2].resize(1_026, 1),
    |draft| draft.pair[1].truncate(128),
    |draft| draft.pair[1].resize(1_026, 1),
    |draft| draft.pair[2].resize(1_024, 1),
    |draft| draft.pair[3].resize(1_024, 1),
    |draft| draft.pair[4].resize(1_024, 1),
    |draft| draft.pair[5].resize(1_024, 1),
    |draft| draft.pair[6].resize(1_024, 1),
    |draft| draft.blob.swap(1, 2),
    |draft| draft.pair.swap(1, 2),
    |draft| draft.pair.swap(2, 3),
    |draft| drop(draft.pair.pop()),
];

/// The faults that this image can have.
fn faults(draft: &Draft) -> Vec<fn(&mut Draft)> {
    let of_the_key: &[fn(&mut Draft)] = if draft.blob[0] == b"ssh-rsa" { &RSA_FAULTS } else { &[] };
    [of_the_key, &FAULTS].concat()
}

fn put_fault(draft: &mut Draft, faults: &[fn(&mut Draft)], place: usize) {
    faults[place](draft);
    if place < faults.len() - IN_PADDING {
        draft.pad();
    }
}

/// The image with each fault.
pub fn with_a_fault(draft: &Draft) -> Vec<Draft> {
    let faults = faults(draft);
    let with_fault = |place| {
        let mut one = draft.clone();
        put_fault(&mut one, &faults, place);
        one
    };
    (0..faults.len()).map(with_fault).collect()
}

/// The image with each fault, and with every two of them.
pub fn with_two_faults(draft: &Draft) -> Vec<Vec<u8>> {
    let faults = faults(draft);
    let mut images = Vec::new();
    for (first, one) in with_a_fault(draft).into_iter().enumerate() {
        images.push(one.bytes());
        for second in first + 1..faults.len() {
            let mut two = one.clone();
            put_fault(&mut two, &faults, second);
            images.push(two.bytes());
        }
    }
    images
}

/// A right RSA number made wrong: empty, zero, negative, or with a byte before it that it doesn't need.
pub fn spoiled(number: &[u8]) -> Vec<Vec<u8>> {
    let mut negative = number.to_vec();
    negative[0] |= 0x80;
    let (needless_zero, longer_negative) = ([&[0], number].concat(), [&[0xff], number].concat());
    vec![vec![], vec![0], vec![0x80], vec![0, 0x7f], negative, needless_zero, longer_negative]
}

/// Changes one to three parts and mostly pads the section anew.
pub fn changed_parts(draft: &Draft, rng: &mut Rng) -> Draft {
    let mut draft = draft.clone();
    for _ in 0..1 + rng.below(3) {
        let padding = draft.padding.clone();
        part(&mut draft, rng);
        if draft.padding == padding && !rng.one_in(8) {
            draft.pad();
        }
    }
    draft
}

/// The same; now and then the bytes are damaged too.
pub fn structured(draft: &Draft, rng: &mut Rng) -> Vec<u8> {
    let draft = changed_parts(draft, rng);
    let mut flat = draft.flat();
    if rng.one_in(8) {
        let place = *rng.pick(&flat.uint32s);
        let number = *rng.pick(&number_changes(&flat, place));
        set_uint32(&mut flat.bytes, place, number);
    }
    if rng.one_in(16) {
        flat.bytes.truncate(rng.below(flat.bytes.len() + 1));
    }
    flat.bytes
}

fn uint32(bytes: &[u8], place: usize) -> u32 {
    u32::from_be_bytes([bytes[place], bytes[place + 1], bytes[place + 2], bytes[place + 3]])
}

pub fn set_uint32(bytes: &mut [u8], place: usize, number: u32) {
    bytes[place..place + 4].copy_from_slice(&number.to_be_bytes());
}

/// Other numbers for the uint32 at `place`: near the old one, at the ends, and as many as the bytes that follow.
pub fn number_changes(flat: &Flat, place: usize) -> Vec<u32> {
    let old = uint32(&flat.bytes, place);
    let rest = (flat.bytes.len() - place - 4) as u32;
    let mut numbers = vec![0, 1, 0xffff_ffff, 0x7fff_ffff, 0x8000_0000, rest, rest + 1, rest.wrapping_sub(1)];
    for step in [1, 4, 8, 16] {
        numbers.extend([old.wrapping_add(step), old.wrapping_sub(step)]);
    }
    numbers
}

/// The first bytes of one image and the last of another, cut where a number begins or anywhere.
pub fn spliced(first: &Flat, second: &Flat, rng: &mut Rng) -> Vec<u8> {
    let (head, tail) = if rng.one_in(4) {
        (rng.below(first.bytes.len() + 1), rng.below(second.bytes.len() + 1))
    } else {
        (*rng.pick(&first.uint32s), *rng.pick(&second.uint32s))
    };
    [&first.bytes[..head], &second.bytes[tail..]].concat()
}
