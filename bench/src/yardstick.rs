//! The yardstick: a reader, a rewriter and a comment change by hand over slices, for speed. It makes the library's checks in
//! the library's order, gives the same replies and allocates nothing. Nothing of it is proved.
//!
//! A part of the image is read within the image cut at the part's end, so that every place is the image's own.

use saltorchard::raw::{Image, Part, Reply};

const LIMIT: usize = 65_535;
const MAGIC: &[u8] = b"openssh-key-v1\0";
const PADDING: &[u8] = &[1, 2, 3, 4, 5, 6, 7];
const ABSENT: Part = Part { start: 0, length: 0 };
const NOWHERE: Span = Span { start: 0, end: 0 };
const ED25519: u64 = 0;
const RSA: u64 = 4;
const PLAIN: u64 = 1;
const ENCRYPTED: u64 = 2;
const HEADER: u64 = 3;

const NOTHING: Image = Image {
    number: 0,
    count: 0,
    at: 0,
    kind: 0,
    algorithm: 0,
    cipher: 0,
    kdf: 0,
    rounds: 0,
    checkint: 0,
    padding: 0,
    form: 0,
    blob: ABSENT,
    point: ABSENT,
    scalar: ABSENT,
    comment: ABSENT,
    salt: ABSENT,
    ciphertext: ABSENT,
    tag: ABSENT,
    section: 0,
    bits: 0,
    modulus: ABSENT,
    exponent: ABSENT,
    d: ABSENT,
    iqmp: ABSENT,
    p: ABSENT,
    q: ABSENT,
    keys: 0,
};

struct Refused {
    number: u64,
    count: usize,
    at: usize,
}

type Step<T> = Result<T, Refused>;

fn refuse<T>(number: u64, at: usize) -> Step<T> {
    Err(Refused { number, count: 0, at })
}

fn left_over<T>(count: usize, at: usize) -> Step<T> {
    Err(Refused { number: 6, count, at })
}

/// A string's contents: from its first byte up to its end.
#[derive(Clone, Copy)]
struct Span {
    start: usize,
    end: usize,
}

impl Span {
    #[inline(always)]
    fn length(self) -> usize {
        self.end - self.start
    }

    #[inline(always)]
    fn part(self) -> Part {
        Part { start: self.start as u64, length: self.length() as u64 }
    }

    #[inline(always)]
    fn of(self, image: &[u8]) -> &[u8] {
        &image[self.start..self.end]
    }
}

// ---- fields

#[inline(always)]
fn uint32(part: &[u8], at: usize) -> Step<u32> {
    match part.get(at..at + 4) {
        Some(four) => Ok(u32::from_be_bytes([four[0], four[1], four[2], four[3]])),
        None => refuse(1, at),
    }
}

#[inline(always)]
fn string(part: &[u8], at: usize) -> Step<Span> {
    let length = uint32(part, at)? as usize;
    let start = at + 4;
    if length > part.len() - start {
        return refuse(1, at);
    }
    Ok(Span { start, end: start + length })
}

#[inline(always)]
fn fixed(part: &[u8], at: usize, length: usize) -> Step<Span> {
    let span = string(part, at)?;
    hold_to_length(span, at, length)
}

#[inline(always)]
fn hold_to_length(span: Span, at: usize, length: usize) -> Step<Span> {
    if span.length() < length {
        return refuse(1, at);
    }
    if span.length() > length {
        return left_over(span.length() - length, span.start + length);
    }
    Ok(span)
}

#[inline(always)]
fn finish(at: usize, end: usize) -> Step<()> {
    if at < end {
        return left_over(end - at, at);
    }
    Ok(())
}

// ---- names

fn cipher_of(name: &[u8]) -> Option<u64> {
    match name {
        b"none" => Some(0),
        b"3des-cbc" => Some(1),
        b"aes128-cbc" => Some(2),
        b"aes192-cbc" => Some(3),
        b"aes256-cbc" => Some(4),
        b"aes128-ctr" => Some(5),
        b"aes192-ctr" => Some(6),
        b"aes256-ctr" => Some(7),
        b"aes128-gcm@openssh.com" => Some(8),
        b"aes256-gcm@openssh.com" => Some(9),
        _ => None,
    }
}

/// The block and the tag's length of a cipher other than `none`.
fn block_and_tag(cipher: u64) -> (usize, usize) {
    match cipher {
        1 => (8, 0),
        8 | 9 => (16, 16),
        _ => (16, 0),
    }
}

fn algorithm_of(name: &[u8]) -> Option<u64> {
    match name {
        b"ssh-ed25519" => Some(ED25519),
        b"ecdsa-sha2-nistp256" => Some(1),
        b"ecdsa-sha2-nistp384" => Some(2),
        b"ecdsa-sha2-nistp521" => Some(3),
        b"ssh-rsa" => Some(RSA),
        _ => None,
    }
}

/// The curve's algorithm and SIZE.
fn curve_of(name: &[u8]) -> Option<(u64, usize)> {
    match name {
        b"nistp256" => Some((1, 32)),
        b"nistp384" => Some((2, 48)),
        b"nistp521" => Some((3, 66)),
        _ => None,
    }
}

// ---- keys

/// A public key, of the blob or of the section: a point, or the two numbers of RSA.
struct Public {
    algorithm: u64,
    point: Span,
    modulus: Span,
    exponent: Span,
}

/// What follows the name of an Ed25519 or ECDSA key.
struct Elliptic {
    algorithm: u64,
    /// The algorithm that the curve string names.
    curve: u64,
    curve_at: usize,
    size: usize,
    point: Span,
}

/// The algorithm that the string at `at` names, and where that string ends.
#[inline(always)]
fn algorithm(part: &[u8], at: usize) -> Step<(u64, usize)> {
    let name = string(part, at)?;
    match algorithm_of(name.of(part)) {
        Some(algorithm) => Ok((algorithm, name.end)),
        None => refuse(4, at),
    }
}

#[inline(always)]
fn elliptic(part: &[u8], algorithm: u64, at: usize) -> Step<Elliptic> {
    if algorithm == ED25519 {
        let point = fixed(part, at, 32)?;
        return Ok(Elliptic { algorithm, curve: ED25519, curve_at: 0, size: 32, point });
    }
    let curve = string(part, at)?;
    let (named, size) = match curve_of(curve.of(part)) {
        Some(curve) => curve,
        None => return refuse(4, at),
    };
    let point = fixed(part, curve.end, 1 + 2 * size)?;
    if part[point.start] != 4 {
        return refuse(2, curve.end);
    }
    Ok(Elliptic { algorithm, curve: named, curve_at: at, size, point })
}

impl Elliptic {
    #[inline(always)]
    fn public(&self) -> Public {
        Public { algorithm: self.algorithm, point: self.point, modulus: NOWHERE, exponent: NOWHERE }
    }
}

#[inline(always)]
fn hold_to_curve(key: &Elliptic) -> Step<()> {
    if key.curve != key.algorithm {
        return refuse(4, key.curve_at);
    }
    Ok(())
}

/// The blob's key; the blob ends where `part` does.
#[inline(always)]
fn blob_key(part: &[u8], at: usize) -> Step<Public> {
    let (algorithm, at) = algorithm(part, at)?;
    if algorithm == RSA {
        return rsa_blob(part, at);
    }
    let key = elliptic(part, algorithm, at)?;
    hold_to_curve(&key)?;
    finish(key.point.end, part.len())?;
    Ok(key.public())
}

/// The private string's scalar or seed, where the string ends, and whether it is in the writer's form.
struct Private {
    scalar: Span,
    end: usize,
    form: bool,
}

#[inline(always)]
fn seed(part: &[u8], key: &Elliptic) -> Step<Private> {
    let at = key.point.end;
    let both = fixed(part, at, 64)?;
    let middle = both.start + 32;
    if part[middle..both.end] != *key.point.of(part) {
        return refuse(3, at);
    }
    Ok(Private { scalar: Span { start: both.start, end: middle }, end: both.end, form: true })
}

/// A scalar's leading zeros are left off; in the writer's form there is one exactly before a byte of 0x80 or more.
#[inline(always)]
fn scalar(part: &[u8], key: &Elliptic) -> Step<Private> {
    let at = key.point.end;
    let span = string(part, at)?;
    if span.length() == 0 {
        return refuse(1, at);
    }
    if span.length() > key.size + 1 {
        return left_over(span.length() - key.size, span.start + key.size);
    }
    let zeros = match span.of(part).iter().position(|byte| *byte != 0) {
        Some(zeros) if zeros > 0 || span.length() <= key.size => zeros,
        _ => return refuse(2, at),
    };
    let scalar = Span { start: span.start + zeros, end: span.end };
    Ok(Private { scalar, end: span.end, form: zeros == usize::from(part[scalar.start] >= 0x80) })
}

/// The section's keypair: its public key, where it ends, and whether it is in the writer's form.
struct Pair {
    public: Public,
    end: usize,
    form: bool,
}

#[inline(always)]
fn pair(part: &[u8], at: usize, record: &mut Image) -> Step<Pair> {
    let (algorithm, at) = algorithm(part, at)?;
    if algorithm == RSA {
        return rsa_pair(part, at, record);
    }
    let key = elliptic(part, algorithm, at)?;
    let private = if algorithm == ED25519 { seed(part, &key)? } else { scalar(part, &key)? };
    hold_to_curve(&key)?;
    record.scalar = private.scalar.part();
    Ok(Pair { public: key.public(), end: private.end, form: private.form })
}

#[inline(always)]
fn same_key(part: &[u8], a: &Public, b: &Public) -> bool {
    if a.algorithm != b.algorithm {
        return false;
    }
    if a.algorithm == RSA {
        return a.modulus.of(part) == b.modulus.of(part) && a.exponent.of(part) == b.exponent.of(part);
    }
    a.point.of(part) == b.point.of(part)
}

// ---- RSA

/// A positive number in the fewest bytes.
#[inline(always)]
fn mpint(part: &[u8], at: usize) -> Step<Span> {
    let span = string(part, at)?;
    let right = match span.of(part) {
        [0, second, ..] => *second >= 0x80,
        [first, ..] => (1..0x80).contains(first),
        [] => false,
    };
    if right {
        Ok(span)
    } else {
        refuse(2, at)
    }
}

/// The bits of an mpint: a first zero is followed by a full byte.
#[inline(always)]
fn bits(part: &[u8], number: Span) -> usize {
    match part[number.start] {
        0 => 8 * (number.length() - 1),
        first => 8 * number.length() - first.leading_zeros() as usize,
    }
}

/// Holds the numbers, in the order of reading, to the sizes; `modulus` is one's place.
#[inline(always)]
fn hold_to_sizes(part: &[u8], numbers: &[Span], modulus: usize) -> Step<()> {
    let most = bits(part, numbers[modulus]);
    for (place, number) in numbers.iter().enumerate() {
        let modulus_outside = place == modulus && !(1_024..=8_192).contains(&most);
        if modulus_outside || bits(part, *number) > most {
            return refuse(1, number.start - 4);
        }
    }
    Ok(())
}

#[inline(never)]
fn rsa_blob(part: &[u8], at: usize) -> Step<Public> {
    let exponent = mpint(part, at)?;
    let modulus = mpint(part, exponent.end)?;
    hold_to_sizes(part, &[exponent, modulus], 1)?;
    finish(modulus.end, part.len())?;
    Ok(Public { algorithm: RSA, point: NOWHERE, modulus, exponent })
}

#[inline(never)]
fn rsa_pair(part: &[u8], at: usize, record: &mut Image) -> Step<Pair> {
    let mut numbers = [NOWHERE; 6];
    let mut end = at;
    for number in &mut numbers {
        *number = mpint(part, end)?;
        end = number.end;
    }
    hold_to_sizes(part, &numbers, 0)?;
    let [modulus, exponent, d, iqmp, p, q] = numbers;
    record.d = d.part();
    record.iqmp = iqmp.part();
    record.p = p.part();
    record.q = q.part();
    let public = Public { algorithm: RSA, point: NOWHERE, modulus, exponent };
    Ok(Pair { public, end, form: true })
}

// ---- the container

/// Whether an image says that it has 2 to 16 plain keys: the yardstick reads files of one.
pub fn has_several(image: &[u8]) -> bool {
    let mut record = NOTHING;
    let count = names(image, &mut record).and_then(|options| uint32(image, options));
    image.len() <= LIMIT && record.cipher == 0 && matches!(count, Ok(2..=16))
}

/// The blob's key and where the blob ends.
#[inline(always)]
fn header(image: &[u8], record: &mut Image) -> Step<(Public, usize)> {
    if image.len() > LIMIT {
        return refuse(11, 0);
    }
    let options = names(image, record)?;
    if uint32(image, options)? != 1 {
        return refuse(1, options);
    }
    let blob = string(image, options + 4)?;
    let key = blob_key(&image[..blob.end], blob.start)?;
    record.algorithm = key.algorithm;
    record.blob = blob.part();
    record.point = key.point.part();
    record.section = blob.end as u64;
    record.keys = 1;
    if key.algorithm == RSA {
        record.bits = bits(image, key.modulus) as u64;
        record.modulus = key.modulus.part();
        record.exponent = key.exponent.part();
    }
    Ok((key, blob.end))
}

/// Magic, cipher, KDF and its options; answers where the options end.
#[inline(always)]
fn names(image: &[u8], record: &mut Image) -> Step<usize> {
    if image.len() < MAGIC.len() {
        return refuse(1, 0);
    }
    if !image.starts_with(MAGIC) {
        return refuse(2, 0);
    }
    let cipher = string(image, MAGIC.len())?;
    record.cipher = match cipher_of(cipher.of(image)) {
        Some(cipher) => cipher,
        None => return refuse(4, MAGIC.len()),
    };
    let kdf = string(image, cipher.end)?;
    record.kdf = match kdf.of(image) {
        b"none" => 0,
        b"bcrypt" => 1,
        _ => return refuse(4, cipher.end),
    };
    let options = string(image, kdf.end)?;
    if record.kdf == 1 {
        bcrypt_options(&image[..options.end], options.start, record)?;
    } else if options.length() > 0 {
        return refuse(3, kdf.end);
    }
    Ok(options.end)
}

#[inline(always)]
fn bcrypt_options(part: &[u8], at: usize, record: &mut Image) -> Step<()> {
    let salt = string(part, at)?;
    record.rounds = u64::from(uint32(part, salt.end)?);
    record.salt = salt.part();
    finish(salt.end + 4, part.len())
}

#[inline(always)]
fn encrypted(image: &[u8], at: usize, record: &mut Image) -> Step<()> {
    let (block, tag) = block_and_tag(record.cipher);
    let ciphertext = string(image, at)?;
    if ciphertext.length() % block != 0 {
        return refuse(3, at);
    }
    if image.len() - ciphertext.end < tag {
        return refuse(1, ciphertext.end);
    }
    finish(ciphertext.end + tag, image.len())?;
    if tag > 0 {
        record.tag = Part { start: ciphertext.end as u64, length: tag as u64 };
    }
    record.kind = ENCRYPTED;
    record.form = 1;
    record.ciphertext = ciphertext.part();
    Ok(())
}

#[inline(always)]
fn plain(image: &[u8], at: usize, key: &Public, record: &mut Image) -> Step<()> {
    if record.kdf != 0 {
        return refuse(3, MAGIC.len() + 4 + "none".len());
    }
    let span = string(image, at)?;
    section(&image[..span.end], span.start, key, record)?;
    finish(span.end, image.len())?;
    record.kind = PLAIN;
    Ok(())
}

#[inline(always)]
fn section(part: &[u8], start: usize, header: &Public, record: &mut Image) -> Step<()> {
    if (part.len() - start) % 8 != 0 {
        return refuse(1, start);
    }
    let checkint = uint32(part, start)?;
    if uint32(part, start + 4)? != checkint {
        return refuse(3, start + 4);
    }
    let pair = pair(part, start + 8, record)?;
    if !same_key(part, &pair.public, header) {
        return refuse(5, start + 8);
    }
    let comment = string(part, pair.end)?;
    if std::str::from_utf8(comment.of(part)).is_err() {
        return refuse(7, pair.end);
    }
    record.padding = padding(part, comment.end)?;
    record.checkint = u64::from(checkint);
    record.form = u64::from(pair.form);
    record.comment = comment.part();
    Ok(())
}

#[inline(always)]
fn padding(part: &[u8], at: usize) -> Step<u64> {
    let length = part.len() - at;
    if length >= 8 {
        return refuse(1, at);
    }
    if part[at..] != PADDING[..length] {
        return refuse(2, at);
    }
    Ok(length as u64)
}

#[inline(always)]
fn fill(image: &[u8], record: &mut Image) -> Step<()> {
    let (key, at) = header(image, record)?;
    if record.cipher != 0 {
        return encrypted(image, at, record);
    }
    plain(image, at, &key, record)
}

#[inline(always)]
fn fill_header(image: &[u8], record: &mut Image) -> Step<()> {
    header(image, record)?;
    record.kind = HEADER;
    Ok(())
}

fn not_read(refused: Refused) -> Image {
    Image { number: refused.number, count: refused.count as u64, at: refused.at as u64, ..NOTHING }
}

/// Reads an image.
#[inline(never)]
pub fn read(image: &[u8]) -> Image {
    let mut record = NOTHING;
    if let Err(refused) = fill(image, &mut record) {
        record = not_read(refused);
    }
    record
}

/// Reads an image's header.
#[inline(never)]
pub fn read_header(image: &[u8]) -> Image {
    let mut record = NOTHING;
    if let Err(refused) = fill_header(image, &mut record) {
        record = not_read(refused);
    }
    record
}

// ---- writing

fn written(length: usize) -> Reply {
    Reply { number: 0, count: 0, at: 0, length: length as u64 }
}

fn not_written(number: u64, count: u64, at: u64) -> Reply {
    Reply { number, count, at, length: 0 }
}

/// The refusal of an image of this length for want of size or room.
#[inline(always)]
fn no_place(length: usize, room: usize) -> Option<Reply> {
    if length > LIMIT {
        return Some(not_written(11, 0, 0));
    }
    if length > room {
        return Some(not_written(9, 0, 0));
    }
    None
}

fn range(part: Part) -> std::ops::Range<usize> {
    part.start as usize..(part.start + part.length) as usize
}

fn missing_padding(length: usize) -> usize {
    length.wrapping_neg() % 8
}

/// Reads an image and writes its record. An image in the form is copied as it is.
#[inline(never)]
pub fn rewrite(image: &[u8], out: &mut [u8]) -> Reply {
    let record = read(image);
    if record.number != 0 {
        return not_written(record.number, record.count, record.at);
    }
    if record.form == 0 {
        return mended(image, &record, out);
    }
    if let Some(refusal) = no_place(image.len(), out.len()) {
        return refusal;
    }
    out[..image.len()].copy_from_slice(image);
    written(image.len())
}

/// Writes a plain ECDSA image with its scalar in the fewest bytes.
fn mended(image: &[u8], record: &Image, out: &mut [u8]) -> Reply {
    let (scalar, comment) = (&image[range(record.scalar)], &image[range(record.comment)]);
    let section = range(record.blob).end + 4;
    let field = section + 8 + record.blob.length as usize;
    let zero = usize::from(scalar[0] >= 0x80);
    let end = field + 4 + zero + scalar.len() + 4 + comment.len();
    let padding = missing_padding(end - section);
    let length = end + padding;
    if let Some(refusal) = no_place(length, out.len()) {
        return refusal;
    }
    out[..field].copy_from_slice(&image[..field]);
    put_uint32(out, section - 4, length - section);
    put_uint32(out, field, zero + scalar.len());
    out[field + 4] = 0;
    out[field + 4 + zero..][..scalar.len()].copy_from_slice(scalar);
    put_uint32(out, end - comment.len() - 4, comment.len());
    out[end - comment.len()..end].copy_from_slice(comment);
    out[end..length].copy_from_slice(&PADDING[..padding]);
    written(length)
}

#[inline(always)]
fn put_uint32(out: &mut [u8], at: usize, number: usize) {
    out[at..at + 4].copy_from_slice(&(number as u32).to_be_bytes());
}

/// Changes the comment of the image that the buffer's first `n` bytes are.
#[inline(never)]
pub fn change_comment(buffer: &mut [u8], n: usize, comment: &[u8]) -> Reply {
    if n > LIMIT {
        return not_written(11, 0, 0);
    }
    if n > buffer.len() {
        return not_written(1, 0, 0);
    }
    let record = read(&buffer[..n]);
    if record.number != 0 {
        return not_written(record.number, record.count, record.at);
    }
    if record.kind == ENCRYPTED {
        return not_written(8, 0, 0);
    }
    if record.form == 0 {
        return not_written(10, 0, 0);
    }
    if std::str::from_utf8(comment).is_err() {
        return not_written(7, 0, record.comment.start - 4);
    }
    put_comment(buffer, n, &record, comment)
}

fn put_comment(buffer: &mut [u8], n: usize, record: &Image, comment: &[u8]) -> Reply {
    let section = range(record.blob).end + 4;
    let start = record.comment.start as usize;
    let end = start + comment.len();
    let padding = missing_padding(end - section);
    let length = end + padding;
    if let Some(refusal) = no_place(length, buffer.len()) {
        return refusal;
    }
    put_uint32(buffer, section - 4, length - section);
    put_uint32(buffer, start - 4, comment.len());
    buffer[start..end].copy_from_slice(comment);
    buffer[end..length].copy_from_slice(&PADDING[..padding]);
    if length < n {
        buffer[length..n].fill(0);
    }
    written(length)
}
