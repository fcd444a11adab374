//! The two forms of an ECDSA scalar. The crate's: always SIZE bytes, and a zero before a first byte of 0x80 or more. Ours: the fewest
//! bytes, and that zero.

/// A string's place and bytes, and where the next field begins.
fn string(image: &[u8], at: usize) -> (&[u8], usize) {
    let length = u32::from_be_bytes([image[at], image[at + 1], image[at + 2], image[at + 3]]) as usize;
    (&image[at + 4..at + 4 + length], at + 4 + length)
}

fn put(out: &mut Vec<u8>, bytes: &[u8]) {
    out.extend_from_slice(&(bytes.len() as u32).to_be_bytes());
    out.extend_from_slice(bytes);
}

/// The place of the length field of a written image's section or ciphertext.
pub fn section_of(image: &[u8]) -> usize {
    let (_, kdf) = string(image, 15);
    let (_, options) = string(image, kdf);
    let (_, count) = string(image, options);
    string(image, count + 4).1
}

/// A whole image as we write it, with its scalar as the crate writes it; any other image as it is.
pub fn full_width(image: &[u8]) -> Vec<u8> {
    with_scalar(image, filled)
}

/// A whole image with its scalar in the fewest bytes; any other image as it is.
pub fn fewest_bytes(image: &[u8]) -> Vec<u8> {
    with_scalar(image, |stored, _| fewest(stored))
}

/// The image with the scalar stored as `store` says, of the stored scalar and SIZE, and padded anew.
fn with_scalar(image: &[u8], store: fn(&[u8], usize) -> Vec<u8>) -> Vec<u8> {
    let section = section_of(image);
    if string(image, 15).0 != b"none" || !string(image, section + 12).0.starts_with(b"ecdsa-") {
        return image.to_vec();
    }
    let (_, curve) = string(image, section + 12);
    let (point, scalar) = string(image, string(image, curve).1);
    let (private, comment) = string(image, scalar);
    let mut content = image[section + 4..scalar].to_vec();
    put(&mut content, &store(private, point.len() / 2));
    put(&mut content, string(image, comment).0);
    content.extend(1..=(content.len().wrapping_neg() % 8) as u8);
    let mut whole = image[..section].to_vec();
    put(&mut whole, &content);
    whole
}

fn filled(stored: &[u8], size: usize) -> Vec<u8> {
    let number = fewest(stored);
    [vec![0; size.saturating_sub(number.len())], number].concat()
}

fn fewest(stored: &[u8]) -> Vec<u8> {
    let zeros = stored.iter().take_while(|byte| **byte == 0).count();
    let sign = stored.get(zeros).map_or(0, |first| usize::from(*first >= 0x80));
    [&[0][..sign], &stored[zeros..]].concat()
}
