//! What the types are made of and compared by, and what is answered as a `Vec` or a `String`.

use crate::support;

use std::collections::hash_map::DefaultHasher;
use std::fmt::{Debug, Display};
use std::hash::{Hash, Hasher};
use std::str::FromStr;

use saltorchard::{write_encrypted, Algorithm, Cipher, EcdsaCurve, EncryptedKey, Error, KdfAlg};
use saltorchard::{Field, Header, Image, LentImage};
use support::compare::{ALGORITHMS, CIPHERS, KDFS};
use support::images::{blob_bytes, sealed, Draft, Key};
use support::Rng;

const CURVES: [EcdsaCurve; 3] = [EcdsaCurve::NistP256, EcdsaCurve::NistP384, EcdsaCurve::NistP521];

fn rng() -> Rng {
    Rng::new("traits")
}

fn key(kind: u8) -> Key {
    Key::new(kind, &mut rng())
}

fn plain(comment: &[u8]) -> Vec<u8> {
    Draft::in_form(&key(1).beginning(0x80), 7, comment).bytes()
}

fn read(bytes: &[u8]) -> Image<'_> {
    Image::read(bytes).expect("a good image")
}

fn header(bytes: &[u8]) -> Header<'_> {
    Header::read(bytes).expect("a good header")
}

fn hash(value: impl Hash) -> u64 {
    let mut hasher = DefaultHasher::new();
    value.hash(&mut hasher);
    hasher.finish()
}

#[test]
fn images_are_equal_where_their_bytes_are() {
    let (first, same, other) = (plain(b"oven7"), plain(b"oven7"), plain(b"oven8"));
    assert_eq!(read(&first), read(&same));
    assert_eq!(hash(read(&first)), hash(read(&same)));
    assert_ne!(read(&first), read(&other));
    let mut other_scalar = first.clone();
    other_scalar[270] ^= 1;
    assert_ne!(read(&first), read(&other_scalar), "a private byte counts");
}

#[test]
fn headers_are_equal_where_their_bytes_are() {
    let (first, other_comment) = (plain(b"oven7"), plain(b"oven8"));
    assert_eq!(header(&first), header(&other_comment));
    assert_eq!(hash(header(&first)), hash(header(&other_comment)));
    assert_eq!(header(&first), header(&first[..147]), "a section may be missing");
    let mut other_point = first.clone();
    other_point[146] ^= 1;
    assert_ne!(header(&first), header(&other_point), "the header's last byte counts");
}

#[test]
fn the_same_key() {
    let (first, other_comment) = (plain(b"oven7"), plain(b"oven8"));
    let draft = Draft::in_form(&key(1).beginning(0x80), 7, b"").sealed(9, true, 2, &mut rng());
    let (encrypted, another) = (draft.bytes(), sealed(1, 9, true, 2, &mut Rng::new("another")).bytes());
    assert!(read(&first).same_key(&read(&other_comment)));
    assert!(read(&first).same_key(&read(&encrypted)));
    assert!(!read(&first).same_key(&read(&another)));
    assert_ne!(header(&first), header(&encrypted), "the ciphers differ");
    assert!(header(&first).same_key(&header(&encrypted)));
    assert!(!header(&first).same_key(&header(&another)));
}

#[test]
fn bytes_in_and_out() {
    let mut bytes = plain(b"oven7");
    let image = Image::try_from(&bytes[..]).expect("a good image");
    assert_eq!(image.as_ref(), &bytes[..]);
    assert_eq!(Header::try_from(&bytes[..]).expect("a good header").section(), Ok(image));
    assert_eq!(Image::try_from(&bytes[..9]), Image::read(&bytes[..9]));
    assert_eq!(Header::try_from(&bytes[..99]), Header::read(&bytes[..99]));
    let copy = bytes.clone();
    bytes.extend([9; 9]);
    assert_eq!(LentImage::new(&mut bytes, copy.len()).expect("a good image").as_ref(), &copy[..]);
}

/// Every name gives its value back, as a text and as bytes, and one sign more or less gives none.
fn names<T>(all: &[T])
where
    T: FromStr<Err = Error> + AsRef<str> + Display + Debug + PartialEq,
{
    for one in all {
        let name = one.as_ref();
        assert_eq!((name.parse().as_ref(), one.to_string().as_str()), (Ok(one), name));
        for wrong in [&name[1..], &format!("{} ", name), &name.to_uppercase(), ""] {
            let refusal = wrong.parse::<T>().expect_err("a refusal");
            assert_eq!((refusal.number(), refusal.count(), refusal.place()), (4, 0, 0));
            assert_eq!(refusal.field(), Field::HandedIn);
        }
    }
}

#[test]
fn names_in_and_out() {
    names::<Algorithm>(&ALGORITHMS);
    names::<Cipher>(&CIPHERS);
    names::<KdfAlg>(&KDFS);
    names::<EcdsaCurve>(&CURVES);
}

/// Blocks and tags are what the library's writer takes, and no others.
#[test]
fn blocks_and_tags() {
    let blob = blob_bytes(&key(0));
    let zeros = [0; 48];
    for cipher in CIPHERS.into_iter().skip(1) {
        for (length, tag) in (0..=48).flat_map(|length| (0..=20).map(move |tag| (length, tag))) {
            let (ciphertext, kdf) = (&zeros[..length], KdfAlg::None);
            let parts = EncryptedKey { cipher, kdf, salt: b"", rounds: 0, blob: &blob, ciphertext, tag: &zeros[..tag] };
            let taken = write_encrypted(&parts, &mut [0; 300]).is_ok();
            assert_eq!(taken, length % cipher.block_size() == 0 && tag == cipher.tag_length(), "{}", cipher);
        }
    }
}

/// A plain section is a whole number of blocks of the cipher `none`.
#[test]
fn the_block_of_no_cipher() {
    assert_eq!((Cipher::None.block_size(), Cipher::None.tag_length()), (8, 0));
    for length in 0..20 {
        let bytes = plain(&vec![b'c'; length]);
        let section = bytes.len() - read(&bytes).section_start() - 4;
        assert_eq!(section % Cipher::None.block_size(), 0);
    }
}

#[cfg(feature = "alloc")]
mod owned {
    use super::*;
    use saltorchard::armour::{export, exported, exported_len, import, imported};
    use saltorchard::{set_comment, write_plain, write_rsa, Checkint, PlainKey, RsaKey, MAX_IMAGE_LEN};
    use support::images::{drafts, mpint};

    /// What a writer puts into a buffer that is long enough.
    fn written(write: impl Fn(&mut [u8]) -> Result<usize, Error>) -> Result<Vec<u8>, Error> {
        let mut room = vec![0; 2 * MAX_IMAGE_LEN];
        let len = write(&mut room)?;
        Ok(room[..len].to_vec())
    }

    #[test]
    fn rewritten() {
        for bytes in drafts(&mut rng()).iter().map(Draft::bytes) {
            let image = read(&bytes);
            assert_eq!(image.rewritten(), written(|out| image.rewrite(out)));
            assert_eq!(image.rewritten().expect("room") == bytes, image.is_in_form());
        }
    }

    /// Around the limit an image that lacks its scalar's zero is one block longer when it is written again.
    #[test]
    fn rewritten_around_the_limit() {
        let mut refused = 0;
        for length in MAX_IMAGE_LEN - 320..MAX_IMAGE_LEN - 290 {
            let draft = Draft::stored(&key(1), vec![0x80; 32], 7, &vec![b'c'; length]);
            if let Ok(image) = Image::read(&draft.bytes()) {
                assert_eq!(image.rewritten(), written(|out| image.rewrite(out)));
                refused += u32::from(image.rewritten().map_err(Error::number) == Err(11));
            }
        }
        assert!(refused > 0, "none was too long");
    }

    /// The lengths of a comment: short ones, those at which an image reaches the limit, and above it.
    fn lengths(beside: usize) -> impl Iterator<Item = usize> {
        (0..20)
            .chain(MAX_IMAGE_LEN - beside - 20..MAX_IMAGE_LEN - beside + 20)
            .chain([MAX_IMAGE_LEN, 2 * MAX_IMAGE_LEN])
    }

    #[test]
    fn plain_keys() {
        for (kind, beside) in [(0, 234), (1, 303), (2, 399), (3, 518)] {
            for first in [0x01, 0x7f, 0x80] {
                let Key { public, private, .. } = key(kind).beginning(first);
                let key = PlainKey {
                    algorithm: ALGORITHMS[kind as usize],
                    public: &public,
                    private: &private,
                    checkint: Checkint::Derived,
                };
                for comment in lengths(beside).map(|length| vec![b'c'; length]) {
                    assert_eq!(key.to_image(&comment), written(|out| write_plain(&key, &comment, out)));
                }
                let cut = PlainKey { private: &private[1..], ..key };
                assert_eq!(cut.to_image("oven").map_err(Error::number), Err(1));
            }
        }
    }

    #[test]
    fn rsa_keys() {
        let numbers = [1_024, 17, 1_024, 1_024, 1_024, 1_024].map(|bits| mpint(bits, &mut rng()));
        let [n, e, d, iqmp, p, q] = &numbers;
        let key = RsaKey { n, e, d, iqmp, p, q, checkint: Checkint::Given(7) };
        for comment in lengths(1_000).map(|length| vec![b'c'; length]) {
            assert_eq!(key.to_image(&comment), written(|out| write_rsa(&key, &comment, out)));
        }
        let no_number = RsaKey { q: &[], ..key };
        assert_eq!(no_number.to_image("silo").map_err(Error::number), Err(2));
    }

    #[test]
    fn encrypted_keys() {
        let blob = read(&plain(b"")).public_blob().to_vec();
        for length in (0..40).map(|blocks| 16 * blocks).chain([65_360, 65_376, 65_392, 131_072]) {
            let (ciphertext, cipher, kdf) = (vec![7; length], Cipher::Aes256Gcm, KdfAlg::Bcrypt);
            let key = EncryptedKey {
                cipher,
                kdf,
                salt: &[5; 16],
                rounds: 16,
                blob: &blob,
                ciphertext: &ciphertext,
                tag: &[9; 16],
            };
            assert_eq!(key.to_image(), written(|out| write_encrypted(&key, out)));
        }
    }

    #[test]
    fn with_comment() {
        let comments: [&[u8]; 5] = [b"", b"oven 8", b"\xff", &[b'c'; 300], &[b'c'; MAX_IMAGE_LEN]];
        for bytes in drafts(&mut rng()).iter().map(Draft::bytes) {
            for comment in comments {
                let changed = written(|out| {
                    out[..bytes.len()].copy_from_slice(&bytes);
                    set_comment(out, bytes.len(), comment)
                });
                assert_eq!(read(&bytes).with_comment(comment), changed);
            }
        }
    }

    #[test]
    fn with_comments_around_the_limit() {
        let bytes = plain(b"oven7");
        let mut accepted = 0;
        for length in MAX_IMAGE_LEN - 330..MAX_IMAGE_LEN - 290 {
            let comment = vec![b'c'; length];
            match read(&bytes).with_comment(&comment) {
                Ok(image) => assert_eq!(read(&image).comment().len(), length),
                Err(refusal) => assert_eq!(refusal.number(), 11),
            }
            accepted += u32::from(read(&bytes).with_comment(&comment).is_ok());
        }
        assert!((1..40).contains(&accepted));
    }

    #[test]
    fn texts() {
        for length in (0..200).chain([MAX_IMAGE_LEN - 1, MAX_IMAGE_LEN]) {
            let bytes = rng().bytes(length);
            let text = exported(&bytes).expect("a text");
            assert_eq!(text.as_bytes(), written(|out| export(&bytes, out)).expect("a text"));
            assert_eq!((text.len(), text.capacity()), (exported_len(length), exported_len(length)));
            assert_eq!(imported(&text), Ok(bytes));
        }
        let above = vec![0; MAX_IMAGE_LEN + 1];
        assert_eq!(exported(&above).map_err(Error::number), Err(11));
        let text = support::model::armour::text_of(&above);
        assert_eq!(imported(&text), written(|out| import(&text, out)));
        assert_eq!(imported("oven"), written(|out| import("oven", out)));
    }
}
