//! What the crate adds to the C functions: names, sentences, and what is printed.

use crate::support;

use std::collections::BTreeSet;

use saltorchard::{set_comment, write_encrypted, write_plain, write_rsa, MAX_IMAGE_LEN};
use saltorchard::{Algorithm, Checkint, Cipher, EcdsaCurve, KdfAlg};
use saltorchard::{EncryptedKey, Error, ErrorKind, Field, Header, Image, KeyRef, LentImage, PlainKey, RsaKey};
use support::hex;
use support::images::{self, blob_bytes, sealed, strings_bytes, Draft, Key, CIPHERS};
use support::rings::{image_of, mixed, Commented};
use support::Rng;

fn rng() -> Rng {
    Rng::new("api")
}

fn good() -> Draft {
    Draft::in_form(&Key::new(1, &mut rng()).beginning(0x80), 0xfeed_beef, b"oven7")
}

fn changed(change: impl Fn(&mut Draft)) -> Vec<u8> {
    let mut draft = good();
    change(&mut draft);
    draft.pad();
    draft.bytes()
}

fn refusal(change: impl Fn(&mut Draft)) -> Error {
    Image::read(&changed(change)).expect_err("a refusal")
}

fn comment_refusal(mut image: Vec<u8>, comment: &str) -> Error {
    let len = image.len();
    set_comment(&mut image, len, comment).expect_err("a refusal")
}

/// One refusal of each number.
fn refusals() -> Vec<Error> {
    vec![
        refusal(|draft| draft.count = 17),
        refusal(|draft| draft.magic[0] = b'O'),
        refusal(|draft| draft.checkints[1] = 1),
        refusal(|draft| draft.cipher = b"aes512-ctr".to_vec()),
        refusal(|draft| draft.blob[2][64] ^= 1),
        refusal(|draft| draft.rest = vec![0, 0]),
        refusal(|draft| draft.comment = b"oven\xff".to_vec()),
        comment_refusal(sealed(0, 7, true, 2, &mut rng()).bytes(), "new"),
        comment_refusal(good().bytes(), "a longer comment than the buffer has room for"),
        comment_refusal(changed(|draft| draft.pair[3] = draft.pair[3][1..].to_vec()), "new"),
        Image::read(&[0; MAX_IMAGE_LEN + 1]).expect_err("a refusal"),
    ]
}

#[test]
fn refusals_in_words() {
    let sentences = [
        "Refusal 1 (Length): the key count at byte 35 is 17, and 1 to 16 keys in a file are taken.",
        "Refusal 2 (FormatEncoding): the image doesn't begin with `openssh-key-v1` and a zero byte.",
        "Refusal 3 (Crypto): the second checkint at byte 155 isn't equal to the first: the two check numbers before the key differ, so the section is damaged.",
        "Refusal 4 (AlgorithmUnknown): the cipher name's string at byte 15 is \"aes512-ctr\", and no such cipher is known here.",
        "Refusal 5 (PublicKey): the key name's string in the section at byte 159 begins another public key than the header's.",
        "Refusal 6 (TrailingData): the image has 2 bytes too many, from byte 311 on.",
        "Refusal 7 (CharacterEncoding): the comment's string at byte 300 isn't UTF-8.",
        "Refusal 8 (Encrypted): the image is encrypted, and a plain one is needed.",
        "Refusal 9 (BufferTooShort): the lent buffer is too short.",
        "Refusal 10 (NotInForm): the image isn't in the writer's form, so rewrite it first: it lacks the zero byte that its scalar needs before it.",
        "Refusal 11 (TooLarge): the image has 65,536 bytes, and at most 65,535 are taken.",
    ];
    for (refusal, sentence) in refusals().iter().zip(sentences) {
        assert_eq!(refusal.to_string(), sentence);
    }
    assert_eq!(
        refusal(|draft| draft.blob_rest = vec![0]).to_string(),
        "Refusal 6 (TrailingData): the blob's string has 1 byte too many, from byte 147 on."
    );
}

#[test]
fn refusals_in_numbers() {
    let refusals = refusals();
    let numbers: Vec<u64> = refusals.iter().map(|refusal| refusal.number()).collect();
    assert_eq!(numbers, (1..=11).collect::<Vec<u64>>());
    for refusal in &refusals {
        assert_eq!(refusal.count(), if refusal.number() == 6 { 2 } else { 0 });
    }
    let names: BTreeSet<&str> = refusals.iter().map(|refusal| refusal.name()).collect();
    assert_eq!(names.len(), 11);
}

#[cfg(feature = "std")]
#[test]
fn a_refusal_is_an_error() {
    let refusal = refusals()[0];
    let boxed: Box<dyn std::error::Error> = Box::new(refusal);
    assert_eq!(boxed.to_string(), refusal.to_string());
}

#[test]
fn refusals_by_kind() {
    let kinds = [
        (ErrorKind::Length, "Length"),
        (ErrorKind::FormatEncoding, "FormatEncoding"),
        (ErrorKind::Crypto, "Crypto"),
        (ErrorKind::AlgorithmUnknown, "AlgorithmUnknown"),
        (ErrorKind::PublicKey, "PublicKey"),
        (ErrorKind::TrailingData, "TrailingData"),
        (ErrorKind::CharacterEncoding, "CharacterEncoding"),
        (ErrorKind::Encrypted, "Encrypted"),
        (ErrorKind::BufferTooShort, "BufferTooShort"),
        (ErrorKind::NotInForm, "NotInForm"),
        (ErrorKind::TooLarge, "TooLarge"),
    ];
    for (refusal, (kind, name)) in refusals().into_iter().zip(kinds) {
        assert_eq!((refusal.kind(), refusal.name(), kind.name()), (kind, name, name));
        assert_eq!((refusal.number(), format!("{:?}", kind)), (kind as u64, name.to_string()));
    }
}

#[test]
fn refusals_by_field() {
    let fields: Vec<Field> = refusals().iter().map(|refusal| refusal.field()).collect();
    let [image, count, checkint] = [Field::Image, Field::KeyCount, Field::SecondCheckint];
    let [cipher, name, comment] = [Field::CipherName, Field::SectionKeyName, Field::Comment];
    assert_eq!(fields, [count, image, checkint, cipher, name, image, comment, image, image, image, image]);
    assert_eq!(format!("{:>26}|{:?}", comment, comment), "      the comment's string|Comment");
    let debug = format!("{:?}", refusals()[6]);
    assert_eq!(
        debug,
        "Error { kind: CharacterEncoding, count: 0, at: 300, field: Comment, key: None, device: None, part: None, cause: NotUtf8 }"
    );
    let debug = format!("{:?}", refusal(|draft| draft.cipher = b"aes\xff".to_vec()));
    assert!(debug.ends_with("cause: Unknown(Cipher, \"aes\\xff\") }"), "{}", debug);
}

#[test]
fn names() {
    let algorithms = [
        (Algorithm::Ed25519, "ssh-ed25519"),
        (Algorithm::Ecdsa { curve: EcdsaCurve::NistP256 }, "ecdsa-sha2-nistp256"),
        (Algorithm::Ecdsa { curve: EcdsaCurve::NistP384 }, "ecdsa-sha2-nistp384"),
        (Algorithm::Ecdsa { curve: EcdsaCurve::NistP521 }, "ecdsa-sha2-nistp521"),
        (Algorithm::Rsa, "ssh-rsa"),
    ];
    for (algorithm, name) in algorithms {
        assert_eq!((algorithm.as_str(), algorithm.to_string().as_str()), (name, name));
        if let Algorithm::Ecdsa { curve } = algorithm {
            assert_eq!(format!("ecdsa-sha2-{}", curve), name);
        }
    }
    for (code, name) in CIPHERS.iter().enumerate().skip(1) {
        let image = sealed(0, code as u8, true, 1, &mut rng()).bytes();
        let image = Image::read(&image).expect("a good image");
        assert_eq!(image.cipher().to_string(), *name);
        assert!(image.is_encrypted() && image.cipher().is_some() && !image.cipher().is_none());
        assert_eq!(image.kdf().to_string(), "bcrypt");
    }
    assert_eq!((Cipher::None.as_str(), KdfAlg::None.as_str()), ("none", "none"));
}

#[test]
fn what_an_image_shows() {
    let key = Key::new(1, &mut rng()).beginning(0x80);
    let bytes = Draft::in_form(&key, 0xfeed_beef, b"oven7").bytes();
    let image = Image::read(&bytes).expect("a good image");
    let debug = format!("{:?} {:#?}", image, image);
    assert!(debug.contains("NistP256") && debug.contains("\"oven7\"") && debug.contains("len: 311"));
    hides_private_bytes(&debug, &key.private);
    assert!(!debug.contains(&0xfeed_beef_u32.to_string()), "a checkint may come from private bytes");
}

#[test]
fn what_the_other_types_show() {
    let key = Key::new(0, &mut rng());
    let (algorithm, checkint) = (Algorithm::Ed25519, Checkint::Given(0xfeed_beef));
    let plain = PlainKey { algorithm, public: &key.public, private: &key.private, checkint };
    let mut buffer = [0; 300];
    let len = write_plain(&plain, "oven7", &mut buffer).expect("the key is fine");
    let lent = LentImage::new(&mut buffer, len).expect("a good image");
    let debug = format!("{:?} {:?}", plain, lent);
    hides_private_bytes(&debug, &key.private);
    assert!(!debug.contains(&0xfeed_beef_u32.to_string()));
    assert!(debug.contains("len: 234, buffer_len: 300"));
}

#[test]
fn what_an_rsa_key_shows() {
    let numbers = images::RsaKey::new(1_024, &mut rng());
    let [n, e, d, iqmp, p, q] = numbers.numbers();
    let key = RsaKey { n, e, d, iqmp, p, q, checkint: Checkint::Given(0xfeed_beef) };
    let mut buffer = [0; 800];
    let len = write_rsa(&key, "silo 3", &mut buffer).expect("the key is fine");
    let image = Image::read(&buffer[..len]).expect("a good image");
    let debug = format!("{:?} {:#?} {:?}", key, image, Header::read(&buffer).expect("a good header"));
    assert!(debug.starts_with("RsaKey { n_len: 129, e_len: 3, .. }") && debug.contains("algorithm: Rsa"));
    assert!(!debug.contains(&0xfeed_beef_u32.to_string()));
    for private in [d, iqmp, p, q] {
        hides_private_bytes(&debug, private);
    }
}

/// No three private bytes stand in the text, as a list of numbers or in hex.
fn hides_private_bytes(text: &str, private: &[u8]) {
    let text = text.split_whitespace().collect::<String>();
    for three in private.windows(3) {
        assert!(!text.contains(&format!("{},{},{}", three[0], three[1], three[2])));
        assert!(!text.to_lowercase().contains(&hex(three)));
    }
}

#[test]
fn an_encrypted_image() {
    let key = Key::new(2, &mut rng());
    let (blob, ciphertext, tag) = (blob_bytes(&key), [3; 32], [9; 16]);
    let (cipher, kdf) = (Cipher::Aes256Gcm, KdfAlg::Bcrypt);
    let parts =
        EncryptedKey { cipher, kdf, salt: b"salt", rounds: 24, blob: &blob, ciphertext: &ciphertext, tag: &tag };
    let mut out = [0; 400];
    let len = write_encrypted(&parts, &mut out).expect("the parts are fine");
    let image = Image::read(&out[..len]).expect("a good image");
    assert_eq!((image.comment(), image.checkint(), image.padding_len()), ("", None, 0));
    assert_eq!((image.salt(), image.rounds()), (&b"salt"[..], 24));
    assert_eq!((image.ciphertext(), image.tag()), (&ciphertext[..], &tag[..]));
    assert_eq!((image.public_blob(), image.point()), (&blob[..], &key.public[..]));
    assert!(image.scalar().is_empty() && image.is_in_form());
    let mut again = [0; 400];
    assert_eq!(image.rewrite(&mut again), Ok(len));
    assert_eq!(again[..len], out[..len]);
}

#[test]
fn an_rsa_image() {
    let key = images::RsaKey::new(2_048, &mut rng());
    let [n, e, d, iqmp, p, q] = key.numbers();
    let bytes = Draft::rsa(&key, 0xfeed_beef, b"silo 3").bytes();
    let header = Header::read(&bytes).expect("a good image");
    assert_eq!((header.algorithm(), header.bits()), (Algorithm::Rsa, 2_048));
    assert_eq!((header.modulus(), header.exponent(), header.point()), (n, e, &b""[..]));
    let image = header.section().expect("a good image");
    assert_eq!((image.algorithm(), image.bits(), image.comment()), (Algorithm::Rsa, 2_048, "silo 3"));
    assert_eq!((image.modulus(), image.exponent()), (n, e));
    assert_eq!((image.d(), image.iqmp(), image.p(), image.q()), (d, iqmp, p, q));
    assert!(image.point().is_empty() && image.scalar().is_empty() && image.is_in_form());
    assert_eq!(image.public_blob(), strings_bytes(&key.blob()));
}

#[test]
fn an_encrypted_rsa_image() {
    let key = images::RsaKey::new(1_024, &mut rng());
    let [n, e, ..] = key.numbers();
    let bytes = Draft::rsa(&key, 0, b"").sealed(9, true, 2, &mut rng()).bytes();
    let image = Image::read(&bytes).expect("a good image");
    assert_eq!((image.modulus(), image.exponent(), image.bits()), (n, e, 1_024));
    for private in [image.d(), image.iqmp(), image.p(), image.q(), image.scalar()] {
        assert!(private.is_empty());
    }
}

#[test]
fn an_image_without_rsa_numbers() {
    let bytes = good().bytes();
    let image = Image::read(&bytes).expect("a good image");
    assert_eq!(image.bits(), 0);
    for number in [image.modulus(), image.exponent(), image.d(), image.iqmp(), image.p(), image.q()] {
        assert!(number.is_empty());
    }
}

#[test]
fn rsa_has_its_own_writer() {
    let (algorithm, checkint) = (Algorithm::Rsa, Checkint::Derived);
    let key = PlainKey { algorithm, public: &[], private: &[], checkint };
    let refusal = write_plain(&key, b"\xff", &mut []).expect_err("a refusal");
    assert_eq!((refusal.number(), refusal.count(), refusal.place()), (4, 0, 0));
    assert_eq!(refusal.field(), Field::HandedIn);
}

#[test]
fn a_header_of_a_plain_image() {
    let key = Key::new(1, &mut rng()).beginning(0x80);
    let bytes = Draft::in_form(&key, 0xfeed_beef, b"oven7").bytes();
    let header = Header::read(&bytes).expect("a good image");
    assert_eq!(header.algorithm(), Algorithm::Ecdsa { curve: EcdsaCurve::NistP256 });
    assert_eq!((header.cipher(), header.kdf(), header.is_encrypted()), (Cipher::None, KdfAlg::None, false));
    assert_eq!((header.public_blob(), header.point()), (&blob_bytes(&key)[..], &key.public[..]));
    assert_eq!((header.salt(), header.rounds(), header.section_start()), (&b""[..], 0, 147));
    let image = header.section().expect("a good image");
    assert_eq!((image.comment(), image.scalar(), image.section_start()), ("oven7", &key.private[..], 147));
    assert!(std::ptr::eq(image.as_bytes(), &bytes[..]));
    let debug = format!("{:?}", header);
    let shown =
        "Header { algorithm: Ecdsa { curve: NistP256 }, cipher: None, kdf: None, key_count: 1, section_start: 147";
    assert!(debug.starts_with(shown), "{}", debug);
    hides_private_bytes(&format!("{} {:#?}", debug, header), &key.private);
}

#[test]
fn a_header_of_an_encrypted_image() {
    let draft = sealed(0, 9, true, 2, &mut rng());
    let (salt, rounds) = draft.options.clone().expect("bcrypt's options");
    let (ciphertext, tag) = draft.sealed.clone().expect("an encrypted section");
    let bytes = draft.bytes();
    let header = Header::read(&bytes).expect("a good image");
    assert_eq!((header.algorithm(), header.is_encrypted()), (Algorithm::Ed25519, true));
    assert_eq!((header.cipher(), header.kdf()), (Cipher::Aes256Gcm, KdfAlg::Bcrypt));
    assert_eq!((header.salt(), header.rounds(), header.point()), (&salt[..], rounds, &draft.blob[1][..]));
    assert_eq!(header.section_start(), bytes.len() - tag.len() - ciphertext.len() - 4);
    let image = header.section().expect("a good image");
    assert_eq!((image.ciphertext(), image.tag()), (&ciphertext[..], &tag[..]));
}

/// Keys of every kind with comments, and their image.
fn several() -> (Vec<Commented>, Vec<u8>) {
    let keys = mixed(5, 0, true, &mut rng());
    let image = image_of(&keys, 0xfeed_beef);
    (keys, image)
}

#[test]
fn an_image_of_several_keys() {
    let (keys, bytes) = several();
    let image = Image::read(&bytes).expect("a good image");
    assert_eq!((image.key_count(), Header::read(&bytes).map(|header| header.key_count())), (5, Ok(5)));
    assert_eq!((image.keys().len(), image.keys().count()), (5, 5));
    for (key, k) in keys.iter().zip(1..) {
        let found = image.key(k).expect("a key");
        assert_eq!(found.comment().as_bytes(), key.comment);
        assert_eq!(found.public_blob(), strings_bytes(&key.draft(0).blob));
        assert_eq!(found.bits() > 0, found.algorithm() == Algorithm::Rsa);
        assert!(found.same_key(&image.keys().nth(k - 1).expect("a key")));
    }
    let first = image.key(1).expect("a key");
    assert_eq!((image.algorithm(), image.scalar()), (first.algorithm(), first.scalar()));
    assert!(image.key(0).is_none() && image.key(6).is_none() && image.key(usize::MAX).is_none());
    let mut keys = image.keys();
    assert_eq!((keys.next_back().map(|key| key.bits() > 0), keys.len()), (Some(true), 4));
    assert_eq!((keys.by_ref().count(), keys.next().is_none(), keys.next_back().is_none()), (4, true, true));
}

#[test]
fn what_a_key_shows() {
    let (keys, bytes) = several();
    let image = Image::read(&bytes).expect("a good image");
    assert!(format!("{:?}", image).contains("key_count: 5"));
    for (key, k) in keys.iter().zip(1..) {
        let found = image.key(k).expect("a key");
        let mut room = [0; EcdsaCurve::MAX_SIZE];
        let debug = format!("{:?} {:#?} {:?} {:?}", found, found, found.key_ref(&mut room), image.keys());
        let comment = std::str::from_utf8(&key.comment).expect("UTF-8");
        assert!(debug.starts_with(&format!(
            "Key {{ algorithm: {:?}, comment: {:?}, .. }}",
            found.algorithm(),
            comment
        )));
        assert!(debug.ends_with("Keys { left: 5, .. }"), "{}", debug);
        for private in [found.scalar(), found.d(), found.iqmp(), found.p(), found.q()] {
            hides_private_bytes(&debug, private);
        }
    }
}

/// The keys of an image, taken out and written again, and put together by additions.
#[test]
fn keys_written_again() {
    let (_, bytes) = several();
    let image = Image::read(&bytes).expect("a good image");
    let mut rooms = [[0; EcdsaCurve::MAX_SIZE]; 5];
    let refs: Vec<KeyRef> = image.keys().zip(&mut rooms).map(|(key, room)| key.key_ref(room)).collect();
    #[cfg(feature = "alloc")]
    {
        let mut out = vec![0; bytes.len()];
        let checkint = Checkint::Given(0xfeed_beef);
        assert_eq!(saltorchard::write_keys(&refs, checkint, &mut out), Ok(bytes.len()));
        assert_eq!(out, bytes);
    }
    let mut buffer = vec![0; bytes.len()];
    buffer[..].copy_from_slice(&bytes);
    let mut lent = LentImage::new(&mut buffer, bytes.len()).expect("a good image");
    for key in &refs {
        lent.remove(1).expect("not the only key");
        lent.add_key(key).expect("the room that was freed");
    }
    assert_eq!(lent.as_bytes(), bytes);
}

#[test]
fn edits_of_a_lent_image() {
    let (keys, bytes) = several();
    let mut buffer = [&bytes[..], &[7; 400]].concat();
    let mut lent = LentImage::new(&mut buffer, bytes.len()).expect("a good image");
    lent.set_comment_of(4, "line 4").expect("room");
    assert_eq!(lent.image().expect("still an image").key(4).map(|key| key.comment().len()), Some(6));
    let refused = lent.set_comment_of(2, b"\xff").expect_err("a refusal");
    assert_eq!((refused.number(), refused.field(), refused.key()), (7, Field::Comment, Some(2)));
    let ed25519 =
        PlainKey { algorithm: Algorithm::Ed25519, public: &[7; 32], private: &[1; 32], checkint: Checkint::Given(1) };
    let len = lent.add(&ed25519, "new").expect("room");
    let image = lent.image().expect("still an image");
    assert_eq!((lent.len(), image.key_count(), image.checkint()), (len, 6, Some(0xfeed_beef)));
    let rsa = images::RsaKey::new(1_024, &mut rng());
    let [n, e, d, iqmp, p, q] = rsa.numbers();
    let rsa = RsaKey { n, e, d, iqmp, p, q, checkint: Checkint::Derived };
    assert_eq!(lent.add_rsa(&rsa, "silo").map_err(Error::number), Err(9));
    assert_eq!(lent.remove(7).map_err(Error::number), Err(1));
    assert_eq!(lent.len(), len);
    for _ in 1..6 {
        lent.remove(2).expect("not the only key");
    }
    assert_eq!(lent.remove(1).map_err(Error::number), Err(1));
    assert_eq!(lent.as_bytes(), image_of(&keys[..1], 0xfeed_beef));
}

/// The header of `bytes` is read, and the section is then refused as the whole image is.
fn section_refused(bytes: &[u8]) -> (u64, usize, usize) {
    let header = Header::read(bytes).expect("a good header");
    assert_eq!(header.algorithm(), Algorithm::Ecdsa { curve: EcdsaCurve::NistP256 });
    let refusal = header.section().expect_err("a refusal");
    assert_eq!(Image::read(bytes).expect_err("a refusal"), refusal);
    (refusal.number(), refusal.count(), refusal.place())
}

#[test]
fn a_header_before_a_damaged_section() {
    let good = good().bytes();
    assert_eq!(section_refused(&good[..good.len() - 1]), (1, 0, 147));
    assert_eq!(section_refused(&good[..149]), (1, 0, 147));
    assert_eq!(section_refused(&good[..147]), (1, 0, 147));
    assert_eq!(section_refused(&changed(|draft| draft.checkints[1] = 1)), (3, 0, 155));
    assert_eq!(section_refused(&changed(|draft| draft.pair[2][64] ^= 1)), (5, 0, 159));
    assert_eq!(section_refused(&changed(|draft| draft.rest = vec![0, 0])), (6, 2, 311));
    assert_eq!(section_refused(&changed(|draft| draft.comment = b"oven\xff".to_vec())), (7, 0, 300));
    let kdf_without_cipher = changed(|draft| {
        draft.kdf = b"bcrypt".to_vec();
        draft.options = Some((b"salt".to_vec(), 16));
    });
    assert_eq!(section_refused(&kdf_without_cipher), (3, 0, 23));
}

#[test]
fn headers_refused() {
    let refused = |bytes: &[u8]| {
        let refusal = Header::read(bytes).expect_err("a refusal");
        assert_eq!(Image::read(bytes).expect_err("a refusal"), refusal);
        (refusal.number(), refusal.count(), refusal.place())
    };
    assert_eq!(refused(b""), (1, 0, 0));
    assert_eq!(refused(&good().bytes()[..146]), (1, 0, 39));
    assert_eq!(refused(&changed(|draft| draft.cipher = b"aes512-ctr".to_vec())), (4, 0, 15));
    assert_eq!(refused(&changed(|draft| draft.blob_rest = vec![0; 3])), (6, 3, 147));
    assert_eq!(refused(&[0; MAX_IMAGE_LEN + 1]), (11, 0, 0));
}

#[test]
fn a_lent_image_is_read_first() {
    let number = |buffer: &mut [u8], len| LentImage::new(buffer, len).expect_err("a refusal").number();
    let mut image = good().bytes();
    let len = image.len();
    assert_eq!(number(&mut image, len + 1), 1);
    assert_eq!(number(&mut image, MAX_IMAGE_LEN), 1);
    assert_eq!(number(&mut image, MAX_IMAGE_LEN + 1), 11);
    assert_eq!(number(&mut image, usize::MAX), 11);
    assert_eq!(number(&mut image, len - 1), 1);
    assert_eq!(number(&mut vec![0; 70_000], 65_536), 11);
}

/// Every refusal of a length is the one that the library gives for the same length.
#[test]
fn a_lent_image_refuses_as_the_library_does() {
    let mut image = good().bytes();
    for len in [0, 14, 15, 310, 312, 400, 65_535, 65_536, usize::MAX] {
        let library = set_comment(&mut image, len, "").expect_err("a refusal");
        assert_eq!(LentImage::new(&mut image, len).expect_err("a refusal"), library);
    }
}
