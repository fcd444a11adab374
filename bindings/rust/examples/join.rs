use saltorchard::{write_keys, write_plain, write_rsa, Algorithm, Checkint, EcdsaCurve, Error, Image};
use saltorchard::{KeyRef, LentImage, PlainKey, RsaKey, MAX_IMAGE_LEN, MAX_KEYS};

/// Joins the keys of images, in their order, to one image under the first key's derived checkint.
fn join(images: &[Image], out: &mut [u8]) -> Result<usize, Error> {
    let mut rooms = [[0; EcdsaCurve::MAX_SIZE]; MAX_KEYS + 1]; // for scalars with their zeros; one key more is refused
    let keys = images.iter().flat_map(Image::keys).zip(&mut rooms).map(|(key, room)| key.key_ref(room));
    write_keys(&keys.collect::<Vec<KeyRef>>(), Checkint::Derived, out)
}

pub fn main() -> Result<(), Error> {
    // Three files of one key each, made up.
    let (curve, checkint) = (EcdsaCurve::NistP256, Checkint::Derived);
    let oven = PlainKey { algorithm: Algorithm::Ed25519, public: &[7; 32], private: &[1; 32], checkint };
    let mixer = PlainKey { algorithm: Algorithm::Ecdsa { curve }, public: &[4; 65], private: &[2; 32], checkint };
    let (n, d, p) = ([0x51; 256], [0x1d; 256], [0x7f; 128]);
    let silo = RsaKey { n: &n, e: &[1, 0, 1], d: &d, iqmp: &p, p: &p, q: &p, checkint };
    let mut files = [[0; 2048]; 3];
    let lens = [
        write_plain(&oven, "oven7", &mut files[0])?,
        write_plain(&mixer, "mixer", &mut files[1])?,
        write_rsa(&silo, "silo 3", &mut files[2])?,
    ];
    let [oven, mixer, silo] = [0, 1, 2].map(|file| Image::read(&files[file][..lens[file]]));

    let mut bakery = vec![0; MAX_IMAGE_LEN];
    let len = join(&[oven?, mixer?, silo?], &mut bakery)?;
    let image = Image::read(&bakery[..len])?;
    assert_eq!((image.key_count(), image.comment()), (3, "oven7")); // the image's own comment is the first key's
    let comments: Vec<&str> = image.keys().map(|key| key.comment()).collect();
    assert_eq!(comments, ["oven7", "mixer", "silo 3"]);
    assert_eq!(image.key(3).map(|key| key.bits()), Some(2047));

    // One is taken out again, into a file of its own.
    let mut alone = [0; 2048];
    let mut room = [0; EcdsaCurve::MAX_SIZE];
    let taken = image.key(2).map(|key| key.key_ref(&mut room)).into_iter().collect::<Vec<_>>();
    let alone_len = write_keys(&taken, Checkint::Derived, &mut alone)?;
    assert_eq!(alone[..alone_len], files[1][..lens[1]]);
    let mut lent = LentImage::new(&mut bakery, len)?;
    lent.remove(2)?;
    lent.set_comment_of(2, "silo 3, refilled")?;
    assert_eq!(lent.image()?.keys().map(|key| key.comment()).collect::<Vec<_>>(), ["oven7", "silo 3, refilled"]);

    let refusal = lent.remove(3).unwrap_err();
    assert_eq!(refusal.to_string(), "Refusal 1 (Length): the image has no key 3: it has 2 keys.");
    Ok(())
}
