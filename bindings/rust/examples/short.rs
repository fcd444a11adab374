use saltorchard::{write_plain, Algorithm, Checkint, EcdsaCurve, Error, Image, PlainKey};

pub fn main() -> Result<(), Error> {
    let mut private = [0x2a; 66]; // a made-up scalar of P-521, of 64 bytes
    private[..2].fill(0);
    let key = PlainKey {
        algorithm: Algorithm::Ecdsa { curve: EcdsaCurve::NistP521 },
        public: &[4; 133],
        private: &private,
        checkint: Checkint::Derived,
    };
    let mut buffer = [0; 1024];
    let len = write_plain(&key, "oven7", &mut buffer)?;
    let image = Image::read(&buffer[..len])?;
    assert_eq!(image.scalar(), [0x2a; 64]);

    let mut room = [0; EcdsaCurve::MAX_SIZE];
    let same_key = PlainKey { private: image.full_scalar(&mut room), ..key };
    let mut again = [0; 1024];
    write_plain(&same_key, "oven7", &mut again)?;
    assert_eq!(buffer, again);

    let zeros_only = PlainKey { private: &[0; 66], ..key };
    assert_eq!(write_plain(&zeros_only, "oven7", &mut again).unwrap_err().number(), 2);
    Ok(())
}
