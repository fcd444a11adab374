use saltorchard::{write_plain, Algorithm, Checkint, Error, Field, Image, LentImage, PlainKey};

pub fn main() -> Result<(), Error> {
    let key = PlainKey {
        algorithm: Algorithm::Ed25519,
        public: &[7; 32], // a made-up key: whether the halves belong together isn't looked at
        private: &[1; 32],
        checkint: Checkint::Given(0x5a17),
    };
    let mut buffer = [0; 1024];
    let len = write_plain(&key, "oven7", &mut buffer)?;
    assert_eq!(len, 234);

    let image = Image::read(&buffer[..len])?;
    assert_eq!(image.algorithm().as_str(), "ssh-ed25519");
    assert_eq!(image.comment(), "oven7");
    assert!(image.is_in_form());

    let mut lent = LentImage::new(&mut buffer, len)?;
    assert_eq!(lent.set_comment("oven 7, line 2")?, 250);
    assert_eq!(lent.image()?.comment(), "oven 7, line 2");

    let refusal = lent.set_comment(b"\xff").unwrap_err();
    assert_eq!((refusal.number(), refusal.field(), refusal.place()), (7, Field::Comment, 225));
    println!("{}", refusal);
    Ok(())
}
