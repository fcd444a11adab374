use saltorchard::{write_encrypted, write_plain, Algorithm, Checkint, Cipher};
use saltorchard::{EncryptedKey, Error, Header, KdfAlg, PlainKey};

/// What to ask the user, if anything. The header says it, and the section isn't looked at.
fn question(header: &Header) -> Option<String> {
    if !header.is_encrypted() {
        return None;
    }
    Some(format!("Passphrase of the {} key ({}):", header.algorithm(), header.cipher()))
}

pub fn main() -> Result<(), Error> {
    let (algorithm, checkint) = (Algorithm::Ed25519, Checkint::Derived);
    let key = PlainKey { algorithm, public: &[7; 32], private: &[1; 32], checkint };
    let mut plain = [0; 1024];
    let len = write_plain(&key, "oven7", &mut plain)?;
    let header = Header::read(&plain[..len])?;
    assert_eq!(question(&header), None);
    assert_eq!(header.section()?.comment(), "oven7");

    let sealed = EncryptedKey {
        cipher: Cipher::Aes256Ctr,
        kdf: KdfAlg::Bcrypt,
        salt: &[5; 16],
        rounds: 24,
        blob: header.public_blob(),
        ciphertext: &[0; 144], // made up, too
        tag: &[],
    };
    let mut encrypted = [0; 1024];
    let len = write_encrypted(&sealed, &mut encrypted)?;
    let header = Header::read(&encrypted[..len])?;
    assert_eq!(question(&header).as_deref(), Some("Passphrase of the ssh-ed25519 key (aes256-ctr):"));
    assert_eq!((header.salt(), header.rounds()), (&[5; 16][..], 24));
    assert_eq!(header.section()?.ciphertext().len(), 144);
    Ok(())
}
