//! The marked examples of the rules, M1 to M16, through the crate.

use crate::support;

use saltorchard::{write_plain, Algorithm, Checkint, EcdsaCurve, Error, Image, PlainKey};
use support::images::{Draft, Key};
use support::Rng;

const P256: Algorithm = Algorithm::Ecdsa { curve: EcdsaCurve::NistP256 };
const P521: Algorithm = Algorithm::Ecdsa { curve: EcdsaCurve::NistP521 };

/// Number and count of the refusal.
fn refused(bytes: &[u8]) -> (u64, usize) {
    let refusal = Image::read(bytes).expect_err("a refusal");
    (refusal.number(), refusal.count())
}

/// The length of the image that is written, and its padding.
fn written(algorithm: Algorithm, public: &[u8], private: &[u8], c: usize) -> Result<(usize, usize), Error> {
    let key = PlainKey { algorithm, public, private, checkint: Checkint::Given(7) };
    let mut out = vec![0; 70_000];
    let length = write_plain(&key, vec![b'c'; c], &mut out)?;
    let image = Image::read(&out[..length])?;
    assert!(image.is_in_form());
    assert_eq!(image.comment().len(), c);
    Ok((length, image.padding_len()))
}

fn ed25519(c: usize) -> Result<(usize, usize), Error> {
    written(Algorithm::Ed25519, &[1; 32], &[2; 32], c)
}

fn p256(first: u8) -> Result<(usize, usize), Error> {
    let mut private = [2; 32];
    private[0] = first;
    written(P256, &[4; 65], &private, 0)
}

/// A P-256 image whose scalar field has these first bytes and this length.
fn with_scalar(length: usize, first: &[u8]) -> Vec<u8> {
    let key = Key::new(1, &mut Rng::new("marked"));
    let mut draft = Draft::in_form(&key, 7, b"");
    let mut scalar = vec![0x11; length];
    scalar[..first.len()].copy_from_slice(first);
    draft.pair[3] = scalar;
    draft.pad();
    draft.bytes()
}

/// The length of the scalar that is read, and whether the image is in the form.
fn scalar_length_and_form(bytes: &[u8]) -> (usize, bool) {
    let image = Image::read(bytes).expect("it is read");
    (image.scalar().len(), image.is_in_form())
}

#[test]
fn m1_to_m4_the_magic() {
    assert_eq!(refused(b""), (1, 0));
    assert_eq!(refused(b"openssh-key-v1"), (1, 0));
    assert_eq!(refused(b"openssh-key-v2\0"), (2, 0));
    assert_eq!(refused(b"openssh-key-v1\0"), (1, 0));
}

#[test]
fn m5_to_m7_ed25519() {
    assert_eq!(ed25519(0), Ok((234, 5)));
    assert_eq!(ed25519(5), Ok((234, 0)));
    assert_eq!(ed25519(6), Ok((242, 7)));
}

#[test]
fn m8_and_m9_p256() {
    assert_eq!(p256(0x7f), Ok((303, 0)));
    assert_eq!(p256(0x80), Ok((311, 7)));
}

#[test]
fn m10_and_m11_not_in_the_form() {
    for image in [with_scalar(33, &[0, 0x7f]), with_scalar(32, &[0x80])] {
        assert_eq!(scalar_length_and_form(&image), (32, false));
    }
}

#[test]
fn m12_and_m13_scalars_refused() {
    assert_eq!(refused(&with_scalar(33, &[1])), (2, 0));
    assert_eq!(refused(&with_scalar(34, &[0, 0])), (6, 2));
}

/// Read if it isn't zeros only, as request Five has it.
#[test]
fn m14_a_short_scalar() {
    assert_eq!(scalar_length_and_form(&with_scalar(31, &[0x11])), (31, true));
    assert_eq!(scalar_length_and_form(&with_scalar(31, &[0x80])), (31, false));
    assert_eq!(scalar_length_and_form(&with_scalar(31, &[0, 0x80])), (30, true));
    assert_eq!(scalar_length_and_form(&with_scalar(31, &[0, 0, 0x11])), (29, false));
    assert_eq!(refused(&with_scalar(31, &[0; 31])), (2, 0));
    assert_eq!(refused(&with_scalar(0, &[])), (1, 0));
}

#[test]
fn m15_the_limit() {
    assert_eq!(ed25519(65_301), Ok((65_530, 0)));
    let refusal = ed25519(65_302).expect_err("above the limit");
    assert_eq!((refusal.number(), refusal.count()), (11, 0));
}

#[test]
fn m16_a_derived_checkint() {
    let mut private = [0; 66];
    private[64..].copy_from_slice(&[0xab, 0xcd]);
    let key = PlainKey { algorithm: P521, public: &[4; 133], private: &private, checkint: Checkint::Derived };
    let mut out = [0; 1_000];
    let length = write_plain(&key, "", &mut out).expect("the key is fine");
    assert_eq!(Image::read(&out[..length]).expect("it is read").checkint(), Some(0));
}
