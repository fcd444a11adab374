use saltorchard::{write_rsa, Algorithm, Checkint, Error, Header, RsaKey};

pub fn main() -> Result<(), Error> {
    // Made-up numbers: whether they belong together isn't looked at. A zero stands before a first byte of 0x80 or more.
    let n = [&[0][..], &[0xc5; 256]].concat();
    let (d, iqmp, p, q) = ([0x1d; 256], [0x2b; 128], [0x7f; 128], [0x61; 128]);
    let key = RsaKey { n: &n, e: &[1, 0, 1], d: &d, iqmp: &iqmp, p: &p, q: &q, checkint: Checkint::Derived };
    let mut buffer = [0; 4096];
    let len = write_rsa(&key, "silo 3", &mut buffer)?;

    let header = Header::read(&buffer[..len])?;
    assert_eq!((header.algorithm(), header.bits()), (Algorithm::Rsa, 2048));
    assert_eq!((header.modulus(), header.exponent()), (&n[..], &[1, 0, 1][..]));
    let image = header.section()?;
    assert_eq!((image.d(), image.iqmp(), image.p(), image.q()), (&d[..], &iqmp[..], &p[..], &q[..]));

    let needless_zero = RsaKey { e: &[0, 1, 0, 1], ..key };
    assert_eq!(write_rsa(&needless_zero, "silo 3", &mut buffer).unwrap_err().number(), 2);
    let modulus_of_1016_bits = RsaKey { n: &n[..128], ..key };
    assert_eq!(write_rsa(&modulus_of_1016_bits, "silo 3", &mut buffer).unwrap_err().number(), 1);
    Ok(())
}
