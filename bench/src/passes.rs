//! Passes over images by whoever reads or rewrites them, each called through a pointer. No buffer is cleared.

use std::time::{Duration, Instant};

/// The value, by a way that the compiler doesn't see through: what is called isn't taken into the loop that calls it, and what
/// it answers isn't dropped.
pub fn opaque<T: Copy>(value: T) -> T {
    // SAFETY: the reference is to a live value of a type that may be copied.
    unsafe { std::ptr::read_volatile(&value) }
}

pub fn copy(image: &[u8], out: &mut [u8]) -> usize {
    out[..image.len()].copy_from_slice(image);
    image.len()
}

/// What `read` answers is dropped within the time.
pub fn read_pass<R>(images: &[Vec<u8>], read: fn(&[u8]) -> R, number: fn(&R) -> u64) -> Duration {
    let read = opaque(read);
    let mut refused = 0;
    let start = Instant::now();
    for image in images {
        refused += number(&read(image));
    }
    let took = start.elapsed();
    assert_eq!(opaque(refused), 0, "an image was refused");
    took
}

/// What `rewrite` answers is dropped within the time.
pub fn rewrite_pass<R>(
    images: &[Vec<u8>],
    out: &mut [u8],
    rewrite: fn(&[u8], &mut [u8]) -> R,
    length: fn(&R) -> usize,
) -> Duration {
    write_pass(images, out, rewrite, length, images.iter().map(Vec::len).sum())
}

/// The same for calls that write so many bytes together.
pub fn write_pass<R>(
    handed: &[Vec<u8>],
    out: &mut [u8],
    write: fn(&[u8], &mut [u8]) -> R,
    length: fn(&R) -> usize,
    wanted: usize,
) -> Duration {
    let write = opaque(write);
    let mut written = 0;
    let start = Instant::now();
    for bytes in handed {
        written += length(&write(bytes, out));
    }
    let took = start.elapsed();
    assert_eq!(opaque(written), wanted, "a wrong length was written");
    took
}
