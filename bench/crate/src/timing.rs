//! The timed jobs. A pass is one job over one group of images by one competitor.

use crate::images::LIMIT;
use crate::passes::{copy, opaque, read_pass, rewrite_pass};
use crate::theirs;
use crate::yardstick;
use saltorchard::raw::{self, Image, Reply};
use ssh_key::PrivateKey;
use std::time::{Duration, Instant};

pub const JOBS: [&str; 3] = ["read", "rewrite", "two calls"];
const READ: usize = 0;
const REWRITE: usize = 1;
pub const COMPETITORS: [&str; 4] = ["library", "copy", "yardstick", "crate"];
const LIBRARY: usize = 0;
const COPY: usize = 1;
const YARDSTICK: usize = 2;

/// Images of one sort, in the order that they have in the set.
pub struct Group {
    pub name: &'static str,
    images: Vec<Vec<u8>>,
    out: Vec<u8>,
}

pub fn groups(images: &[Vec<u8>]) -> Vec<Group> {
    let group = |name, belongs: fn(&[u8], &Image) -> bool| {
        let images = images.iter().filter(|image| belongs(image, &raw::read(image))).cloned().collect();
        Group { name, images, out: vec![0; LIMIT] }
    };
    vec![
        group("all", |_, _| true),
        group("small", |_, record| is_small(record)),
        group("long", |_, record| is_long(record)),
        group("small, not ASCII", |image, record| is_small(record) && !comment(image, record).is_ascii()),
        group("small, encrypted", |_, record| is_small(record) && record.kind == 2),
        group("RSA", |_, record| is_rsa(record)),
    ]
}

fn comment<'a>(image: &'a [u8], record: &Image) -> &'a [u8] {
    &image[record.comment.start as usize..][..record.comment.length as usize]
}

fn is_rsa(record: &Image) -> bool {
    record.algorithm == 4
}

fn is_long(record: &Image) -> bool {
    record.comment.length.max(record.ciphertext.length) >= 4_000
}

fn is_small(record: &Image) -> bool {
    !is_rsa(record) && !is_long(record)
}

impl Group {
    pub fn calls(&self) -> usize {
        self.images.len()
    }

    pub fn bytes(&self) -> usize {
        self.images.iter().map(Vec::len).sum()
    }

    /// The crate reads before it writes in each job but the first, and the copy is a copy in all three.
    pub fn pass(&mut self, job: usize, competitor: usize) -> Duration {
        let (images, out) = (&self.images[..], &mut self.out[..]);
        match (job, competitor) {
            (_, COPY) => rewrite_pass(images, out, copy, |length| *length),
            (READ, LIBRARY) => read_pass(images, raw::read, |image| image.number),
            (READ, YARDSTICK) => read_pass(images, yardstick::read, |image| image.number),
            (READ, _) => read_pass(images, PrivateKey::from_bytes, |key| u64::from(key.is_err())),
            (REWRITE, LIBRARY) => rewrite_pass(images, out, raw::rewrite, |reply| reply.length as usize),
            (REWRITE, YARDSTICK) => rewrite_pass(images, out, yardstick::rewrite, |reply| reply.length as usize),
            (_, LIBRARY) => two_calls_pass(images, out, raw::read, raw::rewrite),
            (_, YARDSTICK) => two_calls_pass(images, out, yardstick::read, yardstick::rewrite),
            _ => rewrite_pass(images, out, theirs::rewrite, |bytes| bytes.as_ref().map_or(0, |bytes| bytes.len())),
        }
    }
}

fn two_calls_pass(
    images: &[Vec<u8>],
    out: &mut [u8],
    read: fn(&[u8]) -> Image,
    rewrite: fn(&[u8], &mut [u8]) -> Reply,
) -> Duration {
    let (read, rewrite) = (opaque(read), opaque(rewrite));
    let (mut refused, mut written) = (0, 0);
    let start = Instant::now();
    for image in images {
        refused += read(image).number;
        written += rewrite(image, out).length;
    }
    let took = start.elapsed();
    let right = images.iter().map(|image| image.len() as u64).sum();
    assert_eq!((opaque(refused), opaque(written)), (0, right), "an image was refused, or a wrong length written");
    took
}
