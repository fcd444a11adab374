//! The timed jobs. A pass is one job over one group of images by one competitor. No buffer is cleared between passes or rounds.

use crate::images::{Images, LIMIT};
use crate::model;
use crate::passes::{copy, opaque, read_pass, rewrite_pass};
use crate::random::Random;
use crate::yardstick;
use saltorchard::raw;
use std::ops::Range;
use std::time::{Duration, Instant};

pub const JOBS: [&str; 4] = ["read", "read and rewrite", "change of comment", "header read"];
const READ: usize = 0;
const REWRITE: usize = 1;
const CHANGE: usize = 2;
const HEADER: usize = 3;
pub const COMPETITORS: [&str; 4] = ["library", "copy", "model", "yardstick"];
pub const LIBRARY: usize = 0;
pub const COPY: usize = 1;
pub const MODEL: usize = 2;
pub const YARDSTICK: usize = 3;

/// Images of one sort, how long their headers are, and what the comment change needs. All competitors read the same images.
pub struct Group {
    images: Vec<Vec<u8>>,
    headers: Vec<usize>,
    changes: Vec<Change>,
    lent: Lent,
    out: Vec<u8>,
}

/// A plain image to be changed: where it lies in the memory that is lent, its two comments, and how long it is with each. Between
/// passes it has the longer one.
struct Change {
    start: usize,
    shorter: Vec<u8>,
    longer: Vec<u8>,
    shorter_length: usize,
    longer_length: usize,
}

impl Change {
    fn place(&self) -> Range<usize> {
        self.start..self.start + self.longer_length
    }
}

/// The images to be changed, for each competitor its own, and once more for the copy to copy from. They lie in one piece of memory,
/// each competitor's one after another and at the same places of its pages: no one has a longer way than the others.
struct Lent {
    memory: Vec<u8>,
    stride: usize,
}

const PAGE: usize = 4_096;

impl Lent {
    fn new(images: &[u8]) -> Self {
        let stride = (images.len() / PAGE + 1) * PAGE;
        let mut memory = vec![0; stride * (COMPETITORS.len() + 1)];
        for part in memory.chunks_exact_mut(stride) {
            part[..images.len()].copy_from_slice(images);
        }
        Lent { memory, stride }
    }

    /// A seat's images, and those that nobody changes.
    fn of(&mut self, seat: usize) -> (&mut [u8], &[u8]) {
        let (lent, originals) = self.memory.split_at_mut(self.stride * COMPETITORS.len());
        (&mut lent[self.stride * seat..][..self.stride], originals)
    }
}

pub const GROUPS: usize = 3;

/// The small images, then the long ones, then those of RSA.
pub fn groups(images: Images) -> [Group; GROUPS] {
    let (small, long) = ((0, 20), (40, 90));
    [
        Group::new(images.small, small, long),
        Group::new(images.long, (4_000, 20_000), (30_000, 60_000)),
        Group::new(images.rsa, small, long),
    ]
}

impl Group {
    fn new(images: Vec<Vec<u8>>, shorter: (usize, usize), longer: (usize, usize)) -> Self {
        let mut random = Random::new(99);
        let (mut changes, mut changed) = (Vec::new(), Vec::new());
        for image in images.iter().filter(|image| raw::read(image).kind == 1) {
            changes.push(Change::new(&mut random, image, (shorter, longer), &mut changed));
        }
        let headers = images.iter().map(|image| raw::read(image).section as usize).collect();
        Group { images, headers, changes, lent: Lent::new(&changed), out: vec![0; LIMIT] }
    }

    /// How many calls a pass of this job makes.
    pub fn calls(&self, job: usize) -> usize {
        match job {
            CHANGE => 2 * self.changes.len(),
            _ => self.images.len(),
        }
    }

    /// How many bytes the images of this job have.
    pub fn bytes(&self, job: usize) -> usize {
        match job {
            CHANGE => self.changes.iter().map(|change| change.longer_length + change.shorter_length).sum(),
            HEADER => self.headers.iter().sum(),
            _ => self.images.iter().map(Vec::len).sum(),
        }
    }

    /// One pass of the job by the competitor, in this seat's memory.
    pub fn pass(&mut self, job: usize, competitor: usize, seat: usize) -> Duration {
        match job {
            READ => self.read_by(competitor),
            REWRITE => self.rewrite_by(competitor),
            CHANGE => self.change_by(competitor, seat),
            _ => self.read_header_by(competitor),
        }
    }

    fn read_by(&mut self, competitor: usize) -> Duration {
        match competitor {
            LIBRARY => read_pass(&self.images, raw::read, |image| image.number),
            COPY => rewrite_pass(&self.images, &mut self.out, copy, |length| *length),
            MODEL => read_pass(&self.images, model::read, |answer| u64::from(answer.is_err())),
            _ => read_pass(&self.images, yardstick::read, |image| image.number),
        }
    }

    fn read_header_by(&mut self, competitor: usize) -> Duration {
        match competitor {
            LIBRARY => read_pass(&self.images, raw::read_header, |header| header.number),
            COPY => copy_headers_pass(&self.images, &self.headers, &mut self.out),
            MODEL => read_pass(&self.images, model::read_header, |answer| u64::from(answer.is_err())),
            _ => read_pass(&self.images, yardstick::read_header, |header| header.number),
        }
    }

    fn rewrite_by(&mut self, competitor: usize) -> Duration {
        let (images, out) = (&self.images, &mut self.out[..]);
        match competitor {
            LIBRARY => rewrite_pass(images, out, raw::rewrite, |reply| reply.length as usize),
            COPY => rewrite_pass(images, out, copy, |length| *length),
            MODEL => rewrite_pass(images, out, model::rewrite, |answer| *answer.as_ref().unwrap_or(&0)),
            _ => rewrite_pass(images, out, yardstick::rewrite, |reply| reply.length as usize),
        }
    }

    fn change_by(&mut self, competitor: usize, seat: usize) -> Duration {
        let changes = &self.changes[..];
        let (lent, originals) = self.lent.of(seat);
        match competitor {
            LIBRARY => change_pass(changes, lent, raw::change_comment, |reply| reply.length as usize),
            COPY => copy_pass(changes, lent, originals),
            MODEL => change_pass(changes, lent, model::change_comment, |answer| *answer.as_ref().unwrap_or(&0)),
            _ => change_pass(changes, lent, yardstick::change_comment, |reply| reply.length as usize),
        }
    }
}

type Lengths = (usize, usize);

impl Change {
    /// Adds the image with its longer comment to those that are lent.
    fn new(random: &mut Random, image: &[u8], (shorter, longer): (Lengths, Lengths), changed: &mut Vec<u8>) -> Self {
        let (short, long) = (random.within(shorter.0, shorter.1), random.within(longer.0, longer.1));
        let (shorter, longer) = (random.comment(short), random.comment(long));
        let mut buffer = vec![0; LIMIT];
        buffer[..image.len()].copy_from_slice(image);
        let shorter_length = raw::change_comment(&mut buffer, image.len(), &shorter).length as usize;
        let longer_length = raw::change_comment(&mut buffer, shorter_length, &longer).length as usize;
        assert!(shorter_length > 0 && longer_length > shorter_length, "a comment was not changed");
        let start = changed.len();
        changed.extend_from_slice(&buffer[..longer_length]);
        Change { start, shorter, longer, shorter_length, longer_length }
    }
}

fn change_pass<R>(
    changes: &[Change],
    lent: &mut [u8],
    change: fn(&mut [u8], usize, &[u8]) -> R,
    length: fn(&R) -> usize,
) -> Duration {
    let change = opaque(change);
    let mut left = 0;
    let start = Instant::now();
    for one in changes {
        let buffer = &mut lent[one.place()];
        let shorter_length = length(&change(buffer, one.longer_length, &one.shorter));
        left += length(&change(buffer, shorter_length, &one.longer));
    }
    let took = start.elapsed();
    assert_eq!(opaque(left), changes.iter().map(|one| one.longer_length).sum(), "a comment was not changed");
    took
}

/// As many bytes as the changed images have, to where they are.
fn copy_pass(changes: &[Change], lent: &mut [u8], originals: &[u8]) -> Duration {
    let copy = opaque(copy as fn(&[u8], &mut [u8]) -> usize);
    let start = Instant::now();
    for one in changes {
        let (buffer, original) = (&mut lent[one.place()], &originals[one.place()]);
        copy(&original[..one.shorter_length], buffer);
        copy(original, buffer);
    }
    start.elapsed()
}

/// Each header's bytes, from the image that the others read.
fn copy_headers_pass(images: &[Vec<u8>], headers: &[usize], out: &mut [u8]) -> Duration {
    let copy = opaque(copy as fn(&[u8], &mut [u8]) -> usize);
    let start = Instant::now();
    for (image, &header) in images.iter().zip(headers) {
        copy(&image[..header], out);
    }
    start.elapsed()
}
