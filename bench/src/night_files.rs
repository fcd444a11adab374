//! The night's files: the mixed set in a folder of its own, forty of it not in the writer's form and eight cut short.

use crate::damage::{end, with_section};
use crate::images::SIZES;
use crate::mixed;
use saltorchard::raw::{self, Image};
use std::fs::{self, DirBuilder, OpenOptions};
use std::io::{self, Write};
use std::os::unix::fs::{DirBuilderExt, OpenOptionsExt};
use std::path::{Path, PathBuf};
use std::time::{SystemTime, UNIX_EPOCH};

const NOT_IN_FORM: usize = 40;
const CUT_SHORT: usize = 8;
const PLAIN: u64 = 1;
const ENCRYPTED: u64 = 2;

/// How a file was made. Of an ECDSA scalar the zero before 0x80 or more is missing; or there is one before less, in one byte more than
/// SIZE, or in SIZE bytes of a scalar that has fewer.
#[derive(Clone, Copy)]
pub enum Made {
    InForm,
    ZeroMissing,
    ZeroBefore,
    FullWidth,
    CutShort,
}

/// A folder that only its owner enters. It is removed with its files when it is dropped.
pub struct Folder {
    pub path: PathBuf,
    /// How each file was made, in the order of their names.
    pub made: Vec<Made>,
}

impl Folder {
    pub fn filled(below: &str) -> io::Result<Self> {
        let images = mixed::all();
        let now = SystemTime::now().duration_since(UNIX_EPOCH).map_or(0, |time| time.as_nanos());
        let path = Path::new(below).join(format!("night-{}-{}", std::process::id(), now));
        DirBuilder::new().mode(0o700).create(&path)?;
        let folder = Folder { path, made: all_made(&images) };
        for (number, (image, made)) in images.iter().zip(&folder.made).enumerate() {
            let path = folder.path.join(format!("{:04}", number));
            let mut file = OpenOptions::new().write(true).create_new(true).mode(0o600).open(path)?;
            file.write_all(&content(image, *made))?;
        }
        Ok(folder)
    }
}

impl Drop for Folder {
    fn drop(&mut self) {
        if let Err(why) = fs::remove_dir_all(&self.path) {
            eprintln!("{} is left: {}", self.path.display(), why);
        }
    }
}

fn all_made(images: &[Vec<u8>]) -> Vec<Made> {
    let mut made = vec![Made::InForm; images.len()];
    let ways = [Made::ZeroMissing, Made::ZeroBefore, Made::FullWidth];
    for (i, place) in places(images, NOT_IN_FORM, has_full_scalar).enumerate() {
        made[place] = ways[i % ways.len()];
    }
    for place in places(images, CUT_SHORT, |record| record.kind == ENCRYPTED) {
        made[place] = Made::CutShort;
    }
    made
}

/// A plain image of P-256 or P-384 whose scalar has SIZE bytes.
fn has_full_scalar(record: &Image) -> bool {
    let algorithm = record.algorithm as usize;
    record.kind == PLAIN && [1, 2].contains(&algorithm) && record.scalar.length as usize == SIZES[algorithm]
}

/// So many places of images that will do, from all over the set.
fn places(images: &[Vec<u8>], count: usize, will_do: fn(&Image) -> bool) -> impl Iterator<Item = usize> {
    let found: Vec<usize> = (0..images.len()).filter(|&place| will_do(&raw::read(&images[place]))).collect();
    (0..count).map(move |i| found[i * found.len() / count])
}

fn content(image: &[u8], made: Made) -> Vec<u8> {
    let record = raw::read(image);
    let mut scalar = image[record.scalar.start as usize..end(record.scalar)].to_vec();
    match made {
        Made::InForm => return image.to_vec(),
        Made::CutShort => return image[..image.len() - 1].to_vec(),
        Made::ZeroMissing => scalar[0] |= 0x80,
        Made::ZeroBefore => {
            scalar[0] = scalar[0] % 0x7f + 1;
            scalar.insert(0, 0);
        }
        Made::FullWidth => {
            scalar[0] = 0;
            scalar[1] = scalar[1] % 0x7f + 1;
        }
    }
    let comment = &image[record.comment.start as usize..end(record.comment)];
    with_section(image, &record, &scalar, comment, 0)
}
