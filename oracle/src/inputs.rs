//! The inputs, in jobs: each is made of the seed and the job's name alone, so one input can be made again.

use crate::strange;
use crate::support::damage::{number_changes, set_uint32, spliced, structured, with_two_faults};
use crate::support::images::{after_zeros, drafts, Draft, Key, MAGIC};
use crate::support::Rng;
use std::fmt;
use std::path::Path;

/// How many inputs a random job has.
const IN_A_JOB: usize = 1_000;
/// Images of that many bytes aren't cut and changed byte by byte.
const LONG: usize = 2_000;

#[derive(Clone, Copy, Debug, PartialEq, Eq)]
pub enum Stage {
    Marked,
    Files,
    Cut,
    Bytes,
    Lengths,
    Faults,
    Scalars,
    Points,
    Structured,
    Strange,
    Spliced,
    Random,
}

const STAGES: [Stage; 12] = [
    Stage::Marked,
    Stage::Files,
    Stage::Cut,
    Stage::Bytes,
    Stage::Lengths,
    Stage::Faults,
    Stage::Scalars,
    Stage::Points,
    Stage::Structured,
    Stage::Strange,
    Stage::Spliced,
    Stage::Random,
];

/// A job's name: `Cut:12` is every beginning of the twelfth image.
#[derive(Clone, Copy, Debug, PartialEq, Eq)]
pub struct Job {
    pub stage: Stage,
    pub number: usize,
}

impl Job {
    pub fn parse(text: &str) -> Option<Self> {
        let (stage, number) = text.split_once(':')?;
        let stage = STAGES.into_iter().find(|known| format!("{known:?}") == stage)?;
        Some(Self { stage, number: number.parse().ok()? })
    }
}

impl fmt::Display for Job {
    fn fmt(&self, f: &mut fmt::Formatter<'_>) -> fmt::Result {
        write!(f, "{:?}:{}", self.stage, self.number)
    }
}

pub struct Inputs {
    drafts: Vec<Draft>,
    files: Vec<Vec<u8>>,
    /// Files and drafts that aren't long, to be cut and changed byte by byte.
    images: Vec<Vec<u8>>,
}

impl Inputs {
    /// Of every file in these folders, in the order of their names.
    pub fn new(folders: &[String]) -> Self {
        let files = folders.iter().flat_map(|folder| named_files(Path::new(folder))).map(|(_, image)| image).collect();
        Self::of(drafts(&mut Rng::new("drafts")), files)
    }

    pub fn of(drafts: Vec<Draft>, files: Vec<Vec<u8>>) -> Self {
        let mut images: Vec<_> = files.iter().cloned().chain(drafts.iter().map(Draft::bytes)).collect();
        images.retain(|image| image.len() < LONG);
        Self { drafts, files, images }
    }

    /// The systematic jobs, and as many random ones as make up the number of inputs.
    pub fn jobs(&self, random_inputs: usize) -> Vec<Job> {
        let random = random_inputs / IN_A_JOB;
        let count = |stage| match stage {
            Stage::Marked | Stage::Files => 1,
            Stage::Cut | Stage::Bytes => self.images.len(),
            Stage::Lengths | Stage::Faults => self.drafts.len(),
            Stage::Scalars | Stage::Points => 3,
            Stage::Structured => random * 4 / 10,
            Stage::Strange => random * 4 / 10,
            Stage::Spliced | Stage::Random => random / 10,
        };
        let jobs_of = |stage| (0..count(stage)).map(move |number| Job { stage, number });
        STAGES.into_iter().flat_map(jobs_of).collect()
    }

    /// Hands every input of a job to `visit`.
    pub fn each(&self, job: Job, visit: &mut dyn FnMut(&[u8])) {
        let mut rng = Rng::new(&job.to_string());
        match job.stage {
            Stage::Marked => marked(&mut rng).iter().for_each(|image| visit(image)),
            Stage::Files => self.files.iter().for_each(|image| visit(image)),
            Stage::Cut => (0..=self.images[job.number].len()).for_each(|end| visit(&self.images[job.number][..end])),
            Stage::Bytes => each_byte(&self.images[job.number], visit),
            Stage::Lengths => each_length(&self.drafts[job.number], visit),
            Stage::Faults => with_two_faults(&self.drafts[job.number]).iter().for_each(|image| visit(image)),
            Stage::Scalars => each_scalar(1 + job.number as u8, &mut rng, visit),
            Stage::Points => each_point(1 + job.number as u8, &mut rng, visit),
            _ => (0..IN_A_JOB).for_each(|_| visit(&self.random(job.stage, &mut rng))),
        }
    }

    fn random(&self, stage: Stage, rng: &mut Rng) -> Vec<u8> {
        match stage {
            Stage::Structured => structured(rng.pick(&self.drafts), rng),
            Stage::Strange => strange::changed(rng.pick(&self.drafts), rng),
            Stage::Spliced => {
                let (one, other) = (rng.pick(&self.drafts).flat(), rng.pick(&self.drafts).flat());
                spliced(&one, &other, rng)
            }
            _ => several_bytes(rng.pick(&self.images).clone(), rng),
        }
    }
}

/// The images of a folder, NAME.bin each, in the order of their names.
pub fn named_files(folder: &Path) -> Vec<(String, Vec<u8>)> {
    let entries = std::fs::read_dir(folder).unwrap_or_else(|error| panic!("{}: {error}", folder.display()));
    let mut paths: Vec<_> = entries.map(|entry| entry.expect("a folder's entry").path()).collect();
    paths.retain(|path| path.extension().map_or(false, |extension| extension == "bin"));
    paths.sort();
    let name = |path: &Path| path.file_stem().unwrap_or_default().to_string_lossy().into_owned();
    paths.iter().map(|path| (name(path), std::fs::read(path).expect("a file that is there"))).collect()
}

/// M1 to M14 in their order, then M15's two; M16 is a new key, see `fresh`.
fn marked(rng: &mut Rng) -> Vec<Vec<u8>> {
    let mut images = vec![Vec::new(), MAGIC[..14].to_vec(), b"openssh-key-v2\0".to_vec(), MAGIC.to_vec()];
    let (ed25519, p256) = (Key::new(0, rng), Key::new(1, rng));
    let commented = |length| Draft::plain(&ed25519, false, 7, &vec![b'c'; length]).bytes();
    images.extend([0, 5, 6].map(commented));
    for (zeros, first, length) in
        [(0, 0x7f, 32), (1, 0x80, 33), (1, 0x7f, 33), (0, 0x80, 32), (0, 1, 33), (0, 5, 34), (0, 5, 31)]
    {
        let stored = [after_zeros(zeros, first, 1), rng.bytes(length - zeros - 1)].concat();
        images.push(Draft::stored(&p256, stored, 7, b"").bytes());
    }
    images.extend([65_301, 65_302].map(commented));
    images
}

/// Every byte with each bit turned, and as 0 and 255.
fn each_byte(image: &[u8], visit: &mut dyn FnMut(&[u8])) {
    let mut copy = image.to_vec();
    for place in 0..image.len() {
        let old = image[place];
        for new in (0..8).map(|bit| old ^ 1 << bit).chain([0, 0xff]) {
            copy[place] = new;
            visit(&copy);
        }
        copy[place] = old;
    }
}

fn each_length(draft: &Draft, visit: &mut dyn FnMut(&[u8])) {
    let flat = draft.flat();
    for place in &flat.uint32s {
        for number in number_changes(&flat, *place) {
            let mut image = flat.bytes.clone();
            set_uint32(&mut image, *place, number);
            visit(&image);
        }
    }
    strange::with_long_lengths(draft).iter().for_each(|image| visit(image));
}

/// Stored scalars of every length up to three bytes too many, with every number of zeros, and three bytes after these.
fn each_scalar(algorithm: u8, rng: &mut Rng, visit: &mut dyn FnMut(&[u8])) {
    let key = Key::new(algorithm, rng);
    for length in 0..key.private.len() + 4 {
        for zeros in 0..=length {
            for first in [1, 0x7f, 0x80] {
                let mut stored = [vec![0; zeros], rng.bytes(length - zeros)].concat();
                stored.iter_mut().skip(zeros).take(1).for_each(|byte| *byte = first);
                visit(&Draft::stored(&key, stored, rng.uint32(), b"oven7").bytes());
            }
        }
    }
}

/// Points of every length up to 140 with every tag up to 6, in the blob, in the section and in both.
fn each_point(algorithm: u8, rng: &mut Rng, visit: &mut dyn FnMut(&[u8])) {
    let draft = Draft::in_form(&Key::new(algorithm, rng), rng.uint32(), b"oven7");
    for length in 0..140 {
        for tag in 0..7 {
            let mut point = rng.bytes(length);
            point.iter_mut().take(1).for_each(|byte| *byte = tag);
            for (in_blob, in_pair) in [(true, false), (false, true), (true, true)] {
                let mut other = draft.clone();
                other.blob[2] = if in_blob { point.clone() } else { other.blob[2].clone() };
                other.pair[2] = if in_pair { point.clone() } else { other.pair[2].clone() };
                other.pad();
                visit(&other.bytes());
            }
        }
    }
}

/// One to four bytes changed, taken out or put in anywhere.
fn several_bytes(mut image: Vec<u8>, rng: &mut Rng) -> Vec<u8> {
    for _ in 0..1 + rng.below(4) {
        let place = rng.below(image.len().max(1));
        match rng.below(6) {
            _ if image.is_empty() => image.push(rng.byte()),
            0 => drop(image.remove(place)),
            1 => image.insert(place, rng.byte()),
            2 => image[place] = *rng.pick(&[0, 1, 4, 0x7f, 0x80, 0xff]),
            _ => image[place] ^= 1 << rng.below(8),
        }
    }
    image
}
