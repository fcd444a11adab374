//! Chooses the inputs whose answers are stored, and writes them.

use crate::corpus::draft_of;
use crate::inputs::{named_files, Inputs, Job, Stage};
use crate::theirs;
use saltorchard_replay::answer::Answer;
use saltorchard_replay::causes::Cause;
use saltorchard_replay::judge::judge;
use saltorchard_replay::ours;
use saltorchard_replay::stored::{causes_text, ours_text, theirs_text, COMMENT};
use std::collections::{BTreeMap, BTreeSet};
use std::path::Path;

/// Small files of each kind, plain and encrypted, of which the inputs are made.
const BASES: [&str; 13] = [
    "keygen-ed25519-ascii",
    "keygen-ed25519-empty",
    "keygen-p256-ascii",
    "keygen-p256-short-1",
    "keygen-p384-utf8",
    "keygen-p521-empty",
    "keygen-p521-short-1",
    "keygen-rsa1024-ascii",
    "keygen-ed25519-3des-cbc",
    "keygen-ed25519-aes256-gcm",
    "keygen-p256-aes128-cbc",
    "keygen-p521-aes128-gcm",
    "keygen-rsa1024-aes192-ctr",
];

const HEAD: &str =
    "# Inputs with the answers of the Rust crate ssh-key 0.6.7 and ours: NAME|BASE|EDITS|OURS|THEIRS|CAUSES.
# Made by oracle/store.sh; oracle/README.md says what the parts are.
";

/// How many inputs are kept that are alike: of one stage, with the same answers and causes.
const ALIKE: usize = 11;
/// Inputs that take more than this to write down are left out, but for those that have a name.
const LONGEST: usize = 150;
/// Images of that many bytes aren't made smaller.
const LONG: usize = 5_000;
/// Bytes that are copied from the base are at least as many.
const LEAST_COPY: usize = 6;

/// An input's causes, and whether we and the crate read it.
type Case = (Vec<Cause>, bool, bool);

struct Store {
    bases: Vec<(String, Vec<u8>)>,
    lines: Vec<String>,
    alike: BTreeMap<String, usize>,
    seen: BTreeSet<Vec<u8>>,
    smallest: BTreeMap<(Cause, bool, bool), Vec<u8>>,
}

/// Writes the stored answers: the files of `rows` by their names, then what is made of the bases, then the smallest of each cause.
pub fn write(corpus: &str, rows: &str, random_inputs: usize, path: &str) {
    let file = |name: &str| std::fs::read(Path::new(corpus).join(format!("{name}.bin"))).expect("a file of the corpus");
    let bases: Vec<_> = BASES.iter().map(|name| (name.to_string(), file(name))).collect();
    let images: Vec<_> = bases.iter().map(|(_, image)| image.clone()).collect();
    let inputs = Inputs::of(images.iter().map(|image| draft_of(image)).collect(), images);
    let mut store =
        Store { bases, lines: Vec::new(), alike: BTreeMap::new(), seen: BTreeSet::new(), smallest: BTreeMap::new() };
    for (name, image) in named_files(Path::new(rows)) {
        store.keep(&name, &image, usize::MAX);
    }
    for job in inputs.jobs(random_inputs) {
        store.job(&inputs, job);
    }
    store.keep_smallest();
    std::fs::write(path, format!("{HEAD}{}\n", store.lines.join("\n")))
        .unwrap_or_else(|error| panic!("{path}: {error}"));
    println!("{} answers stored in {path}", store.lines.len());
}

fn case(image: &[u8]) -> (Case, String) {
    let (ours, theirs) = (ours::of(image, COMMENT), theirs::of(image, COMMENT));
    let causes = judge(image, COMMENT, &ours, &theirs).expect("a cause for each difference");
    let number = |answer: Answer| answer.to_string().split('+').next().unwrap_or_default().to_string();
    let alike = format!("{} {} {}", causes_text(&causes), number(ours.answer), number(theirs.answer));
    ((causes, ours.answer == Answer::Read, theirs.answer == Answer::Read), alike)
}

impl Store {
    fn job(&mut self, inputs: &Inputs, job: Job) {
        let mut number = 0;
        inputs.each(job, &mut |image| {
            number += 1;
            let ((causes, we_read, they_read), alike) = case(image);
            for cause in causes {
                let least = self.smallest.entry((cause, we_read, they_read)).or_insert_with(|| image.to_vec());
                if image.len() < least.len() {
                    *least = image.to_vec();
                }
            }
            let alike = format!("{:?} {alike}", job.stage);
            let kept = self.alike.get(&alike).copied().unwrap_or(0);
            let longest = if job.stage == Stage::Marked { usize::MAX } else { LONGEST };
            let name = format!("{job}:{number}");
            if kept < ALIKE && self.seen.insert(image.to_vec()) && self.keep(&name, image, longest) {
                self.alike.insert(alike, kept + 1);
            }
        });
    }

    /// Adds a line, unless it would be longer.
    fn keep(&mut self, name: &str, image: &[u8], longest: usize) -> bool {
        let (ours, theirs) = (ours::of(image, COMMENT), theirs::of(image, COMMENT));
        let causes = judge(image, COMMENT, &ours, &theirs).expect("a cause for each difference");
        let (base, bytes) = self.bases.iter().max_by_key(|(_, bytes)| in_common(bytes, image)).expect("some bases");
        let edits = format!("{base}|{}", edits(bytes, image));
        if edits.len() > longest {
            return false;
        }
        let ours = ours_text(&ours);
        self.lines.push(format!("{name}|{edits}|{ours}|{}|{}", theirs_text(&theirs, &ours), causes_text(&causes)));
        true
    }

    fn keep_smallest(&mut self) {
        for ((cause, we_read, they_read), image) in std::mem::take(&mut self.smallest) {
            let smallest = shrunk(image, |image| {
                let ((causes, we, they), _) = case(image);
                image.len() < LONG && causes.contains(&cause) && (we, they) == (we_read, they_read)
            });
            let who = match (we_read, they_read) {
                (true, true) => "both-read",
                (true, false) => "we-read",
                (false, true) => "they-read",
                _ => "neither",
            };
            self.keep(&format!("smallest-{cause}-{who}-{}", smallest.len()), &smallest, usize::MAX);
        }
    }
}

/// Takes bytes out as long as `keeps` holds.
fn shrunk(mut image: Vec<u8>, keeps: impl Fn(&[u8]) -> bool) -> Vec<u8> {
    let mut step = 1 << 12;
    while step > 0 {
        let mut place = 0;
        while place + step <= image.len() {
            let shorter = [&image[..place], &image[place + step..]].concat();
            match keeps(&shorter) {
                true => image = shorter,
                false => place += 1,
            }
        }
        step /= 2;
    }
    image
}

/// How many bytes two images have in common at their beginnings and ends.
fn in_common(one: &[u8], other: &[u8]) -> usize {
    let at_the_end = one.iter().rev().zip(other.iter().rev()).take_while(|(one, other)| one == other).count();
    at_the_end + one.iter().zip(other).take_while(|(one, other)| one == other).count()
}

/// The image as copies of the base's bytes and of its own, runs of one byte, and bytes in hex.
fn edits(base: &[u8], image: &[u8]) -> String {
    let (mut words, mut literal, mut place) = (Vec::new(), String::new(), 0);
    while place < image.len() {
        match copy_or_run(base, image, place) {
            Some((word, length)) => {
                words.extend([std::mem::take(&mut literal), word]);
                place += length;
            }
            None => {
                literal.push_str(&format!("{:02x}", image[place]));
                place += 1;
            }
        }
    }
    words.push(literal);
    words.retain(|word| !word.is_empty());
    words.join(" ")
}

fn copy_or_run(base: &[u8], image: &[u8], place: usize) -> Option<(String, usize)> {
    let rest = &image[place..];
    let run = rest.iter().take_while(|byte| **byte == rest[0]).count();
    if run > LONG {
        return Some((format!("{:02x}*{run}", rest[0]), run));
    }
    let (from_base, copied) = longest_copy(base, rest);
    let (from_image, repeated) = longest_copy(&image[..place], rest);
    match copied.max(repeated).max(run) {
        0..=LEAST_COPY => None,
        longest if longest == copied => Some((format!("{from_base}+{copied}"), copied)),
        longest if longest == run => Some((format!("{:02x}*{run}", rest[0]), run)),
        _ => Some((format!("{from_image}<{repeated}"), repeated)),
    }
}

fn longest_copy(from: &[u8], image: &[u8]) -> (usize, usize) {
    let length = |start: usize| from[start..].iter().zip(image).take_while(|(one, other)| one == other).count();
    let copies = (0..from.len()).map(|start| (start, length(start)));
    copies.max_by_key(|(start, length)| (*length, usize::MAX - start)).unwrap_or((0, 0))
}
