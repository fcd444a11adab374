//! The night's job: each file of a folder is read whole, rewritten and compared with what was written, and the answers are counted.
//! No name of a file and no byte of one is printed.

use crate::images::LIMIT;
use crate::night_files::{Folder, Made};
use crate::passes::opaque;
use crate::rounds::{in_rounds, median, order, print_rounds, print_waiting};
use crate::yardstick;
use saltorchard::raw::{self, Reply};
use std::collections::BTreeMap;
use std::fs::{self, File};
use std::io::{self, Read};
use std::path::{Path, PathBuf};
use std::time::Instant;

/// What is said of a file.
#[derive(Clone, Copy, PartialEq)]
pub enum Verdict {
    /// It was read from disk, and nobody was asked.
    NotAsked,
    /// It can't be read from disk.
    NotRead,
    /// Written again, it is the same.
    Equal,
    /// Written again, it is another.
    NotInForm,
    /// By its number; 0 where there are none.
    Refused(u64),
}
use Verdict::*;

const ROUNDS_A_SEAT: usize = 8;

/// Who does the job.
#[derive(Clone, Copy)]
pub struct Worker {
    pub name: &'static str,
    /// Of an image, with a lent buffer to write to.
    pub judge: fn(&[u8], &mut [u8]) -> Verdict,
    /// What it must say of a file that was made so.
    pub of_made: fn(Made) -> Verdict,
}

/// These do it always; others come after them.
const ALWAYS: [Worker; 3] = [
    Worker { name: "files alone", judge: |_, _| NotAsked, of_made: |_| NotAsked },
    Worker {
        name: "library",
        judge: |image, out| verdict(raw::rewrite(image, out), image, out),
        of_made: right_verdict,
    },
    Worker {
        name: "yardstick",
        judge: |image, out| verdict(yardstick::rewrite(image, out), image, out),
        of_made: right_verdict,
    },
];
const ALONE: usize = 0;
const LIBRARY: usize = 1;
const YARDSTICK: usize = 2;

fn verdict(reply: Reply, image: &[u8], out: &[u8]) -> Verdict {
    match reply.number {
        0 if out[..reply.length as usize] == *image => Equal,
        0 => NotInForm,
        number => Refused(number),
    }
}

pub fn right_verdict(made: Made) -> Verdict {
    match made {
        Made::InForm => Equal,
        Made::ZeroMissing | Made::ZeroBefore | Made::FullWidth => NotInForm,
        Made::CutShort => Refused(1),
    }
}

/// The job over the folder's files, or over made ones below `target`.
pub fn run(others: &[Worker], folder: Option<&Path>, target: &str, only_check: bool) -> Result<(), String> {
    let workers = [&ALWAYS[..], others].concat();
    if let Some(folder) = folder {
        return over(&workers, folder, &[], only_check);
    }
    let made = Folder::filled(target).map_err(|why| format!("the night's files can't be made: {}", why))?;
    over(&workers, &made.path, &made.made, only_check)
}

fn over(workers: &[Worker], folder: &Path, made: &[Made], only_check: bool) -> Result<(), String> {
    let (files, left_out) = files_of(folder).map_err(|why| format!("the folder can't be read: {}", why))?;
    if files.is_empty() {
        return Err("the folder has no file".to_string());
    }
    let mut job = Job { files, image: vec![0; LIMIT + 1], out: vec![0; LIMIT] };
    let said: Vec<Vec<Verdict>> = workers.iter().map(|worker| job.pass(worker).verdicts).collect();
    hold_to_made(workers, &said, made)?;
    hold_alike(&said[LIBRARY], &said[YARDSTICK])?;
    println!("{} files. Entries of the folder that aren't files: {}.\n", job.files.len(), left_out);
    print_counts(workers, &said);
    if only_check {
        println!("The night's job ran once. No times: this was a check.");
        return Ok(());
    }
    let nights = job.nights(workers, &said)?;
    print_times(workers, job.files.len(), &nights);
    Ok(())
}

/// The files in the order of their names, and how many entries aren't files.
fn files_of(folder: &Path) -> io::Result<(Vec<PathBuf>, usize)> {
    let mut paths = fs::read_dir(folder)?.map(|entry| Ok(entry?.path())).collect::<io::Result<Vec<_>>>()?;
    let entries = paths.len();
    paths.retain(|path| fs::metadata(path).map_or(false, |found| found.is_file()));
    paths.sort();
    let left_out = entries - paths.len();
    Ok((paths, left_out))
}

struct Job {
    files: Vec<PathBuf>,
    image: Vec<u8>,
    out: Vec<u8>,
}

struct Pass {
    verdicts: Vec<Verdict>,
    milliseconds: f64,
}

impl Job {
    fn pass(&mut self, worker: &Worker) -> Pass {
        let judge = opaque(worker.judge);
        let mut verdicts = Vec::with_capacity(self.files.len());
        let start = Instant::now();
        for path in &self.files {
            verdicts.push(match read_whole(path, &mut self.image) {
                Ok(length) => judge(&self.image[..length], &mut self.out),
                Err(_) => NotRead,
            });
        }
        Pass { milliseconds: start.elapsed().as_secs_f64() * 1e3, verdicts }
    }

    /// The milliseconds of all workers in each round, where each says the same in all rounds.
    fn nights(&mut self, workers: &[Worker], said: &[Vec<Verdict>]) -> Result<Vec<Vec<f64>>, String> {
        let mut changed = false;
        let nights = in_rounds(ROUNDS_A_SEAT * workers.len(), |turn| {
            let mut times = vec![0.0; workers.len()];
            for seat in order(workers.len(), turn) {
                let pass = self.pass(&workers[seat]);
                changed |= pass.verdicts != said[seat];
                times[seat] = pass.milliseconds;
            }
            times
        });
        if changed {
            return Err("what is said of a file changed from one round to another: did the file?".to_string());
        }
        Ok(nights)
    }
}

/// How long the file is; of one that fills the buffer no more is read.
fn read_whole(path: &Path, buffer: &mut [u8]) -> io::Result<usize> {
    let mut file = File::open(path)?;
    let mut length = 0;
    while length < buffer.len() {
        match file.read(&mut buffer[length..])? {
            0 => break,
            count => length += count,
        }
    }
    Ok(length)
}

fn hold_to_made(workers: &[Worker], said: &[Vec<Verdict>], made: &[Made]) -> Result<(), String> {
    if made.is_empty() {
        return Ok(());
    }
    for (worker, said) in workers.iter().zip(said) {
        let right: Vec<Verdict> = made.iter().map(|made| (worker.of_made)(*made)).collect();
        if right.len() != said.len() || right != *said {
            let wrong = right.iter().zip(said).filter(|(right, said)| right != said).count();
            return Err(format!(
                "{}: {} of {} made files were judged otherwise than made",
                worker.name,
                wrong,
                made.len()
            ));
        }
    }
    Ok(())
}

fn hold_alike(library: &[Verdict], yardstick: &[Verdict]) -> Result<(), String> {
    match library.iter().zip(yardstick).filter(|(ours, theirs)| ours != theirs).count() {
        0 => Ok(()),
        wrong => Err(format!("library and yardstick say different things of {} files", wrong)),
    }
}

fn print_counts(workers: &[Worker], said: &[Vec<Verdict>]) {
    println!("| | the same again | not in the form | refused | can't be read |\n|---|---|---|---|---|");
    for (worker, said) in workers.iter().zip(said).skip(LIBRARY) {
        let count = |which: fn(&Verdict) -> bool| said.iter().filter(|verdict| which(verdict)).count();
        let (equal, other) = (count(|verdict| *verdict == Equal), count(|verdict| *verdict == NotInForm));
        let (refused, not_read) = (count(is_refused), count(|verdict| *verdict == NotRead));
        println!("| {} | {} | {} | {} | {} |", worker.name, equal, other, refused, not_read);
    }
    println!();
    print_refused(&said[LIBRARY]);
    for (worker, theirs) in workers.iter().zip(said).skip(ALWAYS.len()) {
        print_differences(worker.name, &said[LIBRARY], theirs);
    }
}

fn is_refused(verdict: &Verdict) -> bool {
    matches!(verdict, Refused(_))
}

fn print_refused(library: &[Verdict]) {
    let mut counts = BTreeMap::new();
    for verdict in library {
        if let Refused(number) = verdict {
            *counts.entry(number).or_insert(0) += 1;
        }
    }
    for (number, count) in counts {
        println!("Refused by the library with number {}: {}.", number, count);
    }
}

fn print_differences(name: &str, library: &[Verdict], theirs: &[Verdict]) {
    let count = |which: fn(&Verdict, &Verdict) -> bool| {
        library.iter().zip(theirs).filter(|(ours, theirs)| which(ours, theirs)).count()
    };
    println!(
        "Of files in the form the {} writes {} otherwise and refuses {}. Of those that aren't it gives {} back as they are and \
         refuses {}. Of those that the library refuses it reads {}.",
        name,
        count(|ours, theirs| *ours == Equal && *theirs == NotInForm),
        count(|ours, theirs| *ours == Equal && is_refused(theirs)),
        count(|ours, theirs| *ours == NotInForm && *theirs == Equal),
        count(|ours, theirs| *ours == NotInForm && is_refused(theirs)),
        count(|ours, theirs| is_refused(ours) && !is_refused(theirs)),
    );
}

/// A round's times less that of the files alone are of the same round, since a disk and a machine have better rounds and worse.
fn print_times(workers: &[Worker], files: usize, nights: &[Vec<f64>]) {
    print_rounds(nights.len());
    println!("| | ms a night | µs a file | library to it | less the files alone, µs a file | library to it |");
    println!("|---|---|---|---|---|---|");
    let whole = |seat: usize| median(nights.iter().map(|night| night[seat]).collect());
    let beside = |seat: usize| median(nights.iter().map(|night| night[seat] - night[ALONE]).collect());
    for (seat, worker) in workers.iter().enumerate() {
        print!("| {} | {:.2} | {:.2} |", worker.name, whole(seat), whole(seat) * 1e3 / files as f64);
        print!(" {:.2} |", whole(LIBRARY) / whole(seat));
        match seat {
            ALONE => println!(" | |"),
            _ => println!(" {:.2} | {:.2} |", beside(seat) * 1e3 / files as f64, beside(LIBRARY) / beside(seat)),
        }
    }
    print_waiting();
}
