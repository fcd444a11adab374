//! Saltorchard's library and the crate ssh-key 0.6.7 on the same inputs. See README.md for the switches.
#![forbid(unsafe_code)]

mod corpus;
mod fresh;
mod inputs;
mod store;
mod strange;
#[path = "../../bindings/rust/tests/support/mod.rs"]
mod support;
mod tally;
mod theirs;
mod wrong;

use inputs::{Inputs, Job};
use saltorchard_replay::answer::Answer;
use saltorchard_replay::judge::{judge, Theirs};
use saltorchard_replay::ours::{self, Ours};
use std::process::ExitCode;
use support::Rng;
use tally::Tally;
use wrong::Wrong;

/// What the command line says.
struct Run {
    folders: Vec<String>,
    inputs: usize,
    only: Option<Job>,
    wrong: Wrong,
    store: Option<String>,
    names: bool,
}

const USAGE: &str =
    "switches: --files DIR, --seed N, --inputs N, --only JOB, --store FILE, --wrong NAME, --wrong-names; see README.md beside this";

fn main() -> ExitCode {
    let run = match run_of(std::env::args().skip(1).collect()) {
        Some(run) => run,
        None => {
            eprintln!("{USAGE}");
            return ExitCode::from(2);
        }
    };
    if run.names {
        Wrong::names().for_each(|name| println!("{name}"));
        return ExitCode::SUCCESS;
    }
    println!("seed {}", support::seed());
    if let ([corpus, rows, ..], Some(path)) = (&run.folders[..], &run.store) {
        store::write(corpus, rows, run.inputs, path);
        return ExitCode::SUCCESS;
    }
    let tally = all(&run);
    tally.print();
    ExitCode::from(u8::from(tally.without_cause > 0))
}

fn run_of(words: Vec<String>) -> Option<Run> {
    let mut run =
        Run { folders: Vec::new(), inputs: 4_000_000, only: None, wrong: Wrong::Nothing, store: None, names: false };
    let clock = std::time::SystemTime::now().duration_since(std::time::UNIX_EPOCH).ok()?;
    let mut seed = clock.as_nanos() as u64 % 1_000_000_007;
    let mut words = words.into_iter();
    while let Some(word) = words.next() {
        match word.as_str() {
            "--wrong-names" => run.names = true,
            "--files" => run.folders.push(words.next()?),
            "--seed" => seed = words.next()?.parse().ok()?,
            "--inputs" => run.inputs = words.next()?.parse().ok()?,
            "--only" => run.only = Some(Job::parse(&words.next()?)?),
            "--store" => run.store = Some(words.next()?),
            "--wrong" => run.wrong = Wrong::parse(&words.next()?)?,
            _ => return None,
        }
    }
    std::env::set_var("SALTORCHARD_SEED", seed.to_string());
    Some(run)
}

/// Every job, dealt out to as many threads as there are processors.
fn all(run: &Run) -> Tally {
    let inputs = Inputs::new(&run.folders);
    let jobs = run.only.map_or_else(|| inputs.jobs(run.inputs), |job| vec![job]);
    let threads = std::thread::available_parallelism().map_or(1, usize::from);
    let mut total = Tally::new();
    std::thread::scope(|scope| {
        let hand = |first| {
            let (jobs, inputs) = (&jobs, &inputs);
            scope.spawn(move || {
                jobs.iter()
                    .skip(first)
                    .step_by(threads)
                    .fold(Tally::new(), |tally, job| one_job(run, inputs, *job, tally))
            })
        };
        let hands: Vec<_> = (0..threads).map(hand).collect();
        hands.into_iter().for_each(|hand| total.add(hand.join().expect("a thread that ends")));
    });
    if run.only.is_none() {
        new_images(run, &mut total);
    }
    total
}

const COMMENTS: [&str; 6] = [
    "",
    "oven7",
    "oven 12",
    "Bäckerei Süd, Ofen 7",
    "炉 🥖",
    "a longer comment, of more bytes than the old one had, mostly",
];

fn one_job(run: &Run, inputs: &Inputs, job: Job, mut tally: Tally) -> Tally {
    let mut number = 0;
    inputs.each(job, &mut |image| {
        let comment = COMMENTS[number % COMMENTS.len()];
        let ours = ours::of(image, comment);
        let ours = if run.wrong == Wrong::Nothing { ours } else { run.wrong.spoil(image, ours) };
        let theirs = theirs::of(image, comment);
        tally.compared(ours.answer, theirs.answer);
        match judge(image, comment, &ours, &theirs) {
            Err(words) => tally.unexplained(format!("{job} number {number}, {} bytes: {words}", image.len())),
            Ok(causes) => causes.into_iter().for_each(|cause| {
                let count = tally.count(cause);
                *of(count, &ours, &theirs) += 1;
                count.smaller(image.len(), || format!("{job} number {number}"));
            }),
        }
        number += 1;
    });
    tally
}

/// The number to count up.
fn of<'a, T>(count: &'a mut tally::Count, ours: &Ours, theirs: &Theirs<T>) -> &'a mut u64 {
    match (ours.answer, theirs.answer) {
        (Answer::Read, Answer::Read) => &mut count.written,
        (Answer::Read, _) => &mut count.we_read,
        (_, Answer::Read) => &mut count.they_read,
        _ => &mut count.other_error,
    }
}

fn new_images(run: &Run, tally: &mut Tally) {
    let mut rng = Rng::new("new images");
    for number in 0..run.inputs / 40 {
        tally.new_images += 1;
        match fresh::one(&mut rng, |written| run.wrong.spoil_new(written)) {
            Err(words) => tally.unexplained(format!("new image {number}: {words}")),
            Ok(Some(cause)) => tally.count(cause).written += 1,
            Ok(None) => {}
        }
    }
}
