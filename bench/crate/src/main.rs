//! Times the library beside the crate ssh-key 0.6.7, a copy of the same bytes and the yardstick; ../README.md says how.

// The bench's own, which uses more of some of them.
#[allow(dead_code)]
#[path = "../../src/damage.rs"]
mod damage;
#[allow(dead_code)]
#[path = "../../src/images.rs"]
mod images;
#[path = "../../src/mixed.rs"]
mod mixed;
#[path = "../../src/night.rs"]
mod night;
#[path = "../../src/night_files.rs"]
mod night_files;
#[path = "../../src/passes.rs"]
mod passes;
#[path = "../../src/random.rs"]
mod random;
#[path = "../../src/rounds.rs"]
mod rounds;
mod same;
mod theirs;
mod timing;
#[allow(dead_code)]
#[path = "../../src/yardstick.rs"]
mod yardstick;

use rounds::{in_rounds, median, order, print_head, print_row, print_waiting, ROUNDS};
use std::ffi::OsString;
use std::path::Path;
use std::process::exit;
use theirs::CRATE;
use timing::{Group, COMPETITORS, JOBS};

/// Below it the night's files are made.
const TARGET: &str = concat!(env!("CARGO_MANIFEST_DIR"), "/../../target");
const USAGE: &str = "usage: saltorchard-bench-crate [--check | --night [FOLDER]]";

fn main() {
    let words: Vec<OsString> = std::env::args_os().skip(1).collect();
    let folder = words.get(1).map(Path::new);
    let result = match (words.first().and_then(|word| word.to_str()), words.len()) {
        (None, 0) => table(false),
        (Some("--check"), 1) => table(true).and_then(|()| night::run(&[CRATE], None, TARGET, true)),
        (Some("--night"), 1 | 2) => night::run(&[CRATE], folder, TARGET, false),
        _ => Err(USAGE.to_string()),
    };
    if let Err(why) = result {
        eprintln!("{why}");
        exit(1)
    }
}

fn table(only_check: bool) -> Result<(), String> {
    let images = mixed::all();
    let otherwise = same::everywhere(&images)?;
    println!(
        "Library, yardstick and crate read the {} images alike; the crate writes {otherwise} otherwise.",
        images.len()
    );
    let mut groups = timing::groups(&images);
    if only_check {
        round(&mut groups, 0);
        println!("Every job ran once. No times: this was a check.");
        return Ok(());
    }
    let rounds = in_rounds(ROUNDS, |turn| round(&mut groups, turn));
    print_table(&groups, &rounds);
    Ok(())
}

/// Nanoseconds of a pass, by job, group and competitor.
type Round = Vec<Vec<[f64; COMPETITORS.len()]>>;

fn round(groups: &mut [Group], turn: usize) -> Round {
    let mut times = vec![vec![[0.0; COMPETITORS.len()]; groups.len()]; JOBS.len()];
    for (job, by_group) in times.iter_mut().enumerate() {
        for (group, by_competitor) in groups.iter_mut().zip(by_group) {
            for competitor in order(COMPETITORS.len(), turn) {
                by_competitor[competitor] = group.pass(job, competitor).as_nanos() as f64;
            }
        }
    }
    times
}

fn print_table(groups: &[Group], rounds: &[Round]) {
    print_head(ROUNDS, &COMPETITORS);
    for (job, name) in JOBS.iter().enumerate() {
        for (place, group) in groups.iter().enumerate() {
            let time = |competitor: usize| median(rounds.iter().map(|round| round[job][place][competitor]).collect());
            print_row(name, group.name, (group.calls(), group.bytes()), &[0, 1, 2, 3].map(time));
        }
    }
    println!("\nTimes are nanoseconds a call; the last three are the library's time to the other's.");
    print_waiting();
}
