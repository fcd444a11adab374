//! Times the library beside a copy of the same bytes, a plain model and a yardstick; README.md says how.

mod armour;
mod damage;
mod images;
mod mixed;
#[path = "../../bindings/rust/tests/model/mod.rs"]
mod model;
mod night;
mod night_files;
mod passes;
mod random;
mod rounds;
mod same;
mod same_armour;
mod timing;
mod yardstick;
mod yardstick_armour;

use rounds::{in_rounds, median, order, print_head, print_row, print_waiting, ROUNDS};
use std::ffi::OsString;
use std::path::Path;
use std::process::exit;
use timing::{Group, COMPETITORS, GROUPS, JOBS, LIBRARY, YARDSTICK};

/// One number for each seat, such as who sits in it.
type Seats = [usize; COMPETITORS.len()];

/// Below it the night's files are made.
const TARGET: &str = concat!(env!("CARGO_MANIFEST_DIR"), "/../target");
const USAGE: &str = "usage: saltorchard-bench [--check | --same | --armour | --night [FOLDER]]";

fn main() {
    let words: Vec<OsString> = std::env::args_os().skip(1).collect();
    let folder = words.get(1).map(Path::new);
    let seats = [0, 1, 2, 3];
    let result = match (words.first().and_then(|word| word.to_str()), words.len()) {
        (None, 0) => table(seats, false).and_then(|()| armour::run(false, false)),
        (Some("--same"), 1) => same_seats(),
        (Some("--check"), 1) => check(seats),
        (Some("--armour"), 1) => armour::run(false, false),
        (Some("--night"), 1 | 2) => night::run(&[], folder, TARGET, false),
        _ => Err(USAGE.to_string()),
    };
    if let Err(why) = result {
        eprintln!("{}", why);
        exit(1)
    }
}

fn same_seats() -> Result<(), String> {
    table([YARDSTICK; COMPETITORS.len()], false)?;
    armour::run(true, false)
}

fn check(seats: Seats) -> Result<(), String> {
    table(seats, true)?;
    armour::run(false, true)?;
    night::run(&[], None, TARGET, true)
}

fn table(seats: Seats, only_check: bool) -> Result<(), String> {
    let images = images::all();
    let compared = same::everywhere(&images)?;
    println!(
        "Same answers of library, model and yardstick on {} inputs, {} of them accepted.",
        compared.inputs, compared.accepted
    );
    let mut groups = timing::groups(images);
    if only_check {
        round(&mut groups, &seats, 0);
        println!("Every job ran once. No times: this was a check.");
        return Ok(());
    }
    let rounds = in_rounds(ROUNDS, |turn| round(&mut groups, &seats, turn));
    if seats[LIBRARY] != LIBRARY {
        println!("The yardstick sits in all four seats: every ratio is to be near 1.");
    }
    print_table(&groups, &rounds);
    Ok(())
}

/// Nanoseconds of a pass, by job, group and seat.
type Round = [[[f64; COMPETITORS.len()]; GROUPS]; JOBS.len()];

fn round(groups: &mut [Group; GROUPS], seats: &Seats, turn: usize) -> Round {
    let mut times = Round::default();
    for (job, by_group) in times.iter_mut().enumerate() {
        for (group, by_seat) in groups.iter_mut().zip(by_group) {
            for seat in order(seats.len(), turn) {
                by_seat[seat] = group.pass(job, seats[seat], seat).as_nanos() as f64;
            }
        }
    }
    times
}

fn print_table(groups: &[Group; GROUPS], rounds: &[Round]) {
    print_head(ROUNDS, &COMPETITORS);
    for (job, name) in JOBS.iter().enumerate() {
        for (which, images) in [(&[0, 1][..], "all but RSA"), (&[0], "small"), (&[1], "long"), (&[2], "RSA")] {
            let calls = which.iter().map(|&group| groups[group].calls(job)).sum();
            let bytes = which.iter().map(|&group| groups[group].bytes(job)).sum();
            print_row(name, images, (calls, bytes), &times(rounds, job, which));
        }
    }
    println!("\nTimes are nanoseconds a call; the last three are the library's time to the other's.");
    print_waiting();
}

/// The median time of each seat for these groups together.
fn times(rounds: &[Round], job: usize, which: &[usize]) -> [f64; COMPETITORS.len()] {
    let of_round = |round: &Round, seat: usize| which.iter().map(|&group| round[job][group][seat]).sum::<f64>();
    [0, 1, 2, 3].map(|seat| median(rounds.iter().map(|round| of_round(round, seat)).collect()))
}
