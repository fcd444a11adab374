//! A pass is one check, at one place, over the texts of one case. The passes of a round take turns, and which begins changes with the
//! round. A check's time is the mean over its places of the median of the rounds.

use crate::texts::Case;
use crate::Check;
use std::time::Instant;

const WARM_UP: usize = 3;
const ROUNDS: usize = 31;

pub fn print_table(checks: &[Check], cases: &[Case]) {
    println!("\nNanoseconds a call; of a check that is linked to several places the mean, and the least and the most in brackets.");
    println!("Medians of {} rounds after {} to warm up.\n", ROUNDS, WARM_UP);
    print!("| text | {} |", checks[0].name);
    for other in &checks[1..] {
        print!(" {} | to {} |", other.name, other.name);
    }
    println!("\n|---|---|{}", "---|---|".repeat(checks.len() - 1));
    for case in cases {
        let times = times(checks, case);
        print!("| {} | {} |", case.sort, shown(&times[0]));
        for time in &times[1..] {
            print!(" {} | {:.2} |", shown(time), mean(&times[0]) / mean(time));
        }
        println!();
    }
}

fn shown(times: &[f64]) -> String {
    let least = times.iter().copied().fold(f64::INFINITY, f64::min);
    let most = times.iter().copied().fold(0.0, f64::max);
    match times.len() {
        1 => format!("{:.1}", times[0]),
        _ => format!("{:.1} ({:.1}, {:.1})", mean(times), least, most),
    }
}

fn mean(times: &[f64]) -> f64 {
    times.iter().sum::<f64>() / times.len() as f64
}

/// The median nanoseconds of a call, by check and place.
fn times(checks: &[Check], case: &Case) -> Vec<Vec<f64>> {
    let all: Vec<fn(&[u8]) -> bool> = checks.iter().flat_map(|check| check.places).copied().collect();
    let mut rounds = vec![Vec::new(); all.len()];
    for round in 0..WARM_UP + ROUNDS {
        for i in 0..all.len() {
            let which = (i + round) % all.len();
            let time = pass(all[which], case);
            if round >= WARM_UP {
                rounds[which].push(time);
            }
        }
    }
    let mut medians = rounds.into_iter().map(median);
    checks.iter().map(|check| medians.by_ref().take(check.places.len()).collect()).collect()
}

/// The check is called through a pointer, so that it isn't taken apart in the loop that calls it.
fn pass(is_utf8: fn(&[u8]) -> bool, case: &Case) -> f64 {
    let is_utf8 = opaque(is_utf8);
    let mut accepted = 0;
    let start = Instant::now();
    for text in &case.texts {
        accepted += usize::from(is_utf8(text));
    }
    let took = start.elapsed();
    assert_eq!(opaque(accepted), case.texts.len(), "a text was refused");
    took.as_nanos() as f64 / case.texts.len() as f64
}

/// The value, by a way that the compiler doesn't see through.
fn opaque<T: Copy>(value: T) -> T {
    // SAFETY: the reference is to a live value of a type that may be copied.
    unsafe { std::ptr::read_volatile(&value) }
}

fn median(mut values: Vec<f64>) -> f64 {
    values.sort_by(f64::total_cmp);
    values[values.len() / 2]
}
