//! Rounds in which all take turns, their medians, and a table's rows.

const WARM_UP: usize = 4;
/// Of a table of four.
pub const ROUNDS: usize = 16;

/// What each round gives, after those to warm up. Where there are twice as many rounds as seats, or four times and so on, each seat
/// begins equally often, and each comes after each of its neighbours equally often.
pub fn in_rounds<T>(rounds: usize, mut round: impl FnMut(usize) -> T) -> Vec<T> {
    for turn in 0..WARM_UP {
        round(turn);
    }
    (0..rounds).map(round).collect()
}

/// The seats in turn: who begins changes with each round, the direction each time that all have begun.
pub fn order(seats: usize, turn: usize) -> Vec<usize> {
    let backward = turn / seats % 2 == 1;
    (0..seats).map(|i| if backward { seats - 1 - i } else { i }).map(|i| (i + turn) % seats).collect()
}

pub fn median(mut values: Vec<f64>) -> f64 {
    values.sort_by(f64::total_cmp);
    (values[(values.len() - 1) / 2] + values[values.len() / 2]) / 2.0
}

pub fn print_rounds(rounds: usize) {
    println!("\nMedians of {} rounds after {} to warm up; no lent buffer is cleared.\n", rounds, WARM_UP);
}

/// How much other work was in the way since the program began, where the system tells it.
pub fn print_waiting() {
    let told = std::fs::read_to_string("/proc/self/schedstat").unwrap_or_default();
    let seconds: Vec<f64> =
        told.split_whitespace().filter_map(|word| word.parse().ok()).map(|ns: f64| ns / 1e9).collect();
    if let [ran, waited, ..] = seconds[..] {
        println!("\nThe program ran for {:.2} s and waited for other work for {:.2} s.", ran, waited);
    }
}

/// The head of a table with the times of all, and the first one's to each other's.
pub fn print_head(rounds: usize, competitors: &[&str]) {
    print_rounds(rounds);
    print!("| job | images | calls | mean bytes |");
    competitors.iter().for_each(|name| print!(" {} ns |", name));
    competitors[1..].iter().for_each(|name| print!(" to {} |", name));
    println!("\n|{}", "---|".repeat(3 + 2 * competitors.len()));
}

/// The times are of all calls together.
pub fn print_row(job: &str, images: &str, (calls, bytes): (usize, usize), times: &[f64]) {
    print!("| {} | {} | {} | {} |", job, images, calls, bytes / calls);
    times.iter().for_each(|time| print!(" {:.0} |", time / calls as f64));
    times[1..].iter().for_each(|time| print!(" {:.2} |", times[0] / time));
    println!();
}
