//! Export and import, timed beside a copy of what is handed in and the yardstick. All take turns in every round, and write to one buffer
//! that is used again and not cleared.

use crate::images;
use crate::passes::{copy, write_pass};
use crate::random::Random;
use crate::rounds::{in_rounds, median, order, print_head, print_row, print_waiting};
use crate::{same_armour, yardstick_armour as yardstick};
use images::LIMIT;
use saltorchard::{armour, raw};

/// Twice as many as seats, and so on, for three seats and for four.
const ROUNDS: usize = 24;
/// So many images of 65,535 bytes.
const LONG: usize = 16;

/// Answers the length that was written.
type Call = fn(&[u8], &mut [u8]) -> usize;

/// A job with those who do it, the library first, and the yardstick's own place among them.
struct Job {
    name: &'static str,
    calls: &'static [(&'static str, Call)],
    rows: Vec<Row>,
}

const YARDSTICK: usize = 2;

const EXPORTS: &[(&str, Call)] = &[
    ("library", |image, out| raw::export(image, out).length as usize),
    ("copy", copy),
    ("yardstick", |image, out| yardstick::export(image, out).length as usize),
];
const IMPORTS: &[(&str, Call)] = &[
    ("library", |text, out| raw::import(text, out).length as usize),
    ("copy", copy),
    ("yardstick", |text, out| yardstick::import(text, out).length as usize),
    ("at once", |text, out| yardstick::import_at_once(text, out).length as usize),
];

/// What a pass goes over, and how many bytes each call is to write.
struct Row {
    name: &'static str,
    handed: Vec<Vec<u8>>,
    written: Vec<usize>,
}

/// Compares the answers; then prints the times, with the yardstick in all seats where `same`, or runs each job once where `only_check`.
pub fn run(same: bool, only_check: bool) -> Result<(), String> {
    let inputs = same_armour::everywhere()?;
    println!("Armour: same answers of library, model and yardstick on {} inputs.", inputs);
    for job in jobs() {
        let seats: Vec<usize> = (0..job.calls.len()).map(|seat| if same { YARDSTICK } else { seat }).collect();
        if only_check {
            job.round(&seats, 0);
        } else {
            job.print_table(&seats);
        }
    }
    if !only_check {
        print_waiting();
    }
    Ok(())
}

fn jobs() -> [Job; 2] {
    let mut random = Random::new(11);
    let long: Vec<_> = (0..LONG).map(|_| random.bytes(LIMIT)).collect();
    let small = images::all().small;
    let (long_texts, small_texts) = (texts(&long), texts(&small));
    let long_crlf: Vec<_> = long_texts.iter().map(|text| with_crlf(text)).collect();
    let exports = vec![row("65,535 bytes", &long, &long_texts), row("small", &small, &small_texts)];
    let imports = vec![
        row("65,535 bytes", &long_texts, &long),
        row("65,535 bytes, CR LF", &long_crlf, &long),
        row("small", &small_texts, &small),
    ];
    [Job { name: "export", calls: EXPORTS, rows: exports }, Job { name: "import", calls: IMPORTS, rows: imports }]
}

fn row(name: &'static str, handed: &[Vec<u8>], written: &[Vec<u8>]) -> Row {
    Row { name, handed: handed.to_vec(), written: written.iter().map(Vec::len).collect() }
}

fn texts(images: &[Vec<u8>]) -> Vec<Vec<u8>> {
    let text = |image: &Vec<u8>| {
        let mut text = vec![0; armour::exported_len(image.len())];
        armour::export(image, &mut text).expect("room for the text");
        text
    };
    images.iter().map(text).collect()
}

pub fn with_crlf(text: &[u8]) -> Vec<u8> {
    text.split_inclusive(|&byte| byte == b'\n').flat_map(|line| [&line[..line.len() - 1], b"\r\n"].concat()).collect()
}

impl Job {
    /// Nanoseconds of a pass, by row and seat.
    fn round(&self, seats: &[usize], turn: usize) -> Vec<Vec<f64>> {
        let mut out = vec![0; 2 * LIMIT];
        let mut times = vec![vec![0.0; seats.len()]; self.rows.len()];
        for (row, times) in self.rows.iter().zip(&mut times) {
            for seat in order(seats.len(), turn) {
                times[seat] = self.pass(row, seats[seat], &mut out);
            }
        }
        times
    }

    fn pass(&self, row: &Row, who: usize, out: &mut [u8]) -> f64 {
        let (name, call) = self.calls[who];
        let handed = row.handed.iter().map(Vec::len).sum();
        let written = row.written.iter().sum();
        let wanted = if name == "copy" { handed } else { written };
        write_pass(&row.handed, out, call, |length| *length, wanted).as_nanos() as f64
    }

    fn print_table(&self, seats: &[usize]) {
        let rounds = in_rounds(ROUNDS, |turn| self.round(seats, turn));
        let names: Vec<&str> = seats.iter().map(|&seat| self.calls[seat].0).collect();
        print_head(ROUNDS, &names);
        for (i, row) in self.rows.iter().enumerate() {
            let calls = row.handed.len();
            let bytes = row.handed.iter().map(Vec::len).sum();
            let seat_times = |seat: usize| rounds.iter().map(|round| round[i][seat]).collect();
            let times: Vec<f64> = (0..seats.len()).map(|seat| median(seat_times(seat))).collect();
            print_row(self.name, row.name, (calls, bytes), &times);
        }
    }
}
