//! Counts: of the inputs, and of each cause.

use saltorchard_replay::answer::Answer;
use saltorchard_replay::causes::{Cause, CAUSES};

/// How often a cause came, by what each of the two did.
#[derive(Clone, Default)]
pub struct Count {
    pub they_read: u64,
    pub we_read: u64,
    pub other_error: u64,
    pub written: u64,
    /// The length of the smallest input, and which it was.
    pub smallest: Option<(usize, String)>,
}

#[derive(Clone, Default)]
pub struct Tally {
    pub inputs: u64,
    pub both_read: u64,
    pub both_refuse: u64,
    pub new_images: u64,
    pub causes: Vec<Count>,
    /// The first of those without a cause.
    pub unexplained: Vec<String>,
    pub without_cause: u64,
}

const SHOWN: usize = 20;

impl Tally {
    pub fn new() -> Self {
        Self { causes: vec![Count::default(); CAUSES], ..Self::default() }
    }

    pub fn compared(&mut self, ours: Answer, theirs: Answer) {
        self.inputs += 1;
        match (ours, theirs) {
            (Answer::Read, Answer::Read) => self.both_read += 1,
            _ if ours == theirs => self.both_refuse += 1,
            _ => {}
        }
    }

    pub fn count(&mut self, cause: Cause) -> &mut Count {
        &mut self.causes[usize::from(cause.0) - 1]
    }

    pub fn unexplained(&mut self, words: String) {
        self.without_cause += 1;
        if self.unexplained.len() < SHOWN {
            self.unexplained.push(words);
        }
    }

    pub fn add(&mut self, other: Tally) {
        self.inputs += other.inputs;
        self.both_read += other.both_read;
        self.both_refuse += other.both_refuse;
        self.new_images += other.new_images;
        self.without_cause += other.without_cause;
        self.unexplained.extend(other.unexplained);
        self.unexplained.truncate(SHOWN);
        for (mine, theirs) in self.causes.iter_mut().zip(other.causes) {
            mine.add(theirs);
        }
    }

    pub fn print(&self) {
        println!("inputs {}, new images {}", self.inputs, self.new_images);
        println!("both read {}, both refuse with the same number and count {}", self.both_read, self.both_refuse);
        println!(
            "cause, how often: the crate reads and we refuse / we read and it refuses / another error / other bytes"
        );
        for cause in Cause::all() {
            let count = &self.causes[usize::from(cause.0) - 1];
            let smallest =
                count.smallest.as_ref().map_or(String::new(), |(length, name)| format!("{length} bytes, {name}"));
            let domain = if cause.in_domain() { "" } else { ", outside the domain" };
            let [a, b, c, d] = [count.they_read, count.we_read, count.other_error, count.written];
            println!(
                "{cause} {}{domain}: {} = {a} / {b} / {c} / {d}; smallest {smallest}",
                cause.words(),
                a + b + c + d
            );
        }
        self.unexplained.iter().for_each(|words| println!("WITHOUT A CAUSE: {words}"));
        println!("without a cause: {}", self.without_cause);
    }
}

impl Count {
    fn add(&mut self, other: Count) {
        self.they_read += other.they_read;
        self.we_read += other.we_read;
        self.other_error += other.other_error;
        self.written += other.written;
        if let Some(other) = other.smallest {
            self.smaller(other.0, || other.1.clone());
        }
    }

    pub fn smaller(&mut self, length: usize, name: impl FnOnce() -> String) {
        if self.smallest.as_ref().map_or(true, |(least, _)| length < *least) {
            self.smallest = Some((length, name()));
        }
    }
}
