//! Replays the stored answers of the crate ssh-key: ours must be the stored ones, every difference must have its stored cause, every
//! cause a row in docs/DIFFERENCES.md and every row of a cause a stored difference.

use saltorchard_replay::causes::Cause;
use saltorchard_replay::judge::judge;
use saltorchard_replay::ours;
use saltorchard_replay::stored::{causes_text, ours_text, Line, COMMENT};
use std::collections::{BTreeMap, BTreeSet};
use std::path::{Path, PathBuf};
use std::process::ExitCode;

/// The least number of stored answers; fewer are a fault of the file.
const LEAST: usize = 3_000;

fn main() -> ExitCode {
    let root = Path::new(env!("CARGO_MANIFEST_DIR")).join("../..");
    let words: Vec<_> = std::env::args().skip(1).collect();
    let path = words.first().map_or_else(|| root.join("oracle/answers.txt"), PathBuf::from);
    let (text, document) = (text_of(&path), text_of(&root.join("docs/DIFFERENCES.md")));
    let lines: Vec<&str> = text.lines().filter(|line| !line.starts_with('#')).collect();
    let mut counts = BTreeMap::new();
    let mut faults: Vec<String> = lines.iter().filter_map(|line| replayed(&root, line, &mut counts).err()).collect();
    faults.extend(rows_faults(&document, &counts));
    if lines.len() < LEAST {
        faults.push(format!("{} stored answers are too few", lines.len()));
    }
    faults.iter().take(20).for_each(|fault| println!("oracle: {fault}"));
    let causes: Vec<_> = counts.iter().map(|(cause, count)| format!("{cause} {count}")).collect();
    println!(
        "oracle: {} stored answers of the crate replayed; differences by cause: {}",
        lines.len(),
        causes.join(", ")
    );
    println!("oracle: {} faults", faults.len());
    ExitCode::from(u8::from(!faults.is_empty()))
}

fn text_of(path: &Path) -> String {
    std::fs::read_to_string(path).unwrap_or_else(|error| panic!("{}: {error}", path.display()))
}

fn replayed(root: &Path, text: &str, counts: &mut BTreeMap<Cause, usize>) -> Result<(), String> {
    let line = Line::parse(text).ok_or_else(|| format!("not a stored answer: {text}"))?;
    let fault = |words: &str| format!("{}: {words}", line.name);
    let base = std::fs::read(root.join("tools/corpus").join(format!("{}.bin", line.base)));
    let base = base.map_err(|error| fault(&format!("{}: {error}", line.base)))?;
    let image = line.image(&base).ok_or_else(|| fault("the edits don't fit the base"))?;
    let theirs = line.theirs().ok_or_else(|| fault("the crate's answer can't be read"))?;
    let ours = ours::of(&image, COMMENT);
    if ours_text(&ours) != line.ours {
        return Err(fault(&format!("we answered {}, and now {}", line.ours, ours_text(&ours))));
    }
    let causes = judge(&image, COMMENT, &ours, &theirs).map_err(|words| fault(&words))?;
    if causes_text(&causes) != line.causes {
        return Err(fault(&format!("the causes were {}, and now are {}", line.causes, causes_text(&causes))));
    }
    causes.into_iter().for_each(|cause| *counts.entry(cause).or_default() += 1);
    Ok(())
}

/// The document's rows of causes, and the stored differences: each must have the other.
fn rows_faults(document: &str, counts: &BTreeMap<Cause, usize>) -> Vec<String> {
    let row = |line: &str| Cause::parse(line.strip_prefix("| ")?.split(' ').next()?);
    let rows: BTreeSet<Cause> = document.lines().filter_map(row).collect();
    let without_row = counts.keys().filter(|cause| !rows.contains(cause));
    let without_answer = rows.iter().filter(|cause| !counts.contains_key(cause));
    let mut faults: Vec<_> = without_row.map(|cause| format!("docs/DIFFERENCES.md has no row for {cause}")).collect();
    faults.extend(without_answer.map(|cause| format!("no stored answer differs for the cause {cause}")));
    faults
}
