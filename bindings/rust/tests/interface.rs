//! An archive of another interface can't be built with: build.rs says so in a sentence, and where it doesn't see it the linker
//! stops. Each test builds an example anew over a copy of the archive.

use std::env;
use std::fs;
use std::path::PathBuf;
use std::process::Command;

const NAME: &str = "saltorchard_interface_";

/// The crate's number, as build.rs has it.
fn number() -> &'static str {
    let (_, rest) =
        include_str!("../build.rs").split_once("const INTERFACE: &str = \"").expect("build.rs has the number");
    &rest[..rest.find('"').expect("a string ends")]
}

/// A number of as many digits.
fn other() -> String {
    number().chars().map(|digit| if digit == '9' { '8' } else { '9' }).collect()
}

fn archive() -> Vec<u8> {
    let named = env::var_os("SALTORCHARD_LIB_DIR").map(PathBuf::from);
    let within = ["lib", "../../target/staticlib"].map(|folder| PathBuf::from(env!("CARGO_MANIFEST_DIR")).join(folder));
    let folders = named.map_or(within.to_vec(), |folder| vec![folder]);
    let archive = folders.iter().find_map(|folder| fs::read(folder.join("libsaltorchard.a")).ok());
    archive.expect("the tests were built with it")
}

/// The archive with one name for another of the same length, wherever it stands.
fn renamed(from: &str, to: &str) -> Vec<u8> {
    let mut bytes = archive();
    let places: Vec<usize> = (0..bytes.len()).filter(|&at| bytes[at..].starts_with(from.as_bytes())).collect();
    assert!(!places.is_empty(), "the archive has no {}", from);
    for at in places {
        bytes[at..at + to.len()].copy_from_slice(to.as_bytes());
    }
    bytes
}

/// The archive of another interface, with one more member in which build.rs finds the crate's number.
fn fooling(mut archive: Vec<u8>) -> Vec<u8> {
    let text = format!("{}{}\n", NAME, number());
    archive.extend(format!("{:<16}{:<12}{:<6}{:<6}{:<8}{:<10}`\n", "number/", 0, 0, 0, 644, text.len()).into_bytes());
    archive.extend(text.into_bytes());
    if archive.len() % 2 == 1 {
        archive.push(b'\n');
    }
    archive
}

/// Whether an example is built over this archive, and what is said.
fn built(test: &str, archive: &[u8], words: &[&str]) -> (bool, String) {
    let folder = PathBuf::from(env!("CARGO_TARGET_TMPDIR")).join(test);
    fs::create_dir_all(&folder).expect("a folder for the archive");
    fs::write(folder.join("libsaltorchard.a"), archive).expect("the archive's copy");
    let output = Command::new(env!("CARGO"))
        .args(["build", "--offline", "--example", "oven"])
        .args(words)
        .current_dir(env!("CARGO_MANIFEST_DIR"))
        .env("SALTORCHARD_LIB_DIR", &folder)
        .env("CARGO_TARGET_DIR", folder.join("target"))
        .env("CARGO_PROFILE_RELEASE_LTO", "true")
        .output()
        .expect("cargo runs");
    (output.status.success(), String::from_utf8_lossy(&output.stderr).into_owned())
}

fn stops_with(test: &str, archive: &[u8], words: &[&str], sentences: &[&str]) {
    let (success, said) = built(test, archive, words);
    assert!(!success, "it was built:\n{}", said);
    for sentence in sentences {
        assert!(said.contains(sentence), "no \"{}\" in:\n{}", sentence, said);
    }
}

#[test]
fn an_archive_without_a_number() {
    let older = renamed(NAME, "saltorchard_elsewhere_");
    let needs = format!("this crate needs interface {} of libsaltorchard.a", number());
    stops_with("older", &older, &[], &[&needs, "has no interface number", "`bash tools/archive.sh`"]);
}

#[test]
fn an_archive_of_another_number() {
    let another = renamed(&format!("{}{}", NAME, number()), &format!("{}{}", NAME, other()));
    let needs = format!("this crate needs interface {} of libsaltorchard.a", number());
    let has = format!("has interface {}", other());
    stops_with("another", &another, &[], &[&needs, &has, "`bash tools/archive.sh`"]);
}

#[test]
fn the_linker_stops_too() {
    let (own, others) = (format!("{}{}", NAME, number()), format!("{}{}", NAME, other()));
    for (test, words) in [("debug", &[][..]), ("release", &["--release"])] {
        let (success, said) = built(test, &fooling(archive()), words);
        assert!(success, "the archive itself isn't linked:\n{}", said);
        stops_with(test, &fooling(renamed(&own, &others)), words, &["undefined", &own]);
    }
}
