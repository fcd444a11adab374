//! Links the archive `libsaltorchard.a`, or says in a sentence why it can't.

use std::env;
use std::fs;
use std::path::{Path, PathBuf};
use std::process::exit;

const ARCHIVE: &str = "libsaltorchard.a";
/// The number of the C interface that src/c.rs declares.
const INTERFACE: &str = "10";

fn main() {
    println!("cargo:rerun-if-env-changed=SALTORCHARD_LIB_DIR");
    check_target();
    let folder = folder();
    let archive = folder.join(ARCHIVE);
    println!("cargo:rerun-if-changed={}", archive.display());
    if !archive.is_file() {
        stop(&format!(
            "{} isn't there. Make it with `bash tools/archive.sh` in the repository's root, \
             or set SALTORCHARD_LIB_DIR to the folder that has it.",
            archive.display()
        ));
    }
    check_interface(&archive);
    // The linker may run in another folder, so the path can't be a relative one.
    let folder = folder.canonicalize().unwrap_or(folder);
    println!("cargo:rustc-link-search=native={}", folder.display());
    println!("cargo:rustc-link-lib=static=saltorchard");
}

fn check_target() {
    let target = variable("TARGET");
    if variable("CARGO_CFG_TARGET_ARCH") != "x86_64" || variable("CARGO_CFG_TARGET_OS") != "linux" {
        stop(&format!(
            "{} holds x86-64 code for Linux, and this build is for {}. Build for that target instead: \
             `cargo build --target x86_64-unknown-linux-gnu`; on another machine this needs a cross linker \
             (CARGO_TARGET_X86_64_UNKNOWN_LINUX_GNU_LINKER) and, to run it, an emulator \
             (CARGO_TARGET_X86_64_UNKNOWN_LINUX_GNU_RUNNER).",
            ARCHIVE, target
        ));
    }
}

/// The archive has a function with its interface's number in its name.
fn check_interface(archive: &Path) {
    let bytes = fs::read(archive).unwrap_or_else(|why| stop(&format!("{} can't be read: {}.", archive.display(), why)));
    let numbers = interfaces(&bytes);
    if numbers.iter().any(|number| number == INTERFACE) {
        return;
    }
    let has = match numbers.first() {
        Some(number) => format!("has interface {}", number),
        None => "has no interface number: it is older than interface 6, or isn't the library's".to_string(),
    };
    stop(&format!(
        "this crate needs interface {} of {}, and the archive in {} {}. Make the archive of the checkout that the crate is of, with \
         `bash tools/archive.sh` in its root; SALTORCHARD_LIB_DIR, where it is set, must name the folder of that one.",
        INTERFACE,
        ARCHIVE,
        archive.parent().unwrap_or(archive).display(),
        has
    ));
}

/// The number N of each name `saltorchard_interface_N` among the bytes.
fn interfaces(bytes: &[u8]) -> Vec<String> {
    let name = b"saltorchard_interface_";
    let mut numbers = Vec::new();
    for at in 0..bytes.len() {
        if let Some(rest) = bytes[at..].strip_prefix(name) {
            let digits = rest.iter().take_while(|byte| byte.is_ascii_digit());
            numbers.push(digits.map(|&byte| char::from(byte)).collect());
        }
    }
    numbers
}

/// The folder that is named, or that of a package, or that of the checkout.
fn folder() -> PathBuf {
    if let Some(folder) = env::var_os("SALTORCHARD_LIB_DIR").filter(|folder| !folder.is_empty()) {
        // Cargo runs this in the crate's folder: a relative path is told from its root on.
        return env::current_dir().unwrap_or_default().join(folder);
    }
    let crate_itself = PathBuf::from(variable("CARGO_MANIFEST_DIR"));
    let packaged = crate_itself.join("lib");
    if packaged.join(ARCHIVE).is_file() {
        return packaged;
    }
    crate_itself.join("../../target/staticlib")
}

fn variable(name: &str) -> String {
    env::var(name).unwrap_or_default()
}

fn stop(reason: &str) -> ! {
    eprintln!("saltorchard: {}", reason);
    exit(1)
}
