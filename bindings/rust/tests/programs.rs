//! The examples that read files, over the stored key files, binary and armoured, and over stores of settings: their lines are what the
//! model says of them.
#![cfg(feature = "alloc")]
#![allow(clippy::duplicate_mod)] // the two programs share a file, and stand here side by side

use crate::support;

use std::ffi::OsString;
use std::fs;
use std::io::{self, Write};
use std::path::{Path, PathBuf};
use std::process::Command;

use saltorchard::{armour, Image};
use support::images::{Draft, Key, ALGORITHMS, CIPHERS, KDFS};
use support::model::armour::text_of;
use support::model::settings::{get, move_to_v2, record_of, DEVICES, STORE};
use support::model::{self, Record};
use support::rings::{image_of, mixed, Any, Commented, Ring};
use support::Rng;

#[path = "../examples/compare.rs"]
#[allow(dead_code)]
mod compare;
#[path = "../examples/inspect.rs"]
#[allow(dead_code)]
mod inspect;
#[path = "../examples/settings.rs"]
#[allow(dead_code)]
mod settings;

type Program = fn(&[OsString], &mut dyn Write, &mut dyn Write) -> io::Result<i32>;

/// What a program says of these files, or other arguments: status, standard output, standard error.
fn said(program: Program, files: &[&Path]) -> (i32, String, String) {
    let arguments: Vec<OsString> = files.iter().map(|file| file.as_os_str().to_os_string()).collect();
    let (mut out, mut err) = (Vec::new(), Vec::new());
    let status = program(&arguments, &mut out, &mut err).expect("a Vec takes every byte");
    (status, String::from_utf8(out).expect("a report is ASCII"), String::from_utf8(err).expect("a sentence is UTF-8"))
}

fn root() -> PathBuf {
    Path::new(env!("CARGO_MANIFEST_DIR")).join("../..")
}

fn stored(name: &str) -> PathBuf {
    root().join("tools/corpus").join(name)
}

/// A file of the running test's own. The keys in it are published ones, or made up.
fn written(name: &str, bytes: &[u8]) -> PathBuf {
    let thread = std::thread::current();
    let test = thread.name().unwrap_or_default();
    let path = Path::new(env!("CARGO_TARGET_TMPDIR")).join(format!("{}-{}", test, name));
    fs::write(&path, bytes).expect("a file of the test's own");
    path
}

/// The report on an image, by the model.
fn report(image: &[u8]) -> (i32, String) {
    let record = match model::read(image) {
        Ok(record) => record,
        Err(refusal) => return (1, format!("refused {} {} {}\n", refusal.number, refusal.count, refusal.at)),
    };
    let Record { kind, cipher, kdf, .. } = record;
    let encrypted = kind == model::ENCRYPTED;
    let mut lines = format!("kind {}\n", if encrypted { "encrypted" } else { "plain" });
    lines += &format!("algorithm {}\n", ALGORITHMS[usize::from(record.algorithm)]);
    if record.bits > 0 {
        lines += &format!("bits {}\n", record.bits);
    }
    lines += &format!("cipher {}\nkdf {}\n", CIPHERS[usize::from(cipher)], KDFS[usize::from(kdf)]);
    if encrypted {
        lines += &format!("ciphertext {}\ntag {}\n", record.ciphertext.bytes.len(), record.tag.bytes.len());
        return (0, lines + &format!("image {}\n", image.len()));
    }
    lines += &format!("comment {}\npadding {}\n", record.comment.bytes.len(), record.padding);
    lines += &format!("image {}\nform {}\n", image.len(), if record.form { "yes" } else { "no" });
    (0, lines)
}

#[test]
fn inspect_reports_on_each_stored_file() {
    let (mut files, mut refused) = (0, 0);
    for entry in fs::read_dir(root().join("tools/corpus")).expect("the stored files") {
        let path = entry.expect("a stored file").path();
        if path.extension().map_or(true, |extension| extension != "bin") {
            continue;
        }
        let image = fs::read(&path).expect("a stored file");
        let text = text_of(&image);
        let with_cr = text.split(|byte| *byte == b'\n').collect::<Vec<_>>().join(&b"\r\n"[..]);
        let (text, with_cr) = (written("text", &text), written("with-cr", &with_cr));
        let right = report(&image);
        for file in [&path, &text, &with_cr] {
            let (status, out, err) = said(inspect::run, &[file]);
            assert_eq!((status, &out), (right.0, &right.1), "{}", path.display());
            assert_eq!(err.lines().count() as i32, status, "a sentence exactly where it is refused");
        }
        files += 1;
        refused += right.0;
    }
    println!("programs: {} stored files, {} of them refused", files, refused);
    assert!(files > 70 && refused > 10 && refused < 20);
}

/// The project's README shows what its own program prints of a file.
#[test]
fn inspect_prints_what_the_readme_shows() {
    let readme = fs::read_to_string(root().join("README.md")).expect("the project's README");
    let name = "keygen-rsa8192-ascii.bin";
    let (_, report, _) = said(inspect::run, &[&stored(name)]);
    let shown: String = report.lines().map(|line| format!("    {}\n", line)).collect();
    let (_, after) = readme.split_once(&format!("./inspect tools/corpus/{}", name)).expect("the call");
    let (_, after) = after.split_once('\n').expect("the call's line ends");
    assert!(after.starts_with(&shown), "{}", name);
}

#[test]
fn inspect_refuses_and_says_why() {
    let image = fs::read(stored("keygen-ed25519-ascii.bin")).expect("a stored file");
    let longer = written("longer", &[&image[..], b"xx"].concat());
    let (status, out, err) = said(inspect::run, &[&longer]);
    assert_eq!((status, out.as_str()), (1, "refused 6 2 242\n"));
    assert!(err.ends_with("the image has 2 bytes too many, from byte 242 on.\n"), "{}", err);
    let misspelled = written("misspelled", &text_of(&image)[..99]);
    let (status, out, err) = said(inspect::run, &[&misspelled]);
    assert_eq!((status, out.as_str()), (1, "refused 2 0 0\n"));
    assert!(err.contains("doesn't end with the line"), "{}", err);
    for long in [vec![b'x'; 2 << 20], [b"-----BEGIN OPENSSH", &vec![b'x'; 1 << 20][..]].concat()] {
        assert_eq!(said(inspect::run, &[&written("long", &long)]).1, "refused 11 0 0\n");
    }
}

#[test]
fn not_looked_at() {
    let (folder, missing, file) = (root(), stored("not-there"), stored("keygen-ed25519-ascii.bin"));
    for program in [inspect::run as Program, compare::run] {
        for files in [&[][..], &[&folder], &[&missing], &[&file, &missing], &[&missing, &file], &[&file, &file, &file]]
        {
            let files: Vec<&Path> = files.iter().map(|file: &&PathBuf| file.as_path()).collect();
            let (status, out, err) = said(program, &files);
            assert_eq!((status, out.as_str(), err.lines().count()), (2, "", 1), "{:?}", files);
        }
    }
}

/// What compare says of two images, in either order and with one of them armoured.
fn compared(a: &[u8], b: &[u8]) -> String {
    let [a, b, text] = [written("a", a), written("b", b), written("text", &text_of(b))];
    let line = said(compare::run, &[&a, &b]);
    assert_eq!(said(compare::run, &[&b, &a]), line);
    assert_eq!(said(compare::run, &[&a, &text]), line);
    assert_eq!(line.0, i32::from(line.1 != "same bytes\n"));
    line.1
}

#[test]
fn compare_says_how_files_are_alike() {
    let file = |name| fs::read(stored(name)).expect("a stored file");
    let (key, other) = (file("keygen-p256-ascii.bin"), file("keygen-p256-utf8.bin"));
    let commented = Image::read(&key).and_then(|image| image.with_comment("another")).expect("a plain image");
    let draft = Draft::in_form(&Key::new(1, &mut Rng::new("compare")), 7, b"");
    let sealed = |entry| draft.clone().sealed(9, true, 2, &mut Rng::new(entry)).bytes();
    let (plain, sealed, sealed_again) = (draft.bytes(), sealed("once"), sealed("again"));
    let lines = [
        (compared(&key, &key), "same bytes\n"),
        (compared(&key, &commented), "same key, other comment or checkint\n"),
        (compared(&key, &other), "other key\n"),
        (compared(&plain, &sealed), "same key, encrypted otherwise\n"),
        (compared(&sealed, &sealed_again), "same key, encrypted otherwise\n"),
        (compared(&sealed, &sealed), "same bytes\n"),
        (compared(&key, &sealed), "other key\n"),
    ];
    for (line, right) in lines {
        assert_eq!(line, right);
    }
}

/// A scalar with a needless zero, and another scalar.
#[test]
fn compare_looks_at_the_fields() {
    let key = Key::new(1, &mut Rng::new("fields")).short(2, 0x11);
    let stored = |scalar: Vec<u8>| Draft::stored(&key, scalar, 7, b"oven7").bytes();
    let fewest = key.significant().to_vec();
    let with_zero = [&[0], &fewest[..]].concat();
    assert_eq!(compared(&stored(fewest.clone()), &stored(with_zero)), "same fields in another form\n");
    let other = [&[0x12], &fewest[1..]].concat();
    assert_eq!(compared(&stored(fewest), &stored(other)), "same public key, other private bytes\n");
}

/// Files of several keys: each is compared with the one of its number.
#[test]
fn compare_looks_at_every_key() {
    let mut keys = mixed(3, 1, true, &mut Rng::new("compare every key"));
    if let Any::Curve(key) = &mut keys[1].key {
        key.private[0] = 0x11; // with a zero before it it isn't in the form
    }
    let image = |keys: &[Commented]| image_of(keys, 7);
    let mut commented = keys.clone();
    commented[2].comment = b"another".to_vec();
    let mut swapped = keys.clone();
    swapped.swap(1, 2);
    let mut private = keys.clone();
    if let Any::Curve(key) = &mut private[1].key {
        key.private[9] ^= 1;
    }
    let mut ring = Ring::of(&keys, 7);
    ring.0[1].pair[3].insert(0, 0);
    ring.pad();
    let lines = [
        (compared(&image(&keys), &image(&commented)), "same key, other comment or checkint\n"),
        (compared(&image(&keys), &image(&swapped)), "other key\n"),
        (compared(&image(&keys), &image(&keys[..2])), "other key\n"),
        (compared(&image(&keys), &image(&private)), "same public key, other private bytes\n"),
        (compared(&image(&keys), &ring.bytes()), "same fields in another form\n"),
    ];
    for (line, right) in lines {
        assert_eq!(line, right);
    }
    let (file, right) = (written("several", &image(&keys)), report(&image(&keys)));
    assert_eq!(said(inspect::run, &[&file]), (right.0, right.1, String::new()));
}

/// The README's rows for ssh-key's `write_openssh_file` and `read_openssh_file`.
#[cfg(unix)]
#[test]
fn a_file_is_written_and_read() {
    use std::os::unix::fs::{OpenOptionsExt, PermissionsExt};
    let bytes = fs::read(stored("keygen-p256-ascii.bin")).expect("a stored file");
    let image = Image::read(&bytes).expect("a good image");
    let path = written("new", b"");
    fs::remove_file(&path).expect("the test's own file");
    let opened = fs::OpenOptions::new().write(true).create(true).truncate(true).mode(0o600).open(&path);
    let text = armour::exported(image.as_bytes()).expect("a text");
    opened.expect("a new file").write_all(text.as_bytes()).expect("room for it");
    assert_eq!(fs::metadata(&path).expect("the file").permissions().mode() & 0o777, 0o600);
    let read = armour::imported(fs::read(&path).expect("the file")).expect("a text");
    assert_eq!(Image::read(&read), Ok(image));
}

/// A store with places of both versions and of every kind; the last can't be moved, and the others can.
fn store() -> Vec<u8> {
    let record = |device: u64| match device {
        31 => record_of(1, 4, 16_778),
        _ if device % 3 == 0 => [0; 4],
        _ => record_of(1 + device % 2, device % 5, 500 * device),
    };
    (0..DEVICES).flat_map(record).collect()
}

/// The lines on a store, by the model.
fn places(store: &[u8]) -> String {
    let line = |device| match get(store, device) {
        Ok(None) => String::new(),
        Ok(Some(setting)) => {
            format!("{} {} {} ms\n", device, ALGORITHMS[usize::from(setting.kind)], setting.milliseconds)
        }
        Err(refusal) => format!("{} refused {}\n", device, refusal.number),
    };
    (0..DEVICES).map(line).collect()
}

#[test]
fn settings_prints_the_used_places() {
    let mut store = store();
    let report = places(&store);
    assert!(
        report.starts_with("1 ecdsa-sha2-nistp256 500 ms\n2 ecdsa-sha2-nistp384 1000000 ms\n4 ssh-rsa 2000000 ms\n")
    );
    assert_eq!(report.lines().count(), 21);
    assert_eq!(said(settings::run, &[&written("store", &store)]), (0, report, String::new()));
    store[..4].copy_from_slice(&[0x30, 0, 0, 0]);
    store[4 * 9] = 0x15;
    let (status, out, err) = said(settings::run, &[&written("store", &store)]);
    assert_eq!((status, out.starts_with("0 refused 4\n"), out), (1, true, places(&store)));
    assert_eq!(err.lines().count(), 2);
    assert!(err.ends_with("the setting of device 9 has kind 5, and no such kind of key is known here.\n"), "{}", err);
    for length in [0, STORE - 1, STORE + 1, 4 * STORE] {
        let (status, out, err) = said(settings::run, &[&written("length", &vec![0; length])]);
        assert_eq!((status, out.as_str(), err.lines().count()), (1, "refused 1\n", 1));
    }
    assert_eq!(said(settings::run, &[&written("empty", &[0; STORE])]), (0, String::new(), String::new()));
}

#[test]
fn settings_moves_to_a_new_file() {
    let (mut store, switch) = (store(), Path::new("--move"));
    let (old, new) = (written("old", &store), written("new", b""));
    fs::remove_file(&new).expect("the test's own file");
    let (status, out, err) = said(settings::run, &[switch, &old, &new]);
    assert_eq!((status, out.as_str(), new.exists()), (1, "refused 11\n", false));
    assert!(err.contains("the setting of device 31 has a delay of 16,778 seconds"), "{}", err);
    store[4 * 31..].copy_from_slice(&record_of(1, 4, 16_777));
    let (old, report) = (written("old", &store), places(&store));
    assert_eq!(said(settings::run, &[switch, &old, &new]), (0, String::new(), String::new()));
    assert_eq!(
        (fs::read(&old).expect("it stays"), said(settings::run, &[&new])),
        (store.clone(), (0, report, String::new()))
    );
    assert_eq!(move_to_v2(&mut store), Ok(STORE));
    assert_eq!(fs::read(&new).expect("the new file"), store);
    let before = fs::metadata(&new).and_then(|file| file.modified()).expect("the new file");
    let (status, out, err) = said(settings::run, &[switch, &old, &new]);
    assert_eq!((status, out.as_str(), err.lines().count()), (2, "", 1), "it is there already");
    assert_eq!(fs::metadata(&new).and_then(|file| file.modified()).expect("still there"), before);
    for arguments in [&[][..], &[switch], &[switch, &old], &[&old, &new], &[&old, switch, &new], &[&root()]] {
        let (status, out, err) = said(settings::run, arguments);
        assert_eq!((status, out.as_str(), err.lines().count()), (2, "", 1), "{:?}", arguments);
    }
}

/// The programs themselves, with the status that the shell sees.
#[test]
fn as_programs() {
    let run = |example: &str, files: &[&Path]| {
        let mut command = Command::new(env!("CARGO"));
        command.args(["run", "--offline", "--quiet", "--profile", "test", "--example", example, "--"]);
        let output = command.args(files).current_dir(env!("CARGO_MANIFEST_DIR")).output().expect("cargo runs");
        (output.status.code(), String::from_utf8(output.stdout).expect("ASCII"))
    };
    let [key, other] = [stored("keygen-ed25519-ascii.bin"), stored("openssh-sshkey-dsa_n.bin")];
    let right = report(&fs::read(&key).expect("a stored file")).1;
    assert_eq!(run("inspect", &[&key]), (Some(0), right));
    assert_eq!(run("inspect", &[&other]), (Some(1), "refused 4 0 43\n".to_string()));
    assert_eq!(run("inspect", &[]), (Some(2), String::new()));
    assert_eq!(run("compare", &[&key, &key]), (Some(0), "same bytes\n".to_string()));
    assert_eq!(run("compare", &[&key, &other]), (Some(2), String::new()));
    assert_eq!(run("settings", &[&written("store", &store())]), (Some(0), places(&store())));
    assert_eq!(run("settings", &[&key]), (Some(1), "refused 1\n".to_string()));
}
