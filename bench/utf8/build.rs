//! Links the archives of the check that run.sh makes: `libutf8_now.a`, and `libutf8_before.a` where there is one.

use std::env;
use std::path::{Path, PathBuf};
use std::process::exit;

fn main() {
    println!("cargo:rerun-if-env-changed=SALTORCHARD_UTF8_DIR");
    let folder = match env::var_os("SALTORCHARD_UTF8_DIR") {
        Some(folder) => PathBuf::from(folder),
        None => {
            eprintln!("SALTORCHARD_UTF8_DIR isn't set: this is built by bench/utf8/run.sh.");
            exit(1)
        }
    };
    println!("cargo:rustc-check-cfg=cfg(before)");
    println!("cargo:rustc-link-search=native={}", folder.display());
    link(&folder, "utf8_now");
    if link(&folder, "utf8_before") {
        println!("cargo:rustc-cfg=before");
    }
}

/// Without the first line cargo would not see that an archive is another one.
fn link(folder: &Path, name: &str) -> bool {
    let archive = folder.join(format!("lib{}.a", name));
    println!("cargo:rerun-if-changed={}", archive.display());
    if archive.is_file() {
        println!("cargo:rustc-link-lib=static={}", name);
    }
    archive.is_file()
}
