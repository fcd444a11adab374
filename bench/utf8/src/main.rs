//! Times the UTF-8 check beside an older one and the standard library's `str::from_utf8`; ../README.md says how.

#[allow(dead_code)]
#[path = "../../src/random.rs"]
mod random;
mod same;
mod texts;
mod timing;

use std::process::exit;

/// A check with its name, at each place in the memory that it is linked to.
pub struct Check {
    pub name: &'static str,
    pub places: &'static [fn(&[u8]) -> bool],
}

/// The check at its four places. Each reads the text's bytes and keeps nothing.
macro_rules! placed {
    ($check:ident: $($place:ident)*) => {
        mod $check {
            $(fn $place(text: &[u8]) -> bool {
                extern "C" {
                    fn $place(text: *const u8, length: usize) -> bool;
                }
                // SAFETY: pointer and length are the text's.
                unsafe { $place(text.as_ptr(), text.len()) }
            })*
            pub const PLACES: &[fn(&[u8]) -> bool] = &[$($place),*];
        }
    };
}

placed!(now: utf8_now_0 utf8_now_16 utf8_now_32 utf8_now_48);
#[cfg(before)]
placed!(before: utf8_before_0 utf8_before_16 utf8_before_32 utf8_before_48);

fn from_utf8(text: &[u8]) -> bool {
    std::str::from_utf8(text).is_ok()
}

/// The check as it stands is the first.
const CHECKS: &[Check] = &[
    Check { name: "now", places: now::PLACES },
    Check { name: "from_utf8", places: &[from_utf8] },
    #[cfg(before)]
    Check { name: "before", places: before::PLACES },
];

fn main() {
    let only_check = match std::env::args().nth(1).as_deref() {
        None => false,
        Some("--check") => true,
        Some(_) => stop("usage: saltorchard-bench-utf8 [--check]"),
    };
    match same::everywhere(CHECKS) {
        Ok((texts, accepted)) => println!("Same answers on {} texts, {} of them UTF-8.", texts, accepted),
        Err(difference) => stop(&difference),
    }
    if !only_check {
        timing::print_table(CHECKS, &texts::cases());
    }
}

fn stop(why: &str) -> ! {
    eprintln!("{}", why);
    exit(1)
}
