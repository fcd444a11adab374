//! The examples in the documents are run, and each is the same text in each place.

#[path = "../examples/armoured.rs"]
mod armoured;
#[cfg(feature = "alloc")]
#[path = "../examples/join.rs"]
mod join;
#[path = "../examples/oven.rs"]
mod oven;
#[path = "../examples/passphrase.rs"]
mod passphrase;
#[path = "../examples/short.rs"]
mod short;
#[path = "../examples/silo.rs"]
mod silo;

#[test]
fn run() {
    armoured::main().expect("the example's key is fine");
    #[cfg(feature = "alloc")]
    join::main().expect("the example's keys are fine");
    oven::main().expect("the example's key is fine");
    passphrase::main().expect("the example's keys are fine");
    short::main().expect("the example's key is fine");
    silo::main().expect("the example's key is fine");
}

#[test]
fn stand_in_the_readme() {
    let readme = include_str!("../README.md");
    let [armoured, join] = [include_str!("../examples/armoured.rs"), include_str!("../examples/join.rs")];
    let [oven, passphrase] = [include_str!("../examples/oven.rs"), include_str!("../examples/passphrase.rs")];
    let [short, silo] = [include_str!("../examples/short.rs"), include_str!("../examples/silo.rs")];
    for example in [armoured, join, oven, passphrase, short, silo] {
        assert!(readme.contains(&format!("```\n{}```", example)));
    }
}
