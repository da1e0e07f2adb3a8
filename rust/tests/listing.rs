//! Programs on seeded random files, most of them damaged: the fault that `bookshow` tells in its last line and `bookcheck` as a
//! refusal, and the place, are those of the plain implementation. That reading answers them is proved; that the programs print them
//! is tested here. It needs the programs in target/bin: `tools/build bookshow bookcheck`.

mod common;

use common::plain;
use common::random::{self, Random};
use registered_automata::Reason;
use std::collections::BTreeSet;
use std::path::{Path, PathBuf};
use std::process::{Command, Output, Stdio};

fn program(name: &str) -> PathBuf {
    let path = Path::new(env!("CARGO_MANIFEST_DIR")).join(format!("../target/bin/{name}"));
    assert!(
        path.exists(),
        "no program {name}: run 'tools/build bookshow bookcheck'"
    );
    path
}

/// The number of a fault, its place and what the number means, as a program's line has them.
fn told(fault: plain::Fault) -> String {
    let mut reasons = Reason::ALL.into_iter();
    let reason = reasons.find(|r| r.number() == fault.number).unwrap();
    format!(
        "{} at byte {}: {}",
        fault.number,
        fault.place,
        reason.message()
    )
}

/// Runs the program on random files, and asks of each whether what it printed goes with the file's fault, if there is one. The
/// faults that were met are all that a file can have, and none.
fn run_on_files(name: &str, is_told: fn(&Path, Option<plain::Fault>, &Output) -> bool) {
    let program = program(name);
    let path = std::env::temp_dir().join(format!("{name}-{}.mlb", std::process::id()));
    let mut met = BTreeSet::new();
    for seed in 0..600 {
        let r = &mut Random::new(seed);
        let letters = random::letters(r);
        let mut file = random::file(r, &letters);
        if seed % 4 != 0 {
            file = random::damaged(r, file);
        }
        std::fs::write(&path, &file).unwrap();
        let mut command = Command::new(&program);
        let printed = command.arg(&path).stdin(Stdio::null()).output().unwrap();
        let fault = plain::read(&file).err();
        let told = is_told(&path, fault, &printed);
        assert!(told, "seed {seed}: {fault:?}, but {printed:?}");
        met.insert(fault.map_or(0, |f| f.number));
    }
    std::fs::remove_file(&path).unwrap();
    assert_eq!(met, [0].into_iter().chain(plain::FAULTS).collect());
}

#[test]
fn the_fault_and_its_place_in_a_listing() {
    run_on_files("bookshow", |_, fault, printed| {
        let text = String::from_utf8_lossy(&printed.stdout);
        let last = text.lines().last().unwrap_or("");
        match fault {
            None => last == "-- no fault",
            Some(f) => last == format!("fault {}", told(f)),
        }
    });
}

#[test]
fn the_fault_and_its_place_in_a_refusal() {
    run_on_files("bookcheck", |path, fault, printed| {
        let text = String::from_utf8_lossy(&printed.stderr);
        let refused = format!("{}: refused with ", path.display());
        match fault {
            None => text.is_empty() || text.starts_with(&format!("{refused}21: ")),
            Some(f) => text == format!("{refused}{}\n", told(f)),
        }
    });
}
