//! The automata of examples/: each accepts and rejects the words that its list says, also when it is unfolded.

use registered_automata as engine;
use std::path::{Path, PathBuf};

fn folder() -> PathBuf {
    Path::new(env!("CARGO_MANIFEST_DIR")).join("../examples")
}

fn file(name: &str) -> Vec<u8> {
    std::fs::read(folder().join(name).with_extension("mlb")).expect("the example's file")
}

/// The names of all examples.
fn names() -> Vec<String> {
    let mut names = Vec::new();
    for entry in std::fs::read_dir(folder()).expect("the folder of examples") {
        let path = entry.expect("an entry of the folder").path();
        if path.extension().is_some_and(|e| e == "mlb") {
            names.push(
                path.file_stem()
                    .expect("a name")
                    .to_string_lossy()
                    .into_owned(),
            );
        }
    }
    names.sort();
    names
}

/// The words of an example, each with whether it is to be accepted.
fn words(name: &str) -> Vec<(bool, Vec<u8>)> {
    let list =
        std::fs::read(folder().join(name).with_extension("words")).expect("its list of words");
    let lines = list.split(|b| *b == b'\n').filter(|line| !line.is_empty());
    lines
        .map(|line| (line[0] == b'+', line[1..].trim_ascii().to_vec()))
        .collect()
}

fn unfolded(file: &[u8]) -> Vec<u8> {
    let mut out = vec![0; engine::LONGEST_FILE];
    let n =
        engine::unfold(file, &mut engine::working_words(), &mut out).expect("within the limits");
    out.truncate(n);
    out
}

fn compared(first: &[u8], second: &[u8]) -> engine::Comparison {
    let mut word = [0; engine::WORD_BYTES];
    engine::compare(first, second, &mut engine::working_words(), &mut word)
        .expect("within the limits")
}

#[test]
fn words_are_accepted_and_rejected_as_their_lists_say() {
    for name in names() {
        for file in [file(&name), unfolded(&file(&name))] {
            for (accepted, word) in words(&name) {
                let answer = engine::accepts(&file, &word, &mut engine::working_words())
                    .expect("within the limits");
                assert_eq!(
                    answer.accepted,
                    accepted,
                    "{name}: {}",
                    String::from_utf8_lossy(&word)
                );
            }
        }
    }
}

#[test]
fn unfolding_keeps_every_word() {
    for name in names() {
        let file = file(&name);
        assert!(
            matches!(
                compared(&file, &unfolded(&file)),
                engine::Comparison::Same { .. }
            ),
            "{name}"
        );
    }
}

#[test]
fn unfolding_keeps_the_number_of_words() {
    for name in names() {
        let file = file(&name);
        let count = |file: &[u8], length| {
            engine::count_words(file, length, &mut engine::working_words())
                .expect("within the limits")
        };
        for length in 0..=10 {
            assert_eq!(
                count(&file, length),
                count(&unfolded(&file), length),
                "{name}"
            );
        }
    }
}

fn judged(file: &[u8], places: &[u8]) -> engine::Ranged {
    engine::accepts_ranges(file, places, &mut engine::working_words()).expect("within the limits")
}

/// The letter numbers of a word; none where a byte is no letter.
fn numbers(file: &[u8], word: &[u8]) -> Option<Vec<u8>> {
    let letters = &file[12..12 + file[5] as usize];
    let number = |byte: &u8| letters.iter().position(|l| l.eq_ignore_ascii_case(byte));
    word.iter().map(|b| number(b).map(|n| n as u8)).collect()
}

/// A word whose letters are known is its only filling.
#[test]
fn words_as_ranges_of_one_letter_each() {
    for name in names() {
        for file in [file(&name), unfolded(&file(&name))] {
            for (accepted, word) in words(&name) {
                let Some(numbers) = numbers(&file, &word) else {
                    continue;
                };
                let places: Vec<u8> = numbers.iter().flat_map(|&n| [n, n]).collect();
                let expected = if accepted {
                    engine::Ranged::Always
                } else {
                    engine::Ranged::Never
                };
                assert_eq!(judged(&file, &places), expected, "{name}: {numbers:?}");
            }
        }
    }
}

/// Ranges of all letters: the fillings are the words of that length, and how many of them are accepted is counted too.
#[test]
fn ranges_of_all_letters() {
    for name in names() {
        for file in [file(&name), unfolded(&file(&name))] {
            let letters = file[5];
            let longest = if letters == 0 { 0 } else { 10 };
            for length in 0..=longest {
                let count = engine::count_words(&file, length, &mut engine::working_words())
                    .expect("within the limits");
                let expected = match (count.accepted, count.rejected) {
                    (0, _) => engine::Ranged::Never,
                    (_, 0) => engine::Ranged::Always,
                    _ => engine::Ranged::Sometimes,
                };
                let places = [0, letters.saturating_sub(1)].repeat(length as usize);
                assert_eq!(judged(&file, &places), expected, "{name}, {length} letters");
            }
        }
    }
}

#[test]
fn three_states_and_two_registers_are_enough() {
    assert!(matches!(
        compared(&file("plain"), &file("three_states")),
        engine::Comparison::Same { .. }
    ));
}

/// Cows lack the letter g and list the others in another case. What both accept is what cows accept, and what either accepts is what
/// goats accept.
#[test]
fn herds_with_letters_of_their_own() {
    let (cows, goats) = (file("cows"), file("goats"));
    for (first, second) in [(&cows, &goats), (&goats, &cows)] {
        let mut out = vec![0; engine::LONGEST_FILE];
        let n = engine::intersect(first, second, &mut out).expect("within the limits");
        assert_eq!(
            compared(&out[..n], &cows),
            engine::Comparison::Same { pairs: 4 }
        );
        let n = engine::union(first, second, &mut out).expect("within the limits");
        assert_eq!(
            compared(&goats, &out[..n]),
            engine::Comparison::Same { pairs: 9 }
        );
    }
}

/// A root is any of two, a pattern any of three forms in either of two voices: the joined file is what the intersection writes, and its words
/// are the twelve that its list names.
#[test]
fn arabic_stems_are_roots_and_patterns() {
    let mut out = vec![0; engine::LONGEST_FILE];
    let n = engine::intersect(&file("arabic_roots"), &file("arabic_patterns"), &mut out)
        .expect("within the limits");
    assert_eq!(out[..n], file("arabic_stems"));
    let stems = file("arabic_stems");
    let counted: u64 = (0..=10)
        .map(|length| {
            engine::count_words(&stems, length, &mut engine::working_words())
                .expect("within the limits")
                .accepted
        })
        .sum();
    let listed = words("arabic_stems").iter().filter(|w| w.0).count();
    assert_eq!((counted, listed), (12, 12));
}
