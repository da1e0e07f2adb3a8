//! Every call of the engine against a plain implementation of the requirements, on seeded random files, words, ranges and couples.
//!
//! `cargo test` takes a short run. `SEEDS=100000 cargo test --release -- --nocapture` takes a long one; `FIRST=n` begins
//! at seed n. A failing seed is printed; `FIRST=n SEEDS=1` runs it alone.

mod common;

use common::plain;
use common::random::{self, Random};
use registered_automata as engine;
use std::collections::{BTreeMap, BTreeSet};

/// What stands in lent memory before a call: bytes and words that a call must leave, or may not depend on.
fn noise(r: &mut Random, n: usize) -> Vec<u8> {
    (0..n).map(|_| r.next() as u8).collect()
}

fn words(r: &mut Random, n: usize) -> Vec<u64> {
    match r.below(3) {
        0 => vec![0; n],
        1 => vec![u64::MAX; n],
        _ => (0..n).map(|_| r.next()).collect(),
    }
}

fn refusal(e: engine::Refusal) -> plain::Refusal {
    let automaton = match e.automaton {
        None => 0,
        Some(engine::Automaton::First) => 1,
        Some(engine::Automaton::Second) => 2,
    };
    plain::Refusal {
        number: e.reason.number(),
        automaton,
    }
}

/// How many bytes of output to lend: exactly enough, one too few, few, or plenty.
fn room(r: &mut Random, length: Option<usize>) -> usize {
    match (r.below(6), length) {
        (0, Some(n)) => n,
        (1, Some(n)) => n.saturating_sub(1),
        (2, _) => r.below(2000),
        _ => 60_000,
    }
}

/// The engine's answer and the output it leaves are those of the plain implementation; the rest of the output is as lent.
fn same_file(
    seed: u64,
    answer: Result<usize, engine::Refusal>,
    expected: Result<Vec<u8>, plain::Refusal>,
    lent: &[u8],
    out: &[u8],
) {
    match (answer, expected) {
        (Ok(n), Ok(file)) => {
            assert_eq!(n, file.len(), "seed {seed}");
            assert_eq!(out[..n], file[..], "seed {seed}");
            assert_eq!(out[n..], lent[n..], "seed {seed}: bytes behind the result");
        }
        (Err(e), Err(f)) => {
            assert_eq!(refusal(e), f, "seed {seed}");
            assert_eq!(out, lent, "seed {seed}: output after a refusal");
        }
        (answer, expected) => panic!("seed {seed}: {answer:?}, expected {expected:?}"),
    }
}

fn try_read(seed: u64, r: &mut Random) {
    let letters = random::letters(r);
    let mut file = random::file(r, &letters);
    if r.one_in(2) {
        file = random::damaged(r, file);
    }
    let answer = engine::read(&file).map_err(|e| plain::Fault {
        number: e.reason.number(),
        place: e.place,
    });
    let expected = plain::read(&file).map(|x| engine::Counts {
        letters: x.letters.len(),
        states: x.finals.len(),
        registers: x.registers,
        symbols: x.symbols,
        arcs: x.arcs.len(),
    });
    assert_eq!(answer, expected, "seed {seed}");
}

fn try_accepts(seed: u64, r: &mut Random) {
    let letters = random::letters(r);
    let file = random::file(r, &letters);
    let word = random::word(r, &letters);
    let lent = if r.one_in(30) { 8191 } else { 8192 };
    let mut work = words(r, lent);
    let answer = engine::accepts(&file, &word, &mut work)
        .map(|m| (m.accepted, m.live as usize))
        .map_err(refusal);
    assert_eq!(answer, plain::accepts(&file, &word, lent), "seed {seed}");
}

/// Words of a file, one behind the other, each with the separator behind it but perhaps the last; and the separator, which may be a letter.
fn many_words(r: &mut Random, letters: &[u8]) -> (Vec<u8>, u8) {
    let separator = match r.below(4) {
        0 if !letters.is_empty() => letters[r.below(letters.len())],
        1 => r.next() as u8,
        _ => b'\n',
    };
    let mut bytes = Vec::new();
    for _ in 0..r.below(12) {
        bytes.extend(random::word(r, letters));
        bytes.push(separator);
    }
    if r.one_in(3) {
        bytes.extend(random::word(r, letters));
    }
    (bytes, separator)
}

fn try_accepts_words(seed: u64, r: &mut Random) {
    let letters = random::letters(r);
    let mut file = random::file(r, &letters);
    if r.one_in(10) {
        file = random::damaged(r, file);
    }
    let (bytes, separator) = many_words(r, &letters);
    let lent = if r.one_in(30) { 8191 } else { 8192 };
    let mut work = words(r, lent);
    let room = r.below(16);
    let before = words(r, room);
    let mut answers = before.clone();
    let answer =
        engine::accepts_words(&file, &bytes, separator, &mut work, &mut answers).map_err(refusal);
    match (
        answer,
        plain::accepts_words(&file, &bytes, separator, lent, room),
    ) {
        (Ok(judged), Ok((each, taken))) => {
            assert_eq!(
                (judged.count, judged.bytes),
                (each.len(), taken),
                "seed {seed}"
            );
            let told: Vec<(bool, usize)> = answers[..judged.count]
                .iter()
                .map(|&answer| engine::Membership::from_answer(answer))
                .map(|m| (m.accepted, m.live as usize))
                .collect();
            assert_eq!(told, each, "seed {seed}");
            assert_eq!(
                answers[judged.count..],
                before[judged.count..],
                "seed {seed}"
            );
        }
        (Err(e), Err(f)) => {
            assert_eq!(e, f, "seed {seed}");
            assert_eq!(answers, before, "seed {seed}: answers after a refusal");
        }
        (answer, expected) => panic!("seed {seed}: {answer:?}, expected {expected:?}"),
    }
}

/// The random words are of every kind: fewer answers than words, more, a rest that no separator ends, a separator that is a letter, and
/// accepted words among them.
#[test]
fn many_words_of_every_kind_are_met() {
    let mut met = BTreeMap::new();
    for seed in 1..=600 {
        let r = &mut Random::new(seed);
        let letters = random::letters(r);
        let file = random::file(r, &letters);
        let (bytes, separator) = many_words(r, &letters);
        let ended = bytes.iter().filter(|&&byte| byte == separator).count();
        let accepted = plain::accepts_words(&file, &bytes, separator, 8192, ended)
            .map_or(0, |(each, _)| each.iter().filter(|one| one.0).count());
        let kinds = [
            ("no word", ended == 0),
            ("ten words", ended >= 10),
            (
                "a rest",
                bytes.last().is_some_and(|&last| last != separator),
            ),
            ("a letter separates", letters.contains(&separator)),
            ("an accepted word", accepted > 0),
            (
                "an empty word",
                bytes.windows(2).any(|two| two == [separator; 2]),
            ),
        ];
        for (kind, _) in kinds.iter().filter(|kind| kind.1) {
            *met.entry(*kind).or_insert(0) += 1;
        }
    }
    assert_eq!(met.len(), 6, "{met:?}");
    assert!(met.values().all(|&times| times > 5), "{met:?}");
}

fn try_unfold(seed: u64, r: &mut Random) {
    let letters = random::letters(r);
    let file = random::file(r, &letters);
    let lent = if r.one_in(30) { 8191 } else { 8192 };
    let mut work = words(r, lent);
    let n = room(r, plain::unfold(&file, 8192, 60_000).ok().map(|f| f.len()));
    let old = noise(r, n);
    let mut out = old.clone();
    let answer = engine::unfold(&file, &mut work, &mut out);
    same_file(seed, answer, plain::unfold(&file, lent, n), &old, &out);
}

type Join = fn(&[u8], &[u8], &mut [u8]) -> Result<usize, engine::Refusal>;
type PlainJoin = fn(&[u8], &[u8], usize) -> Result<Vec<u8>, plain::Refusal>;

fn try_join(seed: u64, r: &mut Random, join: Join, expected: PlainJoin) {
    let (first, second) = random::couple(r);
    let n = room(r, expected(&first, &second, 60_000).ok().map(|f| f.len()));
    let old = noise(r, n);
    let mut out = old.clone();
    let answer = join(&first, &second, &mut out);
    same_file(seed, answer, expected(&first, &second, n), &old, &out);
}

fn try_close(seed: u64, r: &mut Random) {
    let letters = random::letters(r);
    let file = random::file(r, &letters);
    let n = room(r, plain::close(&file, 60_000).ok().map(|f| f.len()));
    let old = noise(r, n);
    let mut out = old.clone();
    let answer = engine::close(&file, &mut out);
    same_file(seed, answer, plain::close(&file, n), &old, &out);
}

fn try_compare(seed: u64, r: &mut Random) {
    let (first, second) = random::couple(r);
    let lent = if r.one_in(30) { 8191 } else { 8192 };
    let bytes = if r.one_in(30) { 511 } else { 512 + r.below(20) };
    let mut work = words(r, lent);
    let old = noise(r, bytes);
    let mut word = old.clone();
    let answer = engine::compare(&first, &second, &mut work, &mut word);
    match (answer, plain::compare(&first, &second, lent, bytes)) {
        (Ok(engine::Comparison::Same { pairs }), Ok(plain::Verdict::Same { pairs: p })) => {
            assert_eq!(pairs as usize, p, "seed {seed}");
            assert_eq!(word, old, "seed {seed}: buffer of equal automata");
        }
        (
            Ok(engine::Comparison::Different {
                pairs,
                accepted_by,
                length,
            }),
            Ok(plain::Verdict::Different {
                pairs: p,
                accepted_by: by,
                word: first_word,
            }),
        ) => {
            assert_eq!(pairs as usize, p, "seed {seed}");
            assert_eq!(word[..length], first_word, "seed {seed}");
            let named = match accepted_by {
                engine::Automaton::First => 1,
                engine::Automaton::Second => 2,
            };
            assert_eq!(named, by, "seed {seed}");
            assert_eq!(
                word[length..],
                old[length..],
                "seed {seed}: bytes behind the word"
            );
        }
        (Err(e), Err(f)) => {
            assert_eq!(refusal(e), f, "seed {seed}");
            assert_eq!(word, old, "seed {seed}: buffer after a refusal");
        }
        (answer, expected) => panic!("seed {seed}: {answer:?}, expected {expected:?}"),
    }
}

fn try_count_words(seed: u64, r: &mut Random) {
    let letters = random::letters(r);
    let file = random::counted(r, &letters);
    let length = random::length(r);
    let lent = if r.one_in(30) { 8191 } else { 8192 };
    let mut work = words(r, lent);
    let answer = engine::count_words(&file, length, &mut work)
        .map(|w| (w.accepted, w.rejected))
        .map_err(refusal);
    assert_eq!(
        answer,
        plain::count_words(&file, length, lent),
        "seed {seed}"
    );
    // Few enough words are counted one by one too.
    if answer.is_ok_and(|(accepted, rejected)| accepted + rejected <= 128) {
        assert_eq!(
            answer,
            Ok(plain::count_each_word(&file, length)),
            "seed {seed}"
        );
    }
}

/// A file, the places of a word with ranges of its letters, and how many working words are lent.
fn word_with_ranges(r: &mut Random) -> (Vec<u8>, Vec<u8>, usize) {
    let letters = random::letters(r);
    let file = random::ranged(r, &letters);
    let places = random::places(r, letters.len());
    let lent = if r.one_in(30) { 8191 } else { 8192 };
    (file, places, lent)
}

fn try_accepts_ranges(seed: u64, r: &mut Random) {
    let (file, places, lent) = word_with_ranges(r);
    let mut work = words(r, lent);
    let answer = engine::accepts_ranges(&file, &places, &mut work)
        .map(|answer| match answer {
            engine::Ranged::Always => plain::Ranged::Always,
            engine::Ranged::Sometimes => plain::Ranged::Sometimes,
            engine::Ranged::Never => plain::Ranged::Never,
        })
        .map_err(refusal);
    let expected = plain::accepts_ranges(&file, &places, lent);
    assert_eq!(answer, expected, "seed {seed}");
}

/// The random words with ranges have every answer where there is a place at least, and every refusal that there can be of a valid file.
#[test]
fn words_with_ranges_of_every_kind_are_met() {
    let mut met = BTreeMap::new();
    for seed in 1..=600 {
        let (file, places, lent) = word_with_ranges(&mut Random::new(seed));
        let kind = match plain::accepts_ranges(&file, &places, lent) {
            Ok(_) if places.is_empty() => "no places".to_string(),
            Ok(answer) => format!("{answer:?}"),
            Err(refusal) => refusal.number.to_string(),
        };
        *met.entry(kind).or_insert(0) += 1;
    }
    let kinds = [
        "no places",
        "Always",
        "Sometimes",
        "Never",
        "21",
        "23",
        "24",
        "35",
    ];
    for kind in kinds {
        assert!(met.get(kind) > Some(&5), "{kind}: {met:?}");
    }
}

/// The random couples have letter lists of every kind: the same in other bytes, the same letters at other places, some shared, none shared,
/// one of them empty, and 64 and 65 letters together. And a list may ascend and have a letter in both cases.
#[test]
fn letter_lists_of_every_kind_are_met() {
    let mut met = BTreeMap::new();
    for seed in 1..=2_000 {
        let (first, second) = random::couple(&mut Random::new(seed));
        let kind = match (plain::read(&first), plain::read(&second)) {
            (Ok(x), Ok(y)) => kind_of(&x.letters, &y.letters),
            (Err(fault), _) if fault.number == 5 => {
                let letters = &first[12..12 + first[5] as usize];
                if letters.windows(2).all(|w| w[0] < w[1]) {
                    "in both cases"
                } else {
                    "not ascending"
                }
            }
            _ => "damaged",
        };
        *met.entry(kind).or_insert(0) += 1;
    }
    for kind in [
        "the same",
        "the same in other bytes",
        "the same at other places",
        "some shared",
        "none shared",
        "one empty",
        "64 together",
        "65 together",
        "more together",
        "in both cases",
    ] {
        assert!(met.get(kind) > Some(&8), "{kind}: {met:?}");
    }
}

/// How two letter lists stand to each other.
fn kind_of(first: &[u8], second: &[u8]) -> &'static str {
    let (a, b) = (first.to_ascii_lowercase(), second.to_ascii_lowercase());
    let set = |letters: &[u8]| BTreeSet::from_iter(letters.iter().copied());
    let shared = set(&a).intersection(&set(&b)).count();
    match a.len() + b.len() - shared {
        _ if first == second => "the same",
        _ if a == b => "the same in other bytes",
        all if all == a.len() && all == b.len() => "the same at other places",
        64 => "64 together",
        65 => "65 together",
        66.. => "more together",
        _ if a.is_empty() || b.is_empty() => "one empty",
        _ if shared == 0 => "none shared",
        _ => "some shared",
    }
}

/// The random files have every fault that a file can have.
#[test]
fn every_fault_of_a_file_is_met() {
    let mut met = BTreeMap::new();
    for seed in 1..=2_000 {
        let r = &mut Random::new(seed);
        let letters = random::letters(r);
        let whole = random::file(r, &letters);
        if let Err(fault) = plain::read(&random::damaged(r, whole)) {
            *met.entry(fault.number).or_insert(0) += 1;
        }
    }
    for number in plain::FAULTS {
        assert!(met.get(&number) > Some(&5), "{number}: {met:?}");
    }
}

fn number_from(name: &str, otherwise: u64) -> u64 {
    std::env::var(name)
        .ok()
        .and_then(|s| s.parse().ok())
        .unwrap_or(otherwise)
}

#[test]
fn every_call_answers_as_the_plain_implementation() {
    let first = number_from("FIRST", 1);
    let seeds = number_from("SEEDS", 4_000);
    for seed in first..first + seeds {
        let r = &mut Random::new(seed);
        match r.below(11) {
            0 => try_read(seed, r),
            1 => try_accepts(seed, r),
            2 => try_unfold(seed, r),
            3 => try_join(seed, r, engine::union, plain::union),
            4 => try_join(seed, r, engine::concatenate, plain::concatenate),
            5 => try_join(seed, r, engine::intersect, plain::intersect),
            6 => try_close(seed, r),
            7 => try_count_words(seed, r),
            8 => try_accepts_ranges(seed, r),
            9 => try_accepts_words(seed, r),
            _ => try_compare(seed, r),
        }
    }
    println!("seeds {first} to {}: no difference", first + seeds - 1);
}
