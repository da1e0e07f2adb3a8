//! measure engine|plain CALL REPEATS FIRST [SECOND]: makes one call so many times, and prints the best time of one in nanoseconds.
//!
//! CALL is read, accepts, accepts_words, unfold, union, concatenate, intersect, close, compare, count_words or accepts_ranges. SECOND is the
//! second file; for accepts it is a number: the word is so many letters, in turn; for accepts_words it is the number of words, each of 20
//! letters; for count_words it is the length; for accepts_ranges it is the number of places, each of which can be any letter. bench/run counts the instructions of a call with it.

#[path = "../tests/common/plain.rs"]
#[allow(dead_code)]
mod plain;

use registered_automata as engine;
use std::hint::black_box;
use std::time::Instant;

/// The answer is used, so that no call is left out.
fn finish<T>(answer: T) {
    let _ = black_box(answer);
}

/// So many letters of the file, in turn.
fn word(file: &[u8], length: usize) -> Vec<u8> {
    let letters = &file[12..12 + file[5] as usize];
    letters.iter().copied().cycle().take(length).collect()
}

/// How many letters each of many words has.
const LETTERS: usize = 20;

/// What stands behind each of many words: the first byte from that of the newline on that is no letter of the file.
fn separator(file: &[u8]) -> u8 {
    let letters = &file[12..12 + file[5] as usize];
    (b'\n'..=u8::MAX)
        .find(|byte| !letters.contains(byte))
        .expect("a byte that is no letter")
}

/// So many words of the file's letters, in turn from each letter on.
fn many_words(file: &[u8], count: usize) -> Vec<u8> {
    let letters = file[5] as usize;
    let behind = separator(file);
    let turns = word(file, letters + LETTERS);
    let mut all = Vec::new();
    for i in 0..count {
        let first = i % letters;
        all.extend(&turns[first..first + LETTERS]);
        all.push(behind);
    }
    all
}

/// So many places, each with the range of all letters of the file.
fn places(file: &[u8], count: usize) -> Vec<u8> {
    [0, file[5] - 1].repeat(count)
}

fn main() {
    let arguments: Vec<String> = std::env::args().skip(1).collect();
    let [side, call, repeats, first, rest @ ..] = &arguments[..] else {
        panic!("measure engine|plain CALL REPEATS FIRST [SECOND]");
    };
    let repeats: u32 = repeats.parse().expect("a number of repeats");
    let file = std::fs::read(first).expect("the first file");
    let other = rest.first().map_or(String::new(), String::clone);
    let mut length = 0;
    let second = if call == "accepts" {
        word(&file, other.parse().expect("the length of the word"))
    } else if call == "accepts_words" {
        many_words(&file, other.parse().expect("the number of words"))
    } else if call == "accepts_ranges" {
        places(&file, other.parse().expect("the number of places"))
    } else if call == "count_words" {
        length = other.parse().expect("the length of the words");
        Vec::new()
    } else if other.is_empty() {
        Vec::new()
    } else {
        std::fs::read(other).expect("the second file")
    };
    let mut work = engine::working_words();
    let mut out = vec![0u8; 60_000];
    let behind = separator(&file);
    let mut answers = vec![0u64; second.len() / (LETTERS + 1)];
    let many = answers.len();
    let mut once: Box<dyn FnMut()> = match (side.as_str(), call.as_str()) {
        ("engine", "read") => Box::new(|| finish(engine::read(&file))),
        ("engine", "accepts") => Box::new(|| finish(engine::accepts(&file, &second, &mut work))),
        ("engine", "accepts_words") => Box::new(|| {
            finish(engine::accepts_words(
                &file,
                &second,
                behind,
                &mut work,
                &mut answers,
            ))
        }),
        ("engine", "unfold") => Box::new(|| finish(engine::unfold(&file, &mut work, &mut out))),
        ("engine", "union") => Box::new(|| finish(engine::union(&file, &second, &mut out))),
        ("engine", "concatenate") => {
            Box::new(|| finish(engine::concatenate(&file, &second, &mut out)))
        }
        ("engine", "intersect") => Box::new(|| finish(engine::intersect(&file, &second, &mut out))),
        ("engine", "close") => Box::new(|| finish(engine::close(&file, &mut out))),
        ("engine", "compare") => {
            Box::new(|| finish(engine::compare(&file, &second, &mut work, &mut out)))
        }
        ("engine", "count_words") => {
            Box::new(|| finish(engine::count_words(&file, length, &mut work)))
        }
        ("engine", "accepts_ranges") => {
            Box::new(|| finish(engine::accepts_ranges(&file, &second, &mut work)))
        }
        ("plain", "read") => Box::new(|| finish(plain::read(&file))),
        ("plain", "accepts") => Box::new(|| finish(plain::accepts(&file, &second, 8192))),
        ("plain", "accepts_words") => {
            Box::new(|| finish(plain::accepts_words(&file, &second, behind, 8192, many)))
        }
        ("plain", "unfold") => Box::new(|| finish(plain::unfold(&file, 8192, 60_000))),
        ("plain", "union") => Box::new(|| finish(plain::union(&file, &second, 60_000))),
        ("plain", "concatenate") => Box::new(|| finish(plain::concatenate(&file, &second, 60_000))),
        ("plain", "intersect") => Box::new(|| finish(plain::intersect(&file, &second, 60_000))),
        ("plain", "close") => Box::new(|| finish(plain::close(&file, 60_000))),
        ("plain", "compare") => Box::new(|| finish(plain::compare(&file, &second, 8192, 512))),
        ("plain", "count_words") => Box::new(|| finish(plain::count_words(&file, length, 8192))),
        ("plain", "accepts_ranges") => {
            Box::new(|| finish(plain::accepts_ranges(&file, &second, 8192)))
        }
        _ => panic!("no such call: {side} {call}"),
    };
    let mut best = u128::MAX;
    for _ in 0..repeats {
        let begin = Instant::now();
        once();
        best = best.min(begin.elapsed().as_nanos());
    }
    println!("{best}");
}
