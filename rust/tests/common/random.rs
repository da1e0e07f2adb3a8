//! Seeded random files, words, ranges and couples: small and large, valid and damaged, at the limits and one beyond.

use super::plain::{read, write, Arc, Automaton, Operation};

/// A generator of random numbers (xorshift64*): the same seed gives the same numbers everywhere.
pub struct Random(u64);

impl Random {
    pub fn new(seed: u64) -> Random {
        Random(seed.wrapping_mul(0x9E37_79B9_7F4A_7C15) | 1)
    }

    pub fn next(&mut self) -> u64 {
        self.0 ^= self.0 >> 12;
        self.0 ^= self.0 << 25;
        self.0 ^= self.0 >> 27;
        self.0.wrapping_mul(0x2545_F491_4F6C_DD1D)
    }

    /// A number below n.
    pub fn below(&mut self, n: usize) -> usize {
        ((self.next() >> 33) % n as u64) as usize
    }

    pub fn one_in(&mut self, n: usize) -> bool {
        self.below(n) == 0
    }

    fn of<T: Copy>(&mut self, choices: &[T]) -> T {
        choices[self.below(choices.len())]
    }
}

/// How the letters of a list or a word are written that have two cases.
#[derive(Clone, Copy)]
enum Case {
    Small,
    Capital,
    Either,
}

fn in_case(r: &mut Random, case: Case, byte: u8) -> u8 {
    match case {
        Case::Small => byte.to_ascii_lowercase(),
        Case::Capital => byte.to_ascii_uppercase(),
        Case::Either if r.one_in(2) => byte.to_ascii_lowercase(),
        Case::Either => byte.to_ascii_uppercase(),
    }
}

/// Letters that ascend, none of them in both cases; now and then a list that has one in both. The bytes beside A to Z and
/// a to z are among them: @ and `, [ and { differ as a capital and its small letter do, and are two letters each.
pub fn letters(r: &mut Random) -> Vec<u8> {
    let a = r.of(&[0, 1, 1, 2, 2, 2, 3, 3, 5, 26, 64]);
    let case = r.of(&[Case::Small, Case::Small, Case::Capital, Case::Either]);
    let mut all: Vec<u8> = Vec::new();
    while all.len() < a {
        let byte = if a > 5 {
            r.below(256) as u8
        } else {
            r.of(b"abcdefgz@[`{\x00\xfe\xff")
        };
        if !all.iter().any(|l| l.eq_ignore_ascii_case(&byte)) {
            all.push(in_case(r, case, byte));
        }
    }
    all.sort();
    if a > 1 && r.one_in(30) {
        in_both_cases(r, &mut all);
    }
    all
}

/// The other case of a byte that has one, else the byte.
fn other_case(byte: u8) -> u8 {
    if byte.is_ascii_lowercase() {
        byte.to_ascii_uppercase()
    } else {
        byte.to_ascii_lowercase()
    }
}

/// Puts the other case of a letter, if one has two, in the place of another letter. Most of the lists ascend then.
fn in_both_cases(r: &mut Random, letters: &mut [u8]) {
    let n = letters.len();
    let begin = r.below(n);
    let mut places = (begin..begin + n).map(|i| i % n);
    if let Some(i) = places.find(|&i| letters[i].is_ascii_alphabetic()) {
        letters[(i + 1) % n] = other_case(letters[i]);
    }
    if !r.one_in(4) {
        letters.sort();
    }
}

/// The same letters, ascending, in cases of their own: all in the other case, or first capitals and then small letters, or each by
/// chance. They stand at the same places, or at others where their bytes have another order.
fn in_other_cases(r: &mut Random, letters: &[u8]) -> Vec<u8> {
    let kind = r.below(3);
    let capitals = r.below(letters.len() + 1);
    let mut all = Vec::new();
    for (i, &letter) in letters.iter().enumerate() {
        all.push(match kind {
            0 => other_case(letter),
            1 if i < capitals => letter.to_ascii_uppercase(),
            1 => letter.to_ascii_lowercase(),
            _ => in_case(r, Case::Either, letter),
        });
    }
    all.sort();
    all
}

/// As many letters as asked for that the list lacks, no two of them one letter, in any order.
fn letters_lacked(r: &mut Random, letters: &[u8], many: usize) -> Vec<u8> {
    let near = letters.len() + many <= 10 && r.one_in(2);
    let mut all: Vec<u8> = Vec::new();
    while all.len() < many {
        let byte = if near {
            r.of(b"abcdefgzABCDEFGZ@[`{\x00\xfe\xff")
        } else {
            r.below(256) as u8
        };
        let mut listed = letters.iter().chain(&all);
        if !listed.any(|l| l.eq_ignore_ascii_case(&byte)) {
            all.push(byte);
        }
    }
    all
}

/// A second list, which has some of the first one's letters, in its own cases or in theirs, and as many that it lacks as asked for.
fn sharing(r: &mut Random, first: &[u8], kept: Vec<u8>, lacked: usize) -> Vec<u8> {
    let mut all = if r.one_in(2) {
        in_other_cases(r, &kept)
    } else {
        kept
    };
    all.extend(letters_lacked(r, first, lacked));
    all.sort();
    all
}

/// The list of a second file. Mostly it agrees with the first, or has the same letters in other cases, which may then stand at other
/// places; else it shares some letters or none, is empty, or has the two list 64 letters together, or 65.
fn letters_beside(r: &mut Random, first: &[u8]) -> Vec<u8> {
    match r.below(12) {
        0..=3 => first.to_vec(),
        4 | 5 => in_other_cases(r, first),
        6 | 7 => {
            let kept = first.iter().copied().filter(|_| !r.one_in(3)).collect();
            let lacked = r.of(&[0, 1, 1, 2, 3]);
            sharing(r, first, kept, lacked)
        }
        8 => {
            let lacked = r.of(&[1, 1, 2, 5, 30]);
            sharing(r, first, Vec::new(), lacked)
        }
        9 => Vec::new(),
        10 => {
            let lacked = (r.of(&[64, 65]) - first.len()).min(64);
            let most = first.len().min(64 - lacked);
            let kept = first[..r.below(most + 1)].to_vec();
            sharing(r, first, kept, lacked)
        }
        _ => letters(r),
    }
}

/// The automaton over another list: without the arcs whose letters that list lacks.
fn over(x: &Automaton, letters: &[u8]) -> Automaton {
    let number = |byte: u8| letters.iter().position(|l| l.eq_ignore_ascii_case(&byte));
    let mut y = x.clone();
    y.letters = letters.to_vec();
    y.arcs.clear();
    for arc in &x.arcs {
        let letter = arc.letter.map(|l| number(x.letters[l]));
        if letter != Some(None) {
            y.arcs.push(Arc {
                letter: letter.flatten(),
                ..arc.clone()
            });
        }
    }
    y
}

fn operation(r: &mut Random, registers: usize, symbols: usize) -> Operation {
    let register = r.below(registers);
    if register == 0 {
        return Operation {
            writes: false,
            register,
            symbol: 0,
        };
    }
    Operation {
        writes: r.one_in(2),
        register,
        symbol: r.below(symbols) as u8,
    }
}

/// An automaton over the given letters, within the limits.
pub fn automaton(r: &mut Random, letters: &[u8]) -> Automaton {
    let s = r.of(&[1, 1, 2, 2, 3, 3, 4, 5, 6, 8, 12, 20, 60, 127, 128, 255, 256]);
    let registers = r.of(&[1, 1, 1, 2, 2, 2, 3, 4, 8]);
    let symbols = r.of(&[1, 2, 2, 2, 3, 4, 16]);
    let m = match r.below(12) {
        0 => 0,
        1 => 2048,
        2 => 2047,
        3 => r.below(2049),
        4 | 5 => r.below(200),
        _ => r.below(3 * s + 3).min(2048),
    };
    let moves = r.of(&[2, 4, 8, 1000]);
    let finals = (0..s).map(|_| r.one_in(3)).collect();
    let mut arcs = Vec::new();
    for i in 0..m {
        let letter = if letters.is_empty() || r.one_in(moves) {
            None
        } else {
            Some(r.below(letters.len()))
        };
        let p = if r.one_in(40) {
            8
        } else {
            r.of(&[1, 1, 1, 2, 3])
        };
        let operations = (0..p).map(|_| operation(r, registers, symbols)).collect();
        let from = if r.one_in(3) { i % s } else { r.below(s) };
        arcs.push(Arc {
            from,
            letter,
            to: r.below(s),
            operations,
        });
    }
    Automaton {
        letters: letters.to_vec(),
        registers,
        symbols,
        finals,
        arcs,
    }
}

/// An automaton in which little is live at once: about one arc for each state and letter. Two of them differ late, in long words.
pub fn sparse(r: &mut Random, letters: &[u8]) -> Automaton {
    let s = r.of(&[2, 3, 5, 8, 12, 16, 31]);
    let registers = r.of(&[1, 1, 2, 2, 3]);
    let symbols = r.of(&[2, 2, 3]);
    let moves = r.of(&[8, 20, 1000]);
    let finals = (0..s).map(|i| i + 1 == s || r.one_in(12)).collect();
    let mut arcs = Vec::new();
    for from in 0..s {
        let next = (from + 1) % s;
        for letter in 0..letters.len() {
            let to = if r.one_in(3) { r.below(s) } else { next };
            let p = r.of(&[1, 1, 1, 2]);
            let operations = (0..p).map(|_| operation(r, registers, symbols)).collect();
            let letter = if r.one_in(moves) { None } else { Some(letter) };
            arcs.push(Arc {
                from,
                letter,
                to,
                operations,
            });
        }
    }
    Automaton {
        letters: letters.to_vec(),
        registers,
        symbols,
        finals,
        arcs,
    }
}

/// The same automaton with a small change, so that two languages are often nearly the same.
pub fn changed(r: &mut Random, x: &Automaton) -> Automaton {
    let mut y = x.clone();
    match r.below(4) {
        0 => {
            let i = r.below(y.finals.len());
            y.finals[i] = !y.finals[i];
        }
        1 if !y.arcs.is_empty() => {
            let i = r.below(y.arcs.len());
            y.arcs.remove(i);
        }
        2 if y.arcs.len() > 1 => {
            let i = r.below(y.arcs.len() - 1);
            y.arcs.swap(i, i + 1);
        }
        _ => {}
    }
    y
}

/// Spoils fields of one arc of a valid file, each by a byte just beyond its range or far from it; now and then the file ends behind
/// them, or the arc's first operation is none. (With 256 states every byte is a state.)
fn spoil_arc(r: &mut Random, file: &mut Vec<u8>, x: &Automaton) {
    let (before, _) = x.arcs.split_at(r.below(x.arcs.len()));
    let size = |a: &Arc| 4 + 2 * a.operations.len();
    let at = 12 + x.letters.len() + x.finals.len() + before.iter().map(size).sum::<usize>();
    let states = x.finals.len() as u8;
    let letters = x.letters.len() as u8;
    let wrong = [[states, 255], [letters, 254], [states, 255], [0, 9]];
    for (i, bytes) in wrong.iter().enumerate() {
        if r.one_in(3) {
            file[at + i] = r.of(bytes);
        }
    }
    match r.below(6) {
        0 => file.truncate(at + 4 + r.below(2)),
        1 => file[at + 4] = 0x21,
        _ => {}
    }
}

/// A file that is often damaged: a byte changed, fields of an arc spoiled, cut short, or longer.
pub fn damaged(r: &mut Random, mut file: Vec<u8>) -> Vec<u8> {
    match r.below(4) {
        0 if !file.is_empty() => {
            let near = file.len().min(if r.one_in(2) { 16 } else { usize::MAX });
            let i = r.below(near);
            file[i] = if r.one_in(2) {
                r.below(256) as u8
            } else {
                r.of(&[0, 1, 2, 16, 17, 255])
            };
        }
        1 => {
            let n = r.below(file.len() + 1);
            file.truncate(n);
        }
        2 => match read(&file) {
            Ok(x) if !x.arcs.is_empty() => spoil_arc(r, &mut file, &x),
            _ => {}
        },
        _ => file.push(r.below(256) as u8),
    }
    file
}

pub fn file(r: &mut Random, letters: &[u8]) -> Vec<u8> {
    let bytes = write(&automaton(r, letters));
    if r.one_in(8) {
        damaged(r, bytes)
    } else {
        bytes
    }
}

/// A couple of files, mostly over the same letters, often nearly the same automaton.
pub fn couple(r: &mut Random) -> (Vec<u8>, Vec<u8>) {
    let listed = letters(r);
    let any = if r.one_in(2) { automaton } else { sparse };
    let x = any(r, &listed);
    let beside = letters_beside(r, &listed);
    let y = match r.below(4) {
        0 => over(&x, &beside),
        1 => changed(r, &over(&x, &beside)),
        _ => any(r, &beside),
    };
    let (mut first, mut second) = (write(&x), write(&y));
    if r.one_in(2) {
        (first, second) = (second, first);
    }
    if r.one_in(12) {
        first = damaged(r, first);
    }
    if r.one_in(12) {
        second = damaged(r, second);
    }
    (first, second)
}

/// A word, mostly over the letters, as they are listed or in other cases. A byte that is none is any, or one that differs from a
/// letter as a capital from its small letter, whether or not that byte has two cases.
pub fn word(r: &mut Random, letters: &[u8]) -> Vec<u8> {
    let n = r.of(&[0, 1, 2, 3, 5, 10, 40]);
    let as_listed = r.one_in(2);
    (0..n)
        .map(|_| {
            if letters.is_empty() || r.one_in(120) {
                return r.below(256) as u8;
            }
            let letter = r.of(letters);
            if r.one_in(120) {
                letter ^ 0x20
            } else if as_listed {
                letter
            } else {
                in_case(r, Case::Either, letter)
            }
        })
        .collect()
}

/// A file whose words are to be counted: often one with few live sets, now and then damaged.
pub fn counted(r: &mut Random, letters: &[u8]) -> Vec<u8> {
    let any = if r.one_in(2) { automaton } else { sparse };
    let bytes = write(&any(r, letters));
    if r.one_in(12) {
        damaged(r, bytes)
    } else {
        bytes
    }
}

/// The length of words that are to be counted: short, at a limit, or beyond all limits.
pub fn length(r: &mut Random) -> u64 {
    match r.below(8) {
        0 => r.of(&[10, 11, 27, 28, 31, 32, 40, 41, 63, 64, 65]),
        1 => r.below(65) as u64,
        2 => r.of(&[66, 1 << 32, u64::MAX]),
        _ => r.below(7) as u64,
    }
}

/// Is the letter at this place from the end the first one? Over the first two letters; any other leaves nothing live. The live set of a word
/// tells which of its last letters are the first one, as many as that, so there are two to that power.
pub fn letter_from_the_end(place: usize, letters: &[u8]) -> Automaton {
    let arc = |from, letter, to| Arc {
        from,
        letter: Some(letter),
        to,
        operations: vec![Operation {
            writes: false,
            register: 0,
            symbol: 0,
        }],
    };
    let mut arcs = vec![arc(0, 0, 0), arc(0, 0, 1), arc(0, 1, 0)];
    for from in 1..place {
        arcs.extend([arc(from, 0, from + 1), arc(from, 1, from + 1)]);
    }
    Automaton {
        letters: letters.to_vec(),
        registers: 1,
        symbols: 1,
        finals: (0..=place).map(|state| state == place).collect(),
        arcs,
    }
}

/// A file by which words with ranges are to be judged: now and then one with many live sets.
pub fn ranged(r: &mut Random, letters: &[u8]) -> Vec<u8> {
    if letters.len() > 1 && r.one_in(6) {
        return write(&letter_from_the_end(7 + r.below(5), letters));
    }
    counted(r, letters)
}

/// The places of a word with ranges of so many letters, two bytes each: letters alone, ranges among them, or ranges of all letters. Now and
/// then one is no range, or a byte is left over.
pub fn places(r: &mut Random, letters: usize) -> Vec<u8> {
    let n = r.of(&[0, 1, 2, 3, 4, 6, 9, 12, 40]);
    let ranges = r.of(&[1, 1, 2, 8]);
    let all = r.of(&[1, 3]);
    let mut places = Vec::new();
    for _ in 0..if letters == 0 { 0 } else { n } {
        let mut low = r.below(letters);
        let mut high = low;
        if r.one_in(ranges) {
            high += r.below(letters - low);
            if r.one_in(all) {
                (low, high) = (0, letters - 1);
            }
        }
        places.extend([low as u8, high as u8]);
    }
    if r.one_in(8) {
        spoil_places(r, &mut places, letters as u8);
    }
    places
}

/// Leaves a byte over, or makes one of the places none: its high is no letter, just beyond them or far from it, or its low is just above its
/// high.
fn spoil_places(r: &mut Random, places: &mut Vec<u8>, letters: u8) {
    if r.one_in(3) {
        places.push(r.below(256) as u8);
        return;
    }
    if places.is_empty() {
        places.extend([0, 0]);
    }
    let at = 2 * r.below(places.len() / 2);
    if r.one_in(2) {
        places[at + 1] = r.of(&[letters, 255]);
    } else {
        places[at] = places[at + 1] + 1;
    }
}
