//! The requirements (documents 01 and 02) written down plainly in Rust, with vectors and maps and no care for memory or speed.
//! It shares no code and no table layout with the engine: what both answer alike was reached in two ways.

use std::collections::{BTreeSet, HashMap, HashSet};
use std::ops::RangeInclusive;

/// The numbers of a file's faults (document 01, and document 02's change 5).
pub const FAULTS: [u8; 12] = [1, 2, 3, 4, 5, 6, 7, 8, 9, 32, 33, 34];

/// A refusal: its number, and the automaton at fault (0 where none is).
#[derive(Clone, Copy, Debug, PartialEq, Eq)]
pub struct Refusal {
    pub number: u8,
    pub automaton: u8,
}

fn refuse<T>(number: u8, automaton: u8) -> Result<T, Refusal> {
    Err(Refusal { number, automaton })
}

#[derive(Clone, Copy, Debug, PartialEq, Eq)]
pub struct Operation {
    pub writes: bool,
    pub register: usize,
    pub symbol: u8,
}

/// The read of register 0, which always passes.
const READ_ZERO: Operation = Operation {
    writes: false,
    register: 0,
    symbol: 0,
};

#[derive(Clone, Debug, PartialEq, Eq)]
pub struct Arc {
    pub from: usize,
    /// `None` is the empty move.
    pub letter: Option<usize>,
    pub to: usize,
    pub operations: Vec<Operation>,
}

#[derive(Clone, Debug, PartialEq, Eq)]
pub struct Automaton {
    pub letters: Vec<u8>,
    pub registers: usize,
    pub symbols: usize,
    pub finals: Vec<bool>,
    pub arcs: Vec<Arc>,
}

// ---- letters: bytes 41 to 5A and 61 to 7A that differ only in case stand for one

/// The number of the letter that a byte stands for.
fn letter_number(letters: &[u8], byte: u8) -> Option<usize> {
    letters.iter().position(|l| l.eq_ignore_ascii_case(&byte))
}

/// The letters of both, ascending: the bytes of the first, and those of the second that stand for none of its letters.
fn letters_of_both(x: &Automaton, y: &Automaton) -> Vec<u8> {
    let mut all = x.letters.clone();
    for &byte in &y.letters {
        if letter_number(&x.letters, byte).is_none() {
            all.push(byte);
        }
    }
    all.sort();
    all
}

/// The automaton over a list that has all its letters: each arc has the number that its letter has there.
fn over_letters(x: &Automaton, letters: &[u8]) -> Automaton {
    let mut over = x.clone();
    for arc in &mut over.arcs {
        if let Some(number) = arc.letter {
            let there = letter_number(letters, x.letters[number]);
            arc.letter = Some(there.expect("a letter of the list"));
        }
    }
    over.letters = letters.to_vec();
    over
}

// ---- the file

/// A fault of a file: its number, and the place where reading meets it. A part that the file ends inside is met where it begins.
#[derive(Clone, Copy, Debug, PartialEq, Eq)]
pub struct Fault {
    pub number: u8,
    pub place: usize,
}

fn fault<T>(number: u8, place: usize) -> Result<T, Fault> {
    Err(Fault { number, place })
}

/// The automaton in a file, or its first fault.
pub fn read(file: &[u8]) -> Result<Automaton, Fault> {
    let mut at = 0;
    let mut want = |n: usize| -> Result<(usize, &[u8]), Fault> {
        let begin = at;
        if file.len() - begin < n {
            return fault(1, begin);
        }
        at += n;
        Ok((begin, &file[begin..at]))
    };
    let (_, header) = want(12)?;
    if &header[0..3] != b"MLB" {
        return fault(2, 0);
    }
    if header[3] != 1 || header[4] != 0 {
        return fault(3, 3);
    }
    let a = header[5] as usize;
    let s = header[6] as usize + 256 * header[7] as usize;
    let n = header[8] as usize;
    let g = header[9] as usize;
    let m = header[10] as usize + 256 * header[11] as usize;
    let ranges = [
        (a <= 64, 5),
        ((1..=256).contains(&s), 6),
        ((1..=8).contains(&n), 8),
        ((1..=16).contains(&g), 9),
        (m <= 2048, 10),
    ];
    if let Some((_, place)) = ranges.iter().find(|(within, _)| !within) {
        return fault(4, *place);
    }
    let (begin, part) = want(a)?;
    let letters = part.to_vec();
    if let Some(i) = letters.windows(2).position(|w| w[0] >= w[1]) {
        return fault(5, begin + i + 1);
    }
    let again = |i: usize| letter_number(&letters[i + 1..], letters[i]).is_some();
    if let Some(i) = (0..a).find(|&i| again(i)) {
        return fault(5, begin + i);
    }
    let (begin, part) = want(s)?;
    let flags = part.to_vec();
    if let Some(i) = flags.iter().position(|f| *f > 1) {
        return fault(6, begin + i);
    }
    let mut arcs = Vec::new();
    for _ in 0..m {
        let (begin, four) = want(4)?;
        let (from, letter, to, p) = (
            four[0] as usize,
            four[1],
            four[2] as usize,
            four[3] as usize,
        );
        if from >= s {
            return fault(7, begin);
        }
        if letter != 0xFF && letter as usize >= a {
            return fault(32, begin + 1);
        }
        if to >= s {
            return fault(33, begin + 2);
        }
        if !(1..=8).contains(&p) {
            return fault(34, begin + 3);
        }
        let mut operations = Vec::new();
        let (begin, bytes) = want(2 * p)?;
        for (i, two) in bytes.chunks(2).enumerate() {
            let (kind, register, symbol) = (two[0] >> 4, (two[0] & 15) as usize, two[1]);
            if kind > 1 || register >= n || symbol as usize >= g {
                return fault(8, begin + 2 * i);
            }
            if register == 0 && (kind != 0 || symbol != 0) {
                return fault(8, begin + 2 * i);
            }
            operations.push(Operation {
                writes: kind == 1,
                register,
                symbol,
            });
        }
        let letter = if letter == 0xFF {
            None
        } else {
            Some(letter as usize)
        };
        arcs.push(Arc {
            from,
            letter,
            to,
            operations,
        });
    }
    if at < file.len() {
        return fault(9, at);
    }
    let finals = flags.iter().map(|f| *f == 1).collect();
    Ok(Automaton {
        letters,
        registers: n,
        symbols: g,
        finals,
        arcs,
    })
}

/// The file of an automaton whose counts fit.
pub fn write(x: &Automaton) -> Vec<u8> {
    let s = x.finals.len();
    let m = x.arcs.len();
    let mut out = b"MLB\x01\x00".to_vec();
    out.push(x.letters.len() as u8);
    out.extend([
        (s % 256) as u8,
        (s / 256) as u8,
        x.registers as u8,
        x.symbols as u8,
    ]);
    out.extend([(m % 256) as u8, (m / 256) as u8]);
    out.extend(&x.letters);
    out.extend(x.finals.iter().map(|f| *f as u8));
    for arc in &x.arcs {
        let letter = arc.letter.map_or(0xFF, |l| l as u8);
        out.extend([
            arc.from as u8,
            letter,
            arc.to as u8,
            arc.operations.len() as u8,
        ]);
        for o in &arc.operations {
            out.extend([(o.writes as u8) * 16 + o.register as u8, o.symbol]);
        }
    }
    out
}

// ---- runs

/// A state, and the symbols of the registers.
type Configuration = (usize, Vec<u8>);

fn initial(x: &Automaton) -> Configuration {
    (0, vec![0; x.registers])
}

/// Where an arc leads from a configuration, if it passes.
fn pass(arc: &Arc, from: &Configuration) -> Option<Configuration> {
    if arc.from != from.0 {
        return None;
    }
    let mut contents = from.1.clone();
    for o in &arc.operations {
        if o.writes {
            contents[o.register] = o.symbol;
        } else if contents[o.register] != o.symbol {
            return None;
        }
    }
    Some((arc.to, contents))
}

/// An arc between numbered configurations.
#[derive(Clone, Copy, Debug, PartialEq, Eq)]
struct Plain {
    from: usize,
    letter: Option<usize>,
    to: usize,
}

/// The configurations in number order, and the plain arcs in the order met; `None` where there are more than 256.
fn explore(x: &Automaton) -> Option<(Vec<Configuration>, Vec<Plain>)> {
    let mut known = vec![initial(x)];
    let mut numbers = HashMap::from([(initial(x), 0)]);
    let mut plain = Vec::new();
    let mut at = 0;
    while at < known.len() {
        let here = known[at].clone();
        for arc in &x.arcs {
            if let Some(there) = pass(arc, &here) {
                let next = known.len();
                let to = *numbers.entry(there.clone()).or_insert(next);
                if to == next {
                    known.push(there);
                }
                if known.len() > 256 {
                    return None;
                }
                plain.push(Plain {
                    from: at,
                    letter: arc.letter,
                    to,
                });
            }
        }
        at += 1;
    }
    Some((known, plain))
}

/// All that empty moves lead to from a set of configurations.
fn close_by_empty_moves(x: &Automaton, set: BTreeSet<Configuration>) -> BTreeSet<Configuration> {
    let mut moves = vec![Vec::new(); x.finals.len()];
    for arc in x.arcs.iter().filter(|a| a.letter.is_none()) {
        moves[arc.from].push(arc);
    }
    let mut all = set.clone();
    let mut waiting: Vec<Configuration> = set.into_iter().collect();
    while let Some(here) = waiting.pop() {
        for there in moves[here.0].iter().filter_map(|arc| pass(arc, &here)) {
            if all.insert(there.clone()) {
                waiting.push(there);
            }
        }
    }
    all
}

fn live_at_start(x: &Automaton) -> BTreeSet<Configuration> {
    close_by_empty_moves(x, BTreeSet::from([initial(x)]))
}

/// The configurations of a set that are in one state; in the set's order they stand together.
fn in_state(set: &BTreeSet<Configuration>, state: usize) -> impl Iterator<Item = &Configuration> {
    set.range((state, Vec::new())..(state + 1, Vec::new()))
}

fn live_after(
    x: &Automaton,
    set: &BTreeSet<Configuration>,
    letter: usize,
) -> BTreeSet<Configuration> {
    let mut next = BTreeSet::new();
    for arc in x.arcs.iter().filter(|a| a.letter == Some(letter)) {
        next.extend(in_state(set, arc.from).filter_map(|here| pass(arc, here)));
    }
    close_by_empty_moves(x, next)
}

/// The same by a byte: one that is no letter leaves nothing live.
fn live_after_byte(
    x: &Automaton,
    set: &BTreeSet<Configuration>,
    byte: u8,
) -> BTreeSet<Configuration> {
    match letter_number(&x.letters, byte) {
        None => BTreeSet::new(),
        Some(letter) => live_after(x, set, letter),
    }
}

fn is_accepted(x: &Automaton, set: &BTreeSet<Configuration>) -> bool {
    set.iter().any(|c| x.finals[c.0])
}

fn read_one(file: &[u8], automaton: u8) -> Result<Automaton, Refusal> {
    read(file).map_err(|fault| Refusal {
        number: fault.number,
        automaton,
    })
}

/// The automata of two files, and the letters of both.
fn read_two(first: &[u8], second: &[u8]) -> Result<(Automaton, Automaton, Vec<u8>), Refusal> {
    let x = read_one(first, 1)?;
    let y = read_one(second, 2)?;
    let letters = letters_of_both(&x, &y);
    if letters.len() > 64 {
        return refuse(11, 0);
    }
    Ok((x, y, letters))
}

/// Whether the word is accepted, and how many configurations are live after it.
pub fn accepts(file: &[u8], word: &[u8], words_lent: usize) -> Result<(bool, usize), Refusal> {
    if words_lent < 8192 {
        return refuse(24, 0);
    }
    let x = read_one(file, 1)?;
    if explore(&x).is_none() {
        return refuse(21, 1);
    }
    Ok(judge(&x, word))
}

fn judge(x: &Automaton, word: &[u8]) -> (bool, usize) {
    let mut live = live_at_start(x);
    for &byte in word {
        live = live_after_byte(x, &live, byte);
    }
    (is_accepted(x, &live), live.len())
}

/// The same of each word that ends in the bytes, at most `room`, and how many bytes these words take with their separators.
pub fn accepts_words(
    file: &[u8],
    bytes: &[u8],
    separator: u8,
    words_lent: usize,
    room: usize,
) -> Result<(Vec<(bool, usize)>, usize), Refusal> {
    if words_lent < 8192 {
        return refuse(24, 0);
    }
    let x = read_one(file, 1)?;
    if explore(&x).is_none() {
        return refuse(21, 1);
    }
    let mut words: Vec<&[u8]> = bytes.split(|&byte| byte == separator).collect();
    words.pop(); // what no separator ends
    words.truncate(room);
    let taken = words.iter().map(|word| word.len() + 1).sum();
    Ok((words.iter().map(|word| judge(&x, word)).collect(), taken))
}

/// The unfolded file.
pub fn unfold(file: &[u8], words_lent: usize, room: usize) -> Result<Vec<u8>, Refusal> {
    if words_lent < 8192 {
        return refuse(24, 0);
    }
    let x = read_one(file, 1)?;
    let Some((known, plain)) = explore(&x) else {
        return refuse(21, 1);
    };
    if plain.len() > 2048 {
        return refuse(22, 1);
    }
    let arcs = plain
        .iter()
        .map(|p| Arc {
            from: p.from,
            letter: p.letter,
            to: p.to,
            operations: vec![READ_ZERO],
        })
        .collect();
    let finals = known.iter().map(|c| x.finals[c.0]).collect();
    let result = write(&Automaton {
        letters: x.letters,
        registers: 1,
        symbols: 1,
        finals,
        arcs,
    });
    if room < result.len() {
        return refuse(25, 0);
    }
    Ok(result)
}

// ---- comparing

#[derive(Clone, Debug, PartialEq, Eq)]
pub enum Verdict {
    Same {
        pairs: usize,
    },
    /// The first word that exactly one accepts, in the bytes of the letters of both, and which accepts it: 1 or 2. Words come in
    /// order by their length, and then by the places of their letters in that list.
    Different {
        pairs: usize,
        accepted_by: u8,
        word: Vec<u8>,
    },
}

/// The first word that leads from pair 0 to one that differs, given by its letters' places, and the pair that it leads to;
/// none where no word does. From pair i letter l leads to pair `behind[i][l]`. It does not hang on the order in which pairs
/// are numbered: first the least number of letters is found that lead from a pair to one that differs; then the word is put
/// together letter by letter, each the lowest with which a shortest such word goes on.
fn first_word(behind: &[Vec<usize>], differs: &[bool]) -> Option<(Vec<usize>, usize)> {
    let mut least: Vec<Option<usize>> = differs.iter().map(|&d| d.then_some(0)).collect();
    let mut letters = 0;
    let mut more = true;
    while more {
        letters += 1;
        more = false;
        for pair in 0..behind.len() {
            let one_less = |&target: &usize| least[target] == Some(letters - 1);
            if least[pair].is_none() && behind[pair].iter().any(one_less) {
                least[pair] = Some(letters);
                more = true;
            }
        }
    }
    let mut at = 0;
    let mut word = Vec::new();
    for left in (0..least[0]?).rev() {
        let goes_on = |&target: &usize| least[target] == Some(left);
        let letter = behind[at].iter().position(goes_on)?;
        word.push(letter);
        at = behind[at][letter];
    }
    Some((word, at))
}

/// The verdict on two files, over words of the letters of both; a letter that one of them lacks leaves nothing live there.
pub fn compare(
    first: &[u8],
    second: &[u8],
    words_lent: usize,
    room: usize,
) -> Result<Verdict, Refusal> {
    if words_lent < 8192 || room < 512 {
        return refuse(24, 0);
    }
    let (x, y, letters) = read_two(first, second)?;
    for (automaton, z) in [(1, &x), (2, &y)] {
        match explore(z) {
            None => return refuse(21, automaton),
            Some((_, plain)) if plain.len() > 2048 => return refuse(22, automaton),
            Some(_) => {}
        }
    }
    // All pairs, and where each letter leads from each.
    let begin = (live_at_start(&x), live_at_start(&y));
    let mut met = HashMap::from([(begin.clone(), 0usize)]);
    let mut pairs = vec![begin];
    let mut behind: Vec<Vec<usize>> = Vec::new();
    while behind.len() < pairs.len() {
        let (left, right) = pairs[behind.len()].clone();
        let mut targets = Vec::new();
        for &byte in &letters {
            let next = (
                live_after_byte(&x, &left, byte),
                live_after_byte(&y, &right, byte),
            );
            let number = *met.entry(next.clone()).or_insert(pairs.len());
            if number == pairs.len() {
                pairs.push(next);
                if pairs.len() > 512 {
                    return refuse(23, 0);
                }
            }
            targets.push(number);
        }
        behind.push(targets);
    }
    let accepted: Vec<(bool, bool)> = pairs
        .iter()
        .map(|(left, right)| (is_accepted(&x, left), is_accepted(&y, right)))
        .collect();
    let differs: Vec<bool> = accepted.iter().map(|(a, b)| a != b).collect();
    Ok(match first_word(&behind, &differs) {
        None => Verdict::Same { pairs: pairs.len() },
        Some((word, at)) => Verdict::Different {
            pairs: pairs.len(),
            accepted_by: if accepted[at].0 { 1 } else { 2 },
            word: word.iter().map(|&place| letters[place]).collect(),
        },
    })
}

// ---- counting the words of one length

type LiveSet = BTreeSet<Configuration>;

/// The live sets of all words, that of the empty word first, and the number of the set that each letter leads to from each;
/// none where there are more than 512.
fn live_sets(x: &Automaton) -> Option<(Vec<LiveSet>, Vec<Vec<usize>>)> {
    let begin = live_at_start(x);
    let mut met = HashMap::from([(begin.clone(), 0)]);
    let mut sets = vec![begin];
    let mut behind: Vec<Vec<usize>> = Vec::new();
    while behind.len() < sets.len() {
        let here = sets[behind.len()].clone();
        let mut targets = Vec::new();
        for letter in 0..x.letters.len() {
            let there = live_after(x, &here, letter);
            let number = *met.entry(there.clone()).or_insert(sets.len());
            if number == sets.len() {
                sets.push(there);
                if sets.len() > 512 {
                    return None;
                }
            }
            targets.push(number);
        }
        behind.push(targets);
    }
    Some((sets, behind))
}

/// How many words of so many letters are accepted, and how many are not: how many words lead to each live set is carried on
/// from the empty word, letter by letter.
pub fn count_words(file: &[u8], length: u64, words_lent: usize) -> Result<(u64, u64), Refusal> {
    if words_lent < 8192 {
        return refuse(24, 0);
    }
    let x = read_one(file, 1)?;
    if length > 64
        || (x.letters.len() as u64)
            .checked_pow(length as u32)
            .is_none()
    {
        return refuse(31, 0);
    }
    if explore(&x).is_none() {
        return refuse(21, 1);
    }
    let Some((sets, behind)) = live_sets(&x) else {
        return refuse(23, 0);
    };
    let mut leading = vec![0u64; sets.len()];
    leading[0] = 1;
    for _ in 0..length {
        let mut next = vec![0u64; sets.len()];
        for (set, targets) in behind.iter().enumerate() {
            for &target in targets {
                next[target] += leading[set];
            }
        }
        leading = next;
    }
    let mut counts = (0, 0);
    for (set, words) in sets.iter().zip(leading) {
        if is_accepted(&x, set) {
            counts.0 += words;
        } else {
            counts.1 += words;
        }
    }
    Ok(counts)
}

/// The same of a valid file with no limit looked at, each word by itself.
pub fn count_each_word(file: &[u8], length: u64) -> (u64, u64) {
    fn each(x: &Automaton, live: &LiveSet, left: u64) -> (u64, u64) {
        if left == 0 {
            return if is_accepted(x, live) { (1, 0) } else { (0, 1) };
        }
        let mut counts = (0, 0);
        for letter in 0..x.letters.len() {
            let (accepted, rejected) = each(x, &live_after(x, live, letter), left - 1);
            counts = (counts.0 + accepted, counts.1 + rejected);
        }
        counts
    }
    let x = read(file).expect("a valid file");
    each(&x, &live_at_start(&x), length)
}

// ---- words with ranges of letters

/// How many of the fillings of a word with ranges are accepted: all, some but not all, or none.
#[derive(Clone, Copy, Debug, PartialEq, Eq)]
pub enum Ranged {
    Always,
    Sometimes,
    Never,
}

/// The answer, by whether each of some words or live sets is accepted; there is one at least.
fn judged(accepted: &[bool]) -> Ranged {
    match (accepted.contains(&true), accepted.contains(&false)) {
        (true, false) => Ranged::Always,
        (true, true) => Ranged::Sometimes,
        (false, _) => Ranged::Never,
    }
}

/// The letter numbers of each place, which has two bytes, low and high; none where a place is no range of so many letters, or a byte is
/// left over.
fn ranges_of(places: &[u8], letters: usize) -> Option<Vec<RangeInclusive<usize>>> {
    let range = |place: &[u8]| match place {
        &[low, high] if low <= high && (high as usize) < letters => {
            Some(low as usize..=high as usize)
        }
        _ => None,
    };
    places.chunks(2).map(range).collect()
}

/// All fillings of the places, where they are few: 4,096 at most, and the fewer the more arcs there are.
fn few_fillings(ranges: &[RangeInclusive<usize>], arcs: usize) -> Option<Vec<Vec<usize>>> {
    let mut fillings: Vec<Vec<usize>> = vec![Vec::new()];
    for range in ranges {
        let mut longer = Vec::new();
        for front in &fillings {
            longer.extend(range.clone().map(|letter| [front, &[letter][..]].concat()));
        }
        fillings = longer;
        if fillings.len() > 4_096 || fillings.len() * arcs > 1 << 20 {
            return None;
        }
    }
    Some(fillings)
}

/// Does a run spell these letters and end in a final state? What is searched are letters read and configurations, with no live set.
fn has_accepting_run(x: &Automaton, word: &[usize]) -> bool {
    let mut leaving = vec![Vec::new(); x.finals.len()];
    for arc in &x.arcs {
        leaving[arc.from].push(arc);
    }
    let begin = (0, initial(x));
    let mut met = HashSet::from([begin.clone()]);
    let mut waiting = vec![begin];
    while let Some((read, here)) = waiting.pop() {
        if read == word.len() && x.finals[here.0] {
            return true;
        }
        for arc in &leaving[here.0] {
            let next = match arc.letter {
                None => read,
                letter if letter == word.get(read).copied() => read + 1,
                _ => continue,
            };
            if let Some(there) = pass(arc, &here) {
                if met.insert((next, there.clone())) {
                    waiting.push((next, there));
                }
            }
        }
    }
    false
}

/// Whether every filling is accepted, some, or none: by the live sets of all fillings of the places up to each. Where fillings are few, each
/// is judged by itself too, by its runs, and the answer must be the same.
pub fn accepts_ranges(file: &[u8], places: &[u8], words_lent: usize) -> Result<Ranged, Refusal> {
    if words_lent < 8192 {
        return refuse(24, 0);
    }
    let x = read_one(file, 1)?;
    let Some(ranges) = ranges_of(places, x.letters.len()) else {
        return refuse(35, 0);
    };
    if explore(&x).is_none() {
        return refuse(21, 1);
    }
    let mut sets = HashSet::from([live_at_start(&x)]);
    for range in &ranges {
        let mut behind = HashSet::new();
        for set in &sets {
            behind.extend(range.clone().map(|letter| live_after(&x, set, letter)));
        }
        sets = behind;
        if sets.len() > 512 {
            return refuse(23, 0);
        }
    }
    let by_sets: Vec<bool> = sets.iter().map(|set| is_accepted(&x, set)).collect();
    if let Some(fillings) = few_fillings(&ranges, x.arcs.len()) {
        let one_by_one: Vec<bool> = fillings.iter().map(|w| has_accepting_run(&x, w)).collect();
        assert_eq!(judged(&by_sets), judged(&one_by_one));
    }
    Ok(judged(&by_sets))
}

// ---- joins

/// The automata of two files, each over the letters of both.
fn two(first: &[u8], second: &[u8]) -> Result<(Automaton, Automaton), Refusal> {
    let (x, y, letters) = read_two(first, second)?;
    Ok((over_letters(&x, &letters), over_letters(&y, &letters)))
}

fn within_limits(x: &Automaton, room: usize) -> Result<Vec<u8>, Refusal> {
    let long_arc = x.arcs.iter().any(|a| a.operations.len() > 8);
    if x.finals.len() > 256 || x.registers > 8 || x.arcs.len() > 2048 || long_arc {
        return refuse(11, 0);
    }
    let result = write(x);
    if room < result.len() {
        return refuse(25, 0);
    }
    Ok(result)
}

fn empty_move(from: usize, to: usize) -> Arc {
    Arc {
        from,
        letter: None,
        to,
        operations: vec![READ_ZERO],
    }
}

fn moved_operations(operations: &[Operation], registers: usize) -> Vec<Operation> {
    let register = |r: usize| if r == 0 { 0 } else { r + registers };
    operations
        .iter()
        .map(|o| Operation {
            register: register(o.register),
            ..*o
        })
        .collect()
}

fn moved(arc: &Arc, states: usize, registers: usize) -> Arc {
    Arc {
        from: arc.from + states,
        letter: arc.letter,
        to: arc.to + states,
        operations: moved_operations(&arc.operations, registers),
    }
}

pub fn union(first: &[u8], second: &[u8], room: usize) -> Result<Vec<u8>, Refusal> {
    let (x, y) = two(first, second)?;
    let behind = 1 + x.finals.len();
    let mut finals = vec![false];
    finals.extend(&x.finals);
    finals.extend(&y.finals);
    let mut arcs = vec![empty_move(0, 1), empty_move(0, behind)];
    arcs.extend(x.arcs.iter().map(|a| moved(a, 1, 0)));
    arcs.extend(y.arcs.iter().map(|a| moved(a, behind, 0)));
    let registers = x.registers.max(y.registers);
    let symbols = x.symbols.max(y.symbols);
    within_limits(
        &Automaton {
            letters: x.letters,
            registers,
            symbols,
            finals,
            arcs,
        },
        room,
    )
}

pub fn concatenate(first: &[u8], second: &[u8], room: usize) -> Result<Vec<u8>, Refusal> {
    let (x, y) = two(first, second)?;
    let s = x.finals.len();
    let mut finals = vec![false; s];
    finals.extend(&y.finals);
    let mut arcs = x.arcs.clone();
    arcs.extend((0..s).filter(|i| x.finals[*i]).map(|i| empty_move(i, s)));
    arcs.extend(y.arcs.iter().map(|a| moved(a, s, x.registers - 1)));
    let registers = x.registers + y.registers - 1;
    let symbols = x.symbols.max(y.symbols);
    within_limits(
        &Automaton {
            letters: x.letters,
            registers,
            symbols,
            finals,
            arcs,
        },
        room,
    )
}

pub fn intersect(first: &[u8], second: &[u8], room: usize) -> Result<Vec<u8>, Refusal> {
    let (x, y) = two(first, second)?;
    let (sx, sy) = (x.finals.len(), y.finals.len());
    let k = x.registers - 1;
    // Beyond a limit, whatever else: said early, here and below, to spare the time.
    if sx * sy > 256 {
        return refuse(11, 0);
    }
    let mut finals = Vec::new();
    for i in 0..sx {
        for j in 0..sy {
            finals.push(x.finals[i] && y.finals[j]);
        }
    }
    let mut arcs = Vec::new();
    for a in x.arcs.iter().filter(|a| a.letter.is_some()) {
        for b in y.arcs.iter().filter(|b| b.letter == a.letter) {
            let mut operations = a.operations.clone();
            operations.extend(moved_operations(&b.operations, k));
            arcs.push(Arc {
                from: a.from * sy + b.from,
                letter: a.letter,
                to: a.to * sy + b.to,
                operations,
            });
        }
        if arcs.len() > 2048 {
            return refuse(11, 0);
        }
    }
    for a in x.arcs.iter().filter(|a| a.letter.is_none()) {
        for j in 0..sy {
            arcs.push(Arc {
                from: a.from * sy + j,
                letter: None,
                to: a.to * sy + j,
                operations: a.operations.clone(),
            });
        }
    }
    for b in y.arcs.iter().filter(|b| b.letter.is_none()) {
        let operations = moved_operations(&b.operations, k);
        for i in 0..sx {
            arcs.push(Arc {
                from: i * sy + b.from,
                letter: None,
                to: i * sy + b.to,
                operations: operations.clone(),
            });
        }
    }
    let registers = x.registers + y.registers - 1;
    let symbols = x.symbols.max(y.symbols);
    within_limits(
        &Automaton {
            letters: x.letters,
            registers,
            symbols,
            finals,
            arcs,
        },
        room,
    )
}

pub fn close(file: &[u8], room: usize) -> Result<Vec<u8>, Refusal> {
    let x = read_one(file, 1)?;
    let mut finals = vec![true];
    finals.extend(&x.finals);
    let mut arcs = vec![empty_move(0, 1)];
    arcs.extend(x.arcs.iter().map(|a| moved(a, 1, 0)));
    let mut clearing: Vec<Operation> = (1..x.registers)
        .map(|register| Operation {
            writes: true,
            register,
            symbol: 0,
        })
        .collect();
    if clearing.is_empty() {
        clearing.push(READ_ZERO);
    }
    for i in (0..x.finals.len()).filter(|i| x.finals[*i]) {
        arcs.push(Arc {
            from: i + 1,
            letter: None,
            to: 1,
            operations: clearing.clone(),
        });
    }
    let (registers, symbols) = (x.registers, x.symbols);
    within_limits(
        &Automaton {
            letters: x.letters,
            registers,
            symbols,
            finals,
            arcs,
        },
        room,
    )
}
