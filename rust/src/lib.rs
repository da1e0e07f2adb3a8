//! Finite-state registered automata in files: read, run, unfold, join and compare them, count their words, and judge words with ranges of
//! letters.
//!
//! A safe function for each call of the verified engine, whose static library this crate links. The engine allocates
//! nothing: working words and outputs are lent by the caller. It is proved that every call finishes on every input,
//! touches only what it was lent, and answers what the engine's definitions say; a refused call leaves the output lent
//! to it as it was. What is not proved is this thin layer: that it hands over pointers and lengths as they are.
//!
//! A letter is listed as one byte; a capital and its small letter, bytes 41 to 5A and 61 to 7A, stand for one letter: in a
//! word, in the letters of one file, which may list it in one case only, and where letters of two files are the same. Two files may have
//! letters of their own: they are joined and compared over the letters of both, which are the first file's bytes and those of the second
//! that stand for none of its letters, ascending. Joined files and shown words have these bytes.
//!
//! ```
//! // 0 to 1 on 'c'; 1 is final
//! let file = b"MLB\x01\x00\x01\x02\x00\x01\x01\x01\x00c\x00\x01\x00\x00\x01\x01\x00\x00";
//! let mut work = registered_automata::working_words();
//! let answer = registered_automata::accepts(file, b"c", &mut work).unwrap();
//! assert!(answer.accepted);
//! assert_eq!(answer.live, 1);
//! let in_capitals = registered_automata::accepts(file, b"C", &mut work).unwrap();
//! assert_eq!(in_capitals, answer);
//! ```

mod engine;
mod refusal;

pub use refusal::{Automaton, Fault, Reason, Refusal};

/// How many working words a call asks for.
pub const WORKING_WORDS: usize = 8192;

/// How many bytes comparing asks for, for the word that it shows.
pub const WORD_BYTES: usize = 512;

/// The length of the longest valid file; an output of that size has room for every result.
pub const LONGEST_FILE: usize = 41_292;

/// Working words for any number of calls, one after the other.
pub fn working_words() -> Box<[u64]> {
    vec![0; WORKING_WORDS].into_boxed_slice()
}

/// The counts in the header of a valid file.
#[derive(Clone, Copy, Debug, PartialEq, Eq)]
pub struct Counts {
    pub letters: usize,
    pub states: usize,
    pub registers: usize,
    pub symbols: usize,
    pub arcs: usize,
}

/// Whether a word is accepted, and how many configurations are live after it.
#[derive(Clone, Copy, Debug, PartialEq, Eq)]
pub struct Membership {
    pub accepted: bool,
    pub live: u64,
}

impl Membership {
    /// What [`accepts_words`] answers of one word.
    pub fn from_answer(answer: u64) -> Membership {
        Membership {
            accepted: answer % 2 == 1,
            live: answer / 2,
        }
    }
}

/// How many words were judged, and how many bytes they take, each with the separator behind it.
#[derive(Clone, Copy, Debug, PartialEq, Eq)]
pub struct WordsJudged {
    pub count: usize,
    pub bytes: usize,
}

/// Whether two automata accept the same words. `pairs` is the number of distinct pairs of live sets over all words of the letters of
/// both; a letter that one of the two lacks leaves nothing live there.
#[derive(Clone, Copy, Debug, PartialEq, Eq)]
pub enum Comparison {
    Same {
        pairs: u64,
    },
    /// The word that is shown has `length` bytes, at the front of the buffer lent, and is the first that exactly one of the
    /// two accepts: the one named. It is written in the bytes of the letters of both, whichever accepts it. Words come in
    /// order by their length, and then by the places of their letters among these.
    Different {
        pairs: u64,
        accepted_by: Automaton,
        length: usize,
    },
}

/// How many words of one length are accepted, and how many are not.
#[derive(Clone, Copy, Debug, PartialEq, Eq)]
pub struct WordCount {
    pub accepted: u64,
    pub rejected: u64,
}

/// How many of the fillings of a word are accepted, where each of its letters is known only to lie in a range.
#[derive(Clone, Copy, Debug, PartialEq, Eq)]
pub enum Ranged {
    /// Every filling is accepted.
    Always,
    /// Some fillings are accepted, and some are not.
    Sometimes,
    /// No filling is accepted.
    Never,
}

/// Is the file valid? Answers its counts, or its first fault and where that stands.
///
/// Which numbers the faults of a file have is told at [`Reason`].
///
/// ```
/// use registered_automata::{read, Reason};
///
/// let mut file = include_bytes!("../../samples/T.mlb").to_vec();
/// file[19] = 3; // the letter of the first arc: T has the letters 0, 1 and 2
/// let fault = read(&file).unwrap_err();
/// assert_eq!((fault.reason, fault.place), (Reason::ArcLetter, 19));
/// ```
pub fn read(file: &[u8]) -> Result<Counts, Fault> {
    let r = unsafe { engine::ra_read(file.as_ptr(), file.len()) };
    Refusal::unless(r.number, r.automaton).map_err(|refusal| Fault {
        reason: refusal.reason,
        place: r.place as usize,
    })?;
    Ok(Counts {
        letters: r.letters as usize,
        states: r.states as usize,
        registers: r.registers as usize,
        symbols: r.symbols as usize,
        arcs: r.arcs as usize,
    })
}

/// Does the automaton of the file accept the word? Its bytes are taken without regard to capitals. A word with a byte that is
/// no letter is rejected.
///
/// Refused, in this order: 24 with fewer than [`WORKING_WORDS`]; a fault of the file; 21.
pub fn accepts(file: &[u8], word: &[u8], work: &mut [u64]) -> Result<Membership, Refusal> {
    let r = unsafe {
        engine::ra_accepts(
            file.as_ptr(),
            file.len(),
            word.as_ptr(),
            word.len(),
            work.as_mut_ptr(),
            work.len(),
        )
    };
    Refusal::unless(r.number, r.automaton)?;
    Ok(Membership {
        accepted: r.accepted != 0,
        live: r.live,
    })
}

/// Which of many words does the automaton of the file accept? `words` has them one behind the other, each with the separator behind it, as
/// the lines of a text have a newline; the separator is no part of a word. Word i is answered in `answers[i]`, as [`accepts`] does:
/// [`Membership::from_answer`] tells it. As many words are judged as there is room for answers; bytes behind the last separator are not
/// judged. Answers how many words these are and how many bytes they take, so that the next call can go on behind them. The automaton is
/// built once for all words. A refused call leaves the answers as they were lent.
///
/// ```
/// use registered_automata::{accepts_words, Membership};
///
/// // c or e, any number of m, and then the first letter again
/// let file = include_bytes!("../../samples/T.mlb");
/// let mut work = registered_automata::working_words();
/// let mut answers = [0; 10];
/// let judged = accepts_words(file, b"cc\nce\neme\nc", b'\n', &mut work, &mut answers).unwrap();
/// let accepted: Vec<bool> = answers[..judged.count].iter().map(|&a| Membership::from_answer(a).accepted).collect();
/// assert_eq!(accepted, [true, false, true]);
/// assert_eq!(judged.bytes, 10); // the last c has no newline
/// ```
///
/// Refused, in this order: 24 with fewer than [`WORKING_WORDS`]; a fault of the file; 21.
pub fn accepts_words(
    file: &[u8],
    words: &[u8],
    separator: u8,
    work: &mut [u64],
    answers: &mut [u64],
) -> Result<WordsJudged, Refusal> {
    let r = unsafe {
        engine::ra_accepts_words(
            file.as_ptr(),
            file.len(),
            words.as_ptr(),
            words.len(),
            separator,
            work.as_mut_ptr(),
            work.len(),
            answers.as_mut_ptr(),
            answers.len(),
        )
    };
    Refusal::unless(r.number, r.automaton)?;
    Ok(WordsJudged {
        count: r.count as usize,
        bytes: r.bytes as usize,
    })
}

fn written(r: engine::Written) -> Result<usize, Refusal> {
    Refusal::unless(r.number, r.automaton)?;
    Ok(r.length as usize)
}

/// Writes an automaton without registers that accepts the same words, and answers the length of its file.
///
/// Refused, in this order: 24 with fewer than [`WORKING_WORDS`]; a fault of the file; 21; 22; 25.
pub fn unfold(file: &[u8], work: &mut [u64], out: &mut [u8]) -> Result<usize, Refusal> {
    written(unsafe {
        engine::ra_unfold(
            file.as_ptr(),
            file.len(),
            work.as_mut_ptr(),
            work.len(),
            out.as_mut_ptr(),
            out.len(),
        )
    })
}

/// Writes an automaton that accepts the words of either, and answers the length of its file. Its letters are those of both, as in
/// every join of two files: the first file's bytes, and those of the second that stand for none of its letters, ascending.
///
/// ```
/// // 0 to 1 on 'c'; 1 is final. The other lists 'C', which is the same letter, and 'g', and has 0 to 1 on 'g'
/// let cow = b"MLB\x01\x00\x01\x02\x00\x01\x01\x01\x00c\x00\x01\x00\x00\x01\x01\x00\x00";
/// let goat = b"MLB\x01\x00\x02\x02\x00\x01\x01\x01\x00Cg\x00\x01\x00\x01\x01\x01\x00\x00";
/// let mut out = [0; 100];
/// let length = registered_automata::union(cow, goat, &mut out).unwrap();
/// let mut work = registered_automata::working_words();
/// assert_eq!(&out[12..14], b"cg");
/// for word in [b"c", b"g", b"G"] {
///     let answer = registered_automata::accepts(&out[..length], word, &mut work).unwrap();
///     assert!(answer.accepted);
/// }
/// ```
///
/// Refused, in this order: a fault of the first file, then of the second; 11 with more than 64 letters of both, or a result beyond
/// another limit; 25.
pub fn union(first: &[u8], second: &[u8], out: &mut [u8]) -> Result<usize, Refusal> {
    written(unsafe {
        engine::ra_union(
            first.as_ptr(),
            first.len(),
            second.as_ptr(),
            second.len(),
            out.as_mut_ptr(),
            out.len(),
        )
    })
}

/// Writes an automaton that accepts a word of the first followed by one of the second, and answers the length of its file.
///
/// Refused, in this order: a fault of the first file, then of the second; 11, as in [`union`]; 25.
pub fn concatenate(first: &[u8], second: &[u8], out: &mut [u8]) -> Result<usize, Refusal> {
    written(unsafe {
        engine::ra_concatenate(
            first.as_ptr(),
            first.len(),
            second.as_ptr(),
            second.len(),
            out.as_mut_ptr(),
            out.len(),
        )
    })
}

/// Writes an automaton that accepts the words that both accept, and answers the length of its file. It lists the letters of both, also
/// those that none of its arcs has.
///
/// Refused, in this order: a fault of the first file, then of the second; 11, as in [`union`]; 25.
pub fn intersect(first: &[u8], second: &[u8], out: &mut [u8]) -> Result<usize, Refusal> {
    written(unsafe {
        engine::ra_intersect(
            first.as_ptr(),
            first.len(),
            second.as_ptr(),
            second.len(),
            out.as_mut_ptr(),
            out.len(),
        )
    })
}

/// Writes an automaton that accepts the finite sequences of words of the file's, and answers the length of its file.
///
/// Refused, in this order: a fault of the file; 11; 25.
pub fn close(file: &[u8], out: &mut [u8]) -> Result<usize, Refusal> {
    written(unsafe { engine::ra_close(file.as_ptr(), file.len(), out.as_mut_ptr(), out.len()) })
}

/// Do the two accept the same words, of every length and over the letters of both? A word with a letter that one of them lacks is
/// rejected by that one. Where they don't, the first word that exactly one accepts is written to the front of `word`: of the shortest
/// ones, the first in letter order. It has the bytes of the letters of both, and letters are ranked by their places among these.
///
/// Refused, in this order: 24 with fewer than [`WORKING_WORDS`] or a `word` of fewer than [`WORD_BYTES`]; a fault of the first
/// file, then of the second; 11 with more than 64 letters of both; 21 and 22 of the first, then of the second; 23.
pub fn compare(
    first: &[u8],
    second: &[u8],
    work: &mut [u64],
    word: &mut [u8],
) -> Result<Comparison, Refusal> {
    let r = unsafe {
        engine::ra_compare(
            first.as_ptr(),
            first.len(),
            second.as_ptr(),
            second.len(),
            work.as_mut_ptr(),
            work.len(),
            word.as_mut_ptr(),
            word.len(),
        )
    };
    Refusal::unless(r.number, r.automaton)?;
    Ok(match Automaton::from_number(r.taker) {
        None => Comparison::Same { pairs: r.pairs },
        Some(accepted_by) => Comparison::Different {
            pairs: r.pairs,
            accepted_by,
            length: r.length as usize,
        },
    })
}

/// How many words of `length` letters does the automaton of the file accept, and how many not? A word is counted once,
/// however many runs spell it. With no letters there is one word of length 0, and none of any other length.
///
/// ```
/// // two letters, 'c' and 'e'; 0 to 1 on 'c', 1 to 1 on both; 1 is final: the words that begin with 'c'
/// let file = b"MLB\x01\x00\x02\x02\x00\x01\x01\x03\x00ce\x00\x01\
///     \x00\x00\x01\x01\x00\x00\x01\x00\x01\x01\x00\x00\x01\x01\x01\x01\x00\x00";
/// let mut work = registered_automata::working_words();
/// let answer = registered_automata::count_words(file, 63, &mut work).unwrap();
/// assert_eq!(answer.accepted, 1 << 62);
/// assert_eq!(answer.rejected, 1 << 62);
/// ```
///
/// Refused, in this order: 24 with fewer than [`WORKING_WORDS`]; a fault of the file; 31 with a length above 64, or one that
/// more words have than 64 bits count; 21; 23, where words of every length count.
pub fn count_words(file: &[u8], length: u64, work: &mut [u64]) -> Result<WordCount, Refusal> {
    let r = unsafe {
        engine::ra_count_words(
            file.as_ptr(),
            file.len(),
            length,
            work.as_mut_ptr(),
            work.len(),
        )
    };
    Refusal::unless(r.number, r.automaton)?;
    Ok(WordCount {
        accepted: r.accepted,
        rejected: r.rejected,
    })
}

/// Of a word of which each letter is known only to lie in a range: does the automaton of the file accept every filling, some, or none?
/// `places` has two bytes for each letter of the word: the lowest and the highest number that it can have, both included. The numbers are
/// those of the file's letters, from 0 on in the order of its list. A filling has a letter of each range, one behind the other. With no
/// places the empty word is the only filling.
///
/// ```
/// use registered_automata::{accepts_ranges, Ranged};
///
/// // c or e, any number of m, and then the first letter again; c, e and m have the numbers 0, 1 and 2
/// let file = include_bytes!("../../samples/T.mlb");
/// let mut work = registered_automata::working_words();
/// let mut judge = |places: &[u8]| accepts_ranges(file, places, &mut work).unwrap();
/// assert_eq!(judge(&[0, 0, 2, 2, 0, 0]), Ranged::Always); // cmc
/// assert_eq!(judge(&[0, 1, 2, 2, 0, 0]), Ranged::Sometimes); // cmc or emc
/// assert_eq!(judge(&[0, 1, 0, 2, 2, 2]), Ranged::Never); // any that ends in m
/// ```
///
/// Refused, in this order: 24 with fewer than [`WORKING_WORDS`]; a fault of the file; 35 with a byte left over, a low above its high, or a
/// high that is no letter's number; 21; 23 with more than 512 live sets behind one place, of all fillings of the places up to it.
pub fn accepts_ranges(file: &[u8], places: &[u8], work: &mut [u64]) -> Result<Ranged, Refusal> {
    let r = unsafe {
        engine::ra_accepts_ranges(
            file.as_ptr(),
            file.len(),
            places.as_ptr(),
            places.len(),
            work.as_mut_ptr(),
            work.len(),
        )
    };
    Refusal::unless(r.number, r.automaton)?;
    Ok(match r.answer {
        1 => Ranged::Always,
        2 => Ranged::Sometimes,
        3 => Ranged::Never,
        _ => unreachable!("the engine gives no other answer"),
    })
}
