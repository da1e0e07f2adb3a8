//! Refusals: why a call did not answer, and which automaton is at fault.

use std::fmt;

/// The first or the second automaton of a call; the only one of a call with one is the first.
#[derive(Clone, Copy, Debug, PartialEq, Eq)]
pub enum Automaton {
    First,
    Second,
}

impl Automaton {
    pub(crate) fn from_number(number: u8) -> Option<Automaton> {
        match number {
            1 => Some(Automaton::First),
            2 => Some(Automaton::Second),
            _ => None,
        }
    }
}

/// What a refusal's number stands for.
///
/// The faults of a file are 1 to 9 and 32 to 34. They stand here first, in the order in which reading meets them, but that 1 is
/// met wherever the file ends inside a part, and those of an arc at each arc in turn. Of an arc's first four bytes each has a
/// number of its own, and the first that is wrong is told.
#[derive(Clone, Copy, Debug, PartialEq, Eq)]
pub enum Reason {
    EndsInsideAField = 1,
    Mark = 2,
    Version = 3,
    HeaderCount = 4,
    /// Or a letter is listed as a capital and as a small letter.
    LettersNotAscending = 5,
    FinalFlag = 6,
    /// The from-state, an arc's first byte.
    ArcSource = 7,
    /// The letter, an arc's second byte.
    ArcLetter = 32,
    /// The to-state, an arc's third byte.
    ArcTarget = 33,
    /// The number of operations, an arc's fourth byte.
    ArcOperations = 34,
    Operation = 8,
    BytesAfterTheLastArc = 9,
    /// Or, also where two files are compared, they have more than 64 letters together; a capital and its small letter are one letter.
    JoinedBeyondALimit = 11,
    TooManyConfigurations = 21,
    TooManyPlainArcs = 22,
    /// Of words of every length where words are counted; pairs of them where two files are compared; of a word with ranges those of its
    /// fillings behind one place.
    TooManyLiveSets = 23,
    TooLittleMemoryLent = 24,
    OutputTooShort = 25,
    LengthTooLarge = 31,
    /// Of a word with ranges, two bytes for each place: one is left over, a low is above its high, or a high is no letter.
    BadRanges = 35,
}

impl Reason {
    /// All of them, in the order of their numbers.
    pub const ALL: [Reason; 20] = [
        Reason::EndsInsideAField,
        Reason::Mark,
        Reason::Version,
        Reason::HeaderCount,
        Reason::LettersNotAscending,
        Reason::FinalFlag,
        Reason::ArcSource,
        Reason::Operation,
        Reason::BytesAfterTheLastArc,
        Reason::JoinedBeyondALimit,
        Reason::TooManyConfigurations,
        Reason::TooManyPlainArcs,
        Reason::TooManyLiveSets,
        Reason::TooLittleMemoryLent,
        Reason::OutputTooShort,
        Reason::LengthTooLarge,
        Reason::ArcLetter,
        Reason::ArcTarget,
        Reason::ArcOperations,
        Reason::BadRanges,
    ];

    /// The number of the refusal.
    pub fn number(self) -> u8 {
        self as u8
    }

    fn from_number(number: u8) -> Option<Reason> {
        Reason::ALL
            .into_iter()
            .find(|reason| reason.number() == number)
    }

    /// A sentence for a user: that of the programs (crates/refusals/stdout).
    pub fn message(self) -> &'static str {
        match self {
            Reason::EndsInsideAField => "the file ends inside a field",
            Reason::Mark => "the file does not begin with the mark MLB",
            Reason::Version => "the version is not 1",
            Reason::HeaderCount => "a count is out of its range: letters 0 to 64, states 1 to 256, registers 1 to 8, symbols 1 to 16, arcs 0 to 2048",
            Reason::LettersNotAscending => "the letters do not ascend strictly, or a letter stands there as a capital and as a small letter",
            Reason::FinalFlag => "a final flag is neither 00 nor 01",
            Reason::ArcSource => "an arc's from-state, its first byte, is not below the number of states",
            Reason::ArcLetter => "an arc's letter, its second byte, is neither below the number of letters nor FF",
            Reason::ArcTarget => "an arc's to-state, its third byte, is not below the number of states",
            Reason::ArcOperations => "an arc's number of operations, its fourth byte, is not 1 to 8",
            Reason::Operation => "an operation is not one: kind 0 or 1, register and symbol below their counts, register 0 only with the read of symbol 0",
            Reason::BytesAfterTheLastArc => "bytes follow the last arc",
            Reason::JoinedBeyondALimit => "the letters of both files are more than 64, or the result would be beyond a limit: 256 states, 8 registers, 2048 arcs, 8 operations on an arc",
            Reason::TooManyConfigurations => "more than 256 configurations can be reached",
            Reason::TooManyPlainArcs => "more than 2048 plain arcs: passing arcs, counted at each configuration",
            Reason::TooManyLiveSets => "words lead to more than 512 live sets, or to more than 512 pairs of them where two automata are compared, or to more than 512 behind one place of a word with ranges",
            Reason::TooLittleMemoryLent => "less working memory than 8192 words, or less room for a word than 512 bytes",
            Reason::OutputTooShort => "less room than the result has bytes",
            Reason::LengthTooLarge => "the length is above 64, or more than 18446744073709551615 words have it",
            Reason::BadRanges => "a byte is left over, or a range has its low above its high or its high not below the number of letters",
        }
    }
}

/// Why a call did not answer. Where one automaton is at fault, it is named.
#[derive(Clone, Copy, Debug, PartialEq, Eq)]
pub struct Refusal {
    pub reason: Reason,
    pub automaton: Option<Automaton>,
}

impl Refusal {
    /// The refusal with this number; none where it is 0.
    pub(crate) fn unless(number: u8, automaton: u8) -> Result<(), Refusal> {
        if number == 0 {
            return Ok(());
        }
        let reason = Reason::from_number(number).expect("the engine answers no other number");
        Err(Refusal {
            reason,
            automaton: Automaton::from_number(automaton),
        })
    }
}

impl fmt::Display for Refusal {
    fn fmt(&self, f: &mut fmt::Formatter<'_>) -> fmt::Result {
        match self.automaton {
            None => write!(
                f,
                "refused ({}): {}",
                self.reason.number(),
                self.reason.message()
            ),
            Some(Automaton::First) => write!(
                f,
                "refused ({}), first automaton: {}",
                self.reason.number(),
                self.reason.message()
            ),
            Some(Automaton::Second) => write!(
                f,
                "refused ({}), second automaton: {}",
                self.reason.number(),
                self.reason.message()
            ),
        }
    }
}

impl std::error::Error for Refusal {}

/// The first fault of a file, and its place in bytes from the file's start: where the mark, the version, the count, the
/// letter, the flag, the byte of an arc or the operation stands that is wrong; where the part begins that the file ends
/// inside; where the bytes behind the last arc begin. It is at most the file's length. The wrong letter is the first that is
/// not above the one before it; where all ascend, the first whose other case stands behind it, which is the capital.
#[derive(Clone, Copy, Debug, PartialEq, Eq)]
pub struct Fault {
    pub reason: Reason,
    pub place: usize,
}

impl fmt::Display for Fault {
    fn fmt(&self, f: &mut fmt::Formatter<'_>) -> fmt::Result {
        write!(
            f,
            "fault {} at byte {}: {}",
            self.reason.number(),
            self.place,
            self.reason.message()
        )
    }
}

impl std::error::Error for Fault {}

/// What another call with that one file would tell of it.
impl From<Fault> for Refusal {
    fn from(fault: Fault) -> Refusal {
        Refusal {
            reason: fault.reason,
            automaton: Some(Automaton::First),
        }
    }
}
