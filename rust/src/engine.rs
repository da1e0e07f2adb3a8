//! The static library as C sees it; c/registered_automata.h says the same.

#[repr(C)]
pub struct Reading {
    pub letters: u64,
    pub states: u64,
    pub registers: u64,
    pub symbols: u64,
    pub arcs: u64,
    pub place: u64,
    pub number: u8,
    pub automaton: u8,
}

#[repr(C)]
pub struct Membership {
    pub live: u64,
    pub number: u8,
    pub automaton: u8,
    pub accepted: u8,
}

#[repr(C)]
pub struct WordsJudged {
    pub count: u64,
    pub bytes: u64,
    pub number: u8,
    pub automaton: u8,
}

#[repr(C)]
pub struct Written {
    pub length: u64,
    pub number: u8,
    pub automaton: u8,
}

#[repr(C)]
pub struct Comparison {
    pub pairs: u64,
    pub length: u64,
    pub number: u8,
    pub automaton: u8,
    pub taker: u8,
}

#[repr(C)]
pub struct WordCount {
    pub accepted: u64,
    pub rejected: u64,
    pub number: u8,
    pub automaton: u8,
}

#[repr(C)]
pub struct Ranged {
    pub number: u8,
    pub automaton: u8,
    pub answer: u8,
}

extern "C" {
    pub fn ra_read(file: *const u8, file_length: usize) -> Reading;
    pub fn ra_accepts(
        file: *const u8,
        file_length: usize,
        word: *const u8,
        word_length: usize,
        work: *mut u64,
        words: usize,
    ) -> Membership;
    pub fn ra_accepts_words(
        file: *const u8,
        file_length: usize,
        words: *const u8,
        words_length: usize,
        separator: u8,
        work: *mut u64,
        work_words: usize,
        answers: *mut u64,
        answers_length: usize,
    ) -> WordsJudged;
    pub fn ra_unfold(
        file: *const u8,
        file_length: usize,
        work: *mut u64,
        words: usize,
        out: *mut u8,
        out_length: usize,
    ) -> Written;
    pub fn ra_union(
        first: *const u8,
        first_length: usize,
        second: *const u8,
        second_length: usize,
        out: *mut u8,
        out_length: usize,
    ) -> Written;
    pub fn ra_concatenate(
        first: *const u8,
        first_length: usize,
        second: *const u8,
        second_length: usize,
        out: *mut u8,
        out_length: usize,
    ) -> Written;
    pub fn ra_intersect(
        first: *const u8,
        first_length: usize,
        second: *const u8,
        second_length: usize,
        out: *mut u8,
        out_length: usize,
    ) -> Written;
    pub fn ra_close(
        file: *const u8,
        file_length: usize,
        out: *mut u8,
        out_length: usize,
    ) -> Written;
    pub fn ra_compare(
        first: *const u8,
        first_length: usize,
        second: *const u8,
        second_length: usize,
        work: *mut u64,
        words: usize,
        word: *mut u8,
        word_length: usize,
    ) -> Comparison;
    pub fn ra_count_words(
        file: *const u8,
        file_length: usize,
        length: u64,
        work: *mut u64,
        words: usize,
    ) -> WordCount;
    pub fn ra_accepts_ranges(
        file: *const u8,
        file_length: usize,
        places: *const u8,
        places_length: usize,
        work: *mut u64,
        words: usize,
    ) -> Ranged;
}
