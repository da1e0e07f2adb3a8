//! Every limit of the requirements: a file, a couple or a join just at it, and one just beyond it. And the fields of an arc: every
//! byte in each, and several wrong at once. And which bytes stand for one letter: every byte beside every other. And two files with
//! letters of their own. And every two bytes as a range of letters.

mod common;

use common::plain::{self, write, Arc, Automaton, Operation};
use common::random::letter_from_the_end;
use registered_automata as engine;

/// The operation of an arc that always passes.
const PASS: Operation = Operation {
    writes: false,
    register: 0,
    symbol: 0,
};

fn reads(register: usize, symbol: u8) -> Operation {
    Operation {
        writes: false,
        register,
        symbol,
    }
}

fn writes(register: usize, symbol: u8) -> Operation {
    Operation {
        writes: true,
        register,
        symbol,
    }
}

/// An arc on the first letter.
fn arc(from: usize, to: usize, operations: &[Operation]) -> Arc {
    Arc {
        from,
        letter: Some(0),
        to,
        operations: operations.to_vec(),
    }
}

/// An automaton over the letter a with two symbols; its last state is final.
fn automaton(states: usize, registers: usize, arcs: Vec<Arc>) -> Automaton {
    let mut finals = vec![false; states];
    finals[states - 1] = true;
    Automaton {
        letters: b"a".to_vec(),
        registers,
        symbols: 2,
        finals,
        arcs,
    }
}

/// The file of an automaton with that many states, registers and arcs, of which each has that many operations.
fn sized(states: usize, registers: usize, arcs: usize, operations: usize) -> Vec<u8> {
    let loops = vec![arc(0, 0, &vec![PASS; operations]); arcs];
    write(&automaton(states, registers, loops))
}

fn number<T, E: Into<engine::Refusal>>(answer: Result<T, E>) -> u8 {
    answer.map_or_else(|e| e.into().reason.number(), |_| 0)
}

// ---- reading

#[test]
fn operations_of_an_arc() {
    assert_eq!(number(engine::read(&sized(1, 1, 1, 8))), 0);
    assert_eq!(number(engine::read(&sized(1, 1, 1, 9))), 34);
    assert_eq!(number(engine::read(&sized(1, 1, 1, 0))), 34);
}

/// The file T of samples/, which has three letters and three states, with these bytes at these places. Its arcs have six bytes each: the
/// first begins at 18, the last at 42.
fn spoiled(bytes: &[(usize, u8)]) -> Vec<u8> {
    let mut file = include_bytes!("../../samples/T.mlb").to_vec();
    for &(place, byte) in bytes {
        file[place] = byte;
    }
    file
}

/// What is told where the from-state, the letter, the to-state or the number of operations is wrong.
const FIELDS: [engine::Reason; 4] = [
    engine::Reason::ArcSource,
    engine::Reason::ArcLetter,
    engine::Reason::ArcTarget,
    engine::Reason::ArcOperations,
];

/// The number and the place of a file's fault, if it has one.
fn fault_of(file: &[u8]) -> Option<(u8, usize)> {
    engine::read(file)
        .err()
        .map(|fault| (fault.reason.number(), fault.place))
}

#[test]
fn every_byte_in_every_field_of_an_arc() {
    assert_eq!(FIELDS.map(engine::Reason::number), [7, 32, 33, 34]);
    // More operations than one take bytes of the next arc, where a 1 is read in register 0, or are not there.
    for (arc, more_operations) in [(18, (8, 24)), (42, (1, 46))] {
        for byte in 0..=255 {
            let expected = [
                (byte >= 3).then_some((7, arc)),
                (3..255).contains(&byte).then_some((32, arc + 1)),
                (byte >= 3).then_some((33, arc + 2)),
                match byte {
                    1 => None,
                    2..=8 => Some(more_operations),
                    _ => Some((34, arc + 3)),
                },
            ];
            for (i, expected) in expected.into_iter().enumerate() {
                let file = spoiled(&[(arc + i, byte)]);
                assert_eq!(fault_of(&file), expected, "byte {byte:02X} at {arc} + {i}");
            }
        }
    }
}

/// The fields are looked at from left to right, once all four are there, and before the operations are wanted or looked at.
#[test]
fn of_several_wrong_fields_the_first_is_told() {
    for p in [0, 9] {
        let wrong = [3, 3, 3, p];
        for chosen in 1..16u32 {
            let bytes: Vec<(usize, u8)> = (0..4)
                .filter(|i| chosen >> i & 1 == 1)
                .map(|i| (42 + i, wrong[i]))
                .collect();
            let file = spoiled(&bytes);
            let first = chosen.trailing_zeros() as usize;
            let expected = Some((FIELDS[first].number(), 42 + first));
            assert_eq!(fault_of(&file), expected, "{bytes:?}");
            assert_eq!(fault_of(&file[..47]), expected, "{bytes:?}");
            assert_eq!(fault_of(&file[..46]), expected, "{bytes:?}");
            assert_eq!(fault_of(&file[..45]), Some((1, 42)), "{bytes:?}");
            let operation = [bytes.as_slice(), &[(46, 0x21)]].concat();
            assert_eq!(fault_of(&spoiled(&operation)), expected, "{bytes:?}");
        }
    }
    assert_eq!(fault_of(&spoiled(&[])), None);
    assert_eq!(fault_of(&spoiled(&[])[..46]), Some((1, 46)));
    assert_eq!(fault_of(&spoiled(&[(46, 0x21)])), Some((8, 46)));
    // An arc is read to its end before the next one is.
    assert_eq!(fault_of(&spoiled(&[(21, 9), (24, 3)])), Some((34, 21)));
    assert_eq!(fault_of(&spoiled(&[(22, 0x21), (24, 3)])), Some((8, 22)));
}

#[test]
fn every_call_tells_which_field_of_an_arc_is_wrong() {
    let whole = spoiled(&[]);
    let mut work = engine::working_words();
    let mut out = [0xA5; 200];
    for (i, reason) in FIELDS.into_iter().enumerate() {
        let file = spoiled(&[(18 + i, 9)]);
        let first = refusal(reason, Some(engine::Automaton::First));
        let second = refusal(reason, Some(engine::Automaton::Second));
        assert_eq!(engine::accepts(&file, b"cc", &mut work), Err(first));
        let mut answers = [7; 3];
        assert_eq!(
            engine::accepts_words(&file, b"cc\n", b'\n', &mut work, &mut answers),
            Err(first)
        );
        assert_eq!(answers, [7; 3]);
        assert_eq!(engine::count_words(&file, 3, &mut work), Err(first));
        assert_eq!(engine::accepts_ranges(&file, &[], &mut work), Err(first));
        assert_eq!(engine::unfold(&file, &mut work, &mut out), Err(first));
        assert_eq!(engine::close(&file, &mut out), Err(first));
        for (join, _) in JOINS {
            assert_eq!(join(&file, &whole, &mut out), Err(first));
            assert_eq!(join(&whole, &file, &mut out), Err(second));
        }
        assert_eq!(compared(&file, &whole), Err(first));
        assert_eq!(compared(&whole, &file), Err(second));
    }
    assert_eq!(out, [0xA5; 200]);
}

#[test]
fn counts_of_the_header() {
    let letters = |n: usize| {
        let mut x = automaton(1, 1, Vec::new());
        x.letters = (0..n as u8).collect();
        write(&x)
    };
    assert_eq!(number(engine::read(&letters(0))), 0);
    assert_eq!(number(engine::read(&letters(64))), 0);
    assert_eq!(number(engine::read(&letters(65))), 4);
    assert_eq!(number(engine::read(&sized(256, 8, 2048, 8))), 0);
    assert_eq!(number(engine::read(&sized(257, 8, 2048, 8))), 4);
    assert_eq!(number(engine::read(&sized(256, 9, 2048, 8))), 4);
    assert_eq!(number(engine::read(&sized(256, 8, 2049, 8))), 4);
}

#[test]
fn the_longest_file() {
    let mut x = automaton(256, 8, vec![arc(0, 0, &[PASS; 8]); 2048]);
    x.letters = (0..64).collect();
    let file = write(&x);
    assert_eq!(file.len(), engine::LONGEST_FILE);
    assert_eq!(number(engine::read(&file)), 0);
}

// ---- letters: bytes 41 to 5A and 61 to 7A that differ only in case stand for one

/// Do the two bytes stand for one letter?
fn one_letter(x: u8, y: u8) -> bool {
    x == y || (x.is_ascii_alphabetic() && x ^ y == 0x20)
}

/// An automaton over two letters that accepts one word, of the letters with these numbers.
fn one_word(first: usize, second: usize) -> Automaton {
    let spelled = |from: usize, letter: usize| Arc {
        letter: Some(letter),
        ..arc(from, from + 1, &[PASS])
    };
    let mut x = automaton(3, 1, vec![spelled(0, first), spelled(1, second)]);
    x.letters = b"ab".to_vec();
    x
}

/// The file of the automaton with other letters.
fn over(letters: &[u8], x: &Automaton) -> Vec<u8> {
    write(&Automaton {
        letters: letters.to_vec(),
        ..x.clone()
    })
}

/// The file of an automaton over these letters that accepts the first of them.
fn letter_file(letters: &[u8]) -> Vec<u8> {
    over(letters, &automaton(2, 1, vec![arc(0, 1, &[PASS])]))
}

#[test]
fn a_word_of_every_byte_over_a_list_of_every_byte() {
    let mut work = engine::working_words();
    let mut in_another_case = 0;
    for listed in 0..=255 {
        let file = letter_file(&[listed]);
        for byte in 0..=255 {
            let accepted = one_letter(listed, byte);
            in_another_case += (accepted && listed != byte) as u32;
            let expected = engine::Membership {
                accepted,
                live: accepted as u64,
            };
            let answer = engine::accepts(&file, &[byte], &mut work);
            assert_eq!(answer, Ok(expected), "letter {listed:02X}, byte {byte:02X}");
        }
    }
    assert_eq!(in_another_case, 52);
}

#[test]
fn a_word_in_either_case() {
    let mut work = engine::working_words();
    for listed in [b"ab", b"AB", b"Ab"] {
        let file = over(listed, &one_word(0, 1));
        for word in [b"ab", b"AB", b"Ab", b"aB"] {
            assert!(engine::accepts(&file, word, &mut work).unwrap().accepted);
        }
        for word in [b"ba", b"BA", b"aA", b"a@", b"`b"] {
            assert!(!engine::accepts(&file, word, &mut work).unwrap().accepted);
        }
    }
}

/// How many letters a file over these has, or the number and the place of its fault.
fn letters_read(letters: &[u8]) -> Result<usize, (u8, usize)> {
    engine::read(&letter_file(letters))
        .map(|counts| counts.letters)
        .map_err(|fault| (fault.reason.number(), fault.place))
}

#[test]
fn a_list_of_every_two_bytes() {
    for x in 0..=255u8 {
        for y in 0..=255u8 {
            let expected = if y <= x {
                Err((5, 13))
            } else if one_letter(x, y) {
                Err((5, 12))
            } else {
                Ok(2)
            };
            assert_eq!(letters_read(&[x, y]), expected, "letters {x:02X} {y:02X}");
        }
    }
    for two in [b"@`", b"[{", b"\xC1\xE1", b"\xDA\xFA"] {
        assert_eq!(letters_read(two), Ok(2));
    }
}

/// Where letters do not ascend, that is told; else the first letter whose other case stands behind it.
#[test]
fn the_place_of_a_letter_in_both_cases() {
    let cases: [(&[u8], Result<usize, (u8, usize)>); 12] = [
        (b"@AZ[`bcy{", Ok(9)),
        (b"@AZ[`ab{", Err((5, 13))),
        (b"ABab", Err((5, 12))),
        (b"ABbc", Err((5, 13))),
        (b"ABCc", Err((5, 14))),
        (b"+AZaz", Err((5, 13))),
        (b"+AZbz", Err((5, 14))),
        (b"Zz", Err((5, 12))),
        (b"aA", Err((5, 13))),
        (b"Aaa", Err((5, 14))),
        (b"ABabdc", Err((5, 17))),
        (b"AaB", Err((5, 14))),
    ];
    for (letters, expected) in cases {
        let name = String::from_utf8_lossy(letters);
        assert_eq!(letters_read(letters), expected, "{name}");
    }
    let most: Vec<u8> = (0x3B..=0x7A).collect();
    assert_eq!(letters_read(&most), Err((5, 18)));
    assert_eq!(letters_read(&most[..38]), Ok(38));
    // The letters are looked at once they are all there, and before the flags.
    let fault = |file: &[u8]| engine::read(file).map_err(|f| (f.reason.number(), f.place));
    assert_eq!(fault(&letter_file(b"Aa")[..13]), Err((1, 12)));
    assert_eq!(fault(&letter_file(b"Aa")[..14]), Err((5, 12)));
}

const JOINS: [(Join, PlainJoin); 3] = [
    (engine::union, plain::union),
    (engine::concatenate, plain::concatenate),
    (engine::intersect, plain::intersect),
];

#[test]
fn a_couple_of_every_two_bytes() {
    let files: Vec<Vec<u8>> = (0..=255).map(|byte| letter_file(&[byte])).collect();
    for x in 0..=255u8 {
        for y in 0..=255u8 {
            let (first, second) = (&files[x as usize], &files[y as usize]);
            let (low, high) = (x.min(y), x.max(y));
            let (letters, expected, word) = if one_letter(x, y) {
                (vec![x], engine::Comparison::Same { pairs: 3 }, vec![])
            } else {
                // The word of the lower letter is the first, and each automaton accepts that of its own.
                let accepted_by = if x == low {
                    engine::Automaton::First
                } else {
                    engine::Automaton::Second
                };
                (vec![low, high], different(4, accepted_by, 1), vec![low])
            };
            let answer = shown(first, second);
            assert_eq!(answer, (expected, word), "letters {x:02X} and {y:02X}");
            for (join, _) in JOINS {
                let listed = joined_letters(join, first, second);
                assert_eq!(listed, letters, "letters {x:02X} and {y:02X}");
            }
        }
    }
}

/// The letters that a joined file lists.
fn joined_letters(join: Join, first: &[u8], second: &[u8]) -> Vec<u8> {
    let mut out = [0; 400];
    join(first, second, &mut out).unwrap();
    out[12..12 + out[5] as usize].to_vec()
}

fn different(pairs: u64, accepted_by: engine::Automaton, length: usize) -> engine::Comparison {
    engine::Comparison::Different {
        pairs,
        accepted_by,
        length,
    }
}

/// What comparing answers, and the word that it shows; the buffer behind that word is as it was lent.
fn shown(first: &[u8], second: &[u8]) -> (engine::Comparison, Vec<u8>) {
    let mut word = [0xA5; 512];
    let answer = engine::compare(first, second, &mut engine::working_words(), &mut word).unwrap();
    let length = match answer {
        engine::Comparison::Same { .. } => 0,
        engine::Comparison::Different { length, .. } => length,
    };
    assert_eq!(word[length..], [0xA5; 512][length..]);
    (answer, word[..length].to_vec())
}

/// The first file's bytes, and those of the second that stand for none of its letters, ascending.
#[test]
fn the_letters_of_both() {
    let cases: [(&[u8], &[u8], &[u8]); 18] = [
        (b"", b"", b""),
        (b"ab", b"AB", b"ab"),
        (b"ab", b"Ab", b"ab"),
        (b"Ab", b"AB", b"Ab"),
        (b"@ab{", b"@AB{", b"@ab{"),
        (b"AB[", b"A[b", b"AB["),
        (b"A[b", b"AB[", b"A[b"),
        (b"AB[", b"[ab", b"AB["),
        (b"ab", b"Ba", b"ab"),
        (b"Ba", b"ab", b"Ba"),
        (b"ab", b"AC", b"Cab"),
        (b"AC", b"ab", b"ACb"),
        (b"ab", b"A", b"ab"),
        (b"a", b"AB", b"Ba"),
        (b"", b"A", b"A"),
        (b"A", b"", b"A"),
        (b"cm", b"adz", b"acdmz"),
        (b"\x00\xFE", b"\x01@\xFF", b"\x00\x01@\xFE\xFF"),
    ];
    let mut x = automaton(1, 1, Vec::new());
    x.finals = vec![true];
    for (a, b, both) in cases {
        let (first, second) = (over(a, &x), over(b, &x));
        // Each accepts the empty word alone; any letter leaves nothing live in either.
        let pairs = if both.is_empty() { 1 } else { 2 };
        let expected = engine::Comparison::Same { pairs };
        assert_eq!(compared(&first, &second), Ok(expected));
        for (join, _) in JOINS {
            assert_eq!(joined_letters(join, &first, &second), both);
        }
    }
}

/// Two files over other letters: one over b and d, which accepts the words of any number of b and then a d; and one over B, a and e, where
/// an a leads to the final state, an e stays there and a B leads back.
const COUPLE: [&[u8]; 2] = [
    b"MLB\x01\x00\x02\x02\x00\x01\x01\x02\x00bd\x00\x01\
        \x00\x00\x00\x01\x00\x00\
        \x00\x01\x01\x01\x00\x00",
    b"MLB\x01\x00\x03\x02\x00\x01\x01\x03\x00Bae\x00\x01\
        \x00\x01\x01\x01\x00\x00\
        \x01\x00\x00\x01\x00\x00\
        \x01\x02\x01\x01\x00\x00",
];

/// The letters of both are a, b, d and e, in the other order of the files B, a, d and e.
#[test]
fn arcs_follow_their_letters() {
    let [x, y] = COUPLE;
    let union: &[u8] = b"MLB\x01\x00\x04\x05\x00\x01\x01\x07\x00abde\x00\x00\x01\x00\x01\
        \x00\xFF\x01\x01\x00\x00\
        \x00\xFF\x03\x01\x00\x00\
        \x01\x01\x01\x01\x00\x00\
        \x01\x02\x02\x01\x00\x00\
        \x03\x00\x04\x01\x00\x00\
        \x04\x01\x03\x01\x00\x00\
        \x04\x03\x04\x01\x00\x00";
    let concatenation: &[u8] = b"MLB\x01\x00\x04\x04\x00\x01\x01\x06\x00abde\x00\x00\x00\x01\
        \x00\x01\x00\x01\x00\x00\
        \x00\x02\x01\x01\x00\x00\
        \x01\xFF\x02\x01\x00\x00\
        \x02\x00\x03\x01\x00\x00\
        \x03\x01\x02\x01\x00\x00\
        \x03\x03\x03\x01\x00\x00";
    let intersection: &[u8] = b"MLB\x01\x00\x04\x04\x00\x01\x01\x01\x00abde\x00\x00\x00\x01\
        \x01\x01\x00\x02\x00\x00\x00\x00";
    writes_just_into(union, |out| engine::union(x, y, out));
    writes_just_into(concatenation, |out| engine::concatenate(x, y, out));
    writes_just_into(intersection, |out| engine::intersect(x, y, out));

    let union: &[u8] = b"MLB\x01\x00\x04\x05\x00\x01\x01\x07\x00Bade\x00\x00\x01\x00\x01\
        \x00\xFF\x01\x01\x00\x00\
        \x00\xFF\x03\x01\x00\x00\
        \x01\x01\x02\x01\x00\x00\
        \x02\x00\x01\x01\x00\x00\
        \x02\x03\x02\x01\x00\x00\
        \x03\x00\x03\x01\x00\x00\
        \x03\x02\x04\x01\x00\x00";
    let intersection: &[u8] = b"MLB\x01\x00\x04\x04\x00\x01\x01\x01\x00Bade\x00\x00\x00\x01\
        \x02\x00\x00\x02\x00\x00\x00\x00";
    writes_just_into(union, |out| engine::union(y, x, out));
    writes_just_into(intersection, |out| engine::intersect(y, x, out));
}

#[test]
fn a_joined_file_has_the_first_files_bytes() {
    let (x, y) = (one_word(0, 1), one_word(1, 0));
    for (join, plainly) in JOINS {
        for (a, b) in [(b"ab", b"AB"), (b"AB", b"ab"), (b"Ab", b"ab")] {
            let joined = plainly(&over(a, &x), &over(a, &y), 60_000).unwrap();
            assert_eq!(joined[12..14], *a);
            writes_just_into(&joined, |out| join(&over(a, &x), &over(b, &y), out));
        }
    }
}

/// Of the words ab and ba the first is shown, whichever automaton accepts it.
#[test]
fn the_shown_word_has_the_first_files_bytes() {
    let (x, y) = (one_word(0, 1), one_word(1, 0));
    for (a, b) in [(b"ab", b"AB"), (b"AB", b"ab"), (b"Ab", b"ab")] {
        for (first, second, accepted_by) in [
            (&x, &y, engine::Automaton::First),
            (&y, &x, engine::Automaton::Second),
        ] {
            let answer = shown(&over(a, first), &over(b, second));
            assert_eq!(answer, (different(6, accepted_by, 2), a.to_vec()));
        }
    }
}

/// Letters are ranked by their places among the letters of both, and so a capital may come before a letter that its small one comes behind.
/// A letter of both has the first file's byte in the shown word, and one that the first lacks the second's.
#[test]
fn the_shown_word_over_the_letters_of_both() {
    use engine::Automaton::{First, Second};
    let (up, down) = (one_word(0, 1), one_word(1, 0));
    let cases = [
        // abd: ad before bd
        (over(b"ad", &up), over(b"bd", &up), 6, First, b"ad"),
        // Bad: Bd before ad
        (over(b"ad", &up), over(b"Bd", &up), 6, Second, b"Bd"),
        // BDa: BD before aD
        (over(b"Da", &down), over(b"Bd", &up), 6, Second, b"BD"),
        // Abd: bA before bd
        (over(b"bd", &up), over(b"Ab", &down), 5, Second, b"bA"),
        (over(b"Bd", &up), over(b"ab", &down), 5, Second, b"Ba"),
        // the same letters, ab in one list and Ba in the other
        (over(b"ab", &up), over(b"Ba", &up), 6, First, b"ab"),
        (over(b"Ba", &up), over(b"ab", &up), 6, First, b"Ba"),
        // none shared
        (over(b"cd", &up), over(b"ab", &up), 6, Second, b"ab"),
    ];
    for (first, second, pairs, accepted_by, word) in cases {
        let expected = (different(pairs, accepted_by, 2), word.to_vec());
        assert_eq!(shown(&first, &second), expected);
    }
    // One word, though its letters stand at other places.
    let (first, second) = (over(b"ab", &up), over(b"Ba", &down));
    let same = Ok(engine::Comparison::Same { pairs: 4 });
    assert_eq!(compared(&first, &second), same);
    assert_eq!(compared(&second, &first), same);
}

/// One final state over these letters, and an arc for each of the first `looped` of them.
fn looping(letters: &[u8], looped: usize) -> Vec<u8> {
    let x = plain::read(&one_state(letters.len(), looped, true)).unwrap();
    over(letters, &x)
}

/// A letter that one automaton lacks leaves nothing live there.
#[test]
fn pairs_over_the_letters_of_both() {
    let same = |pairs| (engine::Comparison::Same { pairs }, b"".to_vec());
    let by_second = |pairs| different(pairs, engine::Automaton::Second, 1);
    let only_second = |pairs| (by_second(pairs), b"b".to_vec());
    assert_eq!(shown(&looping(b"a", 1), &looping(b"A", 1)), same(1));
    // b: nothing is live in either
    assert_eq!(shown(&looping(b"a", 1), &looping(b"ab", 1)), same(2));
    assert_eq!(shown(&looping(b"ab", 1), &looping(b"a", 1)), same(2));
    // b: nothing is live in the first, the one state in the second
    let answer = shown(&looping(b"a", 1), &looping(b"ab", 2));
    assert_eq!(answer, only_second(2));
    // no letters: every letter is lacked
    let answer = shown(&looping(b"", 0), &looping(b"b", 1));
    assert_eq!(answer, only_second(2));
    // each lacks the other's letter
    let answer = shown(&looping(b"c", 1), &looping(b"b", 1));
    assert_eq!(answer, only_second(4));
    // 512 pairs over one letter; a second letter, which one of the lists has and no arc, adds that of two empty sets.
    let over_ab = |file: &[u8]| over(b"ab", &plain::read(file).unwrap());
    let cycle = tail_and_cycle(0, 31);
    let all = Ok(engine::Comparison::Same { pairs: 512 });
    assert_eq!(compared(&tail_and_cycle(16, 16), &cycle), all);
    let too_many = Err(refusal(engine::Reason::TooManyLiveSets, None));
    for tail in [15, 16] {
        let longer = tail_and_cycle(tail, 16);
        let expected = if tail == 15 { all } else { too_many };
        assert_eq!(compared(&longer, &over_ab(&cycle)), expected);
        assert_eq!(compared(&over_ab(&longer), &cycle), expected);
    }
}

/// As many bytes from 80 on, which are a letter each, with these before them.
fn many_letters(before: &[u8], more: u8) -> Vec<u8> {
    let mut letters = before.to_vec();
    letters.extend(0x80..0x80 + more);
    letters
}

/// An automaton over these letters that accepts the last of them; with none it accepts nothing.
fn last_letter_file(letters: &[u8]) -> Vec<u8> {
    let arcs = letters.len().checked_sub(1).map(|last| Arc {
        letter: Some(last),
        ..arc(0, 1, &[PASS])
    });
    over(letters, &automaton(2, 1, arcs.into_iter().collect()))
}

#[test]
fn sixty_four_letters_of_both() {
    use engine::Automaton::{First, Second};
    let most = many_letters(b"", 64);
    let one_less = many_letters(b"", 63);
    let capitals = many_letters(b"ABCDEFGHIJKLMNOPQRSTUVWXYZ", 10);
    let small = many_letters(b"abcdefghijklmnopqrstuvwxyz", 38);
    let same = engine::Comparison::Same { pairs: 3 };
    let cases: [(&[u8], &[u8], engine::Comparison, &[u8]); 8] = [
        (&most, &most, same, b""),
        (&most, b"", different(3, First, 1), b"\xBF"),
        (b"", &most, different(3, Second, 1), b"\xBF"),
        (&most, b"\xBF", same, b""),
        (&one_less, b"a", different(4, Second, 1), b"a"),
        (b"\xFF", &one_less, different(4, Second, 1), b"\xBE"),
        (&capitals, &small, different(4, First, 1), b"\x89"),
        (&small, &capitals, different(4, Second, 1), b"\x89"),
    ];
    for (a, b, expected, word) in cases {
        let (first, second) = (last_letter_file(a), last_letter_file(b));
        assert_eq!(shown(&first, &second), (expected, word.to_vec()));
        for (join, plainly) in JOINS {
            let joined = joins_within(join, plainly, &first, &second);
            assert_eq!(joined.letters.len(), 64);
        }
    }
}

#[test]
fn sixty_five_letters_of_both() {
    let most = many_letters(b"", 64);
    let capitals = many_letters(b"ABCDEFGHIJKLMNOPQRSTUVWXYZ", 10);
    let small = many_letters(b"abcdefghijklmnopqrstuvwxyz", 38);
    let cases: [(&[u8], &[u8]); 7] = [
        (&most, b"a"),
        (b"\xFF", &most),
        (&most, &small),
        (&many_letters(b"Z", 10), &many_letters(b"bcd", 61)),
        (&many_letters(b"[", 26), &small),
        (&many_letters(b"ABC", 40), &many_letters(b"abd", 61)),
        (&capitals, &many_letters(b"abcdefghijklmnopqrstuvwxy", 39)),
    ];
    let beyond = refusal(engine::Reason::JoinedBeyondALimit, None);
    for (a, b) in cases {
        let (first, second) = (last_letter_file(a), last_letter_file(b));
        assert_eq!(compared(&first, &second), Err(beyond));
        for (join, plainly) in JOINS {
            joins_beyond(join, plainly, &first, &second);
            assert_eq!(join(&first, &second, &mut []), Err(beyond));
        }
    }
}

/// The letters of both are counted behind 24 and either file's fault, and before anything that hangs on the arcs.
#[test]
fn the_letters_of_both_in_the_order_of_refusals() {
    use engine::Automaton::{First, Second};
    let most = last_letter_file(&many_letters(b"", 64));
    let one_less = last_letter_file(&many_letters(b"", 63));
    let beyond = refusal(engine::Reason::JoinedBeyondALimit, None);
    let configurations = engine::Reason::TooManyConfigurations;
    let arcs = engine::Reason::TooManyPlainArcs;
    for (file, reason) in [(chain(256, true), configurations), (plain_arcs(true), arcs)] {
        assert_eq!(compared(&most, &file), Err(beyond));
        assert_eq!(compared(&file, &most), Err(beyond));
        let (first, second) = (refusal(reason, Some(First)), refusal(reason, Some(Second)));
        assert_eq!(compared(&file, &one_less), Err(first));
        assert_eq!(compared(&one_less, &file), Err(second));
        // The file without its last byte has a fault.
        let cut = &file[..file.len() - 1];
        let ends = engine::Reason::EndsInsideAField;
        let (first, second) = (refusal(ends, Some(First)), refusal(ends, Some(Second)));
        assert_eq!(compared(cut, &most), Err(first));
        assert_eq!(compared(&most, cut), Err(second));
        for (join, _) in JOINS {
            assert_eq!(join(cut, &most, &mut []), Err(first));
            assert_eq!(join(&most, cut, &mut []), Err(second));
        }
        let mut few = vec![0; 8191];
        let answer = engine::compare(&most, &file, &mut few, &mut [0; 512]);
        assert_eq!(number(answer), 24);
    }
}

// ---- exploring

/// A chain of that many states; its last arc, if there is one, writes register 1 and leads to state 0, where nothing passes.
fn chain(states: usize, once_more: bool) -> Vec<u8> {
    let mut arcs: Vec<Arc> = (1..states).map(|i| arc(i - 1, i, &[reads(1, 0)])).collect();
    if once_more {
        arcs.push(arc(states - 1, 0, &[writes(1, 1)]));
    }
    write(&automaton(states, 2, arcs))
}

/// One state, and 2,048 plain arcs; one more where asked for.
fn plain_arcs(one_more: bool) -> Vec<u8> {
    let mut arcs = vec![arc(0, 0, &[PASS]); 1023];
    arcs.push(arc(0, 0, &[writes(1, 1)]));
    if one_more {
        arcs.push(arc(0, 0, &[reads(1, 1)]));
    }
    write(&automaton(1, 2, arcs))
}

#[test]
fn configurations_in_membership() {
    let mut work = engine::working_words();
    let word = [b'a'; 255];
    let answer = engine::accepts(&chain(256, false), &word, &mut work);
    assert_eq!(
        answer,
        Ok(engine::Membership {
            accepted: true,
            live: 1
        })
    );
    assert_eq!(
        number(engine::accepts(&chain(255, true), &word, &mut work)),
        0
    );
    assert_eq!(
        number(engine::accepts(&chain(256, true), &word, &mut work)),
        21
    );
}

#[test]
fn membership_knows_no_limit_of_plain_arcs() {
    let mut work = engine::working_words();
    let answer = engine::accepts(&plain_arcs(true), b"aa", &mut work);
    assert_eq!(
        answer,
        Ok(engine::Membership {
            accepted: true,
            live: 2
        })
    );
}

#[test]
fn working_words_and_bytes_of_the_word() {
    let file = chain(2, false);
    let mut out = vec![0; engine::LONGEST_FILE];
    for (words, expected) in [(0, 24), (8191, 24), (8192, 0), (8193, 0)] {
        let mut work = vec![u64::MAX; words];
        let mut word = [0; 512];
        assert_eq!(number(engine::accepts(&file, b"a", &mut work)), expected);
        assert_eq!(
            number(engine::accepts_words(
                &file,
                b"a\n",
                b'\n',
                &mut work,
                &mut [0; 1]
            )),
            expected
        );
        assert_eq!(number(engine::unfold(&file, &mut work, &mut out)), expected);
        assert_eq!(number(engine::count_words(&file, 2, &mut work)), expected);
        assert_eq!(
            number(engine::accepts_ranges(&file, &[0, 0], &mut work)),
            expected
        );
        assert_eq!(
            number(engine::compare(&file, &file, &mut work, &mut word)),
            expected
        );
    }
    let mut work = engine::working_words();
    for (bytes, expected) in [(0, 24), (511, 24), (512, 0), (513, 0)] {
        let mut word = vec![0; bytes];
        assert_eq!(
            number(engine::compare(&file, &file, &mut work, &mut word)),
            expected
        );
    }
}

// ---- calls that write a file

/// The output that a call leaves, lent `room` bytes, and its answer.
fn written(
    room: usize,
    call: impl FnOnce(&mut [u8]) -> Result<usize, engine::Refusal>,
) -> (Result<usize, u8>, Vec<u8>) {
    let mut out = vec![0xA5; room];
    let answer = call(&mut out).map_err(|e| e.reason.number());
    (answer, out)
}

/// The call writes the file into plenty of room, and into exactly enough; into a byte too few it writes nothing, and answers 25.
fn writes_just_into(file: &[u8], call: impl Fn(&mut [u8]) -> Result<usize, engine::Refusal>) {
    let n = file.len();
    let (answer, out) = written(n + 100, &call);
    assert_eq!(answer, Ok(n));
    assert_eq!(out[..n], *file);
    assert_eq!(out[n..], [0xA5; 100]);
    assert_eq!(written(n, &call), (Ok(n), file.to_vec()));
    assert_eq!(written(n - 1, &call), (Err(25), vec![0xA5; n - 1]));
    assert_eq!(written(0, &call), (Err(25), Vec::new()));
}

/// The call is refused with the number, and leaves the output as lent.
fn refused(expected: u8, call: impl Fn(&mut [u8]) -> Result<usize, engine::Refusal>) {
    let room = engine::LONGEST_FILE;
    assert_eq!(written(room, call), (Err(expected), vec![0xA5; room]));
}

#[test]
fn configurations_in_unfolding() {
    for file in [chain(256, false), chain(255, true)] {
        let expected = plain::unfold(&file, 8192, 60_000).unwrap();
        writes_just_into(&expected, |out| {
            engine::unfold(&file, &mut engine::working_words(), out)
        });
    }
    refused(21, |out| {
        engine::unfold(&chain(256, true), &mut engine::working_words(), out)
    });
}

#[test]
fn plain_arcs_in_unfolding() {
    let file = plain_arcs(false);
    let expected = plain::unfold(&file, 8192, 60_000).unwrap();
    assert_eq!(plain::read(&expected).unwrap().arcs.len(), 2048);
    writes_just_into(&expected, |out| {
        engine::unfold(&file, &mut engine::working_words(), out)
    });
    refused(22, |out| {
        engine::unfold(&plain_arcs(true), &mut engine::working_words(), out)
    });
}

// ---- joins

type Join = fn(&[u8], &[u8], &mut [u8]) -> Result<usize, engine::Refusal>;
type PlainJoin = fn(&[u8], &[u8], usize) -> Result<Vec<u8>, plain::Refusal>;

fn joins_within(join: Join, plainly: PlainJoin, first: &[u8], second: &[u8]) -> Automaton {
    let expected = plainly(first, second, 60_000).unwrap();
    writes_just_into(&expected, |out| join(first, second, out));
    plain::read(&expected).unwrap()
}

fn joins_beyond(join: Join, plainly: PlainJoin, first: &[u8], second: &[u8]) {
    assert_eq!(
        plainly(first, second, 60_000),
        Err(plain::Refusal {
            number: 11,
            automaton: 0
        })
    );
    refused(11, |out| join(first, second, out));
}

#[test]
fn unions_at_the_limits() {
    let within = |a: &[u8], b: &[u8]| joins_within(engine::union, plain::union, a, b);
    let beyond = |a: &[u8], b: &[u8]| joins_beyond(engine::union, plain::union, a, b);
    let x = within(&sized(127, 1, 1, 1), &sized(128, 1, 1, 1));
    assert_eq!(x.finals.len(), 256);
    beyond(&sized(128, 1, 1, 1), &sized(128, 1, 1, 1));
    let x = within(&sized(2, 8, 1, 1), &sized(2, 8, 1, 8));
    assert_eq!(x.registers, 8);
    let x = within(&sized(2, 1, 1023, 8), &sized(2, 1, 1023, 8));
    assert_eq!(x.arcs.len(), 2048);
    beyond(&sized(2, 1, 1024, 8), &sized(2, 1, 1023, 8));
}

#[test]
fn concatenations_at_the_limits() {
    let within = |a: &[u8], b: &[u8]| joins_within(engine::concatenate, plain::concatenate, a, b);
    let beyond = |a: &[u8], b: &[u8]| joins_beyond(engine::concatenate, plain::concatenate, a, b);
    let x = within(&sized(128, 1, 1, 1), &sized(128, 1, 1, 1));
    assert_eq!(x.finals.len(), 256);
    beyond(&sized(129, 1, 1, 1), &sized(128, 1, 1, 1));
    let x = within(&sized(2, 4, 1, 1), &sized(2, 5, 1, 8));
    assert_eq!(x.registers, 8);
    beyond(&sized(2, 5, 1, 1), &sized(2, 5, 1, 8));
    let x = within(&sized(2, 1, 1024, 8), &sized(2, 1, 1023, 8));
    assert_eq!(x.arcs.len(), 2048);
    beyond(&sized(2, 1, 1024, 8), &sized(2, 1, 1024, 8));
}

#[test]
fn intersections_at_the_limits() {
    let within = |a: &[u8], b: &[u8]| joins_within(engine::intersect, plain::intersect, a, b);
    let beyond = |a: &[u8], b: &[u8]| joins_beyond(engine::intersect, plain::intersect, a, b);
    let x = within(&sized(16, 1, 1, 1), &sized(16, 1, 1, 1));
    assert_eq!(x.finals.len(), 256);
    beyond(&sized(43, 1, 1, 1), &sized(6, 1, 1, 1));
    let x = within(&sized(2, 4, 1, 1), &sized(2, 5, 1, 1));
    assert_eq!(x.registers, 8);
    beyond(&sized(2, 5, 1, 1), &sized(2, 5, 1, 1));
    let x = within(&sized(2, 1, 32, 4), &sized(2, 1, 64, 4));
    assert_eq!(x.arcs.len(), 2048);
    beyond(&sized(2, 1, 683, 4), &sized(2, 1, 3, 4));
    let x = within(&sized(2, 1, 2, 4), &sized(2, 1, 2, 4));
    assert_eq!(x.arcs[0].operations.len(), 8);
    beyond(&sized(2, 1, 2, 4), &sized(2, 1, 2, 5));
}

#[test]
fn closures_at_the_limits() {
    let within = |file: &[u8]| {
        let expected = plain::close(file, 60_000).unwrap();
        writes_just_into(&expected, |out| engine::close(file, out));
        plain::read(&expected).unwrap()
    };
    assert_eq!(within(&sized(255, 8, 1, 8)).finals.len(), 256);
    refused(11, |out| engine::close(&sized(256, 8, 1, 8), out));
    assert_eq!(within(&sized(2, 8, 2046, 8)).arcs.len(), 2048);
    refused(11, |out| engine::close(&sized(2, 8, 2047, 8), out));
}

// ---- comparing

/// One letter: a tail of that many states into a cycle of that many.
fn tail_and_cycle(tail: usize, cycle: usize) -> Vec<u8> {
    let last = tail + cycle - 1;
    let mut arcs: Vec<Arc> = (0..last).map(|i| arc(i, i + 1, &[PASS])).collect();
    arcs.push(arc(last, tail, &[PASS]));
    let mut x = automaton(tail + cycle, 1, arcs);
    x.finals = vec![true; tail + cycle];
    write(&x)
}

/// What comparing answers, and that it left the buffer for the word as it was lent.
fn compared(first: &[u8], second: &[u8]) -> Result<engine::Comparison, engine::Refusal> {
    let mut word = [0xA5; 512];
    let answer = engine::compare(first, second, &mut engine::working_words(), &mut word);
    assert_eq!(word, [0xA5; 512]);
    answer
}

fn refusal(reason: engine::Reason, automaton: Option<engine::Automaton>) -> engine::Refusal {
    engine::Refusal { reason, automaton }
}

#[test]
fn pairs_in_comparing() {
    let second = tail_and_cycle(0, 31);
    assert_eq!(
        compared(&tail_and_cycle(16, 16), &second),
        Ok(engine::Comparison::Same { pairs: 512 })
    );
    assert_eq!(
        compared(&tail_and_cycle(17, 16), &second),
        Err(refusal(engine::Reason::TooManyLiveSets, None))
    );
}

#[test]
fn configurations_and_plain_arcs_in_comparing() {
    let (first, second) = (
        Some(engine::Automaton::First),
        Some(engine::Automaton::Second),
    );
    let configurations = engine::Reason::TooManyConfigurations;
    let arcs = engine::Reason::TooManyPlainArcs;
    let small = chain(2, false);
    let cases = [
        (chain(256, true), small.clone(), configurations, first),
        (small.clone(), chain(256, true), configurations, second),
        (plain_arcs(true), small.clone(), arcs, first),
        (small.clone(), plain_arcs(true), arcs, second),
        (plain_arcs(true), chain(256, true), arcs, first),
    ];
    for (a, b, reason, automaton) in cases {
        assert_eq!(compared(&a, &b), Err(refusal(reason, automaton)));
    }
    for file in [chain(256, false), plain_arcs(false)] {
        assert!(matches!(
            compared(&file, &file),
            Ok(engine::Comparison::Same { .. })
        ));
    }
}

/// Two chains that differ in their last state alone: the shown word has 255 bytes.
#[test]
fn a_long_word_is_shown() {
    let first = chain(256, false);
    let mut other = plain::read(&first).unwrap();
    other.finals[255] = false;
    let mut word = [0xA5; 600];
    let answer = engine::compare(
        &first,
        &write(&other),
        &mut engine::working_words(),
        &mut word,
    );
    let expected = engine::Comparison::Different {
        pairs: 257,
        accepted_by: engine::Automaton::First,
        length: 255,
    };
    assert_eq!(answer, Ok(expected));
    assert_eq!(word[..255], [b'a'; 255]);
    assert_eq!(word[255..], [0xA5; 345]);
}

// ---- counting

/// How many words of a length are accepted and how many are not, or the number of the refusal and whose it is.
fn counted(file: &[u8], length: u64) -> Result<(u64, u64), (u8, Option<engine::Automaton>)> {
    engine::count_words(file, length, &mut engine::working_words())
        .map(|w| (w.accepted, w.rejected))
        .map_err(|e| (e.reason.number(), e.automaton))
}

/// An automaton with one state, which is final or not, that many letters, and an arc for each of the first `looped` letters.
fn one_state(letters: usize, looped: usize, is_final: bool) -> Vec<u8> {
    let arcs = (0..looped)
        .map(|letter| Arc {
            letter: Some(letter),
            ..arc(0, 0, &[PASS])
        })
        .collect();
    let mut x = automaton(1, 1, arcs);
    x.letters = (0..letters as u8).collect();
    x.finals = vec![is_final];
    write(&x)
}

#[test]
fn words_of_no_letters() {
    for length in [1, 2, 63, 64] {
        assert_eq!(counted(&one_state(0, 0, true), length), Ok((0, 0)));
    }
    assert_eq!(counted(&one_state(0, 0, true), 0), Ok((1, 0)));
    assert_eq!(counted(&one_state(0, 0, false), 0), Ok((0, 1)));
    assert_eq!(counted(&one_state(0, 0, true), 65), Err((31, None)));
}

#[test]
fn words_of_one_letter() {
    for length in [0, 1, 63, 64] {
        assert_eq!(counted(&one_state(1, 1, true), length), Ok((1, 0)));
        assert_eq!(counted(&one_state(1, 1, false), length), Ok((0, 1)));
    }
    for length in [65, 66, 1 << 32, u64::MAX] {
        assert_eq!(counted(&one_state(1, 1, true), length), Err((31, None)));
    }
}

/// Two letters and more: the longest words that 64 bits count, and those that are a letter longer. As many words as the
/// largest number never have one length; one more than that are the words of 64 letters of 2, of 32 of 4, of 16 of 16.
#[test]
fn as_many_words_as_64_bits_count() {
    for letters in 2..=64 {
        let words = |length: u64| (letters as u64).checked_pow(length as u32);
        let length = (0..=64).rev().find(|&l| words(l).is_some()).unwrap();
        let all = words(length).unwrap();
        let every = one_state(letters, letters, true);
        assert_eq!(counted(&every, length), Ok((all, 0)));
        assert_eq!(counted(&every, length + 1), Err((31, None)));
        let none = one_state(letters, letters, false);
        assert_eq!(counted(&none, length), Ok((0, all)));
        let one = one_state(letters, 1, true);
        assert_eq!(counted(&one, length), Ok((1, all - 1)));
    }
    for (letters, length) in [(2, 63), (3, 40), (4, 31), (16, 15), (64, 10)] {
        assert!(counted(&one_state(letters, letters, true), length).is_ok());
    }
}

/// Two arcs that do the same spell one word: it is counted once.
#[test]
fn words_are_counted_and_not_runs() {
    let file = write(&automaton(2, 1, vec![arc(0, 1, &[PASS]); 2]));
    assert_eq!(counted(&file, 1), Ok((1, 0)));
    assert_eq!(counted(&file, 2), Ok((0, 1)));
}

/// 496 live sets and one for each state of the tail: that of the empty word has the state before both parts too.
fn tail_and_cycles(tail: usize, letters: &[u8]) -> Vec<u8> {
    let joined = plain::union(&tail_and_cycle(tail, 16), &tail_and_cycle(0, 31), 60_000).unwrap();
    let mut x = plain::read(&joined).unwrap();
    x.letters = letters.to_vec();
    write(&x)
}

/// Live sets are counted over words of every length, whatever length is asked for, and the empty set among them.
#[test]
fn live_sets_in_counting() {
    for length in [0, 1, 64] {
        assert_eq!(counted(&tail_and_cycles(16, b"a"), length), Ok((1, 0)));
        assert_eq!(counted(&tail_and_cycles(17, b"a"), length), Err((23, None)));
    }
    // A second letter, which no arc has, leads to the empty set.
    for length in [0, 1, 63] {
        let all = 1 << length;
        assert_eq!(
            counted(&tail_and_cycles(15, b"ab"), length),
            Ok((1, all - 1))
        );
        assert_eq!(
            counted(&tail_and_cycles(16, b"ab"), length),
            Err((23, None))
        );
    }
}

#[test]
fn configurations_in_counting() {
    assert_eq!(counted(&chain(256, false), 64), Ok((0, 1)));
    assert_eq!(
        counted(&chain(256, true), 0),
        Err((21, Some(engine::Automaton::First)))
    );
}

#[test]
fn counting_knows_no_limit_of_plain_arcs() {
    for length in [0, 1, 64] {
        assert_eq!(counted(&plain_arcs(true), length), Ok((1, 0)));
    }
}

/// The first of several refusals: 24, the file's fault, 31, 21, 23.
#[test]
fn refusals_of_counting_in_their_order() {
    let too_many = chain(256, true);
    let cut = &too_many[..too_many.len() - 1];
    let mut few = vec![0; 8191];
    assert_eq!(number(engine::count_words(cut, 65, &mut few)), 24);
    assert_eq!(counted(cut, 65), Err((1, Some(engine::Automaton::First))));
    assert_eq!(counted(&too_many, 65), Err((31, None)));
    assert_eq!(counted(&tail_and_cycles(17, b"a"), 65), Err((31, None)));
}

// ---- words with ranges of letters

/// How many fillings are accepted, or the number of the refusal and whose it is; the plain implementation answers the same.
fn judged(file: &[u8], places: &[u8]) -> Result<engine::Ranged, (u8, Option<engine::Automaton>)> {
    let answer = engine::accepts_ranges(file, places, &mut engine::working_words());
    let plainly = plain::accepts_ranges(file, places, 8192).map(|answer| match answer {
        plain::Ranged::Always => engine::Ranged::Always,
        plain::Ranged::Sometimes => engine::Ranged::Sometimes,
        plain::Ranged::Never => engine::Ranged::Never,
    });
    assert_eq!(
        answer.map_err(|e| e.reason.number()),
        plainly.map_err(|e| e.number)
    );
    answer.map_err(|e| (e.reason.number(), e.automaton))
}

/// The ranges that have all three letters of T, or c and e, or m alone.
const ANY: [u8; 2] = [0, 2];
const C_OR_E: [u8; 2] = [0, 1];
const M: [u8; 2] = [2, 2];

/// T accepts c or e, any number of m, and then the first letter again; U does not ask for the first letter.
#[test]
fn fillings_of_t_and_u() {
    use engine::Ranged::{Always, Never, Sometimes};
    let t = include_bytes!("../../samples/T.mlb").as_slice();
    let u = include_bytes!("../../samples/U.mlb").as_slice();
    let cases = [
        (vec![], Never, Never),
        (vec![ANY], Never, Never),
        (vec![ANY, ANY], Sometimes, Sometimes),
        (vec![C_OR_E, C_OR_E], Sometimes, Always),
        (vec![C_OR_E, M, M, C_OR_E], Sometimes, Always),
        (vec![C_OR_E, ANY, C_OR_E], Sometimes, Sometimes),
        (vec![C_OR_E, C_OR_E, M], Never, Never),
        (vec![M, ANY, ANY], Never, Never),
        (vec![[1, 1], M, [1, 1]], Always, Always),
        (vec![[1, 1], M, [0, 0]], Never, Always),
    ];
    for (places, of_t, of_u) in cases {
        assert_eq!(judged(t, &places.concat()), Ok(of_t), "{places:?}");
        assert_eq!(judged(u, &places.concat()), Ok(of_u), "{places:?}");
    }
}

/// With no places the empty word is the only filling.
#[test]
fn no_places() {
    for letters in [0, 1, 64] {
        let accepted = judged(&one_state(letters, letters, true), &[]);
        assert_eq!(accepted, Ok(engine::Ranged::Always));
        let rejected = judged(&one_state(letters, letters, false), &[]);
        assert_eq!(rejected, Ok(engine::Ranged::Never));
    }
}

/// Every two bytes at the first place, at the last, and between: they are a range where the first is not above the second, and the second
/// below the number of letters.
#[test]
fn every_two_bytes_as_a_range() {
    let mut work = engine::working_words();
    for letters in [0, 1, 3, 64] {
        let file = one_state(letters, letters, true);
        let whole = [0, letters.saturating_sub(1) as u8];
        let counts = match letters {
            0 => vec![(1, 0)],
            _ => vec![(1, 0), (3, 0), (3, 1), (3, 2)],
        };
        for (count, at) in counts {
            let mut places = whole.repeat(count);
            for low in 0..=255 {
                for high in 0..=255 {
                    places[2 * at] = low;
                    places[2 * at + 1] = high;
                    let expected = if low <= high && (high as usize) < letters {
                        Ok(engine::Ranged::Always)
                    } else {
                        Err(refusal(engine::Reason::BadRanges, None))
                    };
                    let answer = engine::accepts_ranges(&file, &places, &mut work);
                    assert_eq!(answer, expected, "{letters} letters, {places:?}");
                }
            }
        }
    }
}

#[test]
fn a_byte_left_over() {
    for letters in [0, 1, 3, 64] {
        let file = one_state(letters, letters, true);
        for byte in [0, 1, 2, 3, 63, 64, 255] {
            assert_eq!(judged(&file, &[byte]), Err((35, None)));
            assert_eq!(judged(&file, &[0, 0, byte]), Err((35, None)));
        }
    }
}

/// The range of the letters a and b, as often as asked, then these ranges.
fn a_or_b(times: usize, then: &[[u8; 2]]) -> Vec<u8> {
    [[0, 1].repeat(times), then.concat()].concat()
}

/// Is the letter at this place from the end an a? Over a, b and c, which leaves nothing live. Behind n places of a or b there are two live
/// sets to the power n, but never more than to the power of that place.
fn from_the_end(place: usize) -> Vec<u8> {
    write(&letter_from_the_end(place, b"abc"))
}

/// Behind the ninth place there are 512 live sets; with c, which leads to the empty one, 513. 512 pass behind each of many places.
#[test]
fn live_sets_behind_a_place() {
    use engine::Ranged::{Never, Sometimes};
    const A_TO_C: [u8; 2] = [0, 2];
    const C: [u8; 2] = [2, 2];
    let ninth = from_the_end(9);
    assert_eq!(judged(&ninth, &a_or_b(8, &[])), Ok(Never));
    assert_eq!(judged(&ninth, &a_or_b(9, &[])), Ok(Sometimes));
    assert_eq!(judged(&ninth, &a_or_b(8, &[A_TO_C])), Err((23, None)));
    assert_eq!(judged(&ninth, &a_or_b(7, &[A_TO_C])), Ok(Never));
    // Each place counts for itself: those behind several are not added up.
    assert_eq!(judged(&ninth, &a_or_b(100, &[])), Ok(Sometimes));
    assert_eq!(judged(&ninth, &a_or_b(99, &[A_TO_C])), Err((23, None)));
    assert_eq!(judged(&ninth, &a_or_b(9, &[C])), Ok(Never));
    // A later place behind which there is one live set alone changes nothing.
    let harmless = a_or_b(8, &[A_TO_C, C, C]);
    assert_eq!(judged(&ninth, &harmless), Err((23, None)));
    let tenth = from_the_end(10);
    assert_eq!(judged(&tenth, &a_or_b(9, &[C])), Ok(Never));
    assert_eq!(judged(&tenth, &a_or_b(9, &[[0, 0]])), Ok(Sometimes));
    assert_eq!(judged(&tenth, &a_or_b(10, &[])), Err((23, None)));
    assert_eq!(judged(&tenth, &a_or_b(10, &[C])), Err((23, None)));
    // A letter that is known keeps the live sets as many as they are.
    let known = [&a_or_b(5, &[[1, 1]])[..], &a_or_b(4, &[])].concat();
    assert_eq!(judged(&tenth, &known), Ok(Sometimes));
    let known = [&a_or_b(5, &[[1, 1]])[..], &a_or_b(5, &[])].concat();
    assert_eq!(judged(&tenth, &known), Ok(Sometimes));
}

#[test]
fn configurations_in_ranges() {
    let places = [0; 2 * 255];
    let answer = judged(&chain(256, false), &places);
    assert_eq!(answer, Ok(engine::Ranged::Always));
    let answer = judged(&chain(256, true), &[]);
    assert_eq!(answer, Err((21, Some(engine::Automaton::First))));
}

#[test]
fn ranges_know_no_limit_of_plain_arcs() {
    for places in [&[][..], &[0, 0], &[0; 40]] {
        let answer = judged(&plain_arcs(true), places);
        assert_eq!(answer, Ok(engine::Ranged::Always));
    }
}

/// There is no limit on the number of places.
#[test]
fn many_places() {
    let mut work = engine::working_words();
    let file = tail_and_cycle(0, 31);
    let mut x = plain::read(&file).unwrap();
    x.finals = (0..31).map(|state| state == 5).collect();
    let file = write(&x);
    for (count, expected) in [
        (31 * 10_000 + 5, engine::Ranged::Always),
        (31 * 10_000 + 6, engine::Ranged::Never),
    ] {
        let answer = engine::accepts_ranges(&file, &vec![0; 2 * count], &mut work);
        assert_eq!(answer, Ok(expected));
    }
}

/// The first of several refusals: 24, the file's fault, 35, 21, 23.
#[test]
fn refusals_of_ranges_in_their_order() {
    let first = Some(engine::Automaton::First);
    let too_many = chain(256, true);
    let cut = &too_many[..too_many.len() - 1];
    for bad in [&[0][..], &[1, 0], &[0, 1], &[0, 0, 0]] {
        let mut few = vec![0; 8191];
        assert_eq!(number(engine::accepts_ranges(cut, bad, &mut few)), 24);
        assert_eq!(judged(cut, bad), Err((1, first)));
        assert_eq!(judged(&too_many, bad), Err((35, None)));
    }
    assert_eq!(judged(&too_many, &[0, 0]), Err((21, first)));
    // Behind the tenth place there are too many live sets, and the next range is none.
    let tenth = from_the_end(10);
    for bad in [[1, 0], [0, 3], [3, 3]] {
        assert_eq!(judged(&tenth, &a_or_b(10, &[bad])), Err((35, None)));
    }
    assert_eq!(judged(&tenth, &a_or_b(11, &[])), Err((23, None)));
}
