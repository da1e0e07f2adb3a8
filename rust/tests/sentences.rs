//! The sentences for refusals are those that the programs print, and the C header tells, number for number.

use registered_automata::Reason;
use std::path::Path;

fn text(name: &str) -> String {
    std::fs::read_to_string(Path::new(env!("CARGO_MANIFEST_DIR")).join(name)).unwrap()
}

#[test]
fn those_of_the_programs() {
    let told: Vec<String> = Reason::ALL
        .iter()
        .map(|r| format!("{} {}", r.number(), r.message()))
        .collect();
    let printed = text("../crates/refusals/stdout");
    assert_eq!(told, printed.lines().collect::<Vec<_>>());
}

#[test]
fn those_of_the_header() {
    let header = text("../c/registered_automata.h").replace('*', " ");
    let header = header.split_whitespace().collect::<Vec<_>>().join(" ");
    for r in Reason::ALL {
        let sentence = r.message();
        let at = header
            .find(sentence)
            .unwrap_or_else(|| panic!("no sentence {sentence}"));
        let number = format!(" = {}", r.number());
        let behind = &header[at + sentence.len()..];
        let value = behind
            .find('=')
            .map(|i| &behind[i - 1..i + number.len() - 1]);
        assert_eq!(value, Some(number.as_str()), "{sentence}");
    }
}

/// `ra_message` is text here: its cases by name, each with its string, which may stand in pieces.
#[test]
fn those_of_the_headers_function() {
    let header = text("../c/registered_automata.h");
    let body = &header[header.find("*ra_message(").expect("the function")..];
    let body = body.split_whitespace().collect::<Vec<_>>().join(" ");
    let body = body.replace("\" \"", "");
    for r in Reason::ALL {
        let number = format!(" = {}", r.number());
        let name = header
            .lines()
            .map(|line| line.trim().trim_end_matches(','))
            .find_map(|line| line.strip_suffix(&number).filter(|n| n.starts_with("RA_")))
            .unwrap_or_else(|| panic!("no name of {}", r.number()));
        let case = format!("case {name}: return \"{}\";", r.message());
        assert!(body.contains(&case), "{case}");
    }
    assert_eq!(body.matches("case ").count(), Reason::ALL.len());
    assert!(body.contains("default: return \"no such refusal\";"));
}
