//! Each reason in the words of the header, with its number and its name; and numbers that are none.

use std::error::Error;
use tablepath::Reason;

const HEADER: &str = include_str!("../../../include/tablepath.h");

/// The names, numbers and words of the header's reasons.
fn listed() -> Vec<(&'static str, u64, &'static str)> {
    let reasons =
        HEADER.split("enum tp_reason {").nth(1).expect("it has reasons").split("};").next().expect("they end");
    let line = |line: &'static str| {
        let (name, rest) = line.trim().strip_prefix("TP_")?.split_once(" = ")?;
        let number: String = rest.chars().take_while(char::is_ascii_digit).collect();
        let words =
            rest.split_once("/* ").and_then(|(_, words)| words.split_once(" */")).map_or("", |(words, _)| words);
        Some((name, number.parse().expect("a number"), words))
    };
    reasons.lines().filter_map(line).collect()
}

/// `BASE_RANGE` of `BaseRange`.
fn as_in_c(reason: Reason) -> String {
    let mut name = String::new();
    for letter in format!("{reason:?}").chars() {
        if letter.is_uppercase() && !name.is_empty() {
            name.push('_');
        }
        name.push(letter.to_ascii_uppercase());
    }
    name
}

#[test]
fn every_reason_is_the_headers() {
    let listed = listed();
    assert_eq!(listed[0], ("DONE", 0, "done"));
    assert_eq!(listed.len(), 1 + Reason::ALL.len());
    for (reason, (name, number, words)) in Reason::ALL.iter().zip(&listed[1..]) {
        assert_eq!((reason.number(), reason.to_string().as_str()), (*number, *words));
        let here = as_in_c(*reason);
        assert!(here == *name || here.starts_with(&format!("{name}_")), "{here} is {name} in C");
    }
}

#[test]
fn every_number_is_done_or_a_reason() {
    assert_eq!(Reason::of(0), Ok(()));
    for (reason, number) in Reason::ALL.iter().zip(1..) {
        assert_eq!(Reason::of(number), Err(*reason));
        assert_eq!(reason.number(), number);
    }
}

#[test]
fn a_number_that_is_not_known_is_no_success() {
    for number in [28, 99, u64::MAX] {
        let reason = Reason::of(number).unwrap_err();
        assert_eq!(reason, Reason::Other(number));
        assert_eq!(reason.number(), number);
        assert_eq!(reason.to_string(), format!("a reason with the number {number}, which is not known here"));
    }
}

#[test]
fn a_reason_is_an_error_as_others_are() {
    let error: Box<dyn Error + Send + Sync> = Reason::NoRoom.into();
    assert_eq!(error.to_string(), "fewer free pages than tables that are missing");
    assert!(error.source().is_none());
}
