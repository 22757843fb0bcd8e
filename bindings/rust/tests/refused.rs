//! The refusals have the numbers and the words of include/skarvolm.h.
use skarvolm::Refused;
use std::error::Error;

const HEADER: &str = include_str!("../../../include/skarvolm.h");

#[test]
fn numbers_and_words_are_the_headers() {
    let numbers = Refused::ALL.map(Refused::number);
    assert_eq!(numbers, [1, 2, 3, 4, 5, 6, 7, 8, 9, 10, 11, 12, 13, 14, 20]);
    for refused in Refused::ALL {
        let line = format!(" * {:>3}  {refused}\n", refused.number());
        assert!(HEADER.contains(&line), "the header has no line {line:?}");
    }
    let lines = HEADER
        .lines()
        .filter(|line| line.starts_with(" *  ") && line[4..6].trim().parse::<u32>().is_ok());
    assert_eq!(lines.count(), Refused::ALL.len() + 1);
}

#[test]
fn a_refusal_is_an_error() {
    let error: Box<dyn Error> = Box::new(Refused::Depth);
    assert_eq!(error.to_string(), "depth over 12");
}
