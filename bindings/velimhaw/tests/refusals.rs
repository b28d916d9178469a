//! Tests the lines of the questions: each number has its own, the same as in the C header, and a refusal shows it.
use std::collections::HashSet;
use velimhaw::{question, Refusal};

const HEADER: &str = include_str!("../../c/velimhaw.h");

fn numbers() -> impl Iterator<Item = usize> {
    (1..=22).chain(30..=35).chain([40, 41])
}

#[test]
fn each_number_has_its_own_line() {
    let lines: HashSet<&str> = numbers().map(|number| question(number).unwrap()).collect();
    assert_eq!(lines.len(), 30);
    assert!(lines.iter().all(|line| !line.is_empty() && !line.contains('\n')));
}

#[test]
fn a_refusal_shows_its_line() {
    for number in numbers() {
        let shown = Refusal::new(number).to_string();
        assert_eq!(shown, format!("refused {number}, not met: {}", question(number).unwrap()));
    }
    let refusal: Box<dyn std::error::Error> = Box::new(Refusal::new(18));
    let line = "each entry covered by its path's grant for its purpose, counts added over components with the same groups and purpose";
    assert_eq!(refusal.to_string(), format!("refused 18, not met: {line}"));
}

#[test]
fn other_numbers_have_no_line() {
    for number in [0].into_iter().chain(23..30).chain(36..40).chain(42..100).chain([usize::MAX]) {
        assert_eq!(question(number), None);
        assert_eq!(Refusal::new(number).to_string(), format!("refused {number}, not met: no question has this number"));
    }
}

#[test]
fn the_header_has_the_same_lines() {
    for number in numbers() {
        let case = format!("case {number}: return \"{}\";", question(number).unwrap());
        assert!(HEADER.contains(&case), "{case}");
    }
}
