//! The constants of this crate are those of `include/sobrizenta.h`.

use sobrizenta::raw::*;
use sobrizenta::{EDITION, Question};

fn header() -> String {
    let path = concat!(env!("CARGO_MANIFEST_DIR"), "/../../include/sobrizenta.h");
    std::fs::read_to_string(path).expect("the header")
}

/// Every name of the header that is defined as a number, in order, with the number.
fn defined(header: &str) -> Vec<(&str, u64)> {
    let mut all = Vec::new();
    for line in header.lines() {
        let mut words = line.split_ascii_whitespace();
        if let (Some("#define"), Some(name), Some(number)) = (words.next(), words.next(), words.next()) {
            all.push((name, number.parse().expect("a number")));
        }
    }
    all
}

macro_rules! named {
    ($($name:ident)*) => { vec![$((stringify!($name), $name as u64)),*] };
}

#[test]
fn every_number_that_the_header_defines_is_here() {
    let ours = named![
        SOBRIZENTA_EDITION
        SOBRIZENTA_MOST_NODES
        SOBRIZENTA_MOST_ELEMENTS
        SOBRIZENTA_MOST_ITERATIONS
        SOBRIZENTA_MOST_POINTS
        SOBRIZENTA_MOST_MATERIALS
        SOBRIZENTA_JOB_MOST_NODES
        SOBRIZENTA_JOB_MOST_ELEMENTS
        SOBRIZENTA_JOB_MOST_POINTS
        SOBRIZENTA_LISTING_ROOM
    ];
    assert_eq!(defined(&header()), ours);
    assert_eq!(EDITION, SOBRIZENTA_EDITION);
}

/// Whether an enum of the header has the name with the number.
fn enumerates(header: &str, name: &str, number: u64) -> bool {
    let line = format!("{name} = {number}");
    let mut lines = header.lines().map(str::trim_start);
    lines.any(|text| text.strip_prefix(&line).is_some_and(|rest| rest.starts_with([',', ' '])))
}

#[test]
fn the_formulations_have_the_header_s_numbers() {
    for (name, number) in named![SOBRIZENTA_AXISYMMETRIC SOBRIZENTA_PLANE_STRAIN] {
        assert!(enumerates(&header(), name, number), "{name}");
    }
}

/// `NodeList` is `NODE_LIST` in C.
fn name_in_c(question: Question) -> String {
    let mut name = String::from("SOBRIZENTA");
    for letter in format!("{question:?}").chars() {
        if letter.is_ascii_uppercase() {
            name.push('_');
        }
        name.push(letter.to_ascii_uppercase());
    }
    name
}

#[test]
fn the_questions_have_the_header_s_numbers() {
    for question in Question::ALL {
        assert!(enumerates(&header(), &name_in_c(question), question.number()), "{question:?}");
    }
}
