//! Calls that document 01 refuses, question by question, and calls with several faults.

use super::build::{PLAIN, Point, STEEL, each_operator};
use super::edges;
use crate::jobs::mesh::{FAMILIES, Mesh};
use crate::jobs::random::Random;
use crate::operator_turns::questions::asked_by;
use crate::operators::{Call, OPERATORS, Operator, Pairs};

/// The largest index that a stored case can have.
const LARGEST: usize = u32::MAX as usize;

/// Elements and points of a sound call.
const COUNT: usize = 3;

/// A call that is accepted. Point p is in element 2 - p, so that a point is not taken for its element.
pub fn sound(operator: Operator, family: u8) -> Call {
    let mesh = Mesh::grid(family, 3, 1, |[x, y]| [1.0 + x, y]);
    let points: [Point; COUNT] = [(2, [0.25, -0.5]), (1, [0.5, 0.0]), (0, [-0.75, 0.25])];
    let call = Call::of(operator, &mesh).at(&points);
    if operator == Operator::Stress { call.made_of(&[PLAIN, STEEL]).turned_by(&[0.7, 0.0]) } else { call }
}

/// The call with one fault, which makes the answer to the question "no". `at` is the element for 8 and the point
/// for 14 to 17; other questions have no place.
pub fn planted(mut call: Call, number: u8, at: usize) -> Call {
    let element = call.element_indices.get(at).copied().unwrap_or(0);
    let size = call.size();
    match number {
        1 => call.family = 5,
        2 => call.nodes.push(0.5),
        3 => call.elements.push(0),
        5 => call.reference_points.push(0.5),
        6 => call.material_table.push(1.0),
        7 => call.spare = [0, -1, 0],
        8 => call.elements[size * at + 3] = call.nodes.len() as u32 / 2,
        11 => call.element_indices.push(0),
        12 => call.material_ids.push(0),
        13 => call.pairs = Pairs::Any([&call.pair_list()[..], &[1.0, 0.0]].concat()),
        14 => call.element_indices[at] = call.elements.len(),
        15 => call.material_ids[element] = call.material_table.len() / 16,
        16 => mirror(&mut call.elements[size * element..][..size]),
        17 => call.nodes.iter_mut().step_by(2).for_each(|r| *r -= 10.0),
        _ => panic!("no operator asks question {number}"),
    }
    call
}

/// Turns an element's corners the other way round, and in family 9 its midsides too.
fn mirror(row: &mut [u32]) {
    row.swap(1, 3);
    if row.len() == 9 {
        row.swap(4, 7);
        row.swap(5, 6);
    }
}

/// The fault in each operator that asks the question, at each place; the families by turns.
fn everywhere(number: u8) -> Vec<Call> {
    let places = if number == 8 || number >= 14 { COUNT } else { 1 };
    let mut calls = Vec::new();
    for operator in OPERATORS.into_iter().filter(|&operator| asked_by(operator).contains(&number)) {
        for at in 0..places {
            let family = FAMILIES[calls.len() % 2];
            calls.push(planted(sound(operator, family), number, at));
        }
    }
    calls
}

/// A sound call to each operator, changed.
fn changed(family: u8, change: impl Fn(&mut Call)) -> [Call; 3] {
    OPERATORS.map(|operator| changed_one(operator, family, &change))
}

fn changed_one(operator: Operator, family: u8, change: impl Fn(&mut Call)) -> Call {
    let mut call = sound(operator, family);
    change(&mut call);
    call
}

// ---- shapes of lists

pub fn families(_: &mut Random) -> Vec<Call> {
    let mut calls = Vec::new();
    for (at, family) in [0, 1, 3, 5, 8, 10, 36, 255].into_iter().enumerate() {
        calls.push(changed_one(OPERATORS[at % 3], FAMILIES[at % 2], |call| call.family = family));
    }
    let nothing = Mesh { family: 6, nodes: Vec::new(), elements: Vec::new() };
    calls.extend(each_operator(&nothing, &[]));
    calls
}

pub fn nodes(_: &mut Random) -> Vec<Call> {
    let mut calls = everywhere(2);
    calls.extend(changed(4, |call| call.nodes.truncate(1)));
    calls
}

pub fn connectivity(_: &mut Random) -> Vec<Call> {
    let mut calls = everywhere(3);
    calls.extend(changed(4, |call| call.elements.truncate(11)));
    calls.extend(changed(9, |call| call.elements.truncate(24)));
    calls
}

pub fn references(_: &mut Random) -> Vec<Call> {
    let mut calls = everywhere(5);
    calls.extend(changed(4, |call| call.reference_points.truncate(1)));
    calls
}

pub fn material_tables(_: &mut Random) -> Vec<Call> {
    let mut calls = everywhere(6);
    for length in [1, 31] {
        calls.push(changed_one(Operator::Stress, 4, |call| call.material_table.truncate(length)));
        calls.push(changed_one(Operator::Stress, 9, |call| {
            call.material_table.truncate(length);
            call.pairs = Pairs::NotGiven(Vec::new());
        }));
    }
    for length in [1, 3, 5, 7] {
        calls.push(changed_one(Operator::Stress, 4, |call| call.pairs = Pairs::Any(vec![0.5; length])));
    }
    calls
}

// ---- numbers and counts

pub fn node_numbers(_: &mut Random) -> Vec<Call> {
    let mut calls = everywhere(8);
    // Two bad elements; the largest number; no node at all; an element that no point names.
    calls.extend(changed(4, |call| call.elements[5..].fill(99)));
    calls.extend(changed(9, |call| call.elements[26] = u32::MAX));
    calls.extend(changed(4, |call| call.nodes.clear()));
    calls.extend(changed(9, |call| {
        call.elements[9] = 1000;
        call.element_indices.clear();
        call.reference_points.clear();
    }));
    calls
}

pub fn counts_of_points(_: &mut Random) -> Vec<Call> {
    let mut calls = everywhere(11);
    calls.extend(changed(4, |call| call.reference_points.truncate(4)));
    calls.extend(changed(9, |call| call.reference_points.clear()));
    calls.extend(changed(4, |call| call.element_indices.clear()));
    calls
}

pub fn counts_of_materials(_: &mut Random) -> Vec<Call> {
    let mut calls = everywhere(12);
    for family in FAMILIES {
        for length in [0, 2] {
            calls.push(changed_one(Operator::Stress, family, |call| call.material_ids.truncate(length)));
        }
        calls.push(changed_one(Operator::Stress, family, |call| {
            call.material_ids.truncate(1);
            call.element_indices.clear();
            call.reference_points.clear();
        }));
    }
    calls
}

pub fn counts_of_pairs(_: &mut Random) -> Vec<Call> {
    let mut calls = everywhere(13);
    for (at, count) in [0, 1, 2, 4, 8].into_iter().enumerate() {
        let pairs = Pairs::OfAngles(vec![0.0; count]);
        calls.push(changed_one(Operator::Stress, FAMILIES[at % 2], |call| call.pairs = pairs.clone()));
    }
    calls
}

// ---- points

pub fn element_numbers(_: &mut Random) -> Vec<Call> {
    let mut calls = everywhere(14);
    calls.extend(changed(4, |call| call.element_indices[2] = COUNT));
    calls.extend(changed(9, |call| call.element_indices[1] = LARGEST));
    let no_elements = Mesh { family: 4, nodes: vec![[1.0, 0.0]; 4], elements: Vec::new() };
    calls.extend(each_operator(&no_elements, &[(0, [0.0, 0.0])]));
    calls
}

pub fn material_numbers(_: &mut Random) -> Vec<Call> {
    let mut calls = everywhere(15);
    calls.push(changed_one(Operator::Stress, 4, |call| call.material_ids[1] = LARGEST));
    calls.push(changed_one(Operator::Stress, 9, |call| call.material_table.clear()));
    // The number is that of the point's element, not of the point.
    calls.push(changed_one(Operator::Stress, 4, |call| {
        call.material_ids[0] = 2;
        call.pairs = Pairs::NotGiven(vec![1.0; 5]);
    }));
    calls
}

/// Inverted alone, and at each point of a sound call.
pub fn inverted(random: &mut Random) -> Vec<Call> {
    [edges::inverted(random), everywhere(16)].concat()
}

/// On the axis alone, and at the first or the last point of a sound call.
pub fn on_axis(random: &mut Random) -> Vec<Call> {
    let mut calls = edges::on_axis(random);
    for operator in [Operator::Strain, Operator::Stress] {
        for family in FAMILIES {
            calls.push(planted(sound(operator, family), 17, 0));
            // The radius of point 2 alone is not positive: it is in the first element, which begins at -0.5.
            let mut call = sound(operator, family);
            call.nodes.iter_mut().step_by(2).for_each(|r| *r -= 1.5);
            calls.push(call);
        }
    }
    calls
}

// ---- several faults

pub fn several(random: &mut Random) -> Vec<Call> {
    [two_faults(), two_points(), three_faults(random)].concat()
}

/// Each question and the next one that the operator asks, both answered "no": the earlier decides.
fn two_faults() -> Vec<Call> {
    let mut calls = Vec::new();
    for operator in OPERATORS {
        for numbers in asked_by(operator).windows(2) {
            let family = FAMILIES[calls.len() % 2];
            calls.push(with_both(operator, family, numbers[0], numbers[1]));
        }
    }
    calls
}

fn with_both(operator: Operator, family: u8, first: u8, second: u8) -> Call {
    let call = planted(planted(sound(operator, family), second, 0), first, 0);
    if (first, second) != (14, 15) {
        return call;
    }
    // An element that is not there has no material number; there must be no material at all.
    Call { material_table: Vec::new(), ..call }
}

/// A later question of an earlier point comes before an earlier question of a later point.
fn two_points() -> Vec<Call> {
    let mut calls = Vec::new();
    for (first, second) in [(15, 14), (16, 14), (16, 15), (17, 14), (17, 15), (17, 16)] {
        for operator in OPERATORS {
            let asked = asked_by(operator);
            if asked.contains(&first) && asked.contains(&second) {
                let call = sound(operator, FAMILIES[calls.len() % 2]);
                calls.push(planted(planted(call, first, 0), second, 1));
            }
        }
    }
    calls
}

/// Any three questions answered "no".
fn three_faults(random: &mut Random) -> Vec<Call> {
    let mut calls = Vec::new();
    for at in 0..18 {
        let operator = OPERATORS[at % 3];
        let mut numbers = asked_by(operator);
        random.shuffle(&mut numbers);
        numbers.truncate(3);
        numbers.sort_by(|a, b| b.cmp(a));
        let call = sound(operator, FAMILIES[at / 3 % 2]);
        calls.push(numbers.into_iter().fold(call, |call, number| planted(call, number, random.below(COUNT))));
    }
    calls
}
