//! The stored list of operator cases: the same on every run, kind by kind.
//!
//! The wrong turns that document 01 names are told by these kinds, among others:
//!
//! | wrong turn                                       | kinds                                       |
//! |--------------------------------------------------|---------------------------------------------|
//! | a fused multiply-add                             | fused or reordered; rounding decides 16, 17 |
//! | a determinant tested by magnitude in 16          | refused 16                                  |
//! | triplets written before a later point is refused | refused 14 to 17                            |
//!
//! `compare operator-turns` prints all turns with the cases that tell them.

pub mod angles;
pub mod build;
mod edges;
mod lists;
mod numbers;
pub mod refusals;
mod roundings;
mod shapes;

use crate::jobs::random::Random;
use crate::operators::Call;

/// One call and what it is in the list for.
pub struct Case {
    pub kind: &'static str,
    pub call: Call,
}

type Generator = fn(&mut Random) -> Vec<Call>;

/// The kind whose pairs no angle has: the materials are turned by our own reading, all else is the Rust's.
const ODD_PAIRS: &str = "odd pairs, turned by our own reading";

/// The kinds in the order of the list.
const KINDS: [(&str, Generator); 50] = [
    ("document 01's probes", shapes::probes),
    ("dyadic", shapes::dyadic),
    ("skewed", shapes::skewed),
    ("curved", shapes::curved),
    ("grid", shapes::grids),
    ("several materials", shapes::several_materials),
    ("repeated nodes", shapes::repeated_nodes),
    ("corners and beyond", shapes::references),
    ("angles", angles::many_angles),
    ("angles, family 9", angles::curved_angles),
    ("copied by (1, 0)", angles::copied),
    ("small angles", angles::small_angles),
    ("no angles", angles::no_angles),
    (ODD_PAIRS, angles::odd_pairs),
    ("fused or reordered", roundings::fused_or_reordered),
    ("rounding decides 16", roundings::deciding_determinants),
    ("rounding decides 17", roundings::deciding_radii),
    ("nan determinant", edges::nan_determinants),
    ("small determinant", edges::small_determinants),
    ("beside the axis", edges::beside_axis),
    ("odd radius", edges::odd_radii),
    ("zeros", edges::zeros),
    ("huge nodes", numbers::huge_nodes),
    ("tiny nodes", numbers::tiny_nodes),
    ("infinite nodes", numbers::infinite_nodes),
    ("nan nodes", numbers::nan_nodes),
    ("minus zero nodes", numbers::minus_zero_nodes),
    ("odd references", numbers::odd_references),
    ("infinite materials", numbers::infinite_materials),
    ("odd materials", numbers::odd_materials),
    ("wild", numbers::wild),
    ("no points", lists::no_points),
    ("not read", lists::not_read),
    ("room", lists::room),
    ("full", lists::full),
    ("refused 1", refusals::families),
    ("refused 2", refusals::nodes),
    ("refused 3", refusals::connectivity),
    ("refused 5", refusals::references),
    ("refused 6", refusals::material_tables),
    ("refused 7", lists::no_room),
    ("refused 8", refusals::node_numbers),
    ("refused 11", refusals::counts_of_points),
    ("refused 12", refusals::counts_of_materials),
    ("refused 13", refusals::counts_of_pairs),
    ("refused 14", refusals::element_numbers),
    ("refused 15", refusals::material_numbers),
    ("refused 16", refusals::inverted),
    ("refused 17", refusals::on_axis),
    ("several faults", refusals::several),
];

pub fn all() -> Vec<Case> {
    drawn(0)
}

/// The same kinds with other random numbers. Seed 0 draws the stored list.
pub fn drawn(seed: u64) -> Vec<Case> {
    let of_kind = |(kind, generate): (&'static str, Generator)| {
        let calls = generate(&mut Random::seeded(kind, seed));
        calls.into_iter().map(move |call| Case { kind, call })
    };
    KINDS.into_iter().flat_map(of_kind).collect()
}

/// The first of the calls that `make` makes which is wanted.
fn first_of(random: &mut Random, wanted: impl Fn(&Call) -> bool, make: impl Fn(&mut Random) -> Call) -> Call {
    const MOST_TRIES: usize = 200_000;
    (0..MOST_TRIES).map(|_| make(random)).find(wanted).expect("some call is wanted")
}

#[cfg(test)]
mod tests {
    use super::*;
    use crate::operators::{Operator, Pairs, answer, questions};
    use crate::published;
    use lists::{MOST_NUMBERS, MOST_PLACES};
    use std::collections::BTreeSet;

    fn verdict(case: &Case) -> Option<u8> {
        questions(&case.call).err().map(|refusal| refusal.number)
    }

    #[test]
    fn the_list_keeps_its_bounds() {
        let list = all();
        let bytes: Vec<usize> = list.iter().map(|case| case.call.bytes().len()).collect();
        assert!(list.len() >= 400);
        assert!(bytes.iter().all(|&length| length < 8192));
        assert!(bytes.iter().map(|length| 4 + length).sum::<usize>() < 700_000);
        assert!(list.iter().map(|case| answer(&case.call).len()).sum::<usize>() < 900_000);
        for case in list {
            let most = MOST_NUMBERS.into_iter().chain([MOST_PLACES; 3]);
            assert!(case.call.counts().into_iter().zip(most).all(|(count, most)| count <= most));
        }
    }

    #[test]
    fn the_list_is_the_same_on_every_run() {
        assert!(all().iter().zip(all()).all(|(a, b)| a.call.bytes() == b.call.bytes()));
    }

    /// The numbers of a case begin after 32 bytes.
    #[test]
    fn the_counts_say_how_long_a_case_is() {
        for case in all() {
            let bytes = case.call.bytes();
            let count = |at: usize| usize::from(u16::from_le_bytes([bytes[12 + 2 * at], bytes[13 + 2 * at]]));
            let numbers: usize =
                [8, 4, 4, 8, 4, 8, 8].into_iter().enumerate().map(|(at, width)| width * count(at)).sum();
            assert_eq!(bytes.len(), 32 + numbers);
        }
    }

    #[test]
    fn every_kind_is_answered_as_its_name_says() {
        for case in all() {
            let verdict = verdict(&case);
            match case.kind {
                "several faults" => assert!(verdict.is_some()),
                kind if kind.starts_with("refused") => {
                    assert_eq!(kind, format!("refused {}", verdict.unwrap_or(0)));
                }
                kind if MIXED.contains(&kind) => {}
                kind => assert_eq!(verdict, None, "{kind}"),
            }
        }
    }

    /// The kinds in which the numbers decide.
    const MIXED: [&str; 8] = [
        "document 01's probes",
        "rounding decides 16",
        "rounding decides 17",
        "tiny nodes",
        "infinite nodes",
        "minus zero nodes",
        "odd references",
        "wild",
    ];

    #[test]
    fn every_refusal_of_an_operator_occurs() {
        let verdicts: BTreeSet<u8> = all().iter().filter_map(verdict).collect();
        assert!(verdicts.into_iter().eq([1, 2, 3, 5, 6, 7, 8, 11, 12, 13, 14, 15, 16, 17]));
    }

    /// The counts are our own reading; the Rust's are the same.
    #[test]
    fn the_rust_counts_the_same_rows_and_columns() {
        for case in all().into_iter().filter(|case| case.call.accepted()) {
            let built = published::operator(&case.call).expect("the Rust accepts what document 01 accepts");
            assert_eq!(built.rows, case.call.rows_a_point() * case.call.points());
            assert_eq!(built.columns, case.call.columns_a_node() * case.call.node_count());
        }
    }

    /// Questions 1 to 7 are about lists that the Rust has in other forms.
    #[test]
    fn the_rust_refuses_what_8_and_11_to_17_refuse() {
        for case in all().into_iter().filter(|case| verdict(case).is_some_and(|number| number >= 8)) {
            if !matches!(case.call.pairs, Pairs::Any(_)) {
                assert!(published::operator(&case.call).is_err());
            }
        }
    }

    #[test]
    fn only_the_odd_pairs_are_turned_by_our_own_reading() {
        for case in all().into_iter().filter(|case| case.call.accepted()) {
            let stress = case.call.operator == Operator::Stress;
            let ours = stress && matches!(case.call.pairs, Pairs::Any(_));
            assert_eq!(ours, case.kind == ODD_PAIRS);
        }
    }
}
