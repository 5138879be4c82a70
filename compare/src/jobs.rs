//! The stored list of jobs: the same on every run, kind by kind.
//!
//! Jobs 372 to 427 (the kind "fused") tell a fused multiply-add from two roundings. In family 4, then 9:
//!
//! | fused                                    | family 4   | family 9   |
//! |------------------------------------------|------------|------------|
//! | map_point                                | 372 to 375 | 400 to 403 |
//! | jacobian                                 | 376 to 379 | 404 to 407 |
//! | squared_distance, its first product      | 380 to 383 | 408 to 411 |
//! | squared_distance, its second product     | 384 to 387 | 412 to 415 |
//! | any other sum of products, one job each  | 388 to 399 | 416 to 427 |
//!
//! Many jobs of other kinds tell it too; `compare turns` prints them all.

pub mod choices;
pub mod files;
pub mod mesh;
pub mod numbers;
mod probes;
pub mod random;
pub mod refusals;
mod searches;
pub mod shapes;

use crate::document01::accept;
use crate::wrong_turns::{Turn, tells};
use random::Random;

/// One job file and what it is in the list for.
pub struct Job {
    pub kind: &'static str,
    pub bytes: Vec<u8>,
}

type Generator = fn(&mut Random) -> Vec<Vec<u8>>;

/// The kinds in the order of the list.
const KINDS: [(&str, Generator); 36] = [
    ("document 01's probes", probes::all),
    ("regular", shapes::regular),
    ("skewed", shapes::skewed),
    ("curved", shapes::curved),
    ("degenerate", shapes::degenerate),
    ("degenerate, determinant below 0", shapes::negative_determinant),
    ("tie", choices::ties),
    ("near tie of elements", choices::near_elements),
    ("near tie of nodes", choices::near_nodes),
    ("near tie in an element", choices::near_within),
    ("bound of the determinant", searches::determinant_bound),
    ("bound of the tangent", searches::tangent_bound),
    ("short step", searches::short_steps),
    ("limit", searches::limits),
    ("limit decides", searches::deciding_limits),
    ("fused", searches::fused),
    ("far", numbers::far),
    ("huge", numbers::huge),
    ("tiny", numbers::tiny),
    ("infinity", numbers::infinite),
    ("nan node", numbers::nan_nodes),
    ("nan point", numbers::nan_points),
    ("minus zero", numbers::minus_zero),
    ("wild", numbers::wild),
    ("order of records", files::record_orders),
    ("no points", files::no_points),
    ("full", files::full),
    ("refused 18", refusals::marks),
    ("refused 19", refusals::first_record),
    ("refused 20", refusals::bodies),
    ("refused 1", refusals::families),
    ("refused 21", refusals::counts),
    ("refused 4", refusals::iterations),
    ("refused 8, 9, 10", refusals::meshes),
    ("two faults", refusals::two_faults),
    ("damaged", refusals::damaged),
];

pub fn all() -> Vec<Job> {
    drawn(0)
}

/// The same kinds with other random numbers. Seed 0 draws the stored list.
pub fn drawn(seed: u64) -> Vec<Job> {
    let of_kind = |(kind, generate): (&'static str, Generator)| {
        let files = generate(&mut Random::seeded(kind, seed));
        files.into_iter().map(move |bytes| Job { kind, bytes })
    };
    KINDS.into_iter().flat_map(of_kind).collect()
}

/// How many element searches with one step each a job can cost: points × elements × (limit + 1).
pub fn searches(job: &[u8]) -> usize {
    accept(job).map_or(0, |query| query.points.len() * query.elements.len() * (usize::from(query.limit) + 1))
}

/// The first `count` jobs of those that `make` makes which tell a wrong turn.
fn keep(
    random: &mut Random,
    count: usize,
    turn: Turn,
    make: impl Fn(&mut Random) -> Vec<u8>,
) -> Vec<Vec<u8>> {
    const MOST_TRIES: usize = 200_000;
    let tries = (0..MOST_TRIES).map(|_| make(random));
    let kept: Vec<Vec<u8>> = tries.filter(|job| tells(job, turn)).take(count).collect();
    assert_eq!(kept.len(), count, "too few jobs tell {turn:?}");
    kept
}

#[cfg(test)]
mod tests {
    use super::*;
    use crate::document01::answer;
    use std::collections::BTreeSet;

    #[test]
    fn the_list_keeps_its_bounds() {
        let list = all();
        let framed: usize = list.iter().map(|job| 4 + job.bytes.len()).sum();
        assert!(list.len() >= 320);
        assert!(list.iter().all(|job| job.bytes.len() <= 24_000));
        assert!(framed < 900_000);
        assert!(list.iter().map(|job| searches(&job.bytes)).sum::<usize>() < 3_000_000);
    }

    #[test]
    fn the_list_is_the_same_on_every_run() {
        assert!(all().iter().zip(all()).all(|(a, b)| a.bytes == b.bytes));
    }

    /// The first word of a listing, and its second if it is a refusal.
    fn verdict(job: &Job) -> String {
        let text = String::from_utf8(answer(&job.bytes)).expect("a listing is ASCII");
        let mut words = text.split(' ');
        let first = words.next().expect("a listing has words").to_string();
        if first == "query" { first } else { first + " " + words.next().expect("a refusal has a number") }
    }

    #[test]
    fn every_kind_is_answered_as_its_name_says() {
        for job in all() {
            let verdict = verdict(&job);
            match job.kind {
                "damaged" => {}
                "two faults" => assert_ne!(verdict, "query"),
                "refused 8, 9, 10" => {
                    assert!(["refused 8", "refused 9", "refused 10"].contains(&&verdict[..]))
                }
                kind if kind.starts_with("refused") => assert_eq!(verdict, kind),
                _ => assert_eq!(verdict, "query"),
            }
        }
    }

    #[test]
    fn every_refusal_of_a_job_file_occurs() {
        let verdicts: BTreeSet<String> = all().iter().map(verdict).collect();
        for number in [18, 19, 20, 1, 21, 4, 8, 9, 10] {
            assert!(verdicts.contains(&format!("refused {number}")));
        }
    }

    #[test]
    fn the_fused_jobs_lie_where_the_table_says() {
        let list = all();
        let table = [
            (Turn::FusedPoint, [372..376, 400..404]),
            (Turn::FusedJacobian, [376..380, 404..408]),
            (Turn::FusedDistanceFirst, [380..384, 408..412]),
            (Turn::FusedDistanceSecond, [384..388, 412..416]),
        ];
        for (turn, ranges) in table {
            assert!(ranges.into_iter().flatten().all(|at| tells(&list[at].bytes, turn)));
        }
        assert!((372..428).all(|at| list[at].kind == "fused"));
        assert!(list[371].kind != "fused" && list[428].kind != "fused");
    }
}
