//! Queries and operators on both sides: random ones of every class, and those at the limits.

use crate::library::Library;
use crate::tally::Tallies;
use crate::{limits, operators, queries};
use compare::jobs::random::Random;
use compare::operators::Call;
use compare::queries::QueryCall;

/// How often the kinds of each stored list are drawn again.
const ROUNDS_OF_JOBS: u64 = 12;
const ROUNDS_OF_CASES: u64 = 12;

/// Compares everything, or ends at the first difference with the smallest input found.
pub fn run(library: &dyn Library, seed: u64) -> Result<(), String> {
    run_queries(library, seed)?;
    run_operators(library, seed)?;
    limits::run(library)
}

fn run_queries(library: &dyn Library, seed: u64) -> Result<(), String> {
    let mut tallies = Tallies::of("queries, random");
    for (class, calls, draw) in queries::draw::CLASSES {
        let mut random = Random::seeded(class, seed);
        for _ in 0..calls {
            query(library, &mut tallies, class, draw(&mut random))?;
        }
    }
    tallies.print();
    let mut tallies = Tallies::of("queries, the kinds of the stored jobs");
    for round in 0..ROUNDS_OF_JOBS {
        for (kind, call) in queries::draw::of_the_jobs(seed_of_round(seed, round)) {
            query(library, &mut tallies, kind, call)?;
        }
    }
    tallies.print();
    Ok(())
}

fn run_operators(library: &dyn Library, seed: u64) -> Result<(), String> {
    let mut tallies = Tallies::of("operators, random");
    for (class, calls, draw) in operators::draw::CLASSES {
        let mut random = Random::seeded(class, seed);
        for _ in 0..calls {
            operator(library, &mut tallies, class, draw(&mut random))?;
        }
    }
    tallies.print();
    let mut tallies = Tallies::of("operators, the kinds of the stored cases");
    for round in 0..ROUNDS_OF_CASES {
        for (kind, call) in operators::draw::of_the_cases(seed_of_round(seed, round)) {
            operator(library, &mut tallies, kind, call)?;
        }
    }
    tallies.print();
    Ok(())
}

/// Seed 0 would draw the stored list itself.
pub fn seed_of_round(seed: u64, round: u64) -> u64 {
    (seed << 8) + round + 1
}

pub fn query(
    library: &dyn Library,
    tallies: &mut Tallies,
    class: &'static str,
    call: QueryCall,
) -> Result<(), String> {
    match queries::compared(library, &call) {
        Ok(outcome) => {
            tallies.add(class, outcome);
            Ok(())
        }
        Err(_) => Err(format!("class: {class}\n{}", queries::report(library, call))),
    }
}

pub fn operator(
    library: &dyn Library,
    tallies: &mut Tallies,
    class: &'static str,
    call: Call,
) -> Result<(), String> {
    match operators::compared(library, &call) {
        Ok(outcome) => {
            tallies.add(class, outcome);
            Ok(())
        }
        Err(_) => Err(format!("class: {class}\n{}", operators::report(library, call))),
    }
}
