//! What was compared, class by class.

use std::collections::BTreeMap;
use std::fmt::Write;

/// What one call came to, on both sides.
pub enum Outcome {
    /// `call` says which call it was and in which family.
    Accepted {
        call: String,
        points: usize,
    },
    Refused {
        number: u64,
    },
}

#[derive(Default)]
pub struct Tally {
    calls: usize,
    accepted: usize,
    points: usize,
    points_by_call: BTreeMap<String, usize>,
    refused: BTreeMap<u64, usize>,
}

impl Tally {
    pub fn add(&mut self, outcome: Outcome) {
        self.calls += 1;
        match outcome {
            Outcome::Accepted { call, points } => {
                self.accepted += 1;
                self.points += points;
                *self.points_by_call.entry(call).or_default() += points;
            }
            Outcome::Refused { number } => *self.refused.entry(number).or_default() += 1,
        }
    }

    fn join(&mut self, other: &Tally) {
        self.calls += other.calls;
        self.accepted += other.accepted;
        self.points += other.points;
        for (call, points) in &other.points_by_call {
            *self.points_by_call.entry(call.clone()).or_default() += points;
        }
        for (&number, count) in &other.refused {
            *self.refused.entry(number).or_default() += count;
        }
    }

    fn line(&self, name: &str) -> String {
        let mut line = format!("{:8} {:8} {:9}  {name}", self.calls, self.accepted, self.points);
        for (place, (number, count)) in self.refused.iter().enumerate() {
            let before = if place == 0 { "; refused" } else { "," };
            write!(line, "{before} {number}: {count}").expect("a string takes any text");
        }
        line
    }
}

/// The tallies of many classes, in order.
pub struct Tallies {
    what: &'static str,
    classes: Vec<(&'static str, Tally)>,
}

impl Tallies {
    pub fn of(what: &'static str) -> Tallies {
        Tallies { what, classes: Vec::new() }
    }

    pub fn add(&mut self, class: &'static str, outcome: Outcome) {
        let at = self.classes.iter().position(|(name, _)| *name == class);
        let at = at.unwrap_or_else(|| {
            self.classes.push((class, Tally::default()));
            self.classes.len() - 1
        });
        self.classes[at].1.add(outcome);
    }

    pub fn print(&self) {
        println!("{}", self.what);
        println!("{:>8} {:>8} {:>9}  class; questions answered \"no\"", "calls", "accepted", "points");
        let mut all = Tally::default();
        for (name, tally) in &self.classes {
            println!("{}", tally.line(name));
            all.join(tally);
        }
        println!("{}", all.line("all of them"));
        for (call, points) in &all.points_by_call {
            println!("{:17} {points:9}  points of {call}", "");
        }
        println!();
    }
}
