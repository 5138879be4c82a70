//! Runs the proved library beside the published Rust.

mod archive;
mod bench;
mod clock;
mod comparison;
#[cfg(test)]
mod definition;
mod jobs;
mod library;
mod limits;
mod meshes;
mod operators;
mod places;
#[cfg(test)]
mod planted;
mod queries;
mod quiet;
mod renumber;
mod shrink;
mod tally;

use archive::Archive;
use std::env;
use std::io::{self, Read, Write};
use std::process::ExitCode;
use std::time::Instant;

const USAGE: &str = "\
beside compare [SEED]         queries and operators on both sides, random and at the limits
beside jobs [SEED]            job files on both sides
beside renumber [SEED]        demand 3 by running
beside all [SEED]             all three

beside bench [WORD]           times of both sides, row by row; with a word, of the rows that have it in their name
beside instructions [WORD]    instructions of both sides, row by row, counted by callgrind
beside count ROW SIDE         runs one side of one row once
beside answer                 reads a job file from standard input and writes its listing, computed by the Rust
";

const SEED: u64 = 1;

fn main() -> io::Result<ExitCode> {
    let arguments: Vec<String> = env::args().skip(1).collect();
    match arguments.iter().map(String::as_str).collect::<Vec<_>>()[..] {
        [part @ ("compare" | "jobs" | "renumber" | "all")] => return Ok(run(part, SEED)),
        [part @ ("compare" | "jobs" | "renumber" | "all"), seed] if seed.parse::<u32>().is_ok() => {
            return Ok(run(part, seed.parse().expect("it is a whole number")));
        }
        ["bench"] => bench::run("")?,
        ["bench", word] => bench::run(word)?,
        ["instructions"] => bench::instructions(""),
        ["instructions", word] => bench::instructions(word),
        ["count", row, side] => bench::count(row, side),
        ["answer"] => answer()?,
        _ => {
            eprint!("{USAGE}");
            return Ok(ExitCode::FAILURE);
        }
    }
    Ok(ExitCode::SUCCESS)
}

/// Runs one part, or all, until the first difference.
fn run(chosen: &str, seed: u64) -> ExitCode {
    let start = Instant::now();
    println!("seed {seed}\n");
    let wanted = |part| chosen == part || chosen == "all";
    let compare = || if wanted("compare") { comparison::run(&Archive, seed) } else { Ok(()) };
    let jobs = |()| if wanted("jobs") { jobs::run(&Archive, seed) } else { Ok(()) };
    let renumber = |()| if wanted("renumber") { renumber::run(&Archive, seed) } else { Ok(()) };
    match compare().and_then(jobs).and_then(renumber) {
        Ok(()) => {
            println!("0 differences, {:.0} seconds", start.elapsed().as_secs_f64());
            ExitCode::SUCCESS
        }
        Err(difference) => {
            println!("a difference, seed {seed}\n{difference}");
            ExitCode::FAILURE
        }
    }
}

fn answer() -> io::Result<()> {
    let mut job = Vec::new();
    io::stdin().read_to_end(&mut job)?;
    io::stdout().write_all(&compare::document01::answer(&job))
}
