//! Runs the published Rust unchanged and writes two stored lists, of jobs and of operator cases, with the answers
//! that follow from it.

#![forbid(unsafe_code)]

use compare::cases::{self, Case};
use compare::jobs::{self, Job};
use compare::wrong_turns::{self, Turn};
use compare::{definition, document01, kit, operator_turns, operators};
use std::io::{self, Read, Write};
use std::path::Path;
use std::process::ExitCode;
use std::{env, fs};

const USAGE: &str = "\
compare answer      reads a job file from standard input and writes its listing
compare write DIR   writes the stored list: the jobs to DIR/stdin, their listings to DIR/stdout
compare kinds       prints how many jobs of each kind the list has
compare turns       prints which jobs tell each wrong turn (a minute)

compare write-operators DIR   writes the list of operator cases: the cases to DIR/stdin, their texts to DIR/stdout
compare operator-kinds        prints how many cases of each kind the list has
compare operator-turns        prints which cases tell each wrong turn

compare write-kit DIR   writes the conformance kit's jobs and listings to DIR/jobs and DIR/listings
compare kit-turns       prints which files of the kit catch each wrong program (half a minute)

compare write-definition FILE   writes the answers of the blocks in docs/DEFINITION.md again
";

fn main() -> io::Result<ExitCode> {
    let arguments: Vec<String> = env::args().skip(1).collect();
    match arguments.iter().map(String::as_str).collect::<Vec<_>>()[..] {
        ["answer"] => answer()?,
        ["write", folder] => write(Path::new(folder))?,
        ["kinds"] => kinds(),
        ["turns"] => turns(),
        ["write-operators", folder] => write_operators(Path::new(folder))?,
        ["operator-kinds"] => operator_kinds(),
        ["operator-turns"] => operator_turns(),
        ["write-kit", folder] => kit::write(Path::new(folder))?,
        ["kit-turns"] => print!("{}", kit::variants_text()),
        ["write-definition", file] => fs::write(file, definition::rewritten(&fs::read_to_string(file)?))?,
        _ => {
            eprint!("{USAGE}");
            return Ok(ExitCode::FAILURE);
        }
    }
    Ok(ExitCode::SUCCESS)
}

fn answer() -> io::Result<()> {
    let mut job = Vec::new();
    io::stdin().read_to_end(&mut job)?;
    io::stdout().write_all(&document01::answer(&job))
}

fn write(folder: &Path) -> io::Result<()> {
    let list = jobs::all();
    let jobs = list.iter().map(|job| framed(&job.bytes)).collect::<Vec<_>>();
    let listings = list.iter().map(|job| document01::answer(&job.bytes)).collect::<Vec<_>>();
    write_list(folder, &jobs.concat(), &listings.concat())
}

fn write_operators(folder: &Path) -> io::Result<()> {
    let list = cases::all();
    let calls = list.iter().map(|case| framed(&case.call.bytes())).collect::<Vec<_>>();
    let texts = list.iter().map(|case| operators::answer(&case.call)).collect::<Vec<_>>();
    write_list(folder, &calls.concat(), &texts.concat())
}

fn write_list(folder: &Path, stdin: &[u8], stdout: &[u8]) -> io::Result<()> {
    fs::create_dir_all(folder)?;
    fs::write(folder.join("stdin"), stdin)?;
    fs::write(folder.join("stdout"), stdout)
}

/// The length of a job or a case in four bytes, the least first, then its bytes.
fn framed(bytes: &[u8]) -> Vec<u8> {
    let length = u32::try_from(bytes.len()).expect("jobs and cases are short");
    [&length.to_le_bytes()[..], bytes].concat()
}

fn kinds() {
    let list = jobs::all();
    println!("{:>5} {:>5} {:>7} {:>8}  kind", "first", "jobs", "bytes", "searches");
    let mut first = 0;
    for of_kind in list.chunk_by(|a, b| a.kind == b.kind) {
        print_row(first, of_kind, of_kind[0].kind);
        first += of_kind.len();
    }
    print_row(0, &list, "all of them");
}

fn print_row(first: usize, jobs: &[Job], name: &str) {
    let bytes: usize = jobs.iter().map(|job| job.bytes.len()).sum();
    let searches: usize = jobs.iter().map(|job| jobs::searches(&job.bytes)).sum();
    println!("{first:5} {:5} {bytes:7} {searches:8}  {name}", jobs.len());
}

fn turns() {
    let list = jobs::all();
    let straight: Vec<Vec<u8>> =
        list.iter().map(|job| wrong_turns::answer(&job.bytes, Turn::Straight)).collect();
    for turn in Turn::all() {
        let tells = |at: &usize| wrong_turns::answer(&list[*at].bytes, turn) != straight[*at];
        let telling: Vec<usize> = (0..list.len()).filter(tells).collect();
        println!("{turn:?}, told by {}: {telling:?}", telling.len());
    }
}

fn operator_kinds() {
    let list = cases::all();
    println!("{:>5} {:>5} {:>8} {:>7} {:>7}  kind", "first", "cases", "accepted", "stdin", "stdout");
    let mut first = 0;
    for of_kind in list.chunk_by(|a, b| a.kind == b.kind) {
        print_case_row(first, of_kind, of_kind[0].kind);
        first += of_kind.len();
    }
    print_case_row(0, &list, "all of them");
}

fn print_case_row(first: usize, cases: &[Case], name: &str) {
    let texts: Vec<Vec<u8>> = cases.iter().map(|case| operators::answer(&case.call)).collect();
    let accepted = texts.iter().filter(|text| text.starts_with(b"built")).count();
    let stdin: usize = cases.iter().map(|case| framed(&case.call.bytes()).len()).sum();
    let stdout: usize = texts.iter().map(Vec::len).sum();
    println!("{first:5} {:5} {accepted:8} {stdin:7} {stdout:7}  {name}", cases.len());
}

fn operator_turns() {
    let list = cases::all();
    for turn in operator_turns::Turn::all() {
        let tells = |at: &usize| operator_turns::tells(&list[*at].call, turn);
        let telling: Vec<usize> = (0..list.len()).filter(tells).collect();
        println!("{turn:?}, told by {}: {telling:?}", telling.len());
    }
}
