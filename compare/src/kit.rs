//! The conformance kit: job files that tell wrong programs from right ones, with their listings, and a list of
//! wrong programs with the files that catch each.

mod files;
mod reading;
mod turns;

use crate::document01;
use crate::jobs::{self, Job};
use crate::wrong_turns::{self, Turn};
use files::Named;
use reading::Departure;
use std::collections::BTreeSet;
use std::path::Path;
use std::{fs, io};

/// Document 01's probes of one family, in the order of the stored list.
const PROBES: [&str; 16] = [
    "probe-06",
    "probe-07",
    "probe-13-limit-0",
    "probe-13-limit-1",
    "probe-13-limit-3",
    "probe-14-nan-first-coordinate",
    "probe-14-nan-second-coordinate",
    "probe-14-nan-both-coordinates",
    "probe-13-exchanged-limit-0",
    "probe-13-exchanged-limit-1",
    "probe-13-exchanged-limit-3",
    "probe-14-exchanged-nan-first-coordinate",
    "probe-14-exchanged-nan-second-coordinate",
    "probe-14-exchanged-nan-both-coordinates",
    "probe-15-no-element-step",
    "probe-15-element-step",
];

/// How many jobs the kit has of some kinds of the stored list, spread over the kind.
const SAMPLES: [(&str, usize); 17] = [
    ("regular", 2),
    ("skewed", 4),
    ("curved", 2),
    ("degenerate", 4),
    ("tie", 6),
    ("near tie of elements", 2),
    ("near tie of nodes", 2),
    ("limit decides", 4),
    ("far", 4),
    ("huge", 4),
    ("tiny", 4),
    ("infinity", 4),
    ("nan node", 4),
    ("nan point", 2),
    ("minus zero", 2),
    ("wild", 6),
    ("full", 3),
];

/// Every file of the kit, by name.
pub fn all() -> Vec<Named> {
    let stored = jobs::all();
    let mut kit = [probes(&stored), files::all(), samples(&stored)].concat();
    add_for_turns(&mut kit, &stored);
    kit.sort();
    kit
}

fn of_kind<'list>(stored: &'list [Job], kind: &str) -> Vec<&'list Job> {
    stored.iter().filter(|job| job.kind == kind).collect()
}

fn probes(stored: &[Job]) -> Vec<Named> {
    let jobs = of_kind(stored, "document 01's probes");
    let name = |at: usize| format!("{}-family-{}", PROBES[at % PROBES.len()], jobs[at].bytes[2]);
    (0..jobs.len()).map(|at| (name(at), jobs[at].bytes.clone())).collect()
}

fn samples(stored: &[Job]) -> Vec<Named> {
    let mut kit = Vec::new();
    for (kind, count) in SAMPLES {
        let jobs = of_kind(stored, kind);
        for at in 0..count {
            // Of the last one on, so that the longest walks are among them.
            let job = jobs[jobs.len() - 1 - at * jobs.len() / count];
            kit.push((format!("sample-{}-{}", kind.replace(' ', "-"), at + 1), job.bytes.clone()));
        }
    }
    kit
}

/// For each wrong turn and each family one file of its own: the shortest stored job that tells the turn and is not
/// yet in the kit.
fn add_for_turns(kit: &mut Vec<Named>, stored: &[Job]) {
    let mut taken: BTreeSet<Vec<u8>> = kit.iter().map(|(_, bytes)| bytes.clone()).collect();
    let mut by_length: Vec<&Job> =
        stored.iter().filter(|job| document01::accept(&job.bytes).is_ok()).collect();
    by_length.sort_by_key(|job| job.bytes.len());
    for turn in Turn::all() {
        for family in jobs::mesh::FAMILIES {
            let fits = |job: &&&Job| {
                job.bytes[2] == family && !taken.contains(&job.bytes) && wrong_turns::tells(&job.bytes, turn)
            };
            if let Some(job) = by_length.iter().find(fits) {
                kit.push((format!("turn-{}-family-{family}", kebab(turn)), job.bytes.clone()));
                taken.insert(job.bytes.clone());
            }
        }
    }
}

/// `LastOfEqual(Nodes)` becomes `last-of-equal-nodes`.
fn kebab(turn: Turn) -> String {
    let mut name = String::new();
    for letter in format!("{turn:?}").chars().filter(char::is_ascii_alphabetic) {
        if letter.is_ascii_uppercase() && !name.is_empty() {
            name.push('-');
        }
        name.push(letter.to_ascii_lowercase());
    }
    name
}

// ---- the wrong programs

/// What one change makes of the model.
#[derive(Clone, Copy)]
enum Change {
    Numbers(Turn),
    Reading(Departure),
}

impl Change {
    fn answer(self, job: &[u8]) -> Vec<u8> {
        match self {
            Change::Numbers(turn) => wrong_turns::answer(job, turn),
            Change::Reading(departure) => reading::answer(job, departure),
        }
    }
}

/// A wrong program: under which heading it is listed, and what it does.
struct Variant {
    heading: &'static str,
    words: String,
    change: Change,
}

fn variants() -> Vec<Variant> {
    let of_turn = |turn| {
        let (heading, words) = turns::described(turn);
        Variant { heading, words, change: Change::Numbers(turn) }
    };
    let mut all: Vec<Variant> = Turn::all().into_iter().map(of_turn).collect();
    for &(heading, departures) in reading::GROUPS {
        all.extend(departures.iter().map(|&(departure, words)| Variant {
            heading,
            words: words.into(),
            change: Change::Reading(departure),
        }));
    }
    all
}

/// The files that a wrong program answers wrongly.
fn catching<'kit>(
    variant: &Variant,
    kit: &'kit [Named],
    listings: &[Vec<u8>],
) -> impl Iterator<Item = &'kit Named> {
    kit.iter()
        .zip(listings)
        .filter(|((_, job), listing)| variant.change.answer(job) != **listing)
        .map(|(file, _)| file)
}

fn listings(kit: &[Named]) -> Vec<Vec<u8>> {
    kit.iter().map(|(_, bytes)| document01::answer(bytes)).collect()
}

// ---- what is written

/// The jobs to `jobs/NAME.job` and their listings to `listings/NAME.txt`, in place of all that was there.
pub fn write(folder: &Path) -> io::Result<()> {
    let kit = all();
    let listings = listings(&kit);
    for part in ["jobs", "listings"] {
        let part = folder.join(part);
        if part.exists() {
            fs::remove_dir_all(&part)?;
        }
        fs::create_dir_all(part)?;
    }
    for ((name, bytes), listing) in kit.iter().zip(&listings) {
        fs::write(folder.join(format!("jobs/{name}.job")), bytes)?;
        fs::write(folder.join(format!("listings/{name}.txt")), listing)?;
    }
    Ok(())
}

const INTRODUCTION: &str = "\
# Wrong programs, and what catches them

Written by `cargo run -- kit-turns` in `compare/`, which makes one change at a time to a model of the program and
runs it over the kit. For each change: how many files have another listing then, and the shortest of them.

";

/// How many files a row names.
const NAMED_MOST: usize = 3;

/// The text of `VARIANTS.md`.
pub fn variants_text() -> String {
    let kit = all();
    let listings = listings(&kit);
    let mut rows: Vec<(&str, String)> = Vec::new();
    for variant in variants() {
        let mut files: Vec<&Named> = catching(&variant, &kit, &listings).collect();
        files.sort_by_key(|(_, job)| job.len());
        let shown: Vec<String> = files.iter().take(NAMED_MOST).map(|(name, _)| format!("`{name}`")).collect();
        rows.push((
            variant.heading,
            format!("| {} | {} | {} |\n", variant.words, files.len(), shown.join(", ")),
        ));
    }
    let mut text = INTRODUCTION.to_string();
    text += &format!("{} files, {} wrong programs.\n", kit.len(), rows.len());
    let mut headings: Vec<&str> = Vec::new();
    for (heading, _) in &rows {
        if !headings.contains(heading) {
            headings.push(heading);
        }
    }
    for heading in headings {
        text += &format!("\n## {heading}\n\n| what is wrong | files | the shortest |\n|---|---|---|\n");
        rows.iter().filter(|row| row.0 == heading).for_each(|row| text += &row.1);
    }
    text
}

#[cfg(test)]
mod tests {
    use super::*;

    #[test]
    fn names_and_files_are_all_different() {
        let kit = all();
        let names: BTreeSet<&String> = kit.iter().map(|(name, _)| name).collect();
        assert_eq!(names.len(), kit.len());
        let bytes: BTreeSet<&Vec<u8>> = kit.iter().map(|(_, bytes)| bytes).collect();
        assert_eq!(bytes.len(), kit.len());
    }

    #[test]
    fn without_a_departure_the_model_agrees_with_document_01() {
        let stored = jobs::all().into_iter().map(|job| job.bytes);
        for job in stored.chain(all().into_iter().map(|(_, bytes)| bytes)) {
            assert_eq!(reading::answer(&job, Departure::Straight), document01::answer(&job));
        }
    }

    #[test]
    fn a_refused_file_is_refused_with_the_number_in_its_name() {
        for (name, bytes) in all() {
            let listing = String::from_utf8(document01::answer(&bytes)).expect("a listing is ASCII");
            let words: Vec<&str> = name.split('-').collect();
            match words[..] {
                ["refused", number, ..] | ["two", "faults", number, ..] => {
                    assert!(listing.starts_with(&format!("refused {number} ")), "{name}: {listing}")
                }
                _ => assert!(listing.starts_with("query "), "{name}: {listing}"),
            }
        }
    }

    #[test]
    fn every_wrong_program_is_caught() {
        let kit = all();
        let listings = listings(&kit);
        for variant in variants() {
            let caught = catching(&variant, &kit, &listings).next().is_some();
            assert!(caught, "{}: {}", variant.heading, variant.words);
        }
    }

    #[test]
    fn the_stored_list_of_wrong_programs_is_the_one_that_is_printed() {
        let stored = fs::read_to_string("../conformance/VARIANTS.md").expect("a stored list");
        assert_eq!(stored, variants_text());
    }

    #[test]
    fn the_stored_kit_is_the_one_that_is_written() {
        let folder = Path::new("../conformance");
        let kit = all();
        for ((name, bytes), listing) in kit.iter().zip(listings(&kit)) {
            assert_eq!(&fs::read(folder.join(format!("jobs/{name}.job"))).expect("a stored job"), bytes);
            let stored = fs::read(folder.join(format!("listings/{name}.txt"))).expect("a stored listing");
            assert_eq!(stored, listing);
        }
        for part in ["jobs", "listings"] {
            assert_eq!(fs::read_dir(folder.join(part)).expect("a stored folder").count(), kit.len());
        }
    }
}
