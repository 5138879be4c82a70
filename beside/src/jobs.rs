//! Job files through the library's call, against the independent reading of document 01 and the Rust's numbers.

use crate::comparison::seed_of_round;
use crate::library::{JobAnswer, Library, mark, marked_bytes};
use crate::quiet::by_the_rust;
use crate::shrink::{parts, smallest, without};
use crate::tally::{Outcome, Tallies};
use compare::document01;
use compare::jobs::mesh::FAMILIES;
use compare::jobs::random::Random;
use compare::jobs::shapes::{moved_element, scatter};
use compare::jobs::{self, searches};
use sobrizenta::raw::SOBRIZENTA_LISTING_ROOM;

/// The room that the call asks for.
pub const ROOM: usize = SOBRIZENTA_LISTING_ROOM;

const ROUNDS: u64 = 8;
const DAMAGED: usize = 40_000;
const RANDOM: usize = 20_000;

/// A damaged file that would ask for more searches than this is left out.
const MOST_SEARCHES: usize = 20_000;

/// Compares everything, or ends at the first difference with the smallest file found.
pub fn run(library: &dyn Library, seed: u64) -> Result<(), String> {
    let mut tallies = Tallies::of("job files");
    for file in short_files() {
        job(library, &mut tallies, "every file of 0 to 2 bytes", file)?;
    }
    for file in marks() {
        job(library, &mut tallies, "every mark, with a whole body and after a sound file", file)?;
    }
    let mut sound = Vec::new();
    for round in 0..ROUNDS {
        for file in jobs::drawn(seed_of_round(seed, round)) {
            job(library, &mut tallies, "the kinds of the stored list", file.bytes.clone())?;
            sound.push(file.bytes);
        }
    }
    let mut random = Random::seeded("damaged files", seed);
    for _ in 0..DAMAGED {
        let at = random.below(sound.len());
        let file = damaged(&mut random, &sound[at]);
        if searches(&file) <= MOST_SEARCHES {
            job(library, &mut tallies, "damaged files", file)?;
        }
    }
    let mut random = Random::seeded("random files", seed);
    for _ in 0..RANDOM {
        job(library, &mut tallies, "random files", of_any_records(&mut random))?;
    }
    for length in [0, 1, ROOM / 2, ROOM - 1] {
        room_refused(library, length)?;
        tallies.add("a listing without room", Outcome::Refused { number: 7 });
    }
    tallies.print();
    Ok(())
}

fn job(
    library: &dyn Library,
    tallies: &mut Tallies,
    class: &'static str,
    file: Vec<u8>,
) -> Result<(), String> {
    match compared(library, &file) {
        Ok(outcome) => {
            tallies.add(class, outcome);
            Ok(())
        }
        Err(_) => Err(format!("class: {class}\n{}", report(library, file))),
    }
}

// ---- both sides

/// What both sides come to, or how they differ. Bytes are lent beyond the room that is asked for.
pub fn compared(library: &dyn Library, file: &[u8]) -> Result<Outcome, String> {
    let mut lent = marked_bytes(0, ROOM + 7);
    let answer = library.job(file, &mut lent);
    let listing = by_the_rust(|| Ok(document01::answer(file)))
        .map_err(|why| format!("document 01 accepts it, the Rust does not: {why}"))?;
    let expected = JobAnswer { question: 0, place: 0, bytes: listing.len() };
    if answer != expected {
        return Err(format!("{answer:?}, expected {expected:?}"));
    }
    for (place, &byte) in lent.iter().enumerate() {
        let expected = listing.get(place).copied().unwrap_or(mark(0, place) as u8);
        if byte != expected {
            return Err(format!("byte {place} of the listing: {byte}, expected {expected}"));
        }
    }
    Ok(outcome(&listing))
}

fn outcome(listing: &[u8]) -> Outcome {
    let text = String::from_utf8_lossy(listing);
    let mut words = text.split_ascii_whitespace();
    let accepted = words.next() == Some("query");
    let number: usize = words.next().and_then(|word| word.parse().ok()).expect("a listing begins so");
    if accepted {
        Outcome::Accepted { call: "job files".into(), points: number }
    } else {
        Outcome::Refused { number: number as u64 }
    }
}

/// A listing with less room than that is refused with 7, whatever the file, and stays.
fn room_refused(library: &dyn Library, length: usize) -> Result<(), String> {
    let mut lent = marked_bytes(0, length);
    let answer = library.job(b"QF", &mut lent);
    let expected = JobAnswer { question: 7, place: 0, bytes: 0 };
    if answer == expected && lent == marked_bytes(0, length) {
        return Ok(());
    }
    Err(format!("a listing of {length} bytes: {answer:?}, expected {expected:?} and nothing written\n"))
}

/// The smallest file found in which the sides differ, and how.
fn report(library: &dyn Library, file: Vec<u8>) -> String {
    let small = smallest(file, |file| simpler(file), |file| compared(library, file).is_err());
    let difference = compared(library, &small).err().expect("the smallest file differs");
    let bytes: Vec<String> = small.iter().map(|byte| format!("{byte:02x}")).collect();
    format!("job file of {} bytes: {}\n{difference}\n", small.len(), bytes.join(" "))
}

fn simpler(file: &[u8]) -> Box<dyn Iterator<Item = Vec<u8>> + '_> {
    let shorter = parts(file.len()).map(|part| without(file, 1, &part));
    let zeros = (0..file.len()).filter(|&at| file[at] != 0).map(|at| {
        let mut file = file.to_vec();
        file[at] = 0;
        file
    });
    Box::new(shorter.chain(zeros))
}

// ---- files

fn short_files() -> impl Iterator<Item = Vec<u8>> {
    let one = (0..=255).map(|byte| vec![byte]);
    let two = (0..=255).flat_map(|first| (0..=255).map(move |second| vec![first, second]));
    std::iter::once(Vec::new()).chain(one).chain(two)
}

/// Each of the 65,536 marks before a body that is long enough, and after the records of a sound job.
fn marks() -> impl Iterator<Item = Vec<u8>> {
    let sound = jobs::mesh::Mesh::of(4, &[jobs::mesh::SQUARE]).job(1, &[[3.0, 1.0]]);
    (0..=u16::MAX).map(u16::to_be_bytes).flat_map(move |mark| {
        let first = [&mark[..], &[4], &[0; 15]].concat();
        let last = [&sound[..], &mark, &[0; 16]].concat();
        [first, last]
    })
}

/// A good file with bytes changed, lost, added or cut off, or with parts repeated or exchanged.
fn damaged(random: &mut Random, file: &[u8]) -> Vec<u8> {
    let mut file = file.to_vec();
    for _ in 0..1 + random.below(3) {
        if file.is_empty() {
            break;
        }
        let at = random.below(file.len());
        let end = file.len().min(at + 1 + random.below(40));
        match random.below(7) {
            0 => file[at] ^= 1 << random.below(8),
            1 => file[at] = random.bits() as u8,
            2 => file.truncate(at),
            3 => drop(file.drain(at..end)),
            4 => file.insert(at, random.pick(b"QFNEP\0\x01\xff")),
            5 => {
                let part = file[at..end].to_vec();
                let to = random.below(file.len());
                file.splice(to..to, part);
            }
            _ => file.rotate_left(at),
        }
    }
    file
}

/// Records of every mark in any order and number, their bodies mostly sound, sometimes cut or of any bytes.
fn of_any_records(random: &mut Random) -> Vec<u8> {
    let family = random.pick(&FAMILIES);
    let limit = random.below(4) as u16;
    let mesh = moved_element(random, family, 0.5);
    let mut records = mesh.records();
    let points = scatter(random, 3, -1.0, 3.0);
    records.extend(points.into_iter().map(jobs::mesh::point_record));
    for _ in 0..random.below(3) {
        let again = records[random.below(records.len())].clone();
        records.insert(random.below(records.len()), again);
    }
    random.shuffle(&mut records);
    records.truncate(records.len() - random.below(4).min(records.len()));
    records.insert(0, jobs::mesh::family_record(random.pick(&[family, family, family, 5]), limit));
    if random.below(6) == 0 {
        let at = random.below(records.len());
        let stray: Vec<u8> = (0..random.below(20)).map(|_| random.bits() as u8).collect();
        records.insert(at, stray);
    }
    let mut file = records.concat();
    if random.below(6) == 0 {
        file.truncate(random.below(file.len() + 1));
    }
    file
}
