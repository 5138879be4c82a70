//! The arguments of a call, and the bytes of a job file, as docs/DEFINITION.md writes them.

use super::{Asked, NAME_COLUMNS};
use crate::jobs::mesh::{element_record, family_record, node_record, point_record};
use crate::operators::{Call, Formulation, Operator, Pairs};
use crate::published;
use crate::queries::QueryCall;
use std::array;

/// Every name that a line of a block can have before its answer.
const NAMES: [&str; 16] = [
    "call",
    "family",
    "iteration limit",
    "node list",
    "connectivity",
    "point list",
    "element numbers",
    "reference points",
    "formulation",
    "thickness",
    "material numbers",
    "material table",
    "pairs given",
    "pairs",
    "places",
    "bytes",
];

/// The lines of a block before its answer: names and values.
#[derive(Clone, Default)]
pub struct Arguments(Vec<(String, Vec<String>)>);

impl Arguments {
    pub fn of(lines: &[String]) -> Arguments {
        let mut arguments = Arguments::default();
        for line in lines {
            let (name, values) = line.split_at(NAME_COLUMNS);
            if name.trim().is_empty() {
                let (_, before) = arguments.0.last_mut().expect("a line goes on with the one before");
                before.extend(words(values));
            } else {
                arguments.put(name.trim(), words(values));
            }
        }
        arguments
    }

    /// With the changes of a table's row: names and values, with semicolons between.
    pub fn changed(&self, changes: &str) -> Arguments {
        let mut changed = self.clone();
        for change in changes.split(';').map(str::trim) {
            let fits = |name: &&&str| change.starts_with(&format!("{name} "));
            let name = NAMES.iter().filter(fits).max_by_key(|name| name.len());
            let name = name.unwrap_or_else(|| panic!("no argument is named in {change:?}"));
            changed.put(name, words(&change[name.len()..]));
        }
        changed
    }

    fn put(&mut self, name: &str, values: Vec<String>) {
        assert!(NAMES.contains(&name), "{name:?} is no argument");
        self.0.retain(|(known, _)| known != name);
        self.0.push((name.into(), values));
    }

    fn find(&self, name: &str) -> Option<&[String]> {
        let found = self.0.iter().find(|(known, _)| known == name)?;
        Some(&found.1)
    }

    fn get(&self, name: &str) -> &[String] {
        self.find(name).unwrap_or_else(|| panic!("{name:?} is missing"))
    }

    fn word(&self, name: &str) -> String {
        self.get(name).join(" ")
    }

    fn number(&self, name: &str) -> u64 {
        self.word(name).parse().expect("a number")
    }

    /// `none` is the empty list.
    fn list<T>(&self, name: &str, read: impl Fn(&String) -> T) -> Vec<T> {
        let values = self.get(name);
        if values == ["none"] { Vec::new() } else { values.iter().map(read).collect() }
    }

    fn floats(&self, name: &str) -> Vec<f64> {
        self.list(name, |word| float(word))
    }

    fn indices(&self, name: &str) -> Vec<usize> {
        self.list(name, |word| word.parse().expect("a number"))
    }

    fn connectivity(&self) -> Vec<u32> {
        self.list("connectivity", |word| word.parse().expect("a node number"))
    }

    pub fn asked(&self) -> Asked {
        if self.find("bytes").is_some() {
            return Asked::Job(self.list("bytes", |word| byte(word)));
        }
        match self.word("call").as_str() {
            "query" => Asked::Query(self.query()),
            "interpolation" => Asked::Operator(self.operator(Operator::Interpolation)),
            "strain" => Asked::Operator(self.operator(Operator::Strain)),
            "stress" => Asked::Operator(self.operator(Operator::Stress)),
            call => panic!("{call:?} is no call"),
        }
    }

    fn query(&self) -> QueryCall {
        let mut call = QueryCall {
            family: self.number("family"),
            limit: self.number("iteration limit"),
            nodes: self.floats("node list"),
            elements: self.connectivity(),
            points: self.floats("point list"),
            spare: [0; 12],
        };
        call.spare = self.spare(call.lent());
        call
    }

    fn operator(&self, operator: Operator) -> Call {
        let stress = operator == Operator::Stress;
        let in_plane = operator != Operator::Interpolation && self.in_plane();
        let mut call = Call {
            operator,
            family: self.number("family"),
            formulation: if in_plane { Formulation::PlaneStrain } else { Formulation::Axisymmetric },
            thickness: if in_plane { float(&self.word("thickness")) } else { 0.0 },
            yes: 1,
            nodes: self.floats("node list"),
            elements: self.connectivity(),
            element_indices: self.indices("element numbers"),
            reference_points: self.floats("reference points"),
            material_ids: if stress { self.indices("material numbers") } else { Vec::new() },
            material_table: if stress { self.floats("material table") } else { Vec::new() },
            pairs: if stress { self.pairs() } else { Pairs::NotGiven(Vec::new()) },
            spare: [0; 3],
        };
        call.spare = self.spare(call.lent());
        call
    }

    fn in_plane(&self) -> bool {
        match self.word("formulation").as_str() {
            "axisymmetric" => false,
            "plane strain" => true,
            formulation => panic!("{formulation:?} is no formulation"),
        }
    }

    /// The pairs, by their angles where they are the cosine and the sine of some.
    fn pairs(&self) -> Pairs {
        let numbers = self.floats("pairs");
        match self.word("pairs given").as_str() {
            "no" => return Pairs::NotGiven(numbers),
            "yes" => {}
            given => panic!("{given:?} is neither yes nor no"),
        }
        let angle = |&[c, s]: &[f64; 2]| {
            let angle = s.atan2(c);
            let same = [angle.cos().to_bits(), angle.sin().to_bits()] == [c, s].map(f64::to_bits);
            same.then_some(angle)
        };
        let angles: Option<Vec<f64>> = published::pairs(&numbers).iter().map(angle).collect();
        match angles {
            Some(angles) if numbers.len() == 2 * angles.len() => Pairs::OfAngles(angles),
            _ => Pairs::Any(numbers),
        }
    }

    /// How many places the lent lists have beyond those that are asked for: none, if no places are told.
    fn spare<const LISTS: usize>(&self, asked: [usize; LISTS]) -> [isize; LISTS] {
        let Some(told) = self.find("places") else { return [0; LISTS] };
        assert_eq!(told.len(), LISTS);
        let signed = |number: usize| isize::try_from(number).expect("a short list");
        array::from_fn(|list| signed(told[list].parse().expect("a number")) - signed(asked[list]))
    }
}

fn words(text: &str) -> Vec<String> {
    text.split_ascii_whitespace().map(String::from).collect()
}

/// A decimal, or 0x and the 16 digits of the bits.
fn float(word: &str) -> f64 {
    match word.strip_prefix("0x") {
        Some(digits) if digits.len() == 16 => {
            f64::from_bits(u64::from_str_radix(digits, 16).expect("digits"))
        }
        _ => word.parse().unwrap_or_else(|_| panic!("{word:?} is no number")),
    }
}

fn byte(word: &str) -> u8 {
    u8::from_str_radix(word, 16).unwrap_or_else(|_| panic!("{word:?} is no byte"))
}

/// The bytes of a job file that is written as parts with semicolons between: whole records by their words, other bytes
/// after the word `bytes`, and `N ×` before a part that stands N times.
pub fn job_of(file: &str) -> Vec<u8> {
    if file == "empty" { Vec::new() } else { file.split(';').flat_map(|part| part_of(part.trim())).collect() }
}

fn part_of(part: &str) -> Vec<u8> {
    if let Some((times, part)) = part.split_once(" × ") {
        return part_of(part).repeat(times.parse().expect("a number"));
    }
    let words = words(part);
    let values = &words[1..];
    let pair = || array::from_fn(|at| float(&values[at]));
    match words[0].as_str() {
        "family" => family_record(values[0].parse().expect("a family"), values[1].parse().expect("a limit")),
        "node" => node_record(pair()),
        "point" => point_record(pair()),
        "element" => {
            let row: Vec<u32> = values.iter().map(|word| word.parse().expect("a node number")).collect();
            element_record(&row)
        }
        "bytes" => values.iter().map(|word| byte(word)).collect(),
        word => panic!("{word:?} is no record"),
    }
}
