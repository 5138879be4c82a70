//! The rows of docs/DEFINITION.md: its worked calls, its tables of refusals and its job files, read out of the
//! document and answered by the published Rust. Questions, counts and job files are our own reading.
//!
//! A worked call is a fenced block with the word `call`, a job file one with the word `job`. A line has a name and
//! values; one that begins with a space goes on with the values of the line before. From `answer` or `listing` on it
//! is what is answered. In a table under the heading `changed arguments` a row changes some lines of the last block
//! before it, and under the heading `file` a row is a job file.

mod arguments;

use crate::document01::{self, Refusal, digits, inside, repeated};
use crate::operators::{self, Call, Triplet};
use crate::published;
use crate::published::mesh::quad2d::QuadMeshQueryResult;
use crate::queries::{self, QueryCall};
use arguments::{Arguments, job_of};

/// The columns of a block that names stand in.
const NAME_COLUMNS: usize = 20;

/// How many values or triplets stand in a line of an answer.
const IN_A_LINE: usize = 4;

/// The lists of a query, in the order of `QuadMeshQueryResult`.
const LISTS: [&str; 12] = [
    "nodeIndices",
    "nodePoints",
    "nodeDistances",
    "elementIndices",
    "elementReferences",
    "elementPoints",
    "elementDistances",
    "faceElementIndices",
    "faceLocalFaces",
    "faceCoordinates",
    "facePoints",
    "faceDistances",
];

/// What a row asks.
pub enum Asked {
    Query(QueryCall),
    Operator(Call),
    Job(Vec<u8>),
}

/// A row, and where it begins in the document.
pub struct Row {
    pub line: usize,
    pub asked: Asked,
    answer: Answer,
}

/// What the document says is answered.
enum Answer {
    /// All lines of a block's answer.
    Whole(Vec<String>),
    /// The first line alone, in a table.
    First(String),
}

impl Row {
    /// What the document and the Rust answer, where they differ.
    pub fn difference(&self) -> Option<String> {
        let found = answered(&self.asked);
        let (same, told) = match &self.answer {
            Answer::Whole(lines) => (*lines == found, lines.join("\n")),
            Answer::First(line) => (*line == found[0], line.clone()),
        };
        (!same).then(|| format!("line {}:\n{told}\nexpected:\n{}", self.line, found.join("\n")))
    }
}

/// The text of the document.
pub fn document() -> String {
    let path = concat!(env!("CARGO_MANIFEST_DIR"), "/../docs/DEFINITION.md");
    std::fs::read_to_string(path).expect("the document")
}

/// Every row of the document.
pub fn rows(text: &str) -> Vec<Row> {
    let mut rows = Vec::new();
    let mut last_block = Arguments::default();
    let mut heading = "";
    let mut lines = text.lines().zip(1..);
    while let Some((text, line)) = lines.next() {
        if begins_block(text) {
            let (given, answer) = block_of(lines.by_ref().map(|(text, _)| text));
            last_block = Arguments::of(&given);
            rows.push(Row { line, asked: last_block.asked(), answer: Answer::Whole(answer) });
        } else if let Some([first, second]) = cells(text) {
            let (asked, name) = match (heading, in_code_font(first)) {
                ("changed arguments", Some(changes)) => (last_block.changed(changes).asked(), "answer"),
                ("file", Some(file)) => (Asked::Job(job_of(file)), "listing"),
                (_, Some(_)) => continue,
                (_, None) => {
                    heading = first;
                    continue;
                }
            };
            rows.push(Row { line, asked, answer: Answer::First(named(name, second)) });
        }
    }
    rows
}

fn begins_block(text: &str) -> bool {
    text == "```call" || text == "```job"
}

/// The lines of a block, those before its answer and those of it.
fn block_of<'text>(lines: impl Iterator<Item = &'text str>) -> (Vec<String>, Vec<String>) {
    let answers = |text: &String| text.starts_with("answer ") || text.starts_with("listing ");
    let mut given: Vec<String> = lines.take_while(|text| *text != "```").map(String::from).collect();
    let answer = given.split_off(given.iter().position(answers).unwrap_or(given.len()));
    (given, answer)
}

/// The first two cells of a table's row.
fn cells(text: &str) -> Option<[&str; 2]> {
    let mut cells = text.strip_prefix("| ")?.split('|').map(str::trim);
    Some([cells.next()?, cells.next()?])
}

fn in_code_font(cell: &str) -> Option<&str> {
    cell.strip_prefix('`')?.strip_suffix('`')
}

/// The document with the answer of each block written again.
pub fn rewritten(text: &str) -> String {
    let mut written = Vec::new();
    let mut lines = text.lines();
    while let Some(text) = lines.next() {
        written.push(text.to_string());
        if begins_block(text) {
            let (given, _) = block_of(lines.by_ref());
            let answer = answered(&Arguments::of(&given).asked());
            written.extend(given.into_iter().chain(answer).chain(["```".into()]));
        }
    }
    written.join("\n") + "\n"
}

// ---- answers

/// The lines of an answer, as a block has them.
fn answered(asked: &Asked) -> Vec<String> {
    match asked {
        Asked::Query(call) => queries::questions(call).map_or_else(refused, |()| queried(call)),
        Asked::Operator(call) => operators::questions(call).map_or_else(refused, |()| operated(call)),
        Asked::Job(job) => {
            let listing = String::from_utf8(document01::answer(job)).expect("a listing is ASCII");
            spread("listing", listing.lines().map(String::from).collect(), 1)
        }
    }
}

fn refused(Refusal { number, place }: Refusal) -> Vec<String> {
    vec![named("answer", &format!("refused {number} {place}"))]
}

fn queried(call: &QueryCall) -> Vec<String> {
    let result = published::query(call).expect("the Rust accepts what document 01 accepts");
    let inside = inside(result.nearest_element_distances.iter().copied());
    let mut lines =
        accepted([("points", call.point_count()), ("repeated", repeated(call.rows())), ("inside", inside)]);
    for (name, values) in LISTS.into_iter().zip(lists_of(result)) {
        lines.extend(spread(name, values, IN_A_LINE));
    }
    lines
}

fn lists_of(result: QuadMeshQueryResult<f64>) -> [Vec<String>; 12] {
    let indices = |list: Vec<usize>| list.iter().map(usize::to_string).collect();
    let floats = |list: Vec<f64>| list.into_iter().map(digits).collect();
    let pairs = |list: Vec<[f64; 2]>| list.into_iter().flatten().map(digits).collect();
    [
        indices(result.nearest_node_indices),
        pairs(result.nearest_node_points),
        floats(result.nearest_node_distances),
        indices(result.nearest_element_indices),
        pairs(result.nearest_element_reference_points),
        pairs(result.nearest_element_points),
        floats(result.nearest_element_distances),
        indices(result.nearest_face_element_indices),
        indices(result.nearest_face_local_faces.into_iter().map(usize::from).collect()),
        floats(result.nearest_face_reference_coordinates),
        pairs(result.nearest_face_points),
        floats(result.nearest_face_distances),
    ]
}

fn operated(call: &Call) -> Vec<String> {
    let triplets = published::operator(call).expect("the Rust accepts what document 01 accepts").triplets;
    let mut lines = accepted([
        ("rowCount", call.rows_a_point() * call.points()),
        ("columnCount", call.columns_a_node() * call.node_count()),
        ("tripletCount", triplets.len()),
    ]);
    let triplet = |one: &Triplet| format!("{:2} {:2} {}  ", one.row, one.column, digits(one.value));
    lines.extend(spread("triplets", triplets.iter().map(triplet).collect(), IN_A_LINE));
    lines
}

fn accepted(counts: [(&str, usize); 3]) -> Vec<String> {
    let counts = counts.map(|(name, count)| named(name, &count.to_string()));
    [vec![named("answer", "accepted")], counts.to_vec()].concat()
}

/// A name and its values, some in each line.
fn spread(name: &str, values: Vec<String>, in_a_line: usize) -> Vec<String> {
    let names = std::iter::once(name).chain(std::iter::repeat(""));
    let lines = values.chunks(in_a_line).map(|values| values.join(" "));
    if values.is_empty() {
        vec![named(name, "none")]
    } else {
        names.zip(lines).map(|(name, line)| named(name, &line)).collect()
    }
}

fn named(name: &str, values: &str) -> String {
    format!("{name:NAME_COLUMNS$}{values}").trim_end().into()
}

#[cfg(test)]
mod tests {
    use super::*;
    use crate::operators::Pairs;

    #[test]
    fn the_rust_answers_every_row_as_the_document_does() {
        let rows = rows(&document());
        let differences: Vec<String> = rows.iter().filter_map(Row::difference).collect();
        assert!(differences.is_empty(), "{}", differences.join("\n\n"));
    }

    #[test]
    fn every_kind_of_row_is_there() {
        let rows = rows(&document());
        let count = |is: fn(&Row) -> bool| rows.iter().filter(|row| is(row)).count();
        assert!(count(|row| matches!((&row.asked, &row.answer), (Asked::Query(_), Answer::Whole(_)))) > 10);
        assert!(
            count(|row| matches!((&row.asked, &row.answer), (Asked::Operator(_), Answer::Whole(_)))) > 10
        );
        assert!(
            count(|row| matches!((&row.asked, &row.answer), (Asked::Operator(_), Answer::First(_)))) > 20
        );
        assert!(count(|row| matches!((&row.asked, &row.answer), (Asked::Job(_), Answer::First(_)))) > 10);
        assert!(count(|row| matches!((&row.asked, &row.answer), (Asked::Job(_), Answer::Whole(_)))) == 1);
    }

    /// Else the material of a worked call would be turned by our own reading.
    #[test]
    fn the_pairs_of_the_worked_calls_are_those_of_angles() {
        for row in rows(&document()) {
            if let (Asked::Operator(call), Answer::Whole(_)) = (&row.asked, &row.answer) {
                assert!(!matches!(call.pairs, Pairs::Any(_)), "line {}", row.line);
            }
        }
    }

    #[test]
    fn a_wrong_digit_is_found() {
        let text = document();
        let at = text.rfind("3ff").expect("a number at or above 1");
        let wrong = format!("{}2{}", &text[..at], &text[at + 1..]);
        assert!(rows(&wrong).iter().any(|row| row.difference().is_some()));
    }
}
