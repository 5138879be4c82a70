//! Document 01 read on its own: the job file, its questions, the two counts and the listing.
//!
//! Nothing here computes a distance. The numbers of an accepted job come from outside (`published::nearest`);
//! everything else of the listing is decided here, from its words.

use crate::published;

/// Most nodes, elements and points a job file may have (question 21).
pub const MOST_NODES: usize = 512;
pub const MOST_ELEMENTS: usize = 256;
pub const MOST_POINTS: usize = 256;

/// Most steps a search may be given (question 4).
pub const MOST_ITERATIONS: u16 = 1000;

/// What a job file asks for.
#[derive(Default)]
pub struct Query {
    /// 4 or 9, also the count of node numbers in each element.
    pub family: u8,
    pub limit: u16,
    pub nodes: Vec<[f64; 2]>,
    pub elements: Vec<Vec<u32>>,
    pub points: Vec<[f64; 2]>,
}

/// The number of the first question answered "no", and its place.
#[derive(Debug, PartialEq, Eq)]
pub struct Refusal {
    pub number: u8,
    pub place: usize,
}

/// What the listing says of one point.
pub struct Answer {
    pub node: usize,
    pub node_distance: f64,
    pub element: usize,
    pub reference: [f64; 2],
    pub element_distance: f64,
    pub face_element: usize,
    pub face: u8,
    pub s: f64,
    pub face_distance: f64,
}

/// The listing of a job file, its numbers computed by the published Rust.
pub fn answer(job: &[u8]) -> Vec<u8> {
    answer_by(job, published::nearest)
}

/// The listing of a job file, its numbers computed by `nearest`, which sees accepted jobs only.
pub fn answer_by(job: &[u8], nearest: impl Fn(&Query) -> Vec<Answer>) -> Vec<u8> {
    match accept(job) {
        Ok(query) => listing(repeated(rows(&query)), &nearest(&query)),
        Err(refusal) => format!("refused {} {}\n", refusal.number, refusal.place).into_bytes(),
    }
}

/// The query of a job file all of whose questions pass.
pub fn accept(job: &[u8]) -> Result<Query, Refusal> {
    let query = read(job)?;
    ask_query(&query)?;
    Ok(query)
}

pub fn ask(passes: bool, number: u8, place: usize) -> Result<(), Refusal> {
    if passes { Ok(()) } else { Err(Refusal { number, place }) }
}

// ---- the job file

#[derive(Clone, Copy, PartialEq)]
enum Mark {
    Family,
    Node,
    Element,
    Point,
}

/// The records one after the other, each with its own questions in the order 18, 19, 20, 1, 21.
fn read(job: &[u8]) -> Result<Query, Refusal> {
    let mut query = Query::default();
    let mut rest = job;
    let mut record = 0;
    while !rest.is_empty() {
        let refuse = |number| Refusal { number, place: record };
        let mark = mark_of(rest).ok_or(refuse(18))?;
        ask((mark == Mark::Family) == (record == 0), 19, record)?;
        let end = 2 + body_length(mark, query.family);
        let body = rest.get(2..end).ok_or(refuse(20))?;
        take(&mut query, mark, body, record)?;
        rest = &rest[end..];
        record += 1;
    }
    // A file of no records lacks its QF.
    ask(record > 0, 19, 0)?;
    Ok(query)
}

/// `None` for an unknown mark, and for half of one at the file's end.
fn mark_of(rest: &[u8]) -> Option<Mark> {
    match rest.get(..2)? {
        b"QF" => Some(Mark::Family),
        b"QN" => Some(Mark::Node),
        b"QE" => Some(Mark::Element),
        b"QP" => Some(Mark::Point),
        _ => None,
    }
}

/// A QE is only measured after a QF with a known family.
fn body_length(mark: Mark, family: u8) -> usize {
    match mark {
        Mark::Family => 3,
        Mark::Element => 4 * usize::from(family),
        Mark::Node | Mark::Point => 16,
    }
}

/// Questions 1 and 21 and, if they pass, the record's place in the query.
fn take(query: &mut Query, mark: Mark, body: &[u8], record: usize) -> Result<(), Refusal> {
    match mark {
        Mark::Family => {
            ask(body[0] == 4 || body[0] == 9, 1, record)?;
            query.family = body[0];
            query.limit = u16::from_le_bytes([body[1], body[2]]);
        }
        Mark::Node => {
            ask(query.nodes.len() < MOST_NODES, 21, record)?;
            query.nodes.push(pair(body));
        }
        Mark::Element => {
            ask(query.elements.len() < MOST_ELEMENTS, 21, record)?;
            query.elements.push(body.chunks_exact(4).map(node_number).collect());
        }
        Mark::Point => {
            ask(query.points.len() < MOST_POINTS, 21, record)?;
            query.points.push(pair(body));
        }
    }
    Ok(())
}

fn pair(body: &[u8]) -> [f64; 2] {
    let (x, y) = body.split_at(8);
    [x, y].map(|bytes| f64::from_le_bytes(bytes.try_into().expect("eight bytes a coordinate")))
}

fn node_number(bytes: &[u8]) -> u32 {
    u32::from_le_bytes(bytes.try_into().expect("four bytes a node number"))
}

// ---- the query's questions

/// 4, 8, 9 and 10. The others (1, 2, 3, 5) pass for every file whose records pass, and 7 does because the
/// program lends itself enough room.
fn ask_query(query: &Query) -> Result<(), Refusal> {
    ask(query.limit <= MOST_ITERATIONS, 4, 0)?;
    ask_node_numbers(rows(query), query.nodes.len())?;
    ask(!query.nodes.is_empty(), 9, 0)?;
    ask(!query.elements.is_empty(), 10, 0)
}

fn rows(query: &Query) -> impl Iterator<Item = &[u32]> {
    query.elements.iter().map(Vec::as_slice)
}

/// 8, element by element.
pub fn ask_node_numbers<'a>(
    elements: impl Iterator<Item = &'a [u32]>,
    node_count: usize,
) -> Result<(), Refusal> {
    for (element, numbers) in elements.enumerate() {
        let known = |&number: &u32| (number as usize) < node_count;
        ask(numbers.iter().all(known), 8, element)?;
    }
    Ok(())
}

// ---- the counts and the listing

/// How many elements have fewer distinct node numbers than their family.
pub fn repeated<'a>(elements: impl Iterator<Item = &'a [u32]>) -> usize {
    let repeats = |numbers: &&[u32]| {
        let seen_before = |at: usize| numbers[..at].contains(&numbers[at]);
        (0..numbers.len()).any(seen_before)
    };
    elements.filter(repeats).count()
}

/// How many points have an element at distance 0.
pub fn inside(distances: impl Iterator<Item = f64>) -> usize {
    distances.filter(|&distance| distance == 0.0).count()
}

fn listing(repeated: usize, answers: &[Answer]) -> Vec<u8> {
    let inside = inside(answers.iter().map(|answer| answer.element_distance));
    let mut text = format!("query {} {repeated} {inside}\n", answers.len());
    for (point, answer) in answers.iter().enumerate() {
        text += &line(point, answer);
    }
    text.into_bytes()
}

fn line(point: usize, answer: &Answer) -> String {
    format!(
        "{point} {} {} {} {} {} {} {} {} {} {}\n",
        answer.node,
        digits(answer.node_distance),
        answer.element,
        digits(answer.reference[0]),
        digits(answer.reference[1]),
        digits(answer.element_distance),
        answer.face_element,
        answer.face,
        digits(answer.s),
        digits(answer.face_distance),
    )
}

/// NaNs all print as one value; every other number by its bits, the sign of a zero too.
pub fn digits(number: f64) -> String {
    if number.is_nan() { "nan".into() } else { format!("{:016x}", number.to_bits()) }
}

#[cfg(test)]
mod tests {
    use super::*;

    fn refusal(job: &[u8]) -> Option<(u8, usize)> {
        accept(job).err().map(|refusal| (refusal.number, refusal.place))
    }

    const QF: &[u8] = b"QF\x04\x00\x00";
    const QN: &[u8] = b"QN0123456701234567";

    #[test]
    fn an_empty_file_lacks_its_first_record() {
        assert_eq!(refusal(b""), Some((19, 0)));
    }

    #[test]
    fn one_stray_byte_is_half_a_mark() {
        assert_eq!(refusal(b"Q"), Some((18, 0)));
        assert_eq!(refusal(&[QF, QN, b"\n"].concat()), Some((18, 2)));
    }

    #[test]
    fn a_second_family_is_refused_before_its_body_is_read() {
        assert_eq!(refusal(&[QF, QN, b"QF"].concat()), Some((19, 2)));
    }

    #[test]
    fn a_node_too_many_is_counted_after_its_body_is_whole() {
        let most = [QF, &QN.repeat(512)].concat();
        assert_eq!(refusal(&[&most, QN].concat()), Some((21, 513)));
        assert_eq!(refusal(&[&most, &QN[..17]].concat()), Some((20, 513)));
        assert_eq!(refusal(&most), Some((10, 0)));
    }

    #[test]
    fn the_limit_comes_before_the_node_numbers_and_these_before_the_counts() {
        let element = b"QE\x00\x00\x00\x00\x00\x00\x00\x00\x00\x00\x00\x00\x01\x00\x00\x00";
        let too_many = b"QF\x04\xe9\x03";
        assert_eq!(refusal(&[&too_many[..], element].concat()), Some((4, 0)));
        assert_eq!(refusal(&[QF, element].concat()), Some((8, 0)));
        assert_eq!(refusal(&[QF, element, QN].concat()), Some((8, 0)));
        assert_eq!(refusal(&[QF, element, QN, QN].concat()), None);
        assert_eq!(refusal(QF), Some((9, 0)));
    }
}
