//! The program once more, from a job's bytes to its listing, with at most one departure from document 01 in how
//! it reads, asks, counts or prints. The numbers are the published Rust's.
//!
//! Without a departure it must agree with `document01` on every job. With one it shows what the kit is worth.

use crate::document01::{
    Answer, MOST_ELEMENTS, MOST_ITERATIONS, MOST_NODES, MOST_POINTS, Query, Refusal, ask, digits,
};
use crate::published;
use crate::wrong_turns::Turn;
use crate::wrong_turns::element::{Element, Projection};

/// The departures, group by group, each with what it does in words.
macro_rules! departures {
    ($($group:literal { $($name:ident = $words:literal,)* })*) => {
        #[derive(Clone, Copy, Debug, PartialEq)]
        pub enum Departure {
            /// No departure; only the tests ask for it.
            #[cfg(test)]
            Straight,
            $($($name,)*)*
        }

        pub const GROUPS: &[(&str, &[(Departure, &str)])] = &[
            $(($group, &[$((Departure::$name, $words),)*]),)*
        ];
    };
}

departures! {
    "Reading the file" {
        OneBlockRead = "only the first 4,096 bytes are read",
        TwoBlocksRead = "only the first 16,384 bytes are read",
        EmptyIsNoNode = "an empty file is asked the query's questions",
        EmptyIsHalfMark = "an empty file is refused with 18",
        EmptyIsCut = "an empty file is refused with 20",
        HalfMarkIgnored = "a single byte at the end is ignored",
        CutRecordIgnored = "a last record that is cut short is ignored",
        WhiteSpaceSkipped = "white space between records is skipped",
        UnknownMarkSkipped = "an unknown mark is skipped",
        LowerCaseTaken = "marks in lower case are taken",
        FamilyLater = "the family record need not be first",
        FamilyAgain = "a second family record replaces the first",
        AnyFamilyTaken = "every family but 9 is taken as 4",
        LimitInOneByte = "the limit is the first of its two bytes",
        LimitBigEndian = "the limit is read with its greatest byte first",
        LimitSigned = "the limit is read as a signed number; below 0 it makes no step",
        NumbersBigEndian = "node numbers are read with their greatest byte first",
        NumbersInTwoBytes = "node numbers keep their two low bytes only",
        NumbersSigned = "node numbers are read as signed; below 0 node 0 is taken",
        FloatsBigEndian = "coordinates are read with their greatest byte first",
        CoordinatesExchanged = "the two coordinates of a point are exchanged",
        ElementOfFour = "an element record has four numbers in family 9 too",
    }
    "The questions, their order and their limits" {
        FirstBeforeMark = "19 is asked before 18",
        BodyBeforeFirst = "20 is asked before 19",
        FamilyBeforeBody = "1 is asked before 20",
        CountBeforeBody = "21 is asked before 20",
        CountNotAsked = "21 is not asked",
        LimitWithRecord = "4 is asked when the family record is read",
        NumbersWithRecord = "8 is asked when an element record is read, of the nodes read so far",
        NumbersBeforeLimit = "8 is asked before 4",
        LimitLast = "4 is asked after 8, 9 and 10",
        NodesBeforeNumbers = "9 is asked before 8",
        ElementsBeforeNodes = "10 is asked before 9",
        FewerNodes = "at most 511 nodes",
        MoreNodes = "at most 513 nodes",
        FewerElements = "at most 255 elements",
        MoreElements = "at most 257 elements",
        FewerPoints = "at most 255 points",
        MorePoints = "at most 257 points",
        FewerIterations = "a limit of 1,000 is refused",
        MoreIterations = "a limit of 1,001 is accepted",
        NumbersUpToCount = "a node number equal to the node count passes 8",
        NumbersOfCorners = "8 looks at the first four numbers of an element only",
        NumbersAreIndices = "8 refuses the last node of the list",
        NoPointRefused = "a job without points is refused",
        NanRefused = "a NaN coordinate is refused",
        InfinityRefused = "an infinite coordinate is refused",
        RepeatedRefused = "an element with repeated nodes is refused",
    }
    "The place of a refusal" {
        RecordFromOne = "records are counted from 1",
        RecordInBytes = "a record's place is its first byte",
        RecordOfItsKind = "a record's place counts the records of its mark only",
        ElementFromOne = "elements are counted from 1",
        ElementAsRecord = "the place in 8 is the element's record",
        ElementAsNumber = "the place in 8 is the bad node number",
        LastBadElement = "8 names the last bad element",
        NoPlace = "the place is always 0",
    }
    "The counts" {
        RepeatedNodes = "repeated nodes are counted, not elements that have them",
        RepeatedNeighbours = "only neighbours in the row count as repeated",
        RepeatedCorners = "only the first four numbers count as repeated",
        RepeatedPlaces = "nodes with equal coordinates count as repeated",
        InsideByReference = "inside means that both reference coordinates lie strictly between -1 and 1",
        InsideByReferenceClosed = "inside means that both reference coordinates lie in [-1, 1]",
        InsideNear = "inside means an element distance of at most 2^-52",
        InsideNan = "a NaN element distance counts as inside",
        InsideByFace = "inside means a face distance of 0",
        CountsExchanged = "the second and the third count are exchanged",
    }
    "The choice of a face" {
        FaceOfNearestElement = "the nearest face is one of the nearest element's",
        FaceByElements = "faces are walked by face and then element",
    }
    "The text" {
        NothingWithoutPoints = "nothing is printed for a job without points",
        PointFromOne = "points are counted from 1",
        ReferencesExchanged = "the two reference coordinates are exchanged",
        DistancesSquared = "distances are printed squared",
        UpperCase = "hexadecimal digits are upper case",
        LeadingZerosLost = "leading zeros of hexadecimal digits are left out",
        LeastByteFirst = "hexadecimal bytes are printed with the least first",
        NanByBits = "NaN is printed as the digits of a quiet NaN",
        NanCapital = "NaN is printed as `NaN`",
        InfinityByName = "infinity is printed as `inf`",
        TwoDigits = "whole numbers keep their last two digits",
        Padded = "whole numbers are padded to three places",
        CarriageReturns = "lines end with a carriage return and a line feed",
        LastLineOpen = "the last line of an accepted job has no line feed",
        RefusalOpen = "the line of a refusal has no line feed",
        SpaceAtEnd = "a line of a point ends with a space",
        Tabs = "fields are separated by tabs",
        RefusalAfterCounts = "a query's refusal is printed after a line of counts",
    }
}

/// The listing of a job, made with one departure.
pub fn answer(job: &[u8], departure: Departure) -> Vec<u8> {
    let text = match departure.accept(job) {
        Ok(query) => departure.listing(&query),
        Err(refusal) => departure.refusal(&refusal),
    };
    text.into_bytes()
}

#[derive(Clone, Copy, PartialEq)]
enum Mark {
    Family,
    Node,
    Element,
    Point,
}

/// What has been read so far.
#[derive(Default)]
struct Read {
    query: Query,
    families: usize,
    /// The record of each element.
    element_records: Vec<usize>,
}

/// One record: where it begins, how many came before it, and the bytes from its first one on.
struct Record<'job> {
    first: usize,
    index: usize,
    mark: Option<Mark>,
    bytes: &'job [u8],
}

use Departure::*;

impl Departure {
    fn accept(self, job: &[u8]) -> Result<Query, Refusal> {
        let read = self.read(self.bytes_read(job))?;
        self.ask_query(&read)?;
        Ok(read.query)
    }

    // ---- the file

    fn bytes_read(self, job: &[u8]) -> &[u8] {
        let most = match self {
            OneBlockRead => 4096,
            TwoBlocksRead => 16_384,
            _ => job.len(),
        };
        &job[..most.min(job.len())]
    }

    fn read(self, job: &[u8]) -> Result<Read, Refusal> {
        let mut read = Read::default();
        let (mut first, mut index) = (0, 0);
        while first < job.len() {
            let rest = &job[first..];
            if self.skips(rest) {
                first += if self == UnknownMarkSkipped { 2 } else { 1 };
                continue;
            }
            let record = Record { first, index, mark: self.mark_of(rest), bytes: rest };
            if self == CutRecordIgnored && record.mark.is_some() && !self.is_whole(&record, &read) {
                break;
            }
            self.ask_record(&record, &read)?;
            self.take(&record, &mut read);
            first += self.length(&record, &read);
            index += 1;
        }
        self.ask_family(index, &read)?;
        Ok(read)
    }

    fn skips(self, rest: &[u8]) -> bool {
        match self {
            WhiteSpaceSkipped => rest[0].is_ascii_whitespace(),
            UnknownMarkSkipped => rest.len() >= 2 && self.mark_of(rest).is_none(),
            HalfMarkIgnored => rest.len() == 1,
            _ => false,
        }
    }

    /// A file without a QF; as document 01 has it, one without records.
    fn ask_family(self, records: usize, read: &Read) -> Result<(), Refusal> {
        let number = match self {
            EmptyIsNoNode => return Ok(()),
            EmptyIsHalfMark => 18,
            EmptyIsCut => 20,
            _ => 19,
        };
        ask(records > 0 && (read.families > 0 || self != FamilyLater), number, 0)
    }

    fn mark_of(self, rest: &[u8]) -> Option<Mark> {
        let mut mark = [*rest.first()?, *rest.get(1)?];
        if self == LowerCaseTaken {
            mark.make_ascii_uppercase();
        }
        match &mark {
            b"QF" => Some(Mark::Family),
            b"QN" => Some(Mark::Node),
            b"QE" => Some(Mark::Element),
            b"QP" => Some(Mark::Point),
            _ => None,
        }
    }

    fn length(self, record: &Record, read: &Read) -> usize {
        let numbers = match read.query.family {
            9 if self != ElementOfFour => 9,
            _ => 4,
        };
        match record.mark {
            None => 2,
            Some(Mark::Family) => 5,
            Some(Mark::Element) => 2 + 4 * numbers,
            Some(Mark::Node | Mark::Point) => 18,
        }
    }

    fn is_whole(self, record: &Record, read: &Read) -> bool {
        self.length(record, read) <= record.bytes.len()
    }

    // ---- a record's questions

    fn ask_record(self, record: &Record, read: &Read) -> Result<(), Refusal> {
        for number in self.record_order() {
            let passes = self.record_passes(number, record, read);
            ask(passes, number, self.record_place(number, record, read))?;
        }
        Ok(())
    }

    /// 4 and 8 are asked later; here a departure may ask them too.
    fn record_order(self) -> [u8; 7] {
        match self {
            FirstBeforeMark => [19, 18, 20, 1, 21, 4, 8],
            BodyBeforeFirst => [18, 20, 19, 1, 21, 4, 8],
            FamilyBeforeBody => [18, 19, 1, 20, 21, 4, 8],
            CountBeforeBody => [18, 19, 21, 20, 1, 4, 8],
            _ => [18, 19, 20, 1, 21, 4, 8],
        }
    }

    fn record_passes(self, number: u8, record: &Record, read: &Read) -> bool {
        let is = |mark| record.mark == Some(mark);
        match number {
            18 => record.mark.is_some(),
            19 if self == FamilyLater => !is(Mark::Family) || read.families == 0,
            19 if self == FamilyAgain => is(Mark::Family) || record.index > 0,
            19 => is(Mark::Family) == (record.index == 0),
            20 => self.is_whole(record, read),
            1 => !is(Mark::Family) || self.family_known(record.bytes.get(2)),
            21 => self == CountNotAsked || self.kind_count(record, read) < self.most(record.mark),
            4 => self != LimitWithRecord || !is(Mark::Family) || self.limit(record) <= MOST_ITERATIONS,
            8 => {
                let known = |&number: &u32| (number as usize) < read.query.nodes.len();
                self != NumbersWithRecord || !is(Mark::Element) || self.row(record, read).iter().all(known)
            }
            _ => unreachable!("a record has no question {number}"),
        }
    }

    fn family_known(self, family: Option<&u8>) -> bool {
        self == AnyFamilyTaken || family.is_none_or(|&family| family == 4 || family == 9)
    }

    /// How many records of this mark came before.
    fn kind_count(self, record: &Record, read: &Read) -> usize {
        match record.mark {
            None => 0,
            Some(Mark::Family) => read.families,
            Some(Mark::Node) => read.query.nodes.len(),
            Some(Mark::Element) => read.query.elements.len(),
            Some(Mark::Point) => read.query.points.len(),
        }
    }

    fn most(self, mark: Option<Mark>) -> usize {
        match (mark, self) {
            (None | Some(Mark::Family), _) => usize::MAX,
            (Some(Mark::Node), FewerNodes) => MOST_NODES - 1,
            (Some(Mark::Node), MoreNodes) => MOST_NODES + 1,
            (Some(Mark::Node), _) => MOST_NODES,
            (Some(Mark::Element), FewerElements) => MOST_ELEMENTS - 1,
            (Some(Mark::Element), MoreElements) => MOST_ELEMENTS + 1,
            (Some(Mark::Element), _) => MOST_ELEMENTS,
            (Some(Mark::Point), FewerPoints) => MOST_POINTS - 1,
            (Some(Mark::Point), MorePoints) => MOST_POINTS + 1,
            (Some(Mark::Point), _) => MOST_POINTS,
        }
    }

    fn record_place(self, number: u8, record: &Record, read: &Read) -> usize {
        match self {
            NumbersWithRecord if number == 8 => read.query.elements.len(),
            RecordFromOne => record.index + 1,
            RecordInBytes => record.first,
            RecordOfItsKind => self.kind_count(record, read),
            NoPlace => 0,
            _ => record.index,
        }
    }

    // ---- a record's numbers

    fn take(self, record: &Record, read: &mut Read) {
        match record.mark {
            None => {}
            Some(Mark::Family) => {
                let known = |family| if family == 9 { 9 } else { 4 };
                read.families += 1;
                read.query.family = known(record.bytes[2]);
                read.query.limit = self.limit(record);
            }
            Some(Mark::Node) => read.query.nodes.push(self.pair(record)),
            Some(Mark::Element) => {
                let row = self.row(record, read);
                read.query.elements.push(row);
                read.element_records.push(record.index);
            }
            Some(Mark::Point) => read.query.points.push(self.pair(record)),
        }
    }

    fn limit(self, record: &Record) -> u16 {
        let bytes = [record.bytes[3], record.bytes[4]];
        match self {
            LimitInOneByte => bytes[0].into(),
            LimitBigEndian => u16::from_be_bytes(bytes),
            LimitSigned => i16::from_le_bytes(bytes).max(0) as u16,
            _ => u16::from_le_bytes(bytes),
        }
    }

    fn pair(self, record: &Record) -> [f64; 2] {
        let [x, y] = [2, 10].map(|at| {
            let bytes = record.bytes[at..at + 8].try_into().expect("eight bytes a coordinate");
            if self == FloatsBigEndian { f64::from_be_bytes(bytes) } else { f64::from_le_bytes(bytes) }
        });
        let exchanged = self == CoordinatesExchanged && record.mark == Some(Mark::Point);
        if exchanged { [y, x] } else { [x, y] }
    }

    /// An element's numbers; those that a departure did not read are 0.
    fn row(self, record: &Record, read: &Read) -> Vec<u32> {
        let body = &record.bytes[2..self.length(record, read)];
        let mut row: Vec<u32> = body.chunks_exact(4).map(|bytes| self.node_number(bytes)).collect();
        row.resize(read.query.family.into(), 0);
        row
    }

    fn node_number(self, bytes: &[u8]) -> u32 {
        let bytes = bytes.try_into().expect("four bytes a node number");
        let number = u32::from_le_bytes(bytes);
        match self {
            NumbersBigEndian => u32::from_be_bytes(bytes),
            NumbersInTwoBytes => number & 0xffff,
            NumbersSigned => i32::from_le_bytes(bytes).max(0) as u32,
            _ => number,
        }
    }

    // ---- the query's questions

    fn ask_query(self, read: &Read) -> Result<(), Refusal> {
        for number in self.query_order() {
            self.ask_of_query(number, read)?;
        }
        let coordinates = || read.query.nodes.iter().chain(&read.query.points).flatten();
        ask(self != NoPointRefused || !read.query.points.is_empty(), 5, 0)?;
        ask(self != NanRefused || !coordinates().any(|x| x.is_nan()), 2, 0)?;
        ask(self != InfinityRefused || !coordinates().any(|x| x.is_infinite()), 2, 0)?;
        ask(self != RepeatedRefused || repeated(&read.query) == 0, 8, 0)
    }

    fn query_order(self) -> [u8; 4] {
        match self {
            NumbersBeforeLimit => [8, 4, 9, 10],
            LimitLast => [8, 9, 10, 4],
            NodesBeforeNumbers => [4, 9, 8, 10],
            ElementsBeforeNodes => [4, 8, 10, 9],
            _ => [4, 8, 9, 10],
        }
    }

    fn ask_of_query(self, number: u8, read: &Read) -> Result<(), Refusal> {
        match number {
            4 => ask(read.query.limit <= self.most_iterations(), 4, 0),
            8 => self.first_bad(read).map_or(Ok(()), |element| {
                Err(Refusal { number: 8, place: self.element_place(element, read) })
            }),
            9 => ask(!read.query.nodes.is_empty(), 9, 0),
            _ => ask(!read.query.elements.is_empty(), 10, 0),
        }
    }

    fn most_iterations(self) -> u16 {
        match self {
            FewerIterations => MOST_ITERATIONS - 1,
            MoreIterations => MOST_ITERATIONS + 1,
            _ => MOST_ITERATIONS,
        }
    }

    fn first_bad(self, read: &Read) -> Option<usize> {
        let bad = |row: &Vec<u32>| self.bad_number(row, read).is_some();
        match self {
            LastBadElement => read.query.elements.iter().rposition(bad),
            _ => read.query.elements.iter().position(bad),
        }
    }

    fn bad_number(self, row: &[u32], read: &Read) -> Option<u32> {
        let count = match self {
            NumbersUpToCount => read.query.nodes.len() + 1,
            NumbersAreIndices => read.query.nodes.len().saturating_sub(1),
            _ => read.query.nodes.len(),
        };
        let asked = if self == NumbersOfCorners { &row[..4] } else { row };
        asked.iter().copied().find(|&number| number as usize >= count)
    }

    fn element_place(self, element: usize, read: &Read) -> usize {
        match self {
            ElementFromOne => element + 1,
            ElementAsRecord => read.element_records[element],
            ElementAsNumber => {
                self.bad_number(&read.query.elements[element], read).expect("the element is bad") as usize
            }
            NoPlace => 0,
            _ => element,
        }
    }

    // ---- the numbers and the counts

    /// A departure that lets a bad number pass takes node 0 for it.
    fn nearest(self, query: &Query) -> Vec<Answer> {
        let count = query.nodes.len() as u32;
        let known =
            |row: &Vec<u32>| row.iter().map(|&number| if number < count { number } else { 0 }).collect();
        let elements = query.elements.iter().map(known).collect();
        let (nodes, points) = (query.nodes.clone(), query.points.clone());
        let query = Query { family: query.family, limit: query.limit, nodes, elements, points };
        let mut answers = published::nearest(&query);
        if matches!(self, FaceOfNearestElement | FaceByElements) {
            answers.iter_mut().zip(&query.points).for_each(|(answer, &point)| {
                self.choose_face(answer, &query, point);
            });
        }
        answers
    }

    fn choose_face(self, answer: &mut Answer, query: &Query, point: [f64; 2]) {
        let of_element = |element: usize| -> Vec<Found> {
            let gathered = Element::gather(query, &query.elements[element], Turn::Straight);
            (0..4).map(|face| (element, face, gathered.face_search(face, point))).collect()
        };
        let candidates = if self == FaceOfNearestElement {
            of_element(answer.element)
        } else {
            let mut faces: Vec<Found> = (0..query.elements.len()).flat_map(of_element).collect();
            faces.sort_by_key(|&(element, face, _)| (face, element));
            faces
        };
        let (element, face, projection) = first_least(&candidates);
        answer.face_element = element;
        answer.face = face as u8;
        answer.s = projection.at;
        answer.face_distance = projection.squared.sqrt();
    }

    fn repeated(self, query: &Query) -> usize {
        let rows = query.elements.iter();
        match self {
            RepeatedNodes => rows.map(|row| repeats(row)).sum(),
            RepeatedNeighbours => rows.filter(|row| row.windows(2).any(|two| two[0] == two[1])).count(),
            RepeatedCorners => rows.filter(|row| repeats(&row[..4]) > 0).count(),
            RepeatedPlaces => {
                let bits = |number: &u32| query.nodes[*number as usize].map(f64::to_bits);
                let places = |row: &&Vec<u32>| row.iter().map(bits).collect::<Vec<_>>();
                rows.filter(|row| repeats(&places(row)) > 0).count()
            }
            _ => repeated(query),
        }
    }

    fn is_inside(self, answer: &Answer) -> bool {
        let [xi, eta] = answer.reference.map(f64::abs);
        match self {
            InsideByReference => xi < 1.0 && eta < 1.0,
            InsideByReferenceClosed => xi <= 1.0 && eta <= 1.0,
            InsideNear => answer.element_distance <= f64::EPSILON,
            InsideNan => answer.element_distance == 0.0 || answer.element_distance.is_nan(),
            InsideByFace => answer.face_distance == 0.0,
            _ => answer.element_distance == 0.0,
        }
    }

    // ---- the text

    fn listing(self, query: &Query) -> String {
        let answers = self.nearest(query);
        if self == NothingWithoutPoints && answers.is_empty() {
            return String::new();
        }
        let inside = answers.iter().filter(|answer| self.is_inside(answer)).count();
        let mut counts = [answers.len(), self.repeated(query), inside];
        if self == CountsExchanged {
            counts.swap(1, 2);
        }
        let counts = counts.map(|count| self.decimal(count));
        let mut lines = vec![self.line(&["query".into(), counts.join(self.space())])];
        for (point, answer) in answers.iter().enumerate() {
            lines.push(self.point_line(point, answer));
        }
        let text = lines.concat();
        if self == LastLineOpen { text.trim_end().into() } else { text }
    }

    fn point_line(self, point: usize, answer: &Answer) -> String {
        let [xi, eta] = answer.reference;
        let reference = if self == ReferencesExchanged { [eta, xi] } else { [xi, eta] };
        let mut fields = vec![
            self.decimal(point + usize::from(self == PointFromOne)),
            self.decimal(answer.node),
            self.distance(answer.node_distance),
            self.decimal(answer.element),
            self.hexadecimal(reference[0]),
            self.hexadecimal(reference[1]),
            self.distance(answer.element_distance),
            self.decimal(answer.face_element),
            self.decimal(answer.face.into()),
            self.hexadecimal(answer.s),
            self.distance(answer.face_distance),
        ];
        if self == SpaceAtEnd {
            fields.push(String::new());
        }
        self.line(&fields)
    }

    fn refusal(self, refusal: &Refusal) -> String {
        let numbers = [refusal.number.into(), refusal.place].map(|number| self.decimal(number));
        let line = self.line(&["refused".into(), numbers.join(self.space())]);
        let of_query = [4, 8, 9, 10].contains(&refusal.number);
        match self {
            RefusalOpen => line.trim_end().into(),
            RefusalAfterCounts if of_query => format!("query 0 0 0\n{line}"),
            _ => line,
        }
    }

    fn line(self, fields: &[String]) -> String {
        let end = if self == CarriageReturns { "\r\n" } else { "\n" };
        fields.join(self.space()) + end
    }

    fn space(self) -> &'static str {
        if self == Tabs { "\t" } else { " " }
    }

    fn decimal(self, number: usize) -> String {
        match self {
            TwoDigits => (number % 100).to_string(),
            Padded => format!("{number:3}"),
            _ => number.to_string(),
        }
    }

    fn distance(self, distance: f64) -> String {
        self.hexadecimal(if self == DistancesSquared { distance * distance } else { distance })
    }

    fn hexadecimal(self, number: f64) -> String {
        match self {
            NanByBits if number.is_nan() => "7ff8000000000000".into(),
            NanCapital if number.is_nan() => "NaN".into(),
            InfinityByName if number.is_infinite() => "inf".into(),
            UpperCase if !number.is_nan() => digits(number).to_uppercase(),
            LeadingZerosLost if !number.is_nan() => format!("{:x}", number.to_bits()),
            LeastByteFirst if !number.is_nan() => format!("{:016x}", number.to_bits().swap_bytes()),
            _ => digits(number),
        }
    }
}

/// An element's number, a face of it, and where the face's search ended.
type Found = (usize, usize, Projection<f64>);

fn first_least(found: &[Found]) -> Found {
    let rooted = |at: &Found| at.2.squared.sqrt();
    let nearer = |best: Found, next: &Found| if rooted(next) < rooted(&best) { *next } else { best };
    found[1..].iter().fold(found[0], nearer)
}

/// How many of some values stood before already.
fn repeats<T: PartialEq>(values: &[T]) -> usize {
    (0..values.len()).filter(|&at| values[..at].contains(&values[at])).count()
}

fn repeated(query: &Query) -> usize {
    query.elements.iter().filter(|row| repeats(row) > 0).count()
}
