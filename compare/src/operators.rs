//! Document 01's three operators read on their own: the questions, the counts, a case's bytes and its text.
//!
//! No value is computed here. The triplets of an accepted call come from the published Rust, and so do the
//! determinant and the radius that questions 16 and 17 compare.

use crate::document01::{Refusal, ask, ask_node_numbers, digits};
use crate::published;

/// Most nodes, elements, points, element numbers and materials that a call may have (questions 2, 3, 5 and 6).
pub const MOST: usize = 1_000_000;

#[derive(Clone, Copy, Debug, PartialEq)]
pub enum Operator {
    Interpolation,
    Strain,
    Stress,
}

pub const OPERATORS: [Operator; 3] = [Operator::Interpolation, Operator::Strain, Operator::Stress];

#[derive(Clone, Copy, Debug, PartialEq)]
pub enum Formulation {
    Axisymmetric,
    PlaneStrain,
}

/// Whether pairs (c, s) are given, and where they come from.
#[derive(Clone)]
pub enum Pairs {
    /// Not given. A list can lie there all the same; it is not read.
    NotGiven(Vec<f64>),
    /// The cosine and the sine of one angle an element, as the Rust computes them.
    OfAngles(Vec<f64>),
    /// Any numbers, mostly such that no angle has them.
    Any(Vec<f64>),
}

/// What a case asks.
#[derive(Clone)]
pub struct Call {
    pub operator: Operator,
    pub family: u64,
    pub formulation: Formulation,
    pub thickness: f64,
    /// The number that stands for plane strain and for given pairs: any but 0. A stored case has it in a byte.
    pub yes: u64,
    pub nodes: Vec<f64>,
    pub elements: Vec<u32>,
    pub element_indices: Vec<usize>,
    pub reference_points: Vec<f64>,
    pub material_ids: Vec<usize>,
    pub material_table: Vec<f64>,
    pub pairs: Pairs,
    /// How many places beyond the worst case the lent rows, columns and values have; below 0, how many they
    /// lack.
    pub spare: [isize; 3],
}

/// One line of an operator.
#[derive(Clone, Copy)]
pub struct Triplet {
    pub row: usize,
    pub column: usize,
    pub value: f64,
}

/// An accepted call's numbers of rows and columns, and its triplets in order.
pub struct Built {
    pub rows: usize,
    pub columns: usize,
    pub triplets: Vec<Triplet>,
}

/// The text of a call, its triplets computed by the published Rust.
pub fn answer(call: &Call) -> Vec<u8> {
    let outcome = questions(call).map(|()| Built {
        rows: call.rows_a_point() * call.points(),
        columns: call.columns_a_node() * call.node_count(),
        triplets: published::operator(call).expect("the Rust accepts what document 01 accepts").triplets,
    });
    text(outcome, true)
}

// ---- what a call has

impl Call {
    /// F, the nodes of an element. A family that is not known is refused before this matters.
    pub fn size(&self) -> usize {
        if self.family == 9 { 9 } else { 4 }
    }

    pub fn node_count(&self) -> usize {
        self.nodes.len() / 2
    }

    pub fn element_count(&self) -> usize {
        self.elements.len() / self.size()
    }

    /// As many as element numbers are given.
    pub fn points(&self) -> usize {
        self.element_indices.len()
    }

    pub fn pairs_given(&self) -> bool {
        !matches!(self.pairs, Pairs::NotGiven(_))
    }

    /// The list of pairs as it is stored.
    pub fn pair_list(&self) -> Vec<f64> {
        match &self.pairs {
            Pairs::NotGiven(numbers) | Pairs::Any(numbers) => numbers.clone(),
            Pairs::OfAngles(angles) => angles.iter().flat_map(|angle| [angle.cos(), angle.sin()]).collect(),
        }
    }

    pub fn yes_or_no(&self, yes: bool) -> u64 {
        if yes { self.yes } else { 0 }
    }

    pub fn rows_a_point(&self) -> usize {
        if self.operator == Operator::Interpolation { 1 } else { 4 }
    }

    pub fn columns_a_node(&self) -> usize {
        if self.operator == Operator::Interpolation { 1 } else { 2 }
    }

    /// The places that each lent list must have: F a point for interpolation, else 8 × F.
    pub fn worst_case(&self) -> usize {
        self.rows_a_point() * self.columns_a_node() * self.size() * self.points()
    }

    /// The lengths of the lent rows, columns and values.
    pub fn lent(&self) -> [usize; 3] {
        self.spare.map(|spare| self.worst_case().saturating_add_signed(spare))
    }
}

// ---- the questions

/// The first question answered "no".
pub fn questions(call: &Call) -> Result<(), Refusal> {
    let stress = call.operator == Operator::Stress;
    ask(call.family == 4 || call.family == 9, 1, 0)?;
    ask(whole(call.nodes.len(), 2), 2, 0)?;
    ask(whole(call.elements.len(), call.size()), 3, 0)?;
    ask(whole(call.reference_points.len(), 2) && call.points() <= MOST, 5, 0)?;
    ask(!stress || materials_whole(call), 6, 0)?;
    ask(call.lent().iter().all(|&places| places >= call.worst_case()), 7, 0)?;
    ask_node_numbers(call.elements.chunks(call.size()), call.node_count())?;
    ask(call.points() == call.reference_points.len() / 2, 11, 0)?;
    ask(!stress || call.material_ids.len() == call.element_count(), 12, 0)?;
    ask(!stress || pairs_match(call), 13, 0)?;
    (0..call.points()).try_for_each(|point| point_questions(call, point))
}

/// Whether a list of some length is whole parts of some size, and not too many.
pub fn whole(length: usize, size: usize) -> bool {
    length.is_multiple_of(size) && length / size <= MOST
}

fn materials_whole(call: &Call) -> bool {
    let even = !call.pairs_given() || call.pair_list().len().is_multiple_of(2);
    whole(call.material_table.len(), 16) && even
}

fn pairs_match(call: &Call) -> bool {
    !call.pairs_given() || call.pair_list().len() / 2 == call.element_count()
}

/// 14 to 17. A NaN is not ≤ anything, so it passes 16 and 17.
fn point_questions(call: &Call, point: usize) -> Result<(), Refusal> {
    let element = call.element_indices[point];
    ask(element < call.element_count(), 14, point)?;
    if call.operator == Operator::Stress {
        let material = call.material_ids[element];
        ask(material < call.material_table.len() / 16, 15, point)?;
    }
    if call.operator != Operator::Interpolation {
        let (determinant, radius) = published::determinant_and_radius(call, point);
        ask(!is_at_most(determinant, 0.0), 16, point)?;
        let asked = call.formulation == Formulation::Axisymmetric;
        ask(!(asked && is_at_most(radius, f64::EPSILON)), 17, point)?;
    }
    Ok(())
}

fn is_at_most(number: f64, bound: f64) -> bool {
    number <= bound
}

// ---- bytes and text

impl Call {
    /// Four bytes and the thickness, ten counts, then the numbers of the seven lists.
    pub fn bytes(&self) -> Vec<u8> {
        let pairs = self.pair_list();
        let in_plane = self.formulation == Formulation::PlaneStrain;
        let mut bytes = vec![self.operator as u8];
        bytes.extend(
            [self.family, self.yes_or_no(in_plane), self.yes_or_no(self.pairs_given())].map(one_byte),
        );
        bytes.extend(self.thickness.to_le_bytes());
        bytes.extend(self.counts().into_iter().flat_map(two_bytes));
        bytes.extend(floats(&self.nodes));
        bytes.extend(self.elements.iter().flat_map(|number| number.to_le_bytes()));
        bytes.extend(indices(&self.element_indices));
        bytes.extend(floats(&self.reference_points));
        bytes.extend(indices(&self.material_ids));
        bytes.extend(floats(&self.material_table));
        bytes.extend(floats(&pairs));
        bytes
    }

    /// The lengths of the seven lists given and the three lent.
    pub fn counts(&self) -> [usize; 10] {
        let [rows, columns, values] = self.lent();
        [
            self.nodes.len(),
            self.elements.len(),
            self.element_indices.len(),
            self.reference_points.len(),
            self.material_ids.len(),
            self.material_table.len(),
            self.pair_list().len(),
            rows,
            columns,
            values,
        ]
    }
}

fn one_byte(number: u64) -> u8 {
    u8::try_from(number).expect("a stored family, formulation or yes/no is a byte")
}

fn four_bytes(index: usize) -> [u8; 4] {
    u32::try_from(index).expect("a stored index has four bytes").to_le_bytes()
}

fn two_bytes(count: usize) -> [u8; 2] {
    u16::try_from(count).expect("a case's lists are short").to_le_bytes()
}

fn floats(list: &[f64]) -> Vec<u8> {
    list.iter().flat_map(|number| number.to_le_bytes()).collect()
}

fn indices(list: &[usize]) -> Vec<u8> {
    list.iter().flat_map(|&number| four_bytes(number)).collect()
}

/// `kept` says that the lent lists hold what they held, from the last triplet on or, if refused, everywhere.
pub fn text(outcome: Result<Built, Refusal>, kept: bool) -> Vec<u8> {
    let mut text = match outcome {
        Ok(built) => built_text(&built),
        Err(refusal) => format!("refused {} {}\n", refusal.number, refusal.place),
    };
    text += if kept { "kept\n" } else { "touched\n" };
    text.into_bytes()
}

fn built_text(built: &Built) -> String {
    let mut text = format!("built {} {} {}\n", built.rows, built.columns, built.triplets.len());
    for triplet in &built.triplets {
        text += &format!("{} {} {}\n", triplet.row, triplet.column, digits(triplet.value));
    }
    text
}
