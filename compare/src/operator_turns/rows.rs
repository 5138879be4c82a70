//! The values of the rows, point by point, and the triplets that are kept.

use super::Turn;
use super::material::{Matrix, material_at};
use crate::document01::Refusal;
use crate::operators::{Built, Call, Formulation, Operator, Triplet};
use crate::rounding;
use crate::wrong_turns::{self, element::Element};

/// A point's element, gathered, and where the point is in it.
pub struct Place {
    turn: Turn,
    formulation: Formulation,
    element: Element,
    reference: [f64; 2],
    point: [f64; 2],
    jacobian: [[f64; 2]; 2],
}

pub fn built(call: &Call, turn: Turn) -> Built {
    let rows_a_point = if turn == Turn::RowsNotFourfold { 1 } else { call.rows_a_point() };
    let columns_a_node = if turn == Turn::ColumnsNotDoubled { 1 } else { call.columns_a_node() };
    Built {
        rows: rows_a_point * call.points(),
        columns: columns_a_node * call.node_count(),
        triplets: (0..call.points()).flat_map(|point| triplets(call, turn, point)).collect(),
    }
}

/// Whether a point before the refused one has triplets.
pub fn written_before(call: &Call, refusal: &Refusal) -> bool {
    let before = if refusal.number >= 14 { refusal.place } else { 0 };
    (0..before).any(|point| !triplets(call, Turn::Straight, point).is_empty())
}

impl Call {
    /// Whether every number that a row needs is there.
    pub fn readable(&self) -> bool {
        let numbers = || self.elements.iter().map(|&number| number as usize);
        numbers().all(|node| node < self.node_count())
            && self.element_indices.iter().all(|&element| element < self.element_count())
            && self.reference_points.len() == 2 * self.points()
            && (self.operator != Operator::Stress || self.material_ids.len() == self.element_count())
    }
}

// ---- triplets

fn triplets(call: &Call, turn: Turn, point: usize) -> Vec<Triplet> {
    let place = Place::of(call, turn, point);
    let element = element_of(call, turn, point);
    let material = (call.operator == Operator::Stress).then(|| material_at(call, turn, point, element));
    let positioned = |[row, node, component]: [usize; 3]| {
        let mut value = place.value(call.operator, material.as_ref(), row, node, component);
        if turn == Turn::ThicknessRead && call.formulation == Formulation::PlaneStrain {
            value *= call.thickness;
        }
        turn.positioned(call, point, [row, node, component], value)
    };
    entries(call, turn).into_iter().map(positioned).filter(|triplet| turn.keeps(triplet.value)).collect()
}

/// Row, local node and displacement component of each entry of a point, in order.
fn entries(call: &Call, turn: Turn) -> Vec<[usize; 3]> {
    let mut entries = Vec::new();
    for row in 0..call.rows_a_point() {
        for node in 0..call.size() {
            entries.extend((0..call.columns_a_node()).map(|component| [row, node, component]));
        }
    }
    entries.sort_by_key(|&[row, node, component]| match turn {
        Turn::NodeBeforeRow => [node, row, component],
        Turn::ComponentBeforeNode => [row, component, node],
        _ => [row, node, component],
    });
    entries
}

impl Turn {
    fn keeps(self, value: f64) -> bool {
        match self {
            Turn::ZeroKept => true,
            Turn::MinusZeroKept => value.to_bits() != 0,
            Turn::NanOmitted => value != 0.0 && !value.is_nan(),
            Turn::InfinityOmitted => value != 0.0 && !value.is_infinite(),
            Turn::TinyOmitted => value.is_nan() || value.abs() > f64::EPSILON,
            _ => value != 0.0,
        }
    }

    fn positioned(
        self,
        call: &Call,
        point: usize,
        [row, node, component]: [usize; 3],
        value: f64,
    ) -> Triplet {
        let number = node_number(call, element_of(call, self, point), node);
        let row = match self {
            Turn::RowsInBlocks => row * call.points() + point,
            _ => call.rows_a_point() * point + row,
        };
        let width = call.columns_a_node();
        let column = match self {
            Turn::ColumnsInBlocks => number + component * call.node_count(),
            Turn::ColumnComponentExchanged => width * number + (width - 1 - component),
            Turn::ColumnsLocal => width * node + component,
            _ => width * number + component,
        };
        match self {
            Turn::RowAndColumnExchanged => Triplet { row: column, column: row, value },
            _ => Triplet { row, column, value },
        }
    }
}

fn element_of(call: &Call, turn: Turn, point: usize) -> usize {
    if turn == Turn::FirstElementForAll { 0 } else { call.element_indices[point] }
}

/// A number past the list's end reads as node 0, so that every question has an answer.
fn node_number(call: &Call, element: usize, local: usize) -> usize {
    call.elements.get(call.size() * element + local).copied().unwrap_or(0) as usize
}

// ---- values

impl Place {
    /// A coordinate past its list's end reads as NaN.
    pub fn of(call: &Call, turn: Turn, point: usize) -> Place {
        let element = element_of(call, turn, point);
        let number = |list: &[f64], at: usize| list.get(at).copied().unwrap_or(f64::NAN);
        let coordinates = (0..call.size())
            .map(|local| node_number(call, element, local))
            .map(|node| [0, 1].map(|axis| number(&call.nodes, 2 * node + axis)));
        let point = if turn == Turn::FirstReferenceForAll { 0 } else { point };
        let mut reference = [0, 1].map(|axis| number(&call.reference_points, 2 * point + axis));
        match turn {
            Turn::ReferenceExchanged => reference.reverse(),
            Turn::ReferenceClamped => reference = reference.map(|x| x.clamp(-1.0, 1.0)),
            _ => {}
        }
        let element = Element::mapped(coordinates.collect(), turn.mapped());
        let (point, jacobian) = element.map(reference);
        Place { turn, formulation: call.formulation, element, reference, point, jacobian }
    }

    pub fn determinant(&self) -> f64 {
        let [[a, b], [c, d]] = self.jacobian;
        self.turn.two_products([Turn::FusedDeterminantFirst, Turn::FusedDeterminantSecond], a, d, -b, c)
    }

    pub fn radius(&self) -> f64 {
        self.point[usize::from(self.turn == Turn::RadiusIsHeight)]
    }

    fn value(
        &self,
        operator: Operator,
        material: Option<&Matrix>,
        row: usize,
        node: usize,
        component: usize,
    ) -> f64 {
        match (operator, material) {
            (Operator::Interpolation, _) => self.element.shape(node, self.reference).0,
            (_, Some(material)) => self.stress(&material[row], node, component),
            _ => self.strain(row, node, component).unwrap_or(0.0),
        }
    }

    /// A row of the material times a column of the strain matrix.
    fn stress(&self, material: &[f64; 4], node: usize, component: usize) -> f64 {
        let term = |k: usize| {
            let skipped = match self.turn {
                Turn::StructuralZeroSkipped => self.strain(k, node, component).is_none(),
                Turn::HoopTermSkipped => k == 2 && self.formulation == Formulation::PlaneStrain,
                _ => false,
            };
            let strain = self.strain(k, node, component).unwrap_or(0.0);
            (!skipped).then_some((material[k], strain))
        };
        self.turn.four_terms(Turn::FusedStress, Turn::TermsBackwards, [0, 1, 2, 3].map(term))
    }

    /// An entry of the strain matrix; `None` where it is 0 for every element.
    fn strain(&self, row: usize, node: usize, component: usize) -> Option<f64> {
        let [across, up] = self.gradient(node);
        let row = match (self.turn, row) {
            (Turn::NormalRowsExchanged, 1) => 2,
            (Turn::NormalRowsExchanged, 2) => 1,
            _ => row,
        };
        match (row, component) {
            (0, 0) => Some(across),
            (1, 1) => Some(up),
            (2, 0) => self.hoop(node),
            (2, 1) if self.turn == Turn::HoopInBothComponents => self.hoop(node),
            (3, _) => Some(self.shear(component, across, up)),
            _ => None,
        }
    }

    fn shear(&self, component: usize, across: f64, up: f64) -> f64 {
        let along_r = (component == 0) != (self.turn == Turn::ShearExchanged);
        let slope = if along_r { up } else { across };
        if self.turn == Turn::ShearHalved { 0.5 * slope } else { slope }
    }

    fn hoop(&self, node: usize) -> Option<f64> {
        let (value, _) = self.element.shape(node, self.reference);
        let there = match self.turn {
            Turn::HoopInPlaneStrain => true,
            Turn::HoopForgotten => false,
            _ => self.formulation == Formulation::Axisymmetric,
        };
        there.then_some(match self.turn {
            Turn::ReciprocalRadius => value * (1.0 / self.radius()),
            _ => value / self.radius(),
        })
    }

    /// The derivatives of a node's shape number by r and z: J inverse, transposed, times those by ξ and η.
    fn gradient(&self, node: usize) -> [f64; 2] {
        let (_, [by_xi, by_eta]) = self.element.shape(node, self.reference);
        if self.turn == Turn::GradientByReference {
            return [by_xi, by_eta];
        }
        let mut columns = self.inverse();
        if self.turn == Turn::InverseTransposed {
            columns = [0, 1].map(|axis| columns.map(|column| column[axis]));
        }
        columns.map(|[first, second]| {
            let fusing = [Turn::FusedGradientFirst, Turn::FusedGradientSecond];
            self.turn.two_products(fusing, first, by_xi, second, by_eta)
        })
    }

    /// The inverse of J by its columns.
    fn inverse(&self) -> [[f64; 2]; 2] {
        let [[a, b], [c, d]] = self.jacobian;
        let determinant = self.determinant();
        [[d, -c], [-b, a]].map(|column| {
            column.map(|entry| match self.turn {
                Turn::DividedByDeterminant => entry / determinant,
                _ => entry * (1.0 / determinant),
            })
        })
    }
}

impl Turn {
    /// The turn that the element's map takes.
    fn mapped(self) -> wrong_turns::Turn {
        match self {
            Turn::Mapped(turn) => turn,
            _ => wrong_turns::Turn::Straight,
        }
    }

    /// a × b + c × d. The turns in `fusing` fuse the first and the second product.
    pub fn two_products(self, fusing: [Turn; 2], a: f64, b: f64, c: f64, d: f64) -> f64 {
        rounding::two_products(fusing.map(|turn| self == turn), a, b, c, d)
    }
}
