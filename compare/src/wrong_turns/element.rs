//! The two searches of one element, step by step.

use super::{Choice, Turn};
use crate::document01::Query;
use std::ops::Range;

/// The seeds in order: centre, corners, middles of faces.
const SEEDS: [[f64; 2]; 9] = [
    [0.0, 0.0],
    [-1.0, -1.0],
    [1.0, -1.0],
    [1.0, 1.0],
    [-1.0, 1.0],
    [0.0, -1.0],
    [1.0, 0.0],
    [0.0, 1.0],
    [-1.0, 0.0],
];

/// Where each node of an element lies in the reference square: corners, middles of faces, centre.
const NODE_AT: [[i8; 2]; 9] = [[-1, -1], [1, -1], [1, 1], [-1, 1], [0, -1], [1, 0], [0, 1], [-1, 0], [0, 0]];

/// 2^-46, 2^-104 and 2^-52.
const DETERMINANT_BOUND: f64 = 64.0 * f64::EPSILON;
const SHORT_STEP_SQUARED: f64 = f64::EPSILON * f64::EPSILON;
const FACE_BOUND: f64 = f64::EPSILON;

/// The turns that fuse the first and the second product of a sum of two.
const GRADIENT: [Turn; 2] = [Turn::FusedGradientFirst, Turn::FusedGradientSecond];
const HESSIAN: [Turn; 2] = [Turn::FusedHessianFirst, Turn::FusedHessianSecond];
const DETERMINANT: [Turn; 2] = [Turn::FusedDeterminantFirst, Turn::FusedDeterminantSecond];
const SOLVE: [Turn; 2] = [Turn::FusedSolveFirst, Turn::FusedSolveSecond];
const TANGENT_SQUARE: [Turn; 2] = [Turn::FusedTangentSquareFirst, Turn::FusedTangentSquareSecond];
const FACE_GRADIENT: [Turn; 2] = [Turn::FusedFaceGradientFirst, Turn::FusedFaceGradientSecond];

/// One element's node coordinates, gathered, and the limit of its searches.
pub struct Element {
    turn: Turn,
    limit: u16,
    coordinates: Vec<[f64; 2]>,
}

/// The best of a search: where it is in the reference square (or on the face), and how far, squared.
#[derive(Clone, Copy)]
pub struct Projection<At> {
    pub at: At,
    pub squared: f64,
}

/// What one step makes of a reference.
enum Step<At> {
    Stay,
    Last(At),
    More(At),
}

impl Element {
    pub fn gather(query: &Query, row: &[u32], turn: Turn) -> Element {
        let coordinates = row.iter().map(|&number| query.nodes[number as usize]).collect();
        Element { turn, limit: turn.steps(query.limit), coordinates }
    }

    /// An element that is mapped and never searched.
    pub fn mapped(coordinates: Vec<[f64; 2]>, turn: Turn) -> Element {
        Element { turn, limit: 0, coordinates }
    }

    /// The one-dimensional factor of a node at `end` (-1, 0 or 1) and its derivative.
    fn factor(&self, end: i8, x: f64) -> (f64, f64) {
        let sign = f64::from(end);
        if self.coordinates.len() == 4 {
            (1.0 + sign * x, sign)
        } else if end == 0 && self.turn == Turn::BubbleFactored {
            ((1.0 - x) * (1.0 + x), -2.0 * x)
        } else if end == 0 {
            (self.turn.add_product(Turn::FusedBubble, 1.0, -x, x), -2.0 * x)
        } else {
            (0.5 * x * (x + sign), x + 0.5 * sign)
        }
    }

    /// Family 4 has the factor 0.25 in front; it only moves the exponent.
    fn scale(&self) -> f64 {
        if self.coordinates.len() == 4 { 0.25 } else { 1.0 }
    }

    /// N of one node, and its two derivatives.
    pub fn shape(&self, node: usize, [xi, eta]: [f64; 2]) -> (f64, [f64; 2]) {
        let (along_xi, slope_xi) = self.factor(NODE_AT[node][0], xi);
        let (along_eta, slope_eta) = self.factor(NODE_AT[node][1], eta);
        let value = self.scale() * along_xi * along_eta;
        (value, [self.scale() * slope_xi * along_eta, self.scale() * along_xi * slope_eta])
    }

    /// The local node that a sum takes at a place.
    fn term(&self, at: usize) -> usize {
        if self.turn == Turn::SumBackwards { self.coordinates.len() - 1 - at } else { at }
    }

    /// The point and the Jacobian at a reference.
    pub fn map(&self, reference: [f64; 2]) -> ([f64; 2], [[f64; 2]; 2]) {
        if self.turn == Turn::SumByPairs {
            return self.map_by_pairs(reference);
        }
        self.map_over(0..self.coordinates.len(), reference)
    }

    /// The sums over some places, in their order.
    fn map_over(&self, places: Range<usize>, reference: [f64; 2]) -> ([f64; 2], [[f64; 2]; 2]) {
        let mut point = [0.0; 2];
        let mut jacobian = [[0.0; 2]; 2];
        for node in places.map(|at| self.term(at)) {
            let (value, slopes) = self.shape(node, reference);
            for axis in 0..2 {
                let x = self.coordinates[node][axis];
                point[axis] = self.turn.add_product(Turn::FusedPoint, point[axis], value, x);
                for (entry, slope) in jacobian[axis].iter_mut().zip(slopes) {
                    *entry = self.turn.add_product(Turn::FusedJacobian, *entry, x, slope);
                }
            }
        }
        (point, jacobian)
    }

    /// Nodes 0 and 1, nodes 2 and 3, and the rest summed apart, then added.
    fn map_by_pairs(&self, reference: [f64; 2]) -> ([f64; 2], [[f64; 2]; 2]) {
        let parts = [0..2, 2..4, 4..self.coordinates.len()].map(|places| self.map_over(places, reference));
        let mut sum = ([0.0; 2], [[0.0; 2]; 2]);
        for (point, jacobian) in parts {
            for axis in 0..2 {
                sum.0[axis] += point[axis];
                sum.1[axis][0] += jacobian[axis][0];
                sum.1[axis][1] += jacobian[axis][1];
            }
        }
        sum
    }

    fn project<At>(&self, at: At, reference: [f64; 2], target: [f64; 2]) -> Projection<At> {
        Projection { at, squared: self.turn.squared_distance(self.map(reference).0, target) }
    }

    // ---- the element search

    pub fn search(&self, target: [f64; 2]) -> Projection<[f64; 2]> {
        let stepped = self.seeds().map(|seed| {
            let project = |at| self.project(at, at, target);
            let step = |at| self.element_step(at, target);
            self.walk(seed, self.element_steps(seed), step, project, Turn::BestOnTheWay)
        });
        let first = match self.turn {
            Turn::FirstBestIsStepped => stepped[0],
            _ => self.project(SEEDS[0], SEEDS[0], target),
        };
        self.best(Choice::Seeds, first, &stepped)
    }

    fn seeds(&self) -> [[f64; 2]; 9] {
        let mut seeds = SEEDS;
        if self.turn == Turn::MidsidesBeforeCorners {
            seeds[1..].rotate_left(4);
        }
        seeds
    }

    fn element_steps(&self, seed: [f64; 2]) -> u16 {
        match self.turn {
            Turn::StepsForgotten => 0,
            Turn::OnlyFirstSeedSteps if seed != SEEDS[0] => 0,
            _ => self.limit,
        }
    }

    fn best<At: Copy>(
        &self,
        choice: Choice,
        first: Projection<At>,
        others: &[Projection<At>],
    ) -> Projection<At> {
        let all: Vec<Projection<At>> = [&[first], others].concat();
        all[self.turn.first_least(choice, all.iter().map(|found| found.squared))]
    }

    /// Steps from a seed until one stays or is the last, or until they are used up. The turn `on_the_way` keeps
    /// the nearest of all places that it came by.
    fn walk<At: Copy>(
        &self,
        seed: At,
        steps: u16,
        step: impl Fn(At) -> Step<At>,
        project: impl Fn(At) -> Projection<At>,
        on_the_way: Turn,
    ) -> Projection<At> {
        let mut places = vec![seed];
        for _ in 0..steps {
            match step(places[places.len() - 1]) {
                Step::Stay => break,
                Step::Last(next) => {
                    places.push(next);
                    break;
                }
                Step::More(next) => places.push(next),
            }
        }
        let first = if self.turn == on_the_way { 0 } else { places.len() - 1 };
        let met: Vec<Projection<At>> = places[first..].iter().map(|&at| project(at)).collect();
        met[self.turn.first_least(Choice::Seeds, met.iter().map(|found| found.squared))]
    }

    fn element_step(&self, at: [f64; 2], target: [f64; 2]) -> Step<[f64; 2]> {
        let (point, jacobian) = self.map(at);
        let Some(update) = self.update(residual(point, target), jacobian) else {
            return Step::Stay;
        };
        let unclamped = [0, 1].map(|axis| at[axis] - update[axis]);
        let next = unclamped.map(|coordinate| self.turn.clamp(coordinate));
        let measured = if self.turn == Turn::ShortBeforeClamp { unclamped } else { next };
        let squared = self.turn.squared_distance(at, measured);
        match self.turn {
            Turn::ShortStepGoesOn => Step::More(next),
            Turn::ShortStepNotStored if squared <= SHORT_STEP_SQUARED => Step::Stay,
            Turn::ShortStepBoundPassed if squared == SHORT_STEP_SQUARED => Step::More(next),
            Turn::ShortStepBoundDoubled if squared <= 2.0 * SHORT_STEP_SQUARED => Step::Last(next),
            _ if squared <= SHORT_STEP_SQUARED => Step::Last(next),
            _ => Step::More(next),
        }
    }

    /// Solves (J transposed times J) × update = J transposed times residual, unless the determinant is small.
    fn update(&self, residual: [f64; 2], jacobian: [[f64; 2]; 2]) -> Option<[f64; 2]> {
        let columns = [0, 1].map(|column| [jacobian[0][column], jacobian[1][column]]);
        let dot = |fusing, a: [f64; 2], b: [f64; 2]| self.turn.two_products(fusing, a[0], b[0], a[1], b[1]);
        let gradient = columns.map(|column| dot(GRADIENT, column, residual));
        let hessian = columns.map(|row| columns.map(|column| dot(HESSIAN, row, column)));
        let determinant = match self.turn {
            Turn::DeterminantOfJacobian => {
                let root = self.cross(DETERMINANT, jacobian[0], jacobian[1]);
                root * root
            }
            _ => self.cross(DETERMINANT, hessian[0], hessian[1]),
        };
        if self.is_small(determinant) {
            return None;
        }
        let numerators = [
            self.cross(SOLVE, [gradient[0], hessian[0][1]], [gradient[1], hessian[1][1]]),
            self.cross(SOLVE, [hessian[0][0], gradient[0]], [hessian[1][0], gradient[1]]),
        ];
        Some(numerators.map(|numerator| match self.turn {
            Turn::ReciprocalDeterminant => numerator * (1.0 / determinant),
            _ => numerator / determinant,
        }))
    }

    /// The determinant of a matrix by its rows: main diagonal less the other.
    fn cross(&self, fusing: [Turn; 2], upper: [f64; 2], lower: [f64; 2]) -> f64 {
        self.turn.two_products(fusing, upper[0], lower[1], -upper[1], lower[0])
    }

    fn is_small(&self, determinant: f64) -> bool {
        match self.turn {
            Turn::DeterminantBoundMissing => false,
            Turn::DeterminantBoundPassed => determinant.abs() < DETERMINANT_BOUND,
            Turn::DeterminantBoundDoubled => determinant.abs() <= 2.0 * DETERMINANT_BOUND,
            Turn::DeterminantSigned => determinant <= DETERMINANT_BOUND,
            Turn::NanDeterminantStays if determinant.is_nan() => true,
            _ => determinant.abs() <= DETERMINANT_BOUND,
        }
    }

    // ---- the face search

    pub fn face_search(&self, face: usize, target: [f64; 2]) -> Projection<f64> {
        let steps = if self.turn == Turn::FaceStepsForgotten { 0 } else { self.limit };
        let project = |s| self.project(s, self.on_face(face, s), target);
        let step = |s| self.face_step(face, s, target);
        let seeds = match self.turn {
            Turn::FaceMiddleSeedFirst => [0.0, -1.0, 1.0],
            _ => [-1.0, 0.0, 1.0],
        };
        let stepped = seeds.map(|seed| self.walk(seed, steps, step, project, Turn::FaceBestOnTheWay));
        let first = match self.turn {
            Turn::FaceFirstBestIsSeed => stepped[0],
            _ => project(0.0),
        };
        self.best(Choice::FaceSeeds, first, &stepped)
    }

    fn face_step(&self, face: usize, s: f64, target: [f64; 2]) -> Step<f64> {
        let (point, jacobian) = self.map(self.on_face(face, s));
        let direction = self.face_direction(face);
        let tangent = jacobian.map(|row| row[0] * direction[0] + row[1] * direction[1]);
        let residual = residual(point, target);
        let square = self.turn.two_products(TANGENT_SQUARE, tangent[0], tangent[0], tangent[1], tangent[1]);
        if self.is_short(square) {
            return Step::Stay;
        }
        let gradient =
            self.turn.two_products(FACE_GRADIENT, tangent[0], residual[0], tangent[1], residual[1]);
        let update = match self.turn {
            Turn::ReciprocalTangentSquare => gradient * (1.0 / square),
            _ => gradient / square,
        };
        let next = self.turn.clamp(s - update);
        let step = (next - s).abs();
        match self.turn {
            Turn::FaceShortStepGoesOn => Step::More(next),
            Turn::FaceShortStepNotStored if step <= FACE_BOUND => Step::Stay,
            Turn::FaceShortStepBoundPassed if step == FACE_BOUND => Step::More(next),
            Turn::FaceShortStepBoundDoubled if step <= 2.0 * FACE_BOUND => Step::Last(next),
            _ if step <= FACE_BOUND => Step::Last(next),
            _ => Step::More(next),
        }
    }

    fn is_short(&self, tangent_square: f64) -> bool {
        match self.turn {
            Turn::TangentBoundMissing => false,
            Turn::TangentBoundPassed => tangent_square < FACE_BOUND,
            Turn::TangentBoundDoubled => tangent_square <= 2.0 * FACE_BOUND,
            Turn::NanTangentStays if tangent_square.is_nan() => true,
            _ => tangent_square <= FACE_BOUND,
        }
    }

    fn on_face(&self, face: usize, s: f64) -> [f64; 2] {
        let back = if self.turn == Turn::FacesNotTurned { s } else { -s };
        [[s, -1.0], [1.0, s], [back, 1.0], [-1.0, back]][face]
    }

    /// How the reference moves with s on each face: counter-clockwise from the bottom.
    fn face_direction(&self, face: usize) -> [f64; 2] {
        let back = if self.turn == Turn::FacesNotTurned { 1.0 } else { -1.0 };
        [[1.0, 0.0], [0.0, 1.0], [back, 0.0], [0.0, back]][face]
    }
}

fn residual(point: [f64; 2], target: [f64; 2]) -> [f64; 2] {
    [point[0] - target[0], point[1] - target[1]]
}
