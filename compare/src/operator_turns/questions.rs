//! The questions of a call, all of them answered, in the order in which they are asked.

use super::rows::{Place, built};
use super::{ORDER, Turn};
use crate::document01::Refusal;
use crate::operators::{Call, Formulation, Operator};

/// One question with its answer.
struct Question {
    number: u8,
    place: usize,
    holds: bool,
}

/// The numbers of the questions that an operator asks, in order.
pub fn asked_by(operator: Operator) -> Vec<u8> {
    let concerns = |number: &u8| match number {
        6 | 12 | 13 | 15 => operator == Operator::Stress,
        16 | 17 => operator != Operator::Interpolation,
        _ => true,
    };
    ORDER.into_iter().filter(concerns).collect()
}

/// The first question answered "no".
pub fn first_no(call: &Call, turn: Turn) -> Option<Refusal> {
    let asked = asked_by(call.operator);
    let mut questions = list_questions(call, turn);
    questions.extend((0..call.points()).flat_map(|point| point_questions(call, turn, point)));
    questions.retain(|question| asked.contains(&question.number));
    questions.sort_by_key(|question| turn_in_order(question, turn, &asked));
    let no = questions.into_iter().find(|question| !question.holds)?;
    Some(Refusal { number: no.number, place: place_of(call, turn, &no) })
}

/// What the questions are sorted by: those about lists come first, then point by point, then by number. A late
/// one stands just after the one that follows it.
fn turn_in_order(question: &Question, turn: Turn, asked: &[u8]) -> (bool, usize, u8, bool) {
    let at = asked.iter().position(|&number| number == question.number).expect("only these are asked");
    let late = turn == Turn::AskedLate(question.number) && at + 1 < asked.len();
    let number = if late { asked[at + 1] } else { question.number };
    let about_a_point = number >= 14;
    match (about_a_point, turn) {
        (true, Turn::QuestionByQuestion) => (true, number.into(), 0, late),
        (true, _) if question.number >= 14 => (true, question.place, number, late),
        _ => (about_a_point, 0, number, late),
    }
}

fn place_of(call: &Call, turn: Turn, no: &Question) -> usize {
    match turn {
        Turn::ElementAtPlaceZero if no.number == 8 => 0,
        Turn::PointAtPlaceZero if no.number >= 14 => 0,
        Turn::ElementForPoint if no.number >= 14 => call.element_indices[no.place],
        _ => no.place,
    }
}

/// 1 to 13.
fn list_questions(call: &Call, turn: Turn) -> Vec<Question> {
    let at_place_zero = |number, holds| Question { number, place: 0, holds };
    let asked = call.pairs_given() || turn == Turn::UngivenPairsAsked;
    let pairs = if asked { call.pair_list().len() } else { 2 * call.element_count() };
    let [for_materials, for_pairs] = [Turn::MaterialsCountedByPoints, Turn::PairsCountedByPoints]
        .map(|by_points| if turn == by_points { call.points() } else { call.element_count() });
    let mut questions = vec![
        at_place_zero(1, [4, 9].contains(&call.family)),
        at_place_zero(2, call.nodes.len() == 2 * call.node_count()),
        at_place_zero(3, call.elements.len() == call.size() * call.element_count()),
        at_place_zero(5, call.reference_points.chunks_exact(2).remainder().is_empty()),
        at_place_zero(6, call.material_table.len() & 15 == 0 && pairs & 1 == 0),
        at_place_zero(7, room(call, turn)),
        at_place_zero(11, call.reference_points.len() / 2 == call.points()),
        at_place_zero(12, call.material_ids.len() == for_materials),
        at_place_zero(13, !asked || pairs / 2 == for_pairs),
    ];
    let mut elements: Vec<Question> =
        (0..call.element_count()).map(|element| element_question(call, turn, element)).collect();
    if turn == Turn::LastBadElement {
        elements.reverse();
    }
    questions.extend(elements);
    questions
}

/// 8.
fn element_question(call: &Call, turn: Turn, element: usize) -> Question {
    let row = &call.elements[call.size() * element..call.size() * (element + 1)];
    let largest = row.iter().copied().max().expect("an element has nodes") as usize;
    let holds = turn.is_below(Turn::NodeAtCountPasses, largest, call.node_count());
    Question { number: 8, place: element, holds }
}

/// 7, for each of the three lists.
fn room(call: &Call, turn: Turn) -> bool {
    let points = match turn {
        Turn::RoomByReferencePoints => call.reference_points.len() / 2,
        _ => call.points(),
    };
    let eightfold = (call.operator == Operator::Interpolation) == (turn == Turn::RoomOfOtherOperator);
    let worst = points * call.size() * if eightfold { 8 } else { 1 };
    let needed = match turn {
        Turn::RoomByTriplets if call.readable() => built(call, Turn::Straight).triplets.len(),
        Turn::RoomJustEnoughRefused => worst + 1,
        _ => worst,
    };
    let enough = |(list, places): (usize, usize)| turn == Turn::RoomNotAsked(list) || needed <= places;
    call.lent().into_iter().enumerate().all(enough)
}

/// 14 to 17. An element or a material that is not there counts as number 0, so that every question has an
/// answer.
fn point_questions(call: &Call, turn: Turn, point: usize) -> [Question; 4] {
    let of_point = |number, holds| Question { number, place: point, holds };
    let element = call.element_indices[point];
    let material = call.material_ids.get(element).copied().unwrap_or(0);
    let place = Place::of(call, turn, point);
    let asks_radius = call.formulation == Formulation::Axisymmetric || turn == Turn::RadiusAskedInPlaneStrain;
    [
        of_point(14, turn.is_below(Turn::ElementAtCountPasses, element, call.element_count())),
        of_point(15, turn.is_below(Turn::MaterialAtCountPasses, material, call.material_table.len() / 16)),
        of_point(16, !turn.inverted(place.determinant())),
        of_point(17, !(asks_radius && turn.on_axis(place.radius()))),
    ]
}

impl Turn {
    /// Whether a number is below a count. A turn lets the count itself pass.
    fn is_below(self, passing: Turn, number: usize, count: usize) -> bool {
        number < count || (self == passing && number == count)
    }

    fn inverted(self, determinant: f64) -> bool {
        match self {
            Turn::DeterminantByMagnitude => determinant.abs() <= 0.0,
            Turn::DeterminantZeroPasses => determinant < 0.0,
            Turn::DeterminantEpsilonRefused => determinant <= f64::EPSILON,
            Turn::DeterminantNanRefused if determinant.is_nan() => true,
            _ => determinant <= 0.0,
        }
    }

    fn on_axis(self, radius: f64) -> bool {
        match self {
            Turn::RadiusAtBoundPasses => radius < f64::EPSILON,
            Turn::RadiusBoundZero => radius <= 0.0,
            Turn::RadiusBoundDoubled => radius <= 2.0 * f64::EPSILON,
            Turn::RadiusByMagnitude => radius.abs() <= f64::EPSILON,
            Turn::RadiusNanRefused if radius.is_nan() => true,
            _ => radius <= f64::EPSILON,
        }
    }
}
