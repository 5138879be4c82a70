//! Cases whose text changes if one operation is rounded otherwise or done in another order.

use super::angles::ANGLES;
use super::build::{
    INTERPOLATION, Point, STRAIN, STRESS, STRESS_IN_PLANE, TURNED, any_material, moved_right, points_in, ways,
};
use super::first_of;
use crate::jobs::mesh::{FAMILIES, Mesh};
use crate::jobs::random::{Random, two_to};
use crate::jobs::shapes::moved_element;
use crate::operator_turns::{Turn, answer, tells};
use crate::operators::{Call, Operator};
use crate::wrong_turns;

/// Turns that strain tells.
const OF_STRAIN: [Turn; 9] = [
    Turn::Mapped(wrong_turns::Turn::FusedPoint),
    Turn::Mapped(wrong_turns::Turn::FusedJacobian),
    Turn::Mapped(wrong_turns::Turn::SumBackwards),
    Turn::FusedDeterminantFirst,
    Turn::FusedDeterminantSecond,
    Turn::FusedGradientFirst,
    Turn::FusedGradientSecond,
    Turn::DividedByDeterminant,
    Turn::ReciprocalRadius,
];

const OF_STRESS: [Turn; 3] = [Turn::FusedStress, Turn::TermsBackwards, Turn::TermsInPairs];

const OF_ROTATION: [Turn; 6] = [
    Turn::FusedRotation,
    Turn::RotationTermsBackwards,
    Turn::RotationRegrouped,
    Turn::SquaresFactored,
    Turn::FusedSquaresFirst,
    Turn::FusedSquaresSecond,
];

/// Turns of 1 - x², which only family 9 has.
const OF_BUBBLE: [Turn; 2] =
    [Turn::Mapped(wrong_turns::Turn::FusedBubble), Turn::Mapped(wrong_turns::Turn::BubbleFactored)];

/// A skewed or bent element with one point, in one of the seven ways.
fn any_call(random: &mut Random, family: u8, way: usize) -> Call {
    let mesh = moved_right(moved_element(random, family, 0.25), 1.5);
    let points = points_in(random, &mesh, 1);
    ways(&mesh, &points, &[any_material(random)], &[random.pick(&ANGLES)])[way].clone()
}

/// The axisymmetric rows tell each turn once in either family.
pub fn fused_or_reordered(random: &mut Random) -> Vec<Call> {
    let mut calls = Vec::new();
    for family in FAMILIES {
        for (turns, way) in [(&OF_STRAIN[..], STRAIN), (&OF_STRESS, STRESS), (&OF_ROTATION, TURNED)] {
            calls.extend(turns.iter().map(|&turn| telling(random, turn, family, way)));
        }
    }
    for turn in OF_BUBBLE {
        calls.extend([INTERPOLATION, STRAIN, STRESS_IN_PLANE].map(|way| telling(random, turn, 9, way)));
    }
    calls
}

fn telling(random: &mut Random, turn: Turn, family: u8, way: usize) -> Call {
    let wanted = |call: &Call| call.accepted() && tells(call, turn);
    first_of(random, wanted, |random| any_call(random, family, way))
}

// ---- the rounding decides a question

/// A call that is accepted or not, as is said, and with the turn the other way round.
fn decided(random: &mut Random, accepted: bool, turn: Turn, make: impl Fn(&mut Random) -> Call) -> Call {
    let turned = |call: &Call| answer(call, turn).starts_with(b"built");
    first_of(random, |call| call.accepted() == accepted && turned(call) != accepted, make)
}

/// Elements on a line: both products round to the same number, and the determinant is 0. Fused, it is above 0.
/// (The other way round cannot be, since rounding keeps the order.)
pub fn deciding_determinants(random: &mut Random) -> Vec<Call> {
    let mut calls = Vec::new();
    for family in FAMILIES {
        for turn in [Turn::FusedDeterminantFirst, Turn::FusedDeterminantSecond] {
            calls.push(decided(random, false, turn, |random| on_a_line(random, family)));
        }
    }
    calls
}

fn on_a_line(random: &mut Random, family: u8) -> Call {
    let direction = random.pair(1.0, 2.0);
    let corners = [0; 4].map(|_| random.between(1.0, 4.0)).map(|steps| direction.map(|x| steps * x));
    let mesh = Mesh::of(family, &[corners]);
    let points = points_in(random, &mesh, 1);
    Call::of(Operator::Strain, &mesh).at(&points).in_plane()
}

/// A point close to the axis: its radius is above 2^-52 or not by its rounding.
pub fn deciding_radii(random: &mut Random) -> Vec<Call> {
    let mut calls = Vec::new();
    for family in FAMILIES {
        for turn in [wrong_turns::Turn::FusedPoint, wrong_turns::Turn::SumBackwards] {
            for accepted in [false, true] {
                let make = |random: &mut Random| across_the_axis(random, family);
                calls.push(decided(random, accepted, Turn::Mapped(turn), make));
            }
        }
    }
    calls
}

fn across_the_axis(random: &mut Random, family: u8) -> Call {
    let [left, right] = [-random.between(1.0, 2.0), random.between(1.0, 2.0)];
    let corners = [[left, 0.0], [right, 0.0], [right, 2.0], [left, 2.0]];
    let xi = (left + right) / (left - right) + random.below(8) as f64 * two_to(-53);
    let points: [Point; 1] = [(0, [xi, random.between(-1.0, 1.0)])];
    Call::of(Operator::Strain, &Mesh::of(family, &[corners])).at(&points)
}
