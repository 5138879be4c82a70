//! Materials turned by pairs: of angles, of angles whose cosine is 1, and of no angle.

use super::build::{Material, PLAIN, Point, RING, STEEL, any_material};
use crate::jobs::mesh::{Mesh, Pair};
use crate::jobs::random::{Random, two_to};
use crate::operators::{Call, Operator};
use std::f64::consts::{FRAC_PI_2, FRAC_PI_3, FRAC_PI_4, FRAC_PI_6, FRAC_PI_8, PI, TAU};

/// Angles in each quarter, small and large. Their cosines and sines are the same in two libraries (see the test
/// below), so that the list does not depend on the machine.
pub const ANGLES: [f64; 40] = [
    FRAC_PI_8,
    FRAC_PI_6,
    FRAC_PI_4,
    FRAC_PI_3,
    FRAC_PI_2,
    3.0 * FRAC_PI_4,
    PI,
    3.0 * FRAC_PI_2,
    TAU,
    -FRAC_PI_4,
    -FRAC_PI_2,
    -PI,
    0.1,
    0.2,
    0.3,
    0.4,
    0.5,
    0.6,
    0.7,
    0.8,
    0.9,
    1.0,
    1.2,
    1.4,
    -0.35,
    -1.6,
    2.0,
    3.0,
    4.0,
    5.0,
    -6.0,
    7.0,
    10.0,
    100.0,
    1e6,
    -1e22,
    1e300,
    f64::MAX,
    1e-3,
    1e-5,
];

/// The first has the cosine 1 - 2^-53. The others have the cosine 1 and a sine that is not 0.
pub const SMALL_ANGLES: [f64; 12] = [
    1.4901161193847656e-8,
    7.450580596923828e-9,
    1e-8,
    -1e-9,
    1e-12,
    1e-16,
    -1e-100,
    1e-160,
    1e-300,
    -1e-308,
    5e-324,
    -5e-324,
];

/// Pairs that no angle has.
const ODD_PAIRS: [Pair; 24] = [
    [0.0, 1.0],
    [0.0, -1.0],
    [-1.0, 0.0],
    [-1.0, -0.0],
    [0.0, 0.0],
    [-0.0, -0.0],
    [1.0, 1.0],
    [1.0, -0.5],
    [2.0, 0.0],
    [0.5, 0.5],
    [0.6, 0.8],
    [1.5, -2.25],
    [0.9999999999999999, 0.0],
    [1.0000000000000002, -0.0],
    [1.0, f64::NAN],
    [f64::NAN, 0.0],
    [1.0, f64::INFINITY],
    [f64::INFINITY, 0.0],
    [f64::NEG_INFINITY, 1.0],
    [f64::MAX, f64::MIN],
    [1e160, -1e-160],
    [5e-324, 1.0],
    [1e-170, 1e-150],
    [3.0, 4.0],
];

/// Four squares in a row, with a point in each.
fn four_rings() -> (Mesh, Vec<Point>) {
    let mesh = Mesh::grid(4, 4, 1, |[x, y]| [1.0 + x, y]);
    let at = [[0.5, -0.25], [-0.75, 0.5], [0.0, 0.125], [-0.375, -0.625]];
    (mesh, at.into_iter().enumerate().collect())
}

/// Four turned materials at a time, in either formulation.
pub fn many_angles(random: &mut Random) -> Vec<Call> {
    let (mesh, points) = four_rings();
    let of_four = |(at, angles): (usize, &[f64])| {
        let materials = [any_material(random), STEEL, PLAIN];
        let call = Call::of(Operator::Stress, &mesh).at(&points).made_of(&materials).turned_by(angles);
        if at % 2 == 0 { call } else { call.in_plane() }
    };
    ANGLES.chunks(4).enumerate().map(of_four).collect()
}

/// One turned material at a time, in family 9.
pub fn curved_angles(random: &mut Random) -> Vec<Call> {
    let mesh = Mesh::of(9, &[RING]);
    let of_angle = |angle: &f64| {
        let reference = random.pair(-0.9, 0.9);
        let call = Call::of(Operator::Stress, &mesh).at(&[(0, reference)]).made_of(&[any_material(random)]);
        let call = call.turned_by(&[*angle]);
        if random.below(2) == 0 { call } else { call.in_plane() }
    };
    ANGLES[12..24].iter().map(of_angle).collect()
}

/// A pair equal to (1, 0), the sine of either sign, copies the material, also one whose numbers do not survive a
/// product with 1 and 0.
pub fn copied(_: &mut Random) -> Vec<Call> {
    let mut calls = Vec::new();
    for angle in [0.0, -0.0] {
        for material in [PLAIN, spoiled(f64::INFINITY), spoiled(f64::NAN)] {
            let call = one_ring(material).turned_by(&[angle]);
            calls.extend([call.clone(), call.in_plane()]);
        }
    }
    calls
}

/// A plain material with one extraordinary number.
fn spoiled(number: f64) -> Material {
    let mut material = PLAIN;
    material[1] = number;
    material
}

fn one_ring(material: Material) -> Call {
    Call::of(Operator::Stress, &Mesh::of(4, &[RING])).at(&[(0, [0.25, -0.5])]).made_of(&[material])
}

pub fn small_angles(random: &mut Random) -> Vec<Call> {
    let of_angle = |(at, angle): (usize, f64)| {
        let scale = if at % 3 == 0 { 1.0 } else { two_to(1000) };
        let call = one_ring(any_material(random).map(|number| number * scale)).turned_by(&[angle]);
        if at % 2 == 0 { call } else { call.in_plane() }
    };
    SMALL_ANGLES.into_iter().enumerate().map(of_angle).collect()
}

/// Angles that are no numbers, or infinite: both of the pair are NaN.
pub fn no_angles(_: &mut Random) -> Vec<Call> {
    [f64::NAN, f64::INFINITY, f64::NEG_INFINITY].map(|angle| one_ring(PLAIN).turned_by(&[angle])).into()
}

/// The Rust turns by angles alone, so these are turned by our own reading.
pub fn odd_pairs(random: &mut Random) -> Vec<Call> {
    let mut calls = Vec::new();
    for (at, pair) in ODD_PAIRS.into_iter().enumerate() {
        let material = if at % 2 == 0 { any_material(random) } else { PLAIN };
        let call = one_ring(material).paired(&[pair]);
        calls.push(if at % 3 == 0 { call.in_plane() } else { call });
    }
    for pair in &ODD_PAIRS[..4] {
        calls.push(one_ring(spoiled(f64::INFINITY)).paired(&[*pair]));
    }
    let mut mixed = vec![[1.0, -0.0], [-0.0, -1.0], [1.0, 0.0], [0.8, -0.6]];
    random.shuffle(&mut mixed);
    let (mesh, points) = four_rings();
    calls.push(Call::of(Operator::Stress, &mesh).at(&points).made_of(&[PLAIN, STEEL]).paired(&mixed));
    calls
}

#[cfg(test)]
mod tests {
    use super::*;

    /// The C library behind the Rust and the `libm` crate were written apart from each other.
    #[test]
    fn cosines_and_sines_are_those_of_two_libraries() {
        for angle in ANGLES.into_iter().chain(SMALL_ANGLES) {
            assert_eq!(angle.cos().to_bits(), libm::cos(angle).to_bits(), "cosine of {angle}");
            assert_eq!(angle.sin().to_bits(), libm::sin(angle).to_bits(), "sine of {angle}");
        }
    }

    #[test]
    fn small_angles_have_the_cosine_1_or_the_number_below() {
        assert_eq!(SMALL_ANGLES[0].cos(), 1.0 - two_to(-53));
        assert!(SMALL_ANGLES[1..].iter().all(|angle| angle.cos() == 1.0 && angle.sin() != 0.0));
    }
}
