//! Cases at the edges of questions 16 and 17, and values that are 0.

use super::build::{PLAIN, Point, RING, STEEL, strain_and_stress, ways};
use crate::jobs::mesh::{FAMILIES, Mesh, Pair, SQUARE, rectangle};
use crate::jobs::random::{Random, two_to};
use crate::operators::{Call, Operator};

const CENTRE: Pair = [0.0, 0.0];

/// A point off the centre and off the sides.
const INNER: Pair = [0.25, -0.5];

// ---- 16

/// Clockwise, folded or flat at the point; the last two in one corner only. The determinant is negative or 0.
const INVERTED: [([Pair; 4], Pair); 8] = [
    ([[1.0, 0.0], [1.0, 2.0], [3.0, 2.0], [3.0, 0.0]], CENTRE),
    ([[3.0, 0.0], [1.0, 0.0], [1.0, 2.0], [3.0, 2.0]], INNER),
    ([[1.0, 0.0], [3.0, 0.0], [3.0, -2.0], [1.0, -2.0]], INNER),
    ([[1.0, 1.0], [3.0, 1.0], [3.0, 1.0], [1.0, 1.0]], CENTRE),
    ([[1.5, 0.5], [1.5, 0.5], [1.5, 0.5], [1.5, 0.5]], INNER),
    ([[1.0, 0.0], [2.0, 0.5], [4.0, 1.5], [3.0, 1.0]], INNER),
    ([[1.0, 0.0], [3.0, 0.25], [1.5, 0.5], [1.25, 2.0]], [1.0, 1.0]),
    ([[1.0, 0.0], [3.0, 0.0], [2.0, 1.0], [1.0, 2.0]], [1.0, 1.0]),
];

pub fn inverted(_: &mut Random) -> Vec<Call> {
    let mut calls = Vec::new();
    for (at, (corners, reference)) in INVERTED.into_iter().enumerate() {
        let mesh = Mesh::of(FAMILIES[at % 2], &[corners]);
        let [strain, stress] = strain_and_stress(&mesh, &[(0, reference)]);
        calls.push(if at / 2 % 2 == 0 { strain } else { stress.in_plane() });
    }
    calls.extend(underflowing());
    calls.extend(late(&INVERTED[0].0, CENTRE));
    calls
}

/// Rectangles so small that the determinant is +0, -0 and the largest number below 0.
fn underflowing() -> [Call; 3] {
    let sides = [[-540, 1], [-540, -1], [-536, -1]]
        .map(|[power, sign]| [two_to(power), f64::from(sign) * two_to(power)]);
    sides.map(|[width, height]| {
        let mesh = Mesh::of(4, &[rectangle([0.0, 0.0], width, height)]);
        Call::of(Operator::Strain, &mesh).at(&[(0, CENTRE)]).in_plane()
    })
}

/// The last of four points is the bad one; two of those before it are in the same place.
fn late(corners: &[Pair; 4], reference: Pair) -> Vec<Call> {
    let mut calls = Vec::new();
    for family in FAMILIES {
        let mesh = Mesh::of(family, &[RING, *corners]);
        let points: [Point; 4] = [(0, CENTRE), (0, INNER), (0, CENTRE), (1, reference)];
        calls.extend(strain_and_stress(&mesh, &points));
    }
    calls
}

/// A NaN is not ≤ 0: infinite and NaN nodes whose determinant is NaN.
pub fn nan_determinants(_: &mut Random) -> Vec<Call> {
    let mut calls = Vec::new();
    for family in FAMILIES {
        for hole in [[f64::NAN, 0.0], [1.0, f64::NAN], [f64::INFINITY, f64::NEG_INFINITY]] {
            let mut mesh = Mesh::of(family, &[RING]);
            mesh.nodes[0] = hole;
            let [strain, stress] = strain_and_stress(&mesh, &[(0, INNER)]);
            calls.extend([strain.in_plane(), stress.in_plane()]);
        }
    }
    calls
}

/// Determinants just above 0: subnormal, so that 1 / determinant overflows, and at most 2^-52.
pub fn small_determinants(_: &mut Random) -> Vec<Call> {
    let mut calls = Vec::new();
    for (at, power) in [-26, -27, -400, -511, -512, -530, -536].into_iter().enumerate() {
        let mesh = Mesh::of(FAMILIES[at % 2], &[RING.map(|node| node.map(|x| x * two_to(power)))]);
        let [strain, stress] = strain_and_stress(&mesh, &[(0, INNER)]);
        calls.push(if at % 3 == 0 { stress.in_plane() } else { strain.in_plane() });
    }
    calls
}

// ---- 17

/// A rectangle from radius `near` to radius 1, and the point at its lower near corner: the radius there is
/// `near`, exactly.
fn at_radius(family: u8, near: f64) -> (Mesh, Vec<Point>) {
    let corners = [[near, 0.0], [1.0, 0.0], [1.0, 2.0], [near, 2.0]];
    (Mesh::of(family, &[corners]), vec![(0, [-1.0, -1.0])])
}

pub fn on_axis(_: &mut Random) -> Vec<Call> {
    let mut calls = Vec::new();
    let bound = two_to(-52);
    for near in [bound, bound.next_down(), 0.0, -0.0, two_to(-1074), -bound, -0.5] {
        let [(mesh_4, points), (mesh_9, _)] = FAMILIES.map(|family| at_radius(family, near));
        calls.extend(strain_and_stress(&mesh_4, &points));
        calls.push(Call::of(Operator::Strain, &mesh_9).at(&points));
    }
    // On the axis inside the element, at a late point, and infinitely far on the other side.
    let across = Mesh::of(4, &[rectangle([-1.0, -1.0], 2.0, 2.0)]);
    calls.extend(strain_and_stress(&across, &[(0, CENTRE)]));
    calls.extend(strain_and_stress(&across, &[(0, [0.5, 0.5]), (0, [0.25, 0.0]), (0, [-0.25, 0.0])]));
    let mut infinite = Mesh::of(4, &[RING]);
    infinite.nodes[0][0] = f64::NEG_INFINITY;
    calls.extend(strain_and_stress(&infinite, &[(0, INNER)]));
    calls
}

/// Just off the axis; and on it or beyond in plane strain, where the radius is not asked about.
pub fn beside_axis(_: &mut Random) -> Vec<Call> {
    let mut calls = Vec::new();
    for family in FAMILIES {
        for near in [two_to(-52).next_up(), two_to(-51)] {
            let (mesh, points) = at_radius(family, near);
            calls.extend(strain_and_stress(&mesh, &points));
        }
        for near in [two_to(-52), 0.0, -0.5] {
            let (mesh, points) = at_radius(family, near);
            calls.push(Call::of(Operator::Strain, &mesh).at(&points).in_plane());
        }
    }
    calls
}

/// Infinite and NaN radii: the value N / radius is 0 and omitted, or NaN and kept.
pub fn odd_radii(_: &mut Random) -> Vec<Call> {
    let mut calls = Vec::new();
    for family in FAMILIES {
        for radius in [f64::NAN, f64::INFINITY] {
            let mut mesh = Mesh::of(family, &[RING]);
            // The last node's shape number is positive at the point.
            mesh.nodes[usize::from(family) - 1][0] = radius;
            calls.extend(strain_and_stress(&mesh, &[(0, INNER)]));
        }
    }
    // The radius overflows, to +infinity and to a NaN, and the determinant is an ordinary number.
    let far = Mesh::of(4, &[rectangle([1.5 * two_to(1023), 0.0], two_to(1020), two_to(-1000))]);
    for reference in [[-3.0, -1.0], [3.0, 3.0]] {
        calls.extend(strain_and_stress(&far, &[(0, reference)]));
    }
    calls
}

// ---- zeros

/// Values that are 0 of either sign: N on corners and sides, gradients along sides, products and sums of a
/// material that cancel or underflow.
pub fn zeros(_: &mut Random) -> Vec<Call> {
    let mut calls = Vec::new();
    for family in FAMILIES {
        let mesh = Mesh::of(family, &[RING]);
        let corner = [(0, [1.0, -1.0])];
        let tiny = PLAIN.map(|number| number * two_to(-1070));
        let minus = PLAIN.map(|number| -number * two_to(-1072));
        let mut cancels = [1.0; 16];
        cancels[3] = -1.0;
        cancels[8..12].fill(-0.0);
        for (at, material) in [tiny, minus, cancels, [0.0; 16], [-0.0; 16]].into_iter().enumerate() {
            let call = Call::of(Operator::Stress, &mesh).at(&corner).made_of(&[material]);
            calls.push(if at % 2 == 0 { call } else { call.in_plane() });
        }
        calls.extend(ways(&mesh, &[(0, [-0.0, -0.0])], &[STEEL], &[0.7]).into_iter().step_by(2));
    }
    let square = Mesh::of(4, &[SQUARE]);
    calls.push(Call::of(Operator::Interpolation, &square).at(&[(0, [1.0, -3.0]), (0, [-1.0, 2.0])]));
    calls
}

#[cfg(test)]
mod tests {
    use super::*;
    use crate::published::determinant_and_radius;

    #[test]
    fn determinants_underflow_to_both_zeros_and_below() {
        let bits = underflowing().map(|call| determinant_and_radius(&call, 0).0.to_bits());
        assert_eq!(bits, [0, 1 << 63, (1 << 63) + 1]);
    }

    #[test]
    fn a_radius_overflows_where_the_determinant_does_not() {
        let calls = odd_radii(&mut Random::of_kind(""));
        let [infinite, nan] =
            [&calls[calls.len() - 4], &calls[calls.len() - 2]].map(|call| determinant_and_radius(call, 0));
        assert_eq!(infinite, (two_to(18), f64::INFINITY));
        assert!(nan.0 == two_to(18) && nan.1.is_nan());
    }

    #[test]
    fn radii_are_those_that_the_corner_has() {
        for near in [two_to(-52), two_to(-52).next_up(), -0.5] {
            for family in FAMILIES {
                let (mesh, points) = at_radius(family, near);
                let call = Call::of(Operator::Strain, &mesh).at(&points);
                assert_eq!(determinant_and_radius(&call, 0).1, near);
            }
        }
    }
}
