//! Cases by the shape of their elements, and document 01's worked probes.

use super::angles::ANGLES;
use super::build::{
    PLAIN, Point, RING, STEEL, any_material, dyadic_points, first_sound, moved_right, points_in, ways,
};
use crate::jobs::mesh::{FAMILIES, Mesh, SQUARE};
use crate::jobs::random::{Random, two_to};
use crate::jobs::shapes::{bent_element, few_digits, moved_element};
use crate::operators::{Call, Operator};

// ---- the worked table

/// Rows 1, 2 and 8 to 12 of the worked table, in this order, with lent lists as long as there.
pub fn probes(_: &mut Random) -> Vec<Call> {
    let square = Mesh::of(4, &[SQUARE]);
    let mut clockwise = square.clone();
    clockwise.elements[0] = vec![0, 3, 2, 1];
    let mut ones = Mesh::of(9, &[SQUARE]);
    ones.nodes.fill([1.0, 1.0]);
    let strain = |mesh: &Mesh, xi: f64| Call::of(Operator::Strain, mesh).at(&[(0, [xi, 0.0])]);
    let mut family_9 = Call::of(Operator::Interpolation, &ones).at(&[(0, [0.5, 0.0])]);
    family_9.spare = [1; 3];
    vec![
        Call::of(Operator::Interpolation, &square).at(&[(0, [0.5, -0.25])]),
        family_9,
        strain(&square, 0.0).in_plane(),
        strain(&square, 0.0),
        strain(&clockwise, 0.0).in_plane(),
        strain(&square, -1.0 + two_to(-52)),
        strain(&square, -1.0 + two_to(-51)),
    ]
}

// ---- shapes

/// Family 4 gets two points and family 9 one: a row of family 9 is long.
fn few(family: u8) -> usize {
    if family == 4 { 2 } else { 1 }
}

/// Rectangles with few digits and points at eighths: all values of strain are exact.
pub fn dyadic(random: &mut Random) -> Vec<Call> {
    let mut calls = Vec::new();
    for family in FAMILIES {
        let [width, height] = [0; 2].map(|_| random.pick(&[0.5, 1.0, 2.0, 4.0]));
        let mesh = Mesh::grid(family, 1, 1, |[x, y]| [1.0 + width * x, height * y - 1.0]);
        let points = dyadic_points(random, &mesh, few(family));
        calls.extend(ways(&mesh, &points, &[PLAIN], &[random.pick(&ANGLES)]));
    }
    calls
}

pub fn skewed(random: &mut Random) -> Vec<Call> {
    let mut calls = Vec::new();
    for family in FAMILIES {
        let (mesh, points) = first_sound(random, |random| {
            let mesh = moved_right(moved_element(random, family, 0.3), 1.5);
            let points = points_in(random, &mesh, few(family));
            (mesh, points)
        });
        calls.extend(ways(&mesh, &points, &[any_material(random)], &[random.pick(&ANGLES)]));
    }
    calls
}

/// Family 9 with sides that bend.
pub fn curved(random: &mut Random) -> Vec<Call> {
    let mut calls = Vec::new();
    for most in [0.2, 0.5] {
        let (mesh, points) = first_sound(random, |random| {
            let mesh = moved_right(bent_element(random, most), 1.0);
            let points = points_in(random, &mesh, 1);
            (mesh, points)
        });
        calls.extend(ways(&mesh, &points, &[STEEL], &[random.pick(&ANGLES)]));
    }
    calls
}

/// Several elements that share nodes, with several materials and angles. Some points name the same element, two
/// are the same, and the elements are not named in order.
pub fn grids(random: &mut Random) -> Vec<Call> {
    let mut calls = Vec::new();
    for family in FAMILIES {
        let mesh = Mesh::grid(family, 3, 2, |at| {
            let noise = random.pair(-0.2, 0.2);
            [1.0 + at[0] + noise[0], at[1] + noise[1]]
        });
        let mut points = points_in(random, &mesh, few(family));
        points.push((5, [0.0, 0.0]));
        points.push(points[0]);
        let materials = [PLAIN, STEEL, any_material(random)];
        let angles = [0; 6].map(|_| random.pick(&ANGLES));
        calls.extend(ways(&mesh, &points, &materials, &angles));
    }
    calls
}

/// More materials than elements. Neither the materials of the elements nor the elements of the points are in the
/// order of their numbers.
pub fn several_materials(random: &mut Random) -> Vec<Call> {
    let mut calls = Vec::new();
    for ids in [[3, 1, 0], [2, 2, 3], [0, 3, 1]] {
        let mesh = Mesh::grid(4, 3, 1, |[x, y]| [1.0 + x, y]);
        let points: Vec<Point> =
            [2, 0, 1].map(|element| (element, few_digits(random.pair(-1.0, 1.0)))).into();
        let materials = [PLAIN, STEEL, any_material(random), any_material(random)];
        let mut stress = Call::of(Operator::Stress, &mesh).at(&points).made_of(&materials);
        stress.material_ids = ids.into();
        let turned = stress.clone().turned_by(&[0.7, 0.0, -0.35]);
        calls.extend([stress.clone(), stress.in_plane(), turned.clone(), turned.in_plane()]);
    }
    calls
}

/// An element with the same node number twice: its triplets name a column twice.
pub fn repeated_nodes(random: &mut Random) -> Vec<Call> {
    let mut calls = Vec::new();
    for family in FAMILIES {
        let mut mesh = Mesh::of(family, &[RING]);
        mesh.elements[0][3] = mesh.elements[0][2];
        if family == 9 {
            mesh.elements[0][6] = mesh.elements[0][2];
        }
        calls.extend(ways(&mesh, &[(0, [-0.25, -0.5])], &[PLAIN], &[random.pick(&ANGLES)]));
    }
    calls
}

/// Reference points on corners, on sides and outside of the square, where no question looks.
pub fn references(random: &mut Random) -> Vec<Call> {
    let mut calls = Vec::new();
    for family in FAMILIES {
        let mesh = Mesh::of(family, &[RING]);
        let corners = [[-1.0, -1.0], [1.0, -1.0], [1.0, 1.0], [-1.0, 1.0], [0.0, 0.0], [0.0, -1.0]];
        let corners = corners.map(|reference| (0, reference));
        calls.push(Call::of(Operator::Interpolation, &mesh).at(&corners));
        calls.extend(corners.chunks(2).map(|points| Call::of(Operator::Strain, &mesh).at(points)));
        let outside = [(0, random.pair(1.0, 3.0)), (0, [-1.5, 1.25])];
        calls.extend(ways(&mesh, &outside[..few(family)], &[PLAIN], &[random.pick(&ANGLES)]));
    }
    calls
}

#[cfg(test)]
mod tests {
    use super::*;
    use crate::operators::answer;

    fn lines(at: usize) -> Vec<String> {
        let call = &probes(&mut Random::of_kind(""))[at];
        let text = String::from_utf8(answer(call)).expect("a text is ASCII");
        text.lines().map(str::to_string).collect()
    }

    #[test]
    fn row_2_has_three_triplets() {
        let three = ["0 5 3fd8000000000000", "0 7 bfc0000000000000", "0 8 3fe8000000000000"];
        assert_eq!(lines(1), [&["built 1 9 3"], &three[..], &["kept"]].concat());
    }

    #[test]
    fn rows_8_and_9_are_quarters() {
        for (at, first) in [(2, "built 4 8 16"), (3, "built 4 8 20")] {
            let text = lines(at);
            assert_eq!(text[0], first);
            let digits = text[1..text.len() - 1].iter().map(|line| &line[line.len() - 16..]);
            assert!(
                digits.into_iter().all(|digits| ["3fd0000000000000", "bfd0000000000000"].contains(&digits))
            );
        }
    }

    #[test]
    fn rows_10_and_11_are_refused() {
        assert_eq!(lines(4), ["refused 16 0", "kept"]);
        assert_eq!(lines(5), ["refused 17 0", "kept"]);
    }

    /// The hoop entries of nodes 0 and 3 are (2^52 - 1) / 4, those of nodes 1 and 2 a quarter.
    #[test]
    fn row_12_is_accepted() {
        let text = lines(6);
        assert_eq!(text[0], "built 4 8 20");
        let hoop =
            ["2 0 430ffffffffffffe", "2 2 3fd0000000000000", "2 4 3fd0000000000000", "2 6 430ffffffffffffe"];
        assert_eq!(text[9..13], hoop);
    }
}
