//! Lists that are empty, full, longer than needed or not read.

use super::angles::ANGLES;
use super::build::{
    PLAIN, Point, RING, STEEL, STRAIN_IN_PLANE, TURNED_IN_PLANE, any_material, each_operator, moved_right,
    points_in, ways,
};
use crate::jobs::mesh::{FAMILIES, Mesh};
use crate::jobs::random::Random;
use crate::operators::{Call, Formulation, OPERATORS, Operator, Pairs};

/// Most numbers that a case has in each of its seven lists, and most places in a lent one.
pub const MOST_NUMBERS: [usize; 7] = [256, 256, 64, 128, 64, 128, 128];
pub const MOST_PLACES: usize = 1152;

// ---- nothing to do

/// No points: no rows, whatever the mesh. The columns are counted all the same.
pub fn no_points(_: &mut Random) -> Vec<Call> {
    let mut calls = Vec::new();
    for family in FAMILIES {
        let empty = Mesh { family, nodes: Vec::new(), elements: Vec::new() };
        let only_nodes = Mesh { nodes: vec![[1.0, 2.0], [f64::NAN, 0.0]], ..empty.clone() };
        let inverted = Mesh::of(family, &[[[1.0, 0.0], [1.0, 2.0], [3.0, 2.0], [3.0, 0.0]]]);
        for mesh in [empty, only_nodes, Mesh::of(family, &[RING, RING]), inverted] {
            calls.extend(each_operator(&mesh, &[]));
        }
    }
    calls.extend(no_materials());
    calls
}

/// Material numbers that are not in the table, and pairs, of elements that no point names.
fn no_materials() -> Vec<Call> {
    let mesh = Mesh::of(4, &[RING, RING]);
    let mut call = Call::of(Operator::Stress, &mesh);
    call.material_table.clear();
    call.material_ids = vec![7, u32::MAX as usize];
    let turned = call.clone().turned_by(&[0.7, f64::NAN]);
    let mut second_unknown = Call::of(Operator::Stress, &mesh).at(&[(0, [0.5, 0.5])]).turned_by(&[0.7]);
    second_unknown.material_ids = vec![0, 1];
    vec![call, turned, second_unknown.clone(), second_unknown.in_plane()]
}

// ---- not read

/// The thickness, whatever it is; pairs that are not given; materials where none are asked about. Yes is any
/// byte but 0.
pub fn not_read(random: &mut Random) -> Vec<Call> {
    let mesh = Mesh::of(4, &[RING]);
    let points: [Point; 1] = [(0, [0.25, -0.5])];
    let mut calls = Vec::new();
    for (thickness, yes) in [(f64::NAN, 2), (-1.0, 255), (0.0, 128), (-0.0, 3), (f64::INFINITY, 1)] {
        let odd = |call: Call| Call { thickness, yes, ..call };
        calls.extend(
            [STRAIN_IN_PLANE, TURNED_IN_PLANE]
                .map(|way| odd(ways(&mesh, &points, &[PLAIN], &[0.7])[way].clone())),
        );
    }
    for ungiven in [vec![0.6], vec![0.8, 0.6, f64::NAN], vec![0.0, 1.0], vec![2.0, -1.0, 0.5, 0.25]] {
        let call = Call::of(Operator::Stress, &mesh).at(&points).made_of(&[any_material(random)]);
        calls.push(Call { pairs: Pairs::NotGiven(ungiven), ..call });
    }
    for operator in [Operator::Interpolation, Operator::Strain] {
        for pairs in [Pairs::Any(vec![1.0; 3]), Pairs::OfAngles(vec![0.7, 0.2]), Pairs::NotGiven(vec![0.5])] {
            let call = Call::of(operator, &mesh).at(&points);
            calls.push(Call { pairs, material_ids: vec![9, 9], material_table: vec![1.0; 7], ..call });
        }
    }
    calls.extend([f64::NAN, -2.0].map(|thickness| {
        let call = Call::of(Operator::Interpolation, &mesh).at(&points);
        Call { thickness, formulation: Formulation::PlaneStrain, ..call }
    }));
    calls
}

// ---- room

/// Lent lists of different lengths: more than the worst case, or just it.
pub fn room(random: &mut Random) -> Vec<Call> {
    let mut calls = Vec::new();
    for family in FAMILIES {
        let mesh = Mesh::of(family, &[RING]);
        for spare in [[0, 1, 2], [9, 0, 17]] {
            for call in each_operator(&mesh, &[(0, random.pair(-1.0, 1.0)), (0, [0.0, 0.0])]) {
                calls.push(Call { spare, ..call });
            }
        }
        calls.extend(each_operator(&mesh, &[]).map(|call| Call { spare: [3, 0, 1], ..call }));
    }
    calls
}

/// One place short in each list alone, and room for the triplets that there are but not for the worst case.
/// "Counted by the element numbers given": also where reference points are fewer.
pub fn no_room(_: &mut Random) -> Vec<Call> {
    let mut calls = Vec::new();
    let point: Point = (0, [0.0, 0.0]);
    for family in FAMILIES {
        let mesh = Mesh::of(family, &[RING]);
        for call in each_operator(&mesh, &[point, point]) {
            for spare in [[-1, 0, 0], [5, -1, 5], [0, 9, -1], [-5, -5, -5]] {
                calls.push(Call { spare, ..call.clone() });
            }
            let mut fewer = Call { spare: [-1; 3], ..call };
            fewer.reference_points.truncate(2);
            calls.push(fewer);
        }
    }
    calls
}

// ---- full

/// As many numbers and places as a case can have.
pub fn full(random: &mut Random) -> Vec<Call> {
    let mut calls = Vec::new();
    for family in FAMILIES {
        let mesh = full_mesh(random, family);
        for operator in OPERATORS {
            let places_a_point =
                if operator == Operator::Interpolation { 1 } else { 8 } * usize::from(family);
            let count = (MOST_PLACES / places_a_point).min(MOST_NUMBERS[2]);
            let call = Call::of(operator, &mesh).at(&points_in(random, &mesh, count));
            calls.push(if operator == Operator::Stress { with_full_materials(random, call) } else { call });
        }
    }
    calls
}

/// 128 nodes: those of a grid, and then some that no element has.
fn full_mesh(random: &mut Random, family: u8) -> Mesh {
    let (columns, rows) = if family == 4 { (8, 8) } else { (4, 6) };
    let mut mesh = Mesh::grid(family, columns, rows, |[x, y]| {
        let moved = random.pair(-0.1, 0.1);
        [0.5 + x + moved[0], y + moved[1]]
    });
    mesh.nodes.resize(MOST_NUMBERS[0] / 2, [f64::NAN, 0.0]);
    moved_right(mesh, 0.25)
}

fn with_full_materials(random: &mut Random, call: Call) -> Call {
    let mut materials = [PLAIN; 8];
    materials[1] = STEEL;
    materials[2..].iter_mut().for_each(|material| *material = any_material(random));
    call.made_of(&materials).turned_by(&ANGLES)
}
