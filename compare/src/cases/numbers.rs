//! Numbers at the ends of binary64: huge, tiny, infinite, NaN, -0, in nodes, reference points and materials.

use super::angles::ANGLES;
use super::build::{
    INTERPOLATION, Material, PLAIN, Point, RING, STEEL, STRAIN, STRAIN_IN_PLANE, STRESS, STRESS_IN_PLANE,
    TURNED, TURNED_IN_PLANE, any_material, moved_right, points_in, ways,
};
use crate::jobs::mesh::{FAMILIES, Mesh, Pair};
use crate::jobs::numbers::{infinity, nan, wild_number, wild_pair};
use crate::jobs::random::{Random, two_to};
use crate::jobs::shapes::moved_element;
use crate::operators::{Call, OPERATORS, Operator};

/// A family 4 and a family 9 element, their nodes given to `spoil`, and one inner point, asked in four ways.
/// Whether a call is accepted follows from the numbers.
fn spoiled_meshes(random: &mut Random, count: usize, spoil: impl Fn(&mut Random, &mut Mesh)) -> Vec<Call> {
    let mut calls = Vec::new();
    for family in FAMILIES.repeat(count) {
        let mut mesh = moved_right(moved_element(random, family, 0.2), 2.0);
        let points = points_in(random, &mesh, 1);
        spoil(random, &mut mesh);
        let all = ways(&mesh, &points, &[any_material(random)], &[random.pick(&ANGLES)]);
        calls.extend([STRAIN, STRAIN_IN_PLANE, STRESS_IN_PLANE, TURNED].map(|way| all[way].clone()));
    }
    calls
}

fn put_into_a_node(random: &mut Random, mesh: &mut Mesh, number: f64) {
    let node = random.below(mesh.nodes.len());
    mesh.nodes[node][random.below(2)] = number;
}

// ---- nodes

/// So large that the determinant or a sum overflows.
pub fn huge_nodes(random: &mut Random) -> Vec<Call> {
    let powers = [300, 509, 511, 512, 700, 1000, 1020, 1022];
    scaled(random, &powers)
}

/// So small that the determinant or a coordinate is subnormal or 0.
pub fn tiny_nodes(random: &mut Random) -> Vec<Call> {
    let powers = [-20, -30, -300, -500, -512, -530, -1000, -1074];
    scaled(random, &powers)
}

/// Strain and stress by turns, in each family at each power of two.
fn scaled(random: &mut Random, powers: &[i32]) -> Vec<Call> {
    let mut calls = Vec::new();
    for (at, &power) in powers.iter().enumerate() {
        for family in FAMILIES {
            let mut mesh = moved_right(moved_element(random, family, 0.2), 2.0);
            let points = points_in(random, &mesh, 1);
            mesh.nodes.iter_mut().for_each(|node| *node = node.map(|x| x * two_to(power)));
            let all = ways(&mesh, &points, &[any_material(random)], &[random.pick(&ANGLES)]);
            let way = [STRAIN_IN_PLANE, TURNED, STRAIN, STRESS_IN_PLANE][at % 4];
            calls.push(all[way].clone());
        }
    }
    calls
}

pub fn infinite_nodes(random: &mut Random) -> Vec<Call> {
    spoiled_meshes(random, 2, |random, mesh| {
        let number = infinity(random);
        put_into_a_node(random, mesh, number);
    })
}

pub fn nan_nodes(random: &mut Random) -> Vec<Call> {
    spoiled_meshes(random, 1, |random, mesh| {
        let number = nan(random);
        put_into_a_node(random, mesh, number);
    })
}

/// The square with -0 for 0, a reference point with -0, and the pair (1, -0).
pub fn minus_zero_nodes(_: &mut Random) -> Vec<Call> {
    let corners = [[-0.0, -0.0], [2.0, -0.0], [2.0, 2.0], [-0.0, 2.0]];
    let of_family = |family| ways(&Mesh::of(family, &[corners]), &[(0, [-0.0, 0.0])], &[PLAIN], &[-0.0]);
    FAMILIES.into_iter().flat_map(of_family).step_by(2).collect()
}

// ---- reference points

/// Any reference point is computed with, also one that is no point.
pub fn odd_references(random: &mut Random) -> Vec<Call> {
    let odd: [Pair; 8] = [
        [f64::NAN, 0.0],
        [0.5, f64::NAN],
        [f64::INFINITY, 0.25],
        [0.25, f64::NEG_INFINITY],
        [two_to(600), 0.5],
        [two_to(-1074), -two_to(-1074)],
        [1.0 - two_to(-53), -1.0 + two_to(-53)],
        [f64::MAX, f64::MIN],
    ];
    let mut calls = Vec::new();
    for (at, reference) in odd.into_iter().enumerate() {
        let mesh = Mesh::of(FAMILIES[at % 2], &[RING]);
        let all = ways(&mesh, &[(0, reference)], &[PLAIN], &[random.pick(&ANGLES)]);
        let other = [STRAIN, STRAIN_IN_PLANE, STRESS, STRESS_IN_PLANE][at % 4];
        calls.extend([INTERPOLATION, other].map(|way| all[way].clone()));
    }
    calls
}

// ---- materials

/// Steel with a number in some places.
fn into_each_place(number: f64, places: &[usize]) -> Material {
    let mut material = STEEL;
    places.iter().for_each(|&place| material[place] = number);
    material
}

/// An infinity times an entry of the strain matrix that is always 0 is NaN, and a NaN is kept.
pub fn infinite_materials(random: &mut Random) -> Vec<Call> {
    let mut calls = Vec::new();
    for places in [&[0][..], &[2], &[3], &[6], &[10], &[15], &[1, 4], &[8, 9, 11]] {
        let material = into_each_place(infinity(random), places);
        calls.extend(stress_ways(random, material));
    }
    calls
}

/// Stress in one of its four ways, in family 4, and in another of them in family 9.
fn stress_ways(random: &mut Random, material: Material) -> [Call; 2] {
    let point: [Point; 1] = [(0, [0.25, -0.5])];
    let angle = random.pick(&ANGLES);
    let way = random.below(4);
    [(4, way), (9, (way + 1) % 4)].map(|(family, way)| {
        let way = [STRESS, STRESS_IN_PLANE, TURNED, TURNED_IN_PLANE][way];
        ways(&Mesh::of(family, &[RING]), &point, &[material], &[angle])[way].clone()
    })
}

pub fn odd_materials(random: &mut Random) -> Vec<Call> {
    let mut calls = Vec::new();
    for number in [f64::NAN, -0.0, f64::MAX, -f64::MAX, two_to(-1074)] {
        calls.extend(stress_ways(random, into_each_place(number, &[0, 6, 12])));
    }
    for power in [1023, -1022, -1074] {
        let material = any_material(random).map(|number| number * two_to(power));
        calls.extend(stress_ways(random, material));
    }
    calls
}

// ---- all of it at once

/// Numbers drawn from a pool of ordinary and extraordinary ones, node numbers drawn at random.
pub fn wild(random: &mut Random) -> Vec<Call> {
    (0..42).map(|at| wild_call(random, OPERATORS[at % 3], FAMILIES[at / 3 % 2])).collect()
}

fn wild_call(random: &mut Random, operator: Operator, family: u8) -> Call {
    const NODES: usize = 10;
    let nodes: Vec<Pair> = (0..NODES).map(|_| wild_pair(random)).map(|[x, y]| [x + 2.0, y]).collect();
    let row = |random: &mut Random| (0..family).map(|_| random.below(NODES) as u32).collect();
    let mesh = Mesh { family, nodes, elements: (0..6).map(|_| row(random)).collect() };
    let mut call = Call::of(operator, &mesh).at(&points_in(random, &mesh, 1));
    if random.below(2) == 0 {
        call = call.in_plane();
    }
    if operator == Operator::Stress {
        let mut material = any_material(random);
        material[random.below(16)] = wild_number(random);
        call = call.made_of(&[material, PLAIN]);
        if random.below(2) == 0 {
            call = call.turned_by(&[0; 6].map(|_| random.pick(&ANGLES)));
        }
    }
    call
}
