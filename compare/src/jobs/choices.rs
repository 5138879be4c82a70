//! Points that several nodes, elements or faces claim: equally near, or nearly so.

use super::keep;
use super::mesh::{FAMILIES, Mesh, Pair, SQUARE, local_nodes, rectangle};
use super::random::{Random, two_to};
use crate::wrong_turns::{Choice, Turn};

// ---- ties

pub fn ties(random: &mut Random) -> Vec<Vec<u8>> {
    let mut jobs = Vec::new();
    for family in FAMILIES {
        for limit in [0, 1, 3, 10] {
            jobs.push(on_the_lattice(random, family, limit));
            jobs.push(same_element_twice(random, family, limit));
            jobs.push(around_a_hole(random, family, limit));
        }
    }
    jobs
}

/// Points on every corner, edge middle and centre of a mesh whose elements are listed in some order.
fn on_the_lattice(random: &mut Random, family: u8, limit: u16) -> Vec<u8> {
    let mut mesh = Mesh::grid(family, 2, 2, |at| at);
    random.shuffle(&mut mesh.elements);
    let points: Vec<Pair> = (0..25).map(|at| [f64::from(at % 5), f64::from(at / 5)]).collect();
    mesh.job(limit, &points)
}

/// The same square three times: under the same numbers, turned, and from nodes in the same places.
fn same_element_twice(random: &mut Random, family: u8, limit: u16) -> Vec<u8> {
    let mut mesh = Mesh::of(family, &[SQUARE]);
    mesh.elements.push(mesh.elements[0].clone());
    let mut turned = mesh.elements[0].clone();
    turned[..4].rotate_left(1);
    if family == 9 {
        turned[4..8].rotate_left(1);
    }
    mesh.elements.push(turned);
    mesh.add(&local_nodes(family, SQUARE));
    random.shuffle(&mut mesh.elements);
    mesh.job(limit, &[[1.0, 1.0], [0.5, 1.5], [3.0, 1.0], [-1.0, -1.0], [2.0, 0.0], [1.25, 3.0]])
}

/// Four squares around a hole, and points in it that are equally far from two or four of them.
fn around_a_hole(random: &mut Random, family: u8, limit: u16) -> Vec<u8> {
    let corners = [[-3.0, -1.0], [1.0, -1.0], [-1.0, -3.0], [-1.0, 1.0]];
    let mut mesh = Mesh::of(family, &corners.map(|corner| rectangle(corner, 2.0, 2.0)));
    random.shuffle(&mut mesh.elements);
    mesh.job(limit, &[[0.0, 0.0], [0.5, 0.5], [-0.25, 0.25], [0.75, -0.75], [0.0, 0.5], [2.0, 2.0]])
}

// ---- near ties

/// Two distances from the origin whose squares differ and whose roots are equal; the nearer one is second.
pub fn near_pair(random: &mut Random) -> [Pair; 2] {
    loop {
        let long = random.between(1.0, 1.4);
        let short = two_to(-24) * random.between(1.0, 2.0);
        let shorter = short * random.between(0.9, 1.0);
        let squares = [short, shorter].map(|b| long * long + b * b);
        if squares[1] < squares[0] && squares[1].sqrt() == squares[0].sqrt() {
            let scale = two_to(random.below(41) as i32 - 20);
            return [short, shorter].map(|b| [scale * long, scale * b]);
        }
    }
}

/// Two squares, one up right of the origin and one down left, with their corners at a near pair. The order in
/// which the nearer one is second tells rooted from squared; the other order must keep the first as well.
pub fn near_elements(random: &mut Random) -> Vec<Vec<u8>> {
    let mut jobs = Vec::new();
    for family in FAMILIES {
        for limit in [0, 1, 10] {
            let [far, near] = near_pair(random);
            let side = 2.0 * far[0];
            let up_right = rectangle(far, side, side);
            let down_left = rectangle([-near[0] - side, -near[1] - side], side, side);
            let mut mesh = Mesh::of(family, &[up_right, with_corner(down_left, 2, near.map(|x| -x))]);
            jobs.push(mesh.job(limit, &[[0.0, 0.0]]));
            mesh.elements.reverse();
            jobs.push(mesh.job(limit, &[[0.0, 0.0]]));
        }
    }
    jobs
}

fn with_corner(mut corners: [Pair; 4], local: usize, place: Pair) -> [Pair; 4] {
    corners[local] = place;
    corners
}

/// Nodes of no element, in both orders: squared distances decide, though the listed roots are equal.
pub fn near_nodes(random: &mut Random) -> Vec<Vec<u8>> {
    let mut jobs = Vec::new();
    for family in FAMILIES {
        for _ in 0..3 {
            let pair = near_pair(random);
            for [first, second] in [pair, [pair[1], pair[0]]] {
                let corner = pair[0].map(|x| 4.0 * x);
                let mut mesh = Mesh::of(family, &[rectangle(corner, 2.0 * corner[0], corner[0])]);
                mesh.nodes.extend([first, [-second[1], second[0]]]);
                jobs.push(mesh.job(0, &[[0.0, 0.0]]));
            }
        }
    }
    jobs
}

/// A near pair inside one element: seeds by squared distances, faces by rooted ones.
pub fn near_within(random: &mut Random) -> Vec<Vec<u8>> {
    let mut jobs = Vec::new();
    for family in FAMILIES {
        for choice in [Choice::Seeds, Choice::FaceSeeds, Choice::Faces] {
            let turn = Turn::OtherMeasure(choice);
            jobs.extend(keep(random, 3, turn, |random| near_corners(random, family)));
        }
    }
    jobs
}

/// A sliver: two corners at a near pair, the other two farther out on the same side of the origin.
fn near_corners(random: &mut Random, family: u8) -> Vec<u8> {
    let [far, near] = near_pair(random);
    let out = |up: f64| [8.0 * far[0], up * far[0]];
    let mut corners = [far, near, out(-2.0), out(3.0)];
    random.shuffle(&mut corners);
    Mesh::of(family, &[corners]).job(0, &[[0.0, 0.0]])
}
