//! Coordinates at the ends of binary64: far, huge, tiny, infinite, NaN, -0.

use super::mesh::{FAMILIES, Mesh, Pair, SQUARE, local_nodes, rectangle};
use super::random::{Random, two_to};
use super::shapes::{few_digits, moved_element, scatter};

const LIMITS: [u16; 3] = [0, 1, 3];

/// Quiet and signalling, of both signs, with little and much payload.
const NANS: [u64; 5] = [
    0x7ff8_0000_0000_0000,
    0xfff8_0000_0000_0000,
    0x7ff0_0000_0000_0001,
    0xfff0_0000_dead_beef,
    0x7fff_ffff_ffff_ffff,
];

pub fn nan(random: &mut Random) -> f64 {
    f64::from_bits(random.pick(&NANS))
}

pub fn infinity(random: &mut Random) -> f64 {
    random.pick(&[f64::INFINITY, f64::NEG_INFINITY])
}

/// Puts a number into one coordinate of a pair, or into both.
fn spoil(random: &mut Random, pair: &mut Pair, number: f64) {
    match random.below(3) {
        0 => pair[0] = number,
        1 => pair[1] = number,
        _ => *pair = [number; 2],
    }
}

/// One skewed element and one square, in either order.
fn two_elements(random: &mut Random, family: u8) -> Mesh {
    let mut mesh = moved_element(random, family, 0.3);
    mesh.add(&local_nodes(family, rectangle([3.0, 0.0], 2.0, 2.0)));
    if random.below(2) == 0 {
        mesh.elements.reverse();
    }
    mesh
}

// ---- size

/// Points at distances whose squares are exact, round, and overflow to infinity.
pub fn far(random: &mut Random) -> Vec<Vec<u8>> {
    let powers = [[10, 40, 52], [53, 60, 200], [500, 510, 511], [512, 513, 600], [1000, 1022, 1023]];
    let mut jobs = Vec::new();
    for family in FAMILIES {
        for (at, powers) in powers.repeat(2).into_iter().enumerate() {
            let mesh = two_elements(random, family);
            let mut out = |power| random.pair(-1.0, 1.0).map(|x| x * two_to(power));
            let points: Vec<Pair> = powers.iter().flat_map(|&power| [out(power), out(power)]).collect();
            jobs.push(mesh.job(LIMITS[at % 3], &points));
        }
    }
    jobs
}

/// Meshes so large that the determinant, the Hessian, the squared distance or a difference overflows.
pub fn huge(random: &mut Random) -> Vec<Vec<u8>> {
    let powers = [100, 127, 128, 200, 255, 256, 257, 300, 350, 400, 450, 509, 511, 512, 700, 1000, 1020];
    let mut jobs = scaled(random, &powers);
    for at in [f64::MAX, 1.5 * two_to(1023)] {
        jobs.extend(LIMITS.map(|limit| steep(random, at, limit)));
    }
    jobs
}

/// Nodes and points in one column so far out that the slopes of family 9 overflow, though no distance does.
fn steep(random: &mut Random, column: f64, limit: u16) -> Vec<u8> {
    let mut mesh = Mesh::of(9, &[SQUARE, rectangle([0.0, 2.0], 2.0, 1.0)]);
    mesh.nodes.iter_mut().for_each(|node| node[0] = column);
    let points: Vec<Pair> = scatter(random, 5, -1.0, 4.0).into_iter().map(|[_, y]| [column, y]).collect();
    mesh.job(limit, &points)
}

/// Meshes so small that the squares, the Hessian or the coordinates are subnormal or 0.
pub fn tiny(random: &mut Random) -> Vec<Vec<u8>> {
    let powers = [-30, -100, -270, -400, -500, -530, -537, -538, -540, -600, -1000, -1050, -1070, -1074];
    let mut jobs = scaled(random, &powers);
    jobs.extend(FAMILIES.map(underflow));
    jobs
}

/// Each power of two in one family or the other, with limits 0, 1, 3.
fn scaled(random: &mut Random, powers: &[i32]) -> Vec<Vec<u8>> {
    let mut jobs = Vec::new();
    for (at, &power) in powers.iter().enumerate() {
        for limit in [LIMITS[at % 3], LIMITS[(at + 1) % 3]] {
            let family = FAMILIES[(at + usize::from(limit)) % 2];
            let mut mesh = two_elements(random, family);
            let scale = |pair: Pair| pair.map(|x| x * two_to(power));
            mesh.nodes.iter_mut().for_each(|node| *node = scale(*node));
            let points: Vec<Pair> = scatter(random, 6, -1.0, 6.0).into_iter().map(scale).collect();
            jobs.push(mesh.job(limit, &points));
        }
    }
    jobs
}

/// Points so close to a node that the squared distance is subnormal, or 0 though the point is elsewhere.
fn underflow(family: u8) -> Vec<u8> {
    let powers = [-500, -536, -537, -538, -539, -600, -1074];
    let points = powers.map(|power| [-two_to(power), 0.0]);
    Mesh::of(family, &[SQUARE]).job(2, &points)
}

// ---- infinity, NaN, -0

/// An infinity in each local node of a lone element, and in any node of two; and infinite points.
pub fn infinite(random: &mut Random) -> Vec<Vec<u8>> {
    let mut jobs = Vec::new();
    for family in FAMILIES {
        for local in 0..usize::from(family) {
            let mut mesh = Mesh::of(family, &[SQUARE]);
            mesh.nodes[local][local % 2] = infinity(random);
            jobs.extend([0, 3].map(|limit| mesh.job(limit, &scatter(random, 3, -1.0, 3.0))));
        }
        for limit in LIMITS.repeat(2) {
            let mut mesh = two_elements(random, family);
            let at = random.below(mesh.nodes.len());
            let number = infinity(random);
            spoil(random, &mut mesh.nodes[at], number);
            jobs.push(mesh.job(limit, &scatter(random, 5, -1.0, 6.0)));
        }
        for limit in LIMITS {
            let mesh = two_elements(random, family);
            let mut points = scatter(random, 5, -1.0, 6.0);
            for point in &mut points[1..4] {
                let number = infinity(random);
                spoil(random, point, number);
            }
            jobs.push(mesh.job(limit, &points));
        }
    }
    jobs
}

/// A NaN in the first element, which stays, or in a later one, which is never taken; sometimes in every one.
pub fn nan_nodes(random: &mut Random) -> Vec<Vec<u8>> {
    let mut jobs = Vec::new();
    for family in FAMILIES {
        for limit in LIMITS {
            for element in [0, 1] {
                let mut mesh = two_elements(random, family);
                let local = random.below(family.into());
                let at = mesh.elements[element][local] as usize;
                let number = nan(random);
                spoil(random, &mut mesh.nodes[at], number);
                jobs.push(mesh.job(limit, &scatter(random, 5, -1.0, 6.0)));
            }
            let mut mesh = two_elements(random, family);
            for element in 0..2 {
                let at = mesh.elements[element][0] as usize;
                let number = nan(random);
                spoil(random, &mut mesh.nodes[at], number);
            }
            jobs.push(mesh.job(limit, &scatter(random, 3, -1.0, 6.0)));
        }
        jobs.push(nan_among_loose_nodes(random, family));
    }
    jobs
}

/// No element has the NaN, so only the choice of the node sees it: in first place, and later.
fn nan_among_loose_nodes(random: &mut Random, family: u8) -> Vec<u8> {
    let mut mesh = two_elements(random, family);
    mesh.nodes.insert(0, [nan(random), 1.0]);
    mesh.nodes.push([1.0, nan(random)]);
    mesh.elements.iter_mut().flatten().for_each(|number| *number += 1);
    mesh.job(1, &scatter(random, 4, -1.0, 6.0))
}

/// NaN points between ordinary ones.
pub fn nan_points(random: &mut Random) -> Vec<Vec<u8>> {
    let mut jobs = Vec::new();
    for family in FAMILIES {
        for limit in LIMITS.repeat(2) {
            let mesh = two_elements(random, family);
            let mut points = scatter(random, 5, -1.0, 6.0);
            for at in [0, 2, 3] {
                let number = nan(random);
                spoil(random, &mut points[at], number);
            }
            jobs.push(mesh.job(limit, &points));
        }
    }
    jobs
}

/// Squares on both sides of -0, and points that differ from their nodes in the sign of a zero only.
pub fn minus_zero(_: &mut Random) -> Vec<Vec<u8>> {
    let right = [[-0.0, -0.0], [2.0, -0.0], [2.0, 2.0], [-0.0, 2.0]];
    let left = [[-2.0, -0.0], [-0.0, -0.0], [0.0, 2.0], [-2.0, 2.0]];
    let points = [[0.0, 0.0], [-0.0, -0.0], [-0.0, 1.0], [1.0, -0.0], [-two_to(-1074), -0.0]];
    let mut jobs = Vec::new();
    for family in FAMILIES {
        for quads in [&[right][..], &[left, right]] {
            jobs.extend(LIMITS.map(|limit| Mesh::of(family, quads).job(limit, &points)));
        }
    }
    jobs
}

// ---- all of it at once

/// Coordinates drawn from a pool of ordinary and extraordinary numbers, node numbers drawn at random.
pub fn wild(random: &mut Random) -> Vec<Vec<u8>> {
    (0..32).map(|at| wild_job(random, FAMILIES[at % 2], LIMITS[at % 3])).collect()
}

fn wild_job(random: &mut Random, family: u8, limit: u16) -> Vec<u8> {
    let nodes: Vec<Pair> = (0..12).map(|_| wild_pair(random)).collect();
    let row = |random: &mut Random| (0..family).map(|_| random.below(12) as u32).collect();
    let elements = (0..3).map(|_| row(random)).collect();
    let points: Vec<Pair> = (0..6).map(|_| wild_pair(random)).collect();
    Mesh { family, nodes, elements }.job(limit, &points)
}

/// Mostly ordinary: one extraordinary number often decides a whole answer.
pub fn wild_pair(random: &mut Random) -> Pair {
    let mut pair = few_digits(random.pair(-2.0, 2.0));
    if random.below(6) == 0 {
        let number = wild_number(random);
        spoil(random, &mut pair, number);
    }
    pair
}

pub fn wild_number(random: &mut Random) -> f64 {
    match random.below(8) {
        0 => nan(random),
        1 => infinity(random),
        2 => -0.0,
        3 => f64::MAX,
        4 => two_to(random.below(2098) as i32 - 1074),
        5 => -two_to(random.below(1024) as i32),
        _ => random.between(-1e3, 1e3),
    }
}
