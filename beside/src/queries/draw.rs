//! Random queries, class by class.

use crate::meshes::{self, Shape, between};
use compare::document01::{Query, accept};
use compare::jobs;
use compare::jobs::choices::near_pair;
use compare::jobs::mesh::{FAMILIES, Mesh, Pair, rectangle};
use compare::jobs::random::Random;
use compare::queries::QueryCall;

type Draw = fn(&mut Random) -> QueryCall;

/// Each class with the number of its calls in a run.
pub const CLASSES: [(&str, usize, Draw); 18] = [
    ("regular", 4500, |random| of_shape(random, meshes::regular)),
    ("skewed", 4500, |random| of_shape(random, meshes::skewed)),
    ("curved", 4500, |random| of_shape(random, meshes::curved)),
    ("degenerate", 4500, |random| of_shape(random, meshes::degenerate)),
    ("ties on a lattice", 4500, |random| of_shape(random, meshes::lattice)),
    ("near ties", 4500, near_ties),
    ("far points", 3000, far),
    ("huge, up to 2^1023", 3000, |random| scaled(random, 60, 1023)),
    ("tiny, down to 2^-1074", 3000, |random| scaled(random, -1074, -10)),
    ("subnormal", 1800, |random| of_numbers(random, meshes::subnormal)),
    ("special values", 4500, special),
    ("any bits", 3000, |random| of_numbers(random, meshes::any_bits)),
    ("any limit up to 1000", 750, any_limit),
    ("many elements", 120, many_elements),
    ("other lengths of the lent lists", 4500, lengths),
    ("one fault", 12000, |random| faulty(random, 1)),
    ("two faults", 12000, |random| faulty(random, 2)),
    ("three faults", 3000, |random| faulty(random, 3)),
];

/// The accepted jobs of every kind of the stored list, drawn with another seed, as queries.
pub fn of_the_jobs(seed: u64) -> impl Iterator<Item = (&'static str, QueryCall)> {
    let query = |job: jobs::Job| {
        let Query { family, limit, nodes, elements, points } = accept(&job.bytes).ok()?;
        Some((job.kind, QueryCall::of(&Mesh { family, nodes, elements }, limit.into(), &points)))
    };
    jobs::drawn(seed).into_iter().filter_map(query)
}

// ---- accepted

fn any_family(random: &mut Random) -> u8 {
    random.pick(&FAMILIES)
}

fn few_steps(random: &mut Random) -> u64 {
    random.pick(&[0, 0, 1, 1, 2, 3, 5, 10, 20, 50])
}

fn of_shape(random: &mut Random, shape: Shape) -> QueryCall {
    let family = any_family(random);
    let mesh = shape(random, family);
    let count = 1 + random.below(24);
    let points = meshes::points(random, &mesh, count);
    QueryCall::of(&mesh, few_steps(random), &points)
}

/// Two rectangles with corners at a near pair, and points at the origin and close to it.
fn near_ties(random: &mut Random) -> QueryCall {
    let [far, near] = near_pair(random);
    let side = 2.0 * far[0];
    let mut down_left = rectangle([-near[0] - side, -near[1] - side], side, side);
    down_left[2] = near.map(|x| -x);
    let family = any_family(random);
    let mut mesh = Mesh::of(family, &[rectangle(far, side, side), down_left]);
    mesh.nodes.extend([far, near, [-near[1], near[0]], [far[1], -far[0]]]);
    random.shuffle(&mut mesh.elements);
    let close = |random: &mut Random| far.map(|x| x * random.between(-1e-9, 1e-9));
    let points: Vec<Pair> =
        (0..1 + random.below(8)).map(|at| if at == 0 { [0.0, 0.0] } else { close(random) }).collect();
    QueryCall::of(&mesh, few_steps(random), &points)
}

fn far(random: &mut Random) -> QueryCall {
    let mut call = of_shape(random, meshes::skewed);
    for point in call.points.chunks_mut(2) {
        let power = between(random, 10, 1023);
        meshes::scale(point, power);
    }
    call
}

fn scaled(random: &mut Random, low: i32, high: i32) -> QueryCall {
    let shape = random.pick::<Shape>(&[meshes::regular, meshes::skewed, meshes::curved, meshes::degenerate]);
    let mut call = of_shape(random, shape);
    let power = between(random, low, high);
    meshes::scale(&mut call.nodes, power);
    meshes::scale(&mut call.points, power);
    call
}

fn of_numbers(random: &mut Random, number: fn(&mut Random) -> f64) -> QueryCall {
    let family = any_family(random);
    let mesh = meshes::tangled(random, family, number);
    let points: Vec<Pair> = (0..1 + random.below(8)).map(|_| [number(random), number(random)]).collect();
    QueryCall::of(&mesh, few_steps(random), &points)
}

fn special(random: &mut Random) -> QueryCall {
    let shape = random.pick::<Shape>(&[meshes::lattice, meshes::skewed, meshes::single]);
    let mut call = of_shape(random, shape);
    meshes::sprinkle(random, &mut call.nodes);
    meshes::sprinkle(random, &mut call.points);
    call
}

fn any_limit(random: &mut Random) -> QueryCall {
    let call = of_shape(random, meshes::single);
    QueryCall { limit: random.below(1001) as u64, ..call }
}

fn many_elements(random: &mut Random) -> QueryCall {
    let family = any_family(random);
    let mut mesh = Mesh::grid(family, 16, 16, |[x, y]| {
        let moved = random.pair(-0.3, 0.3);
        [x + moved[0], y + moved[1]]
    });
    random.shuffle(&mut mesh.elements);
    let points: Vec<Pair> = (0..64).map(|_| random.pair(-1.0, 33.0)).collect();
    QueryCall::of(&mesh, random.below(4) as u64, &points)
}

// ---- lists and faults

/// Each lent list just full, longer, or one place short; sometimes no points at all.
fn lengths(random: &mut Random) -> QueryCall {
    let mut call = of_shape(random, meshes::single);
    if random.below(8) == 0 {
        call.points.clear();
    }
    call.spare = std::array::from_fn(|_| random.pick(&[0, 0, 0, 1, 2, 7]));
    if random.below(2) == 0 {
        call.spare[random.below(12)] = -1;
    }
    call
}

/// What the query asks.
const ASKED: [u8; 9] = [1, 2, 3, 4, 5, 7, 8, 9, 10];

/// A sound call with some faults.
fn faulty(random: &mut Random, count: usize) -> QueryCall {
    let mut call = of_shape(random, meshes::regular);
    call.spare = std::array::from_fn(|_| random.pick(&[0, 0, 3]));
    let mut numbers = ASKED;
    random.shuffle(&mut numbers);
    for &number in &numbers[..count] {
        plant(random, &mut call, number);
    }
    call
}

/// Changes the call so that the answer to the question is "no".
fn plant(random: &mut Random, call: &mut QueryCall, number: u8) {
    let beyond = |random: &mut Random, least: u64| match random.below(4) {
        0 => least,
        1 => least + random.below(1000) as u64,
        2 => least + (1 << 32),
        _ => u64::MAX - random.below(3) as u64,
    };
    match number {
        1 => {
            let other = random.bits();
            let families = [0, 1, 3, 5, 8, 10, 260, 265, (1 << 32) + 4, (1 << 32) + 9, u64::MAX, other];
            call.family = random.pick(&families);
        }
        2 => odd(random, &mut call.nodes, 0.5),
        3 => odd(random, &mut call.elements, 0),
        4 => call.limit = beyond(random, 1001),
        5 => odd(random, &mut call.points, 0.5),
        7 => {
            call.points.extend([0.25, 0.75]);
            call.spare[random.below(12)] = -1 - random.below(2) as isize;
        }
        8 if !call.elements.is_empty() => {
            let at = random.below(call.elements.len());
            let count = call.node_count() as u32;
            call.elements[at] = random.pick(&[count, count + 1, 1 << 31, u32::MAX]);
        }
        9 => {
            call.nodes.clear();
            // With elements left, 8 comes first.
            if random.below(2) == 0 {
                call.elements.clear();
            }
        }
        _ => call.elements.clear(),
    }
}

/// One number more or less.
fn odd<T>(random: &mut Random, list: &mut Vec<T>, more: T) {
    if random.below(2) == 0 {
        list.push(more);
    } else {
        list.pop();
    }
}
