//! Meshes and numbers of many classes, for queries and operators alike.

use compare::jobs::mesh::{Mesh, Pair, SQUARE, local_nodes, rectangle};
use compare::jobs::numbers::wild_number;
use compare::jobs::random::{Random, two_to};
use compare::jobs::shapes::{
    beside_sound, degenerate_meshes, few_digits, moved_element, regular_mesh, scatter, skewed_mesh,
};

pub type Shape = fn(&mut Random, u8) -> Mesh;

pub fn regular(random: &mut Random, family: u8) -> Mesh {
    let mut mesh = regular_mesh(random, family);
    random.shuffle(&mut mesh.elements);
    mesh
}

pub fn skewed(random: &mut Random, family: u8) -> Mesh {
    let mut mesh = skewed_mesh(random, family);
    random.shuffle(&mut mesh.elements);
    mesh
}

/// A grid whose lines bend, or one element that is bent more strongly.
pub fn curved(random: &mut Random, family: u8) -> Mesh {
    if random.below(2) == 0 {
        return moved_element(random, family, 0.8);
    }
    let bend = random.pair(-0.15, 0.15);
    let (columns, rows) = (1 + random.below(3) as u32, 1 + random.below(3) as u32);
    Mesh::grid(family, columns, rows, |[x, y]| [x + bend[0] * y * y, y + bend[1] * x * x])
}

/// Elements that are collapsed, inverted, on a line or with repeated nodes, alone or beside sound ones.
pub fn degenerate(random: &mut Random, family: u8) -> Mesh {
    match random.below(4) {
        0 => any_of(random, degenerate_meshes(family)),
        1 => {
            let mesh = any_of(random, degenerate_meshes(family));
            beside_sound(&mesh, random)
        }
        2 => on_a_line(random, family),
        _ => collapsed(random, family),
    }
}

fn any_of<T>(random: &mut Random, mut list: Vec<T>) -> T {
    let at = random.below(list.len());
    list.swap_remove(at)
}

fn on_a_line(random: &mut Random, family: u8) -> Mesh {
    let direction = random.pair(-2.0, 2.0);
    let corners = [0; 4].map(|_| random.below(5) as f64).map(|steps| direction.map(|x| steps * x));
    Mesh::of(family, &[corners, rectangle([1.0, 1.0], 2.0, 1.5)])
}

/// A skewed mesh in which some nodes fall together, some numbers are repeated and some elements are mirrored.
fn collapsed(random: &mut Random, family: u8) -> Mesh {
    let mut mesh = skewed(random, family);
    let count = mesh.nodes.len();
    for _ in 0..1 + random.below(3) {
        let row = random.below(mesh.elements.len());
        let [local, other] = [0; 2].map(|_| random.below(family.into()));
        match random.below(3) {
            0 => mesh.nodes[random.below(count)] = mesh.nodes[random.below(count)],
            1 => mesh.elements[row][local] = mesh.elements[row][other],
            _ => mesh.elements[row][..4].reverse(),
        }
    }
    mesh
}

/// Squares on a lattice of few digits, in any order, some of them twice: points on the lattice tie.
pub fn lattice(random: &mut Random, family: u8) -> Mesh {
    let (columns, rows) = (1 + random.below(3) as u32, 1 + random.below(3) as u32);
    let mut mesh = Mesh::grid(family, columns, rows, |at| at);
    if random.below(3) == 0 {
        let again = mesh.elements[random.below(mesh.elements.len())].clone();
        mesh.elements.push(again);
    }
    if random.below(3) == 0 {
        mesh.add(&local_nodes(family, SQUARE));
    }
    random.shuffle(&mut mesh.elements);
    mesh
}

pub fn single(random: &mut Random, family: u8) -> Mesh {
    moved_element(random, family, 0.6)
}

/// Few nodes and elements of any numbers of them, the coordinates from anywhere.
pub fn tangled(random: &mut Random, family: u8, mut coordinate: impl FnMut(&mut Random) -> f64) -> Mesh {
    let count = 4 + random.below(12);
    let nodes = (0..count).map(|_| [coordinate(random), coordinate(random)]).collect();
    let row = |random: &mut Random| (0..family).map(|_| random.below(count) as u32).collect();
    let elements = (0..1 + random.below(4)).map(|_| row(random)).collect();
    Mesh { family, nodes, elements }
}

// ---- points

/// In and around the box of a mesh, on its nodes, and between them on the lattice.
pub fn points(random: &mut Random, mesh: &Mesh, count: usize) -> Vec<Pair> {
    let mut points = scatter(random, count, -1.0, 7.0);
    for point in &mut points {
        match random.below(4) {
            0 => *point = random.pick(&mesh.nodes),
            1 => *point = few_digits(*point).map(f64::round),
            _ => {}
        }
    }
    points
}

// ---- numbers

pub fn any_bits(random: &mut Random) -> f64 {
    f64::from_bits(random.bits())
}

pub fn subnormal(random: &mut Random) -> f64 {
    let shift = random.below(52);
    let sign = random.bits() & (1 << 63);
    f64::from_bits(sign | random.bits() >> (12 + shift))
}

/// Puts extraordinary numbers into one list in a few places.
pub fn sprinkle(random: &mut Random, list: &mut [f64]) {
    for _ in 0..random.below(3) {
        if !list.is_empty() {
            list[random.below(list.len())] = special(random);
        }
    }
}

pub fn special(random: &mut Random) -> f64 {
    match random.below(4) {
        0 => random.pick(&[0.0, -0.0, f64::INFINITY, f64::NEG_INFINITY, f64::NAN, f64::MAX, f64::MIN]),
        1 => any_bits(random),
        _ => wild_number(random),
    }
}

/// Every number times a power of two, which is exact unless it leaves the normal numbers.
pub fn scale(list: &mut [f64], power: i32) {
    let half = power / 2;
    list.iter_mut().for_each(|number| *number = *number * two_to(half) * two_to(power - half));
}

pub fn between(random: &mut Random, low: i32, high: i32) -> i32 {
    low + random.below((high - low + 1) as usize) as i32
}
