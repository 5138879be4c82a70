//! Meshes by the shape of their elements: regular, skewed, curved, degenerate.

use super::keep;
use super::mesh::{FAMILIES, Mesh, Pair, SQUARE, local_nodes, rectangle};
use super::random::Random;
use crate::wrong_turns::Turn;

const LIMITS: [u16; 6] = [0, 1, 2, 3, 10, 50];

/// The nearest pair of multiples of a quarter.
pub fn few_digits(pair: Pair) -> Pair {
    pair.map(|x| (4.0 * x).round() / 4.0)
}

/// Points in and around a box, half of them with few digits, so that they meet faces and middles.
pub fn scatter(random: &mut Random, count: usize, low: f64, high: f64) -> Vec<Pair> {
    let point = |at| match at % 2 {
        0 => random.pair(low, high),
        _ => few_digits(random.pair(low, high)),
    };
    (0..count).map(point).collect()
}

/// Both families at every limit, three times.
fn by_limit(random: &mut Random, make: impl Fn(&mut Random, u8) -> Mesh) -> Vec<Vec<u8>> {
    let mut jobs = Vec::new();
    for family in FAMILIES.repeat(3) {
        for limit in LIMITS {
            let mesh = make(random, family);
            jobs.push(mesh.job(limit, &scatter(random, 8, -1.0, 7.0)));
        }
    }
    jobs
}

pub fn regular(random: &mut Random) -> Vec<Vec<u8>> {
    by_limit(random, regular_mesh)
}

/// Rectangles of one size, with few digits.
pub fn regular_mesh(random: &mut Random, family: u8) -> Mesh {
    let (columns, rows) = (1 + random.below(4) as u32, 1 + random.below(3) as u32);
    let [width, height] = [0; 2].map(|_| random.pick(&[0.5, 0.75, 1.0, 1.5, 2.0]));
    let origin = few_digits(random.pair(-1.0, 1.0));
    Mesh::grid(family, columns, rows, |[x, y]| [origin[0] + width * x, origin[1] + height * y])
}

pub fn skewed(random: &mut Random) -> Vec<Vec<u8>> {
    by_limit(random, skewed_mesh)
}

/// A grid that is sheared and whose nodes are moved.
pub fn skewed_mesh(random: &mut Random, family: u8) -> Mesh {
    let (columns, rows) = (1 + random.below(3) as u32, 1 + random.below(3) as u32);
    let shear = random.pair(-0.6, 0.6);
    Mesh::grid(family, columns, rows, |[x, y]| {
        let noise = random.pair(-0.35, 0.35);
        [x + shear[0] * y + noise[0], y + shear[1] * x + noise[1]]
    })
}

/// Family 9 with sides that bend, gently in a mesh and strongly in a single element.
pub fn curved(random: &mut Random) -> Vec<Vec<u8>> {
    let mut jobs = Vec::new();
    for limit in LIMITS.repeat(2) {
        let bend = random.pair(-0.15, 0.15);
        let mesh = Mesh::grid(9, 2, 2, |[x, y]| [x + bend[0] * y * y, y + bend[1] * x * x]);
        jobs.push(mesh.job(limit, &scatter(random, 6, -1.0, 6.0)));
        let bent = bent_element(random, 0.8);
        jobs.push(bent.job(limit, &scatter(random, 6, -2.0, 4.0)));
    }
    jobs
}

/// One element of family 9 whose nodes are all moved from their straight places.
pub fn bent_element(random: &mut Random, most: f64) -> Mesh {
    let mut mesh = Mesh::of(9, &[SQUARE]);
    for node in &mut mesh.nodes {
        let moved = random.pair(-most, most);
        *node = [node[0] + moved[0], node[1] + moved[1]];
    }
    mesh
}

/// One element of family 4 whose corners are moved.
pub fn skewed_element(random: &mut Random, most: f64) -> Mesh {
    let corners = SQUARE.map(|[x, y]| {
        let moved = random.pair(-most, most);
        [x + moved[0], y + moved[1]]
    });
    Mesh::of(4, &[corners])
}

/// One element whose nodes are moved, of either family.
pub fn moved_element(random: &mut Random, family: u8, most: f64) -> Mesh {
    if family == 4 { skewed_element(random, most) } else { bent_element(random, most) }
}

// ---- degenerate elements

/// Every degenerate element alone, and before and after a sound neighbour.
pub fn degenerate(random: &mut Random) -> Vec<Vec<u8>> {
    let mut jobs = Vec::new();
    for family in FAMILIES {
        for mesh in degenerate_meshes(family) {
            let points = scatter(random, 5, -1.0, 4.0);
            jobs.push(mesh.job(random.pick(&LIMITS), &points));
            jobs.push(beside_sound(&mesh, random).job(random.pick(&LIMITS), &points));
        }
    }
    jobs
}

pub fn degenerate_meshes(family: u8) -> Vec<Mesh> {
    let repeated = REPEATS.map(|(local, as_local)| repeat_number(family, local, as_local));
    let shaped = DEGENERATE.map(|corners| Mesh::of(family, &[corners]));
    let mut meshes = [repeated.to_vec(), shaped.to_vec()].concat();
    let mut one_node = Mesh::of(family, &[SQUARE]);
    one_node.elements[0].fill(2);
    meshes.push(one_node);
    meshes
}

/// Which local node takes the number of which other: neighbours, opposite corners, first and last.
const REPEATS: [(usize, usize); 3] = [(1, 0), (2, 0), (3, 0)];

fn repeat_number(family: u8, local: usize, as_local: usize) -> Mesh {
    let mut mesh = Mesh::of(family, &[SQUARE]);
    mesh.elements[0][local] = mesh.elements[0][as_local];
    if family == 9 {
        // A midside and the centre too: still one element with repeated nodes.
        mesh.elements[0][8] = mesh.elements[0][4];
    }
    mesh
}

const DEGENERATE: [[Pair; 4]; 9] = [
    // Two nodes, then all nodes, in one place under different numbers.
    [[0.0, 0.0], [0.0, 0.0], [2.0, 2.0], [0.0, 2.0]],
    [[1.5, 0.5], [1.5, 0.5], [1.5, 0.5], [1.5, 0.5]],
    // No area: along an axis, slanted, folded back.
    [[0.0, 1.0], [2.0, 1.0], [2.0, 1.0], [0.0, 1.0]],
    [[0.0, 0.0], [1.0, 0.5], [3.0, 1.5], [2.0, 1.0]],
    [[0.1, 0.3], [1.1, 3.3], [0.6, 1.8], [0.2, 0.6]],
    // A triangle; clockwise; crossed; a corner that points inwards.
    [[0.0, 0.0], [2.0, 0.0], [1.0, 1.0], [0.0, 2.0]],
    [[0.0, 0.0], [0.0, 2.0], [2.0, 2.0], [2.0, 0.0]],
    [[0.0, 0.0], [2.0, 0.0], [0.0, 2.0], [2.0, 2.0]],
    [[0.0, 0.0], [2.0, 0.25], [0.5, 0.5], [0.25, 2.0]],
];

/// The mesh with a sound element, which stands first or last.
pub fn beside_sound(mesh: &Mesh, random: &mut Random) -> Mesh {
    let mut both = mesh.clone();
    both.add(&local_nodes(mesh.family, rectangle([1.0, 1.0], 2.0, 1.5)));
    if random.below(2) == 0 {
        both.elements.reverse();
    }
    both
}

/// Elements on a line, so large that the rounding of the determinant passes its bound on both sides of 0.
pub fn negative_determinant(random: &mut Random) -> Vec<Vec<u8>> {
    let of_family = |random: &mut Random, family| {
        keep(random, 3, Turn::DeterminantSigned, |random| {
            let direction = random.pair(10.0, 100.0);
            let on_line = [0.0, 1.0, 3.0, 2.0].map(|steps: f64| direction.map(|x| steps * x));
            let limit = 1 + random.below(4) as u16;
            Mesh::of(family, &[on_line]).job(limit, &scatter(random, 4, 0.0, 300.0))
        })
    };
    FAMILIES.into_iter().flat_map(|family| of_family(random, family)).collect()
}
