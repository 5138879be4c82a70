//! Accepted jobs by the form of their file: other orders of records, no points, files at the limits.

use super::mesh::{FAMILIES, Mesh, Pair, family_record, point_record};
use super::random::Random;
use super::shapes::{moved_element, scatter};
use crate::document01::{MOST_ELEMENTS, MOST_ITERATIONS, MOST_NODES, MOST_POINTS};

/// QE before QN, points before both, and any mixture; QF alone has its place.
pub fn record_orders(random: &mut Random) -> Vec<Vec<u8>> {
    let mut jobs = Vec::new();
    for family in FAMILIES {
        let mesh = Mesh::grid(family, 2, 1, |at| at);
        for at in 0..5 {
            let mut records = mesh.records();
            records.extend(scatter(random, 4, -1.0, 5.0).into_iter().map(point_record));
            match at {
                0 => records.reverse(),
                1 => records.rotate_left(mesh.nodes.len()),
                _ => random.shuffle(&mut records),
            }
            jobs.push([family_record(family, at), records.concat()].concat());
        }
    }
    jobs
}

/// The first line alone, with and without repeated nodes.
pub fn no_points(random: &mut Random) -> Vec<Vec<u8>> {
    let mut jobs = Vec::new();
    for family in FAMILIES {
        let mut mesh = Mesh::grid(family, 2, 2, |at| at);
        jobs.push(mesh.job(0, &[]));
        mesh.elements[1][3] = mesh.elements[1][0];
        mesh.elements[3].fill(1);
        jobs.push(mesh.job(MOST_ITERATIONS, &[]));
        jobs.push(moved_element(random, family, 0.5).job(3, &[]));
    }
    jobs
}

/// Files at the limits: the most of everything, and the most of one thing beside little of the others.
pub fn full(random: &mut Random) -> Vec<Vec<u8>> {
    let mut jobs = Vec::new();
    for (family, limit) in [(4, 1), (9, 0)] {
        let mesh = full_mesh(random, family);
        jobs.push(mesh.job(limit, &full_points(random)));
        jobs.push(mesh.job(5, &scatter(random, 4, -1.0, 33.0)));
        let few = Mesh { elements: mesh.elements[..2].to_vec(), ..mesh };
        jobs.push(few.job(3, &full_points(random)));
    }
    jobs
}

/// A mesh with as many nodes and elements as a job may have: a grid, then loose nodes, then elements between
/// nodes of any place.
pub fn full_mesh(random: &mut Random, family: u8) -> Mesh {
    let (columns, rows) = if family == 4 { (15, 15) } else { (10, 11) };
    let mut mesh = Mesh::grid(family, columns, rows, |[x, y]| {
        let noise = random.pair(-0.2, 0.2);
        [x + noise[0], y + noise[1]]
    });
    while mesh.nodes.len() < MOST_NODES {
        mesh.nodes.push(random.pair(-1.0, 33.0));
    }
    while mesh.elements.len() < MOST_ELEMENTS {
        mesh.elements.push((0..family).map(|_| random.below(MOST_NODES) as u32).collect());
    }
    mesh
}

pub fn full_points(random: &mut Random) -> Vec<Pair> {
    scatter(random, MOST_POINTS, -1.0, 33.0)
}
