//! Demand 3 by running: queries and operators before and after a renumbering, through the library alone.
//!
//! Coordinates are at most 2^60 in magnitude, so that no operation of a search overflows and no distance is NaN.

use crate::library::{Library, QueryAnswer, QueryLists, TripletLists};
use crate::meshes::{self, Shape};
use crate::queries::text;
use compare::cases::build::{any_material, moved_right};
use compare::jobs::mesh::FAMILIES;
use compare::jobs::random::Random;
use compare::operators::{Call, Formulation, OPERATORS, Pairs};
use compare::queries::QueryCall;

const TRIALS: usize = 20_000;

const SHAPES: [Shape; 5] =
    [meshes::regular, meshes::skewed, meshes::curved, meshes::degenerate, meshes::lattice];

/// What was seen.
#[derive(Default)]
struct Seen {
    queries: usize,
    points: usize,
    points_that_tie: usize,
    built: usize,
    refused: usize,
}

pub fn run(library: &dyn Library, seed: u64) -> Result<(), String> {
    let mut random = Random::seeded("renumbering", seed);
    let mut seen = Seen::default();
    for _ in 0..TRIALS {
        let call = drawn(&mut random);
        let order = Order::drawn(&mut random, &call);
        trial(library, &mut random, &call, &order, &mut seen)
            .map_err(|difference| format!("{}{order:?}\n{difference}\n", text(&call)))?;
    }
    println!("renumbering");
    println!("{:8} queries, each before and after", seen.queries);
    println!("{:8} points, {} of them with several nearest elements", seen.points, seen.points_that_tie);
    println!("{:8} operators built both times, {} refused both times\n", seen.built, seen.refused);
    Ok(())
}

// ---- a query and a renumbering

fn drawn(random: &mut Random) -> QueryCall {
    let (shape, family) = (random.pick(&SHAPES), random.pick(&FAMILIES));
    let mesh = shape(random, family);
    let mut mesh = moved_right(mesh, 3.0);
    if random.below(2) == 0 {
        mesh.nodes.extend([random.pair(0.0, 9.0), random.pair(0.0, 9.0)]);
    }
    let count = 1 + random.below(6);
    let points = meshes::points(random, &mesh, count);
    let mut call = QueryCall::of(&mesh, random.pick(&[0, 1, 2, 5, 20]), &points);
    if random.below(3) == 0 {
        let power = meshes::between(random, -60, 55);
        meshes::scale(&mut call.nodes, power);
        meshes::scale(&mut call.points, power);
    }
    call
}

/// The new number of each node, element and point.
#[derive(Debug)]
struct Order {
    nodes: Vec<usize>,
    elements: Vec<usize>,
    points: Vec<usize>,
}

impl Order {
    fn drawn(random: &mut Random, call: &QueryCall) -> Order {
        let mut permutation = |count: usize| {
            let mut numbers: Vec<usize> = (0..count).collect();
            random.shuffle(&mut numbers);
            numbers
        };
        Order {
            nodes: permutation(call.node_count()),
            elements: permutation(call.element_count()),
            points: permutation(call.point_count()),
        }
    }

    fn query(&self, call: &QueryCall) -> QueryCall {
        QueryCall {
            nodes: moved(&call.nodes, 2, &self.nodes),
            elements: self.rows(&call.elements, call.size()),
            points: moved(&call.points, 2, &self.points),
            ..call.clone()
        }
    }

    fn rows(&self, elements: &[u32], size: usize) -> Vec<u32> {
        let renumbered: Vec<u32> = elements.iter().map(|&node| self.nodes[node as usize] as u32).collect();
        moved(&renumbered, size, &self.elements)
    }
}

/// The records of a list, `width` numbers each, at their new places.
fn moved<T: Copy>(list: &[T], width: usize, to: &[usize]) -> Vec<T> {
    let mut new = list.to_vec();
    for (from, &to) in to.iter().enumerate() {
        new[width * to..][..width].copy_from_slice(&list[width * from..][..width]);
    }
    new
}

// ---- what must hold

fn trial(
    library: &dyn Library,
    random: &mut Random,
    call: &QueryCall,
    order: &Order,
    seen: &mut Seen,
) -> Result<(), String> {
    let renumbered = order.query(call);
    let (first, before) = answered(library, call);
    let (second, after) = answered(library, &renumbered);
    if first.question != 0 || first != second {
        return Err(format!("{first:?} before, {second:?} after"));
    }
    let distances = Distances::of(library, call);
    for point in 0..call.point_count() {
        let keep = |at: usize| at;
        named(&distances, point, &before, point, [&keep, &keep])
            .map_err(|what| format!("before, point {point}: {what}"))?;
        let (node, element) = (|at: usize| order.nodes[at], |at: usize| order.elements[at]);
        named(&distances, point, &after, order.points[point], [&node, &element])
            .map_err(|what| format!("after, point {point}: {what}"))?;
    }
    seen.queries += 1;
    seen.points += call.point_count();
    let ties = (0..call.point_count()).filter(|&point| distances.ties(point)).count();
    seen.points_that_tie += ties;
    if ties == 0 {
        operators(library, random, [call, &renumbered], [&before, &after], order, seen)?;
    }
    Ok(())
}

fn answered(library: &dyn Library, call: &QueryCall) -> (QueryAnswer, QueryLists) {
    let mut lent = QueryLists::of(call);
    (library.query(call, &mut lent), lent)
}

/// The distances of each point: squared to each node, and as the library answers them on each element alone.
struct Distances {
    nodes: Vec<Vec<f64>>,
    elements: Vec<QueryLists>,
}

impl Distances {
    fn of(library: &dyn Library, call: &QueryCall) -> Distances {
        let squared = |point: &[f64], node: &[f64]| {
            let [across, up] = [node[0] - point[0], node[1] - point[1]];
            across * across + up * up
        };
        let to_nodes = |point| call.nodes.chunks(2).map(|node| squared(point, node)).collect();
        let alone = |row: &[u32]| answered(library, &QueryCall { elements: row.to_vec(), ..call.clone() }).1;
        Distances {
            nodes: call.points.chunks(2).map(to_nodes).collect(),
            elements: call.rows().map(alone).collect(),
        }
    }

    fn to_elements(&self, point: usize) -> Vec<f64> {
        self.elements.iter().map(|alone| alone.nearest_element_distances[point]).collect()
    }

    fn to_faces(&self, point: usize) -> Vec<f64> {
        self.elements.iter().map(|alone| alone.nearest_face_distances[point]).collect()
    }

    /// Whether a point has several nearest elements.
    fn ties(&self, point: usize) -> bool {
        let distances = self.to_elements(point);
        let least = distances.iter().copied().fold(f64::INFINITY, f64::min);
        distances.iter().filter(|&&distance| distance == least).count() > 1
    }
}

/// Of the least, the one that is first in the new order.
fn first_least(distances: &[f64], number: &dyn Fn(usize) -> usize) -> usize {
    let least = distances.iter().copied().fold(f64::INFINITY, f64::min);
    (0..distances.len())
        .filter(|&at| distances[at] == least)
        .min_by_key(|&at| number(at))
        .expect("no distance is NaN")
}

/// The answers to a point that has become `at` name the first least by its new number, with its values bit for
/// bit.
fn named(
    distances: &Distances,
    point: usize,
    answers: &QueryLists,
    at: usize,
    [node_number, element_number]: [&dyn Fn(usize) -> usize; 2],
) -> Result<(), String> {
    let node = first_least(&distances.nodes[point], node_number);
    same("nearest node", answers.nearest_node_indices[at], node_number(node))?;
    let rooted = distances.nodes[point][node].sqrt().to_bits();
    same("distance of the node", answers.nearest_node_distances[at].to_bits(), rooted)?;

    let element = first_least(&distances.to_elements(point), element_number);
    let alone = &distances.elements[element];
    same("nearest element", answers.nearest_element_indices[at], element_number(element))?;
    same(
        "distance of the element",
        answers.nearest_element_distances[at].to_bits(),
        alone.nearest_element_distances[point].to_bits(),
    )?;
    for axis in [0, 1] {
        let [here, there] = [(answers, at), (alone, point)]
            .map(|(lists, at)| lists.nearest_element_reference_points[2 * at + axis].to_bits());
        same("reference coordinate", here, there)?;
    }

    let element = first_least(&distances.to_faces(point), element_number);
    let alone = &distances.elements[element];
    same("element of the nearest face", answers.nearest_face_element_indices[at], element_number(element))?;
    same("nearest face", answers.nearest_face_local_faces[at], alone.nearest_face_local_faces[point])?;
    same(
        "distance of the face",
        answers.nearest_face_distances[at].to_bits(),
        alone.nearest_face_distances[point].to_bits(),
    )
}

fn same<T: PartialEq + std::fmt::Debug>(what: &str, found: T, expected: T) -> Result<(), String> {
    if found == expected { Ok(()) } else { Err(format!("{what}: {found:?}, expected {expected:?}")) }
}

// ---- the operators

/// Each operator from the answers before and from those after, its other arguments any.
fn operators(
    library: &dyn Library,
    random: &mut Random,
    queries: [&QueryCall; 2],
    answers: [&QueryLists; 2],
    order: &Order,
    seen: &mut Seen,
) -> Result<(), String> {
    for operator in OPERATORS {
        let elements = queries[0].element_count();
        let count = if random.below(8) == 0 { elements + 1 } else { elements };
        let pairs = (0..2 * count).map(|_| random.between(-1.0, 1.0)).collect();
        let before = Call {
            operator,
            family: queries[0].family,
            formulation: random.pick(&[Formulation::Axisymmetric, Formulation::PlaneStrain]),
            thickness: meshes::special(random),
            yes: 1,
            nodes: queries[0].nodes.clone(),
            elements: queries[0].elements.clone(),
            element_indices: answers[0].nearest_element_indices.clone(),
            reference_points: answers[0].nearest_element_reference_points.clone(),
            material_ids: (0..elements).map(|_| random.below(20).min(3)).collect(),
            material_table: (0..4 - random.below(6) / 5).flat_map(|_| any_material(random)).collect(),
            pairs: if random.below(3) == 0 { Pairs::NotGiven(pairs) } else { Pairs::Any(pairs) },
            spare: [0; 3],
        };
        let after = Call {
            nodes: queries[1].nodes.clone(),
            elements: queries[1].elements.clone(),
            element_indices: answers[1].nearest_element_indices.clone(),
            reference_points: answers[1].nearest_element_reference_points.clone(),
            material_ids: moved(&before.material_ids, 1, &order.elements),
            // A list whose count is not that of the elements stays.
            pairs: if count == elements { moved_pairs(&before.pairs, order) } else { before.pairs.clone() },
            ..before.clone()
        };
        let built = same_operator(library, &before, &after, order)
            .map_err(|difference| format!("{operator:?}: {difference}"))?;
        if built { seen.built += 1 } else { seen.refused += 1 }
    }
    Ok(())
}

fn moved_pairs(pairs: &Pairs, order: &Order) -> Pairs {
    match pairs {
        Pairs::NotGiven(numbers) => Pairs::NotGiven(moved(numbers, 2, &order.elements)),
        Pairs::Any(numbers) => Pairs::Any(moved(numbers, 2, &order.elements)),
        Pairs::OfAngles(angles) => Pairs::OfAngles(moved(angles, 1, &order.elements)),
    }
}

/// Whether the operator is built both times; if so, each point has its triplets in order, renamed.
fn same_operator(library: &dyn Library, before: &Call, after: &Call, order: &Order) -> Result<bool, String> {
    let [(first, old), (second, new)] = [before, after].map(|call| {
        let mut lent = TripletLists::of(call);
        (library.operator(call, &call.pair_list(), &mut lent), lent)
    });
    if first.question != 0 || second.question != 0 {
        let both = first.question != 0 && second.question != 0;
        return if both { Ok(false) } else { Err(format!("{first:?} before, {second:?} after")) };
    }
    same("numbers of rows, columns and triplets", second, first)?;
    let (rows, columns) = (before.rows_a_point(), before.columns_a_node());
    let mut next = starts(&new, rows, first.triplets as usize, before.points());
    for at in 0..first.triplets as usize {
        let (point, row) = (old.rows[at] / rows, old.rows[at] % rows);
        let (node, component) = (old.columns[at] / columns, old.columns[at] % columns);
        let to = order.points[point];
        let found = next[to];
        next[to] += 1;
        same("row", new.rows[found], rows * to + row)?;
        same("column", new.columns[found], columns * order.nodes[node] + component)?;
        if !(new.values[found].is_nan() && old.values[at].is_nan()) {
            same("value", new.values[found].to_bits(), old.values[at].to_bits())?;
        }
    }
    Ok(true)
}

/// Where the triplets of each point begin.
fn starts(lists: &TripletLists, rows: usize, triplets: usize, points: usize) -> Vec<usize> {
    let of_point = |point| lists.rows[..triplets].partition_point(|&row| row / rows < point);
    (0..points).map(of_point).collect()
}
