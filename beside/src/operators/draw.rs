//! Random calls to the three operators, class by class.

use crate::meshes::{self, Shape, between};
use compare::cases::build::{Material, PLAIN, Point, STEEL, any_material, moved_right};
use compare::cases::refusals::{planted, sound};
use compare::cases::{self, angles::ANGLES};
use compare::jobs::mesh::{FAMILIES, Mesh, Pair, rectangle};
use compare::jobs::random::{Random, two_to};
use compare::operator_turns::questions::asked_by;
use compare::operators::{Call, OPERATORS, Operator, Pairs, questions};

type Draw = fn(&mut Random) -> Call;

/// Each class with the number of its calls in a run.
pub const CLASSES: [(&str, usize, Draw); 21] = [
    ("regular", 4500, |random| of_shape(random, meshes::regular)),
    ("skewed", 4500, |random| of_shape(random, meshes::skewed)),
    ("curved", 4500, |random| of_shape(random, meshes::curved)),
    ("degenerate", 4500, |random| of_shape(random, meshes::degenerate)),
    ("lattice, dyadic references", 4500, dyadic),
    ("references outside the square", 3000, outside),
    ("references of any bits", 3000, any_references),
    ("beside the axis", 4500, beside_the_axis),
    ("huge, up to 2^1023", 3000, |random| scaled(random, 60, 1023)),
    ("tiny, down to 2^-1074", 3000, |random| scaled(random, -1074, -10)),
    ("subnormal", 1800, |random| of_numbers(random, meshes::subnormal)),
    ("special values", 4500, special),
    ("any bits", 3000, |random| of_numbers(random, meshes::any_bits)),
    ("materials of any bits", 3000, any_materials),
    ("pairs of angles", 4500, of_angles),
    ("pairs that no angle has", 4500, odd_pairs),
    ("numbers of any size", 3000, any_indices),
    ("other lengths of the lent lists", 4500, lengths),
    ("one fault", 12000, |random| faulty(random, 1)),
    ("two faults", 12000, |random| faulty(random, 2)),
    ("three faults", 3000, |random| faulty(random, 3)),
];

/// Every kind of the stored list, drawn with another seed.
pub fn of_the_cases(seed: u64) -> impl Iterator<Item = (&'static str, Call)> {
    cases::drawn(seed).into_iter().map(|case| (case.kind, case.call))
}

// ---- accepted

/// Any operator in any formulation on a mesh, with materials and, in half of the calls, pairs.
fn of(random: &mut Random, mesh: &Mesh, points: &[Point]) -> Call {
    let operator = random.pick(&OPERATORS);
    let mut call = Call::of(operator, mesh).at(points);
    if random.below(2) == 0 {
        call = call.in_plane();
    }
    call.thickness = meshes::special(random);
    call.yes = random.pick(&[1, 2, 255, 256, 1 << 32, u64::MAX]);
    if operator == Operator::Stress {
        call = call.made_of(&materials(random));
        let ids = call.material_table.len() / 16;
        call.material_ids.iter_mut().for_each(|id| *id = random.below(ids));
        if random.below(2) == 0 {
            let angles: Vec<f64> = call.material_ids.iter().map(|_| angle(random)).collect();
            call = call.turned_by(&angles);
        } else if random.below(2) == 0 {
            // Not given: whatever lies there is not read.
            call.pairs = Pairs::NotGiven((0..random.below(5)).map(|_| meshes::special(random)).collect());
        }
    }
    call
}

fn materials(random: &mut Random) -> Vec<Material> {
    let material = |random: &mut Random| match random.below(4) {
        0 => PLAIN,
        1 => STEEL,
        _ => any_material(random),
    };
    (0..1 + random.below(4)).map(|_| material(random)).collect()
}

fn angle(random: &mut Random) -> f64 {
    match random.below(6) {
        0 => random.pick(&ANGLES),
        1 => random.pick(&[0.0, -0.0]),
        2 => random.between(-1e-8, 1e-8),
        3 => random.between(-1e6, 1e6),
        _ => random.between(-4.0, 4.0),
    }
}

fn points_of(random: &mut Random, mesh: &Mesh, mut reference: impl FnMut(&mut Random) -> Pair) -> Vec<Point> {
    let count = 1 + random.below(30);
    (0..count).map(|_| (random.below(mesh.elements.len()), reference(random))).collect()
}

fn inner(random: &mut Random) -> Pair {
    random.pair(-1.0, 1.0)
}

fn right_of_the_axis(random: &mut Random, shape: Shape) -> Mesh {
    let family = random.pick(&FAMILIES);
    let mesh = shape(random, family);
    let by = random.between(2.0, 12.0);
    moved_right(mesh, by)
}

/// The call without most of the points at which 16 or 17 is answered "no", so that others are compared too.
fn mostly_sound(random: &mut Random, mut call: Call) -> Call {
    while let Err(refusal) = questions(&call) {
        if refusal.number < 16 || random.below(16) == 0 {
            break;
        }
        call.element_indices.remove(refusal.place);
        call.reference_points.drain(2 * refusal.place..2 * refusal.place + 2);
    }
    call
}

fn of_shape(random: &mut Random, shape: Shape) -> Call {
    let mesh = right_of_the_axis(random, shape);
    let points = points_of(random, &mesh, inner);
    let call = of(random, &mesh, &points);
    mostly_sound(random, call)
}

fn dyadic(random: &mut Random) -> Call {
    let mesh = right_of_the_axis(random, meshes::lattice);
    let mut eighths = |random: &mut Random| [0; 2].map(|_| random.below(17) as f64 / 8.0 - 1.0);
    let points = points_of(random, &mesh, &mut eighths);
    let call = of(random, &mesh, &points);
    mostly_sound(random, call)
}

fn outside(random: &mut Random) -> Call {
    let mesh = right_of_the_axis(random, meshes::skewed);
    let points = points_of(random, &mesh, |random| random.pair(-3.0, 3.0));
    let call = of(random, &mesh, &points);
    mostly_sound(random, call)
}

fn any_references(random: &mut Random) -> Call {
    let mesh = right_of_the_axis(random, meshes::skewed);
    let points = points_of(random, &mesh, |random| [meshes::special(random), meshes::special(random)]);
    let call = of(random, &mesh, &points);
    mostly_sound(random, call)
}

/// A rectangle from a radius about 2^-52 outwards, and one across the axis; axisymmetric, at and beside the axis.
fn beside_the_axis(random: &mut Random) -> Call {
    let bound = two_to(-52);
    let near =
        random.pick(&[bound, bound.next_up(), bound.next_down(), 2.0 * bound, 0.0, -0.0, -bound, 1e-9]);
    let family = random.pick(&FAMILIES);
    let corners = [[near, 0.0], [1.0, 0.0], [1.0, 2.0], [near, 2.0]];
    let mesh = Mesh::of(family, &[corners, rectangle([-1.0, -1.0], 2.0, 2.0)]);
    let points = points_of(random, &mesh, |random| {
        let xi =
            random.pick(&[-1.0, -1.0, -1.0 + two_to(-52), -1.0 + two_to(-51), 0.0, two_to(-52), two_to(-51)]);
        [xi, random.pick(&[-1.0, 0.0, 0.5, 1.0])]
    });
    let operator = random.pick(&[Operator::Strain, Operator::Stress]);
    let call = Call::of(operator, &mesh).at(&points);
    mostly_sound(random, call)
}

fn scaled(random: &mut Random, low: i32, high: i32) -> Call {
    let shape = random.pick::<Shape>(&[meshes::regular, meshes::skewed, meshes::curved]);
    let mut call = of_shape(random, shape);
    let power = between(random, low, high);
    meshes::scale(&mut call.nodes, power);
    mostly_sound(random, call)
}

fn of_numbers(random: &mut Random, number: fn(&mut Random) -> f64) -> Call {
    let family = random.pick(&FAMILIES);
    let mesh = meshes::tangled(random, family, number);
    let points = points_of(random, &mesh, |random| match random.below(2) {
        0 => inner(random),
        _ => [number(random), number(random)],
    });
    let call = of(random, &mesh, &points);
    mostly_sound(random, call)
}

fn special(random: &mut Random) -> Call {
    let mut call = of_shape(random, meshes::regular);
    meshes::sprinkle(random, &mut call.nodes);
    meshes::sprinkle(random, &mut call.reference_points);
    meshes::sprinkle(random, &mut call.material_table);
    mostly_sound(random, call)
}

fn any_materials(random: &mut Random) -> Call {
    let mut call = stress(random);
    let number: fn(&mut Random) -> f64 = random.pick(&[meshes::any_bits, meshes::special]);
    call.material_table.iter_mut().for_each(|entry| *entry = number(random));
    call
}

/// A call to stress all of whose points are accepted.
fn stress(random: &mut Random) -> Call {
    loop {
        let call = of_shape(random, meshes::regular);
        if call.operator == Operator::Stress {
            return call;
        }
    }
}

fn of_angles(random: &mut Random) -> Call {
    let call = stress(random);
    let angles: Vec<f64> = call.material_ids.iter().map(|_| angle(random)).collect();
    call.turned_by(&angles)
}

/// These are turned by our own reading; all else is the Rust's.
fn odd_pairs(random: &mut Random) -> Call {
    let call = stress(random);
    let number = |random: &mut Random| match random.below(4) {
        0 => random.pick(&[0.0, -0.0, 1.0, -1.0]),
        1 => meshes::special(random),
        _ => random.between(-1.5, 1.5),
    };
    let pairs: Vec<Pair> = call.material_ids.iter().map(|_| [number(random), number(random)]).collect();
    call.paired(&pairs)
}

// ---- lists and faults

/// Element and material numbers from the whole range of an index.
fn any_indices(random: &mut Random) -> Call {
    let mut call = of_shape(random, meshes::regular);
    let beyond = |random: &mut Random, count: usize| match random.below(4) {
        0 => count,
        1 => count + (1 << 32),
        2 => random.bits() as usize,
        _ => usize::MAX - random.below(3),
    };
    let (elements, materials) = (call.element_count(), call.material_table.len() / 16);
    if !call.element_indices.is_empty() && random.below(2) == 0 {
        let at = random.below(call.element_indices.len());
        call.element_indices[at] = beyond(random, elements);
    }
    if !call.material_ids.is_empty() {
        let at = random.below(call.material_ids.len());
        call.material_ids[at] = beyond(random, materials);
    }
    call
}

/// Each lent list just full, longer, or one place short; sometimes no points at all.
fn lengths(random: &mut Random) -> Call {
    let mut call = of_shape(random, meshes::skewed);
    if random.below(8) == 0 {
        call.element_indices.clear();
        call.reference_points.clear();
    }
    call.spare = std::array::from_fn(|_| random.pick(&[0, 0, 1, 2, 64]));
    if random.below(2) == 0 {
        call.spare[random.below(3)] = -1;
    }
    call
}

/// A sound call with some of the questions answered "no".
fn faulty(random: &mut Random, count: usize) -> Call {
    let operator = random.pick(&OPERATORS);
    let mut numbers = asked_by(operator);
    random.shuffle(&mut numbers);
    numbers.truncate(count);
    // A later fault is planted first, so that its place is still there.
    numbers.sort_by(|a, b| b.cmp(a));
    let call = sound(operator, random.pick(&FAMILIES));
    let mut call = numbers.into_iter().fold(call, |call, number| planted(call, number, random.below(3)));
    if ![4, 9].contains(&call.family) {
        call.family = random.pick(&[0, 1, 3, 5, 8, 10, 260, 265, (1 << 32) + 4, (1 << 32) + 9, u64::MAX]);
    }
    Call { thickness: meshes::any_bits(random), ..call }
}
