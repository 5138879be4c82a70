//! Faults behind the library's calls: each must be found, and the inputs that show it must become small.

use crate::archive::Archive;
use crate::library::{JobAnswer, Library, OperatorAnswer, QueryAnswer, QueryLists, TripletLists};
use crate::{jobs, operators, queries, renumber};
use compare::cases::build::{PLAIN, RING};
use compare::cases::refusals::planted;
use compare::jobs::mesh::{Mesh, SQUARE};
use compare::operators::{Call, Operator};
use compare::queries::QueryCall;

type OfQuery = fn(&QueryCall, &mut QueryAnswer, &mut QueryLists);
type OfOperator = fn(&Call, &mut OperatorAnswer, &mut TripletLists);
type OfJob = fn(&mut JobAnswer, &mut [u8]);

/// The archive with a fault after each call.
struct Faulty {
    query: OfQuery,
    operator: OfOperator,
    job: OfJob,
}

const SOUND: Faulty = Faulty { query: |_, _, _| {}, operator: |_, _, _| {}, job: |_, _| {} };

impl Library for Faulty {
    fn query(&self, call: &QueryCall, lent: &mut QueryLists) -> QueryAnswer {
        let mut answer = Archive.query(call, lent);
        (self.query)(call, &mut answer, lent);
        answer
    }

    fn operator(&self, call: &Call, pairs: &[f64], lent: &mut TripletLists) -> OperatorAnswer {
        let mut answer = Archive.operator(call, pairs, lent);
        (self.operator)(call, &mut answer, lent);
        answer
    }

    fn job(&self, job: &[u8], listing: &mut [u8]) -> JobAnswer {
        let mut answer = Archive.job(job, listing);
        (self.job)(&mut answer, listing);
        answer
    }
}

fn flip(number: &mut f64) {
    *number = f64::from_bits(number.to_bits() ^ 1);
}

// ---- queries

/// Two squares that share a side, one point inside, one on the side and one outside; room for one point more.
fn sound_query() -> QueryCall {
    let points = [[0.3, 1.1], [2.0, 1.0], [5.7, -0.2]];
    QueryCall { spare: [2; 12], ..QueryCall::of(&Mesh::grid(4, 2, 1, |at| at), 5, &points) }
}

fn refused_query() -> QueryCall {
    let mut call = sound_query();
    call.elements[5] = 99;
    call
}

const OF_ACCEPTED_QUERIES: [OfQuery; 21] = [
    |_, answer, _| answer.question = 8,
    |_, answer, _| answer.place = 1,
    |_, answer, _| answer.points -= 1,
    |_, answer, _| answer.repeated += 1,
    |_, answer, _| answer.inside += 1,
    |_, _, lent| lent.nearest_node_indices[1] += 1,
    |_, _, lent| flip(&mut lent.nearest_node_points[3]),
    |_, _, lent| flip(&mut lent.nearest_node_distances[2]),
    |_, _, lent| lent.nearest_element_indices[2] ^= 1,
    |_, _, lent| flip(&mut lent.nearest_element_reference_points[4]),
    |_, _, lent| flip(&mut lent.nearest_element_points[5]),
    |_, _, lent| flip(&mut lent.nearest_element_distances[2]),
    |_, _, lent| lent.nearest_face_element_indices[0] += 1,
    |_, _, lent| lent.nearest_face_local_faces[0] ^= 1,
    |_, _, lent| flip(&mut lent.nearest_face_reference_coordinates[0]),
    |_, _, lent| flip(&mut lent.nearest_face_points[0]),
    |_, _, lent| flip(&mut lent.nearest_face_distances[0]),
    // A zero of the other sign, and places behind the last point: a number, a byte, the payload of a NaN.
    |_, _, lent| lent.nearest_element_distances[1] = -0.0,
    |_, _, lent| lent.nearest_node_indices[3] = 0,
    |_, _, lent| lent.nearest_face_local_faces[4] = 0,
    |_, _, lent| flip(&mut lent.nearest_face_points[7]),
];

#[test]
fn a_sound_query_has_no_difference() {
    assert!(queries::compared(&SOUND, &sound_query()).is_ok());
    assert!(queries::compared(&SOUND, &refused_query()).is_ok());
}

#[test]
fn every_fault_in_an_accepted_query_is_found() {
    for (at, query) in OF_ACCEPTED_QUERIES.into_iter().enumerate() {
        assert!(queries::compared(&Faulty { query, ..SOUND }, &sound_query()).is_err(), "fault {at}");
    }
}

#[test]
fn every_fault_in_a_refused_query_is_found() {
    let faults: [OfQuery; 5] = [
        |_, answer, _| answer.question = 3,
        |_, answer, _| answer.place += 1,
        |_, answer, _| answer.points = 3,
        |_, _, lent| lent.nearest_node_indices[0] = 0,
        |_, _, lent| flip(&mut lent.nearest_face_points[2]),
    ];
    for (at, query) in faults.into_iter().enumerate() {
        assert!(queries::compared(&Faulty { query, ..SOUND }, &refused_query()).is_err(), "fault {at}");
    }
}

/// Which NaN is written is free.
#[test]
fn another_nan_is_no_difference() {
    let call = QueryCall { points: vec![f64::NAN, 1.0], ..sound_query() };
    let query: OfQuery = |_, _, lent| {
        assert!(lent.nearest_node_distances[0].is_nan());
        lent.nearest_node_distances[0] = f64::from_bits(0xfff0_0000_dead_beef);
    };
    assert!(queries::compared(&Faulty { query, ..SOUND }, &call).is_ok());
}

#[test]
fn a_query_that_differs_becomes_small() {
    let query: OfQuery = |call, _, lent| {
        if call.limit >= 3 && call.element_count() > 0 && call.point_count() > 0 {
            lent.nearest_element_indices[0] += 1;
        }
    };
    let report = queries::report(&Faulty { query, ..SOUND }, sound_query());
    let zero = "0000000000000000";
    let nodes = [zero; 8].join(" ");
    assert!(report.starts_with(&format!("query of family 4, limit 3\nnodes {nodes}\n")), "{report}");
    assert!(report.contains(&format!("\npoints {zero} {zero}\n")), "{report}");
    assert!(report.contains("nearest_element_indices[0], which must be written"), "{report}");
}

// ---- operators

fn sound_operator() -> Call {
    let mut call = Call::of(Operator::Stress, &Mesh::of(4, &[RING, RING]))
        .at(&[(0, [0.25, -0.5]), (1, [0.5, 0.75])])
        .made_of(&[PLAIN])
        .turned_by(&[0.7]);
    call.spare = [1, 2, 3];
    call
}

#[test]
fn a_sound_operator_has_no_difference() {
    for number in [12, 15, 16] {
        assert!(operators::compared(&SOUND, &planted(sound_operator(), number, 1)).is_ok());
    }
    assert!(operators::compared(&SOUND, &sound_operator()).is_ok());
}

#[test]
fn every_fault_in_an_accepted_operator_is_found() {
    let faults: [OfOperator; 11] = [
        |_, answer, _| answer.question = 14,
        |_, answer, _| answer.place = 1,
        |_, answer, _| answer.rows -= 4,
        |_, answer, _| answer.columns /= 2,
        |_, answer, _| answer.triplets -= 1,
        |_, _, lent| lent.rows[5] += 1,
        |_, _, lent| lent.columns[6] += 1,
        |_, _, lent| flip(&mut lent.values[7]),
        |_, answer, lent| lent.rows[answer.triplets as usize] = 0,
        |_, answer, lent| lent.columns[answer.triplets as usize + 1] = 0,
        |_, answer, lent| flip(&mut lent.values[answer.triplets as usize + 2]),
    ];
    for (at, operator) in faults.into_iter().enumerate() {
        assert!(operators::compared(&Faulty { operator, ..SOUND }, &sound_operator()).is_err(), "fault {at}");
    }
}

#[test]
fn every_fault_in_a_refused_operator_is_found() {
    let faults: [OfOperator; 5] = [
        |_, answer, _| answer.question = 15,
        |_, answer, _| answer.place = 0,
        |_, answer, _| answer.triplets = 1,
        |_, _, lent| lent.rows[0] = 0,
        |_, _, lent| lent.values[0] = 0.5,
    ];
    let call = planted(sound_operator(), 16, 1);
    for (at, operator) in faults.into_iter().enumerate() {
        assert!(operators::compared(&Faulty { operator, ..SOUND }, &call).is_err(), "fault {at}");
    }
}

#[test]
fn an_operator_that_differs_becomes_small() {
    let operator: OfOperator = |call, answer, lent| {
        if call.points() > 0 && answer.triplets > 0 {
            lent.rows[0] = 7;
        }
    };
    let report = operators::report(&Faulty { operator, ..SOUND }, sound_operator());
    assert!(report.contains("element numbers 0\n"), "{report}");
    assert!(report.contains("rows[0]"), "{report}");
}

// ---- jobs

#[test]
fn every_fault_in_a_listing_is_found() {
    let file = Mesh::of(4, &[SQUARE]).job(1, &[[3.0, 1.0]]);
    assert!(jobs::compared(&SOUND, &file).is_ok());
    let faults: [OfJob; 6] = [
        |answer, _| answer.question = 7,
        |answer, _| answer.place = 1,
        |answer, _| answer.bytes += 1,
        |_, listing| listing[20] ^= 1,
        |answer, listing| listing[answer.bytes as usize] ^= 1,
        |_, listing| *listing.last_mut().expect("bytes are lent") ^= 1,
    ];
    for (at, job) in faults.into_iter().enumerate() {
        assert!(jobs::compared(&Faulty { job, ..SOUND }, &file).is_err(), "fault {at}");
    }
}

// ---- renumbering

/// Names the last of the elements that tie, by asking with the elements in the opposite order.
struct LastOfTies;

impl Library for LastOfTies {
    fn query(&self, call: &QueryCall, lent: &mut QueryLists) -> QueryAnswer {
        let mut reversed = call.clone();
        reversed.elements = call.rows().collect::<Vec<_>>().into_iter().rev().flatten().copied().collect();
        let answer = Archive.query(&reversed, lent);
        let last = call.element_count() - 1;
        lent.nearest_element_indices.iter_mut().for_each(|element| *element = last - *element);
        lent.nearest_face_element_indices.iter_mut().for_each(|element| *element = last - *element);
        answer
    }

    fn operator(&self, call: &Call, pairs: &[f64], lent: &mut TripletLists) -> OperatorAnswer {
        Archive.operator(call, pairs, lent)
    }

    fn job(&self, job: &[u8], listing: &mut [u8]) -> JobAnswer {
        Archive.job(job, listing)
    }
}

#[test]
fn every_fault_against_demand_3_is_found() {
    assert!(renumber::run(&LastOfTies, 1).is_err());
    let queries: [OfQuery; 3] = [
        |call, answer, _| answer.question = u64::from(call.elements[0] == 0),
        |call, _, lent| lent.nearest_element_distances[0] += f64::from(call.elements[0]),
        |_, _, lent| lent.nearest_node_indices[0] = 0,
    ];
    for (at, query) in queries.into_iter().enumerate() {
        assert!(renumber::run(&Faulty { query, ..SOUND }, 1).is_err(), "query, fault {at}");
    }
    let operators: [OfOperator; 4] = [
        |call, answer, _| answer.question = u64::from(call.element_indices[0] == 0),
        |call, _, lent| lent.values[0] += call.element_indices[0] as f64,
        |_, _, lent| lent.columns.swap(0, 1),
        |call, answer, lent| {
            if answer.triplets > 1 && call.element_indices[0] == 0 {
                lent.rows.swap(0, 1);
                lent.columns.swap(0, 1);
                lent.values.swap(0, 1);
            }
        },
    ];
    for (at, operator) in operators.into_iter().enumerate() {
        assert!(renumber::run(&Faulty { operator, ..SOUND }, 1).is_err(), "operator, fault {at}");
    }
}
