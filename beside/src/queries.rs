//! One query on both sides, and what to do when they differ.

pub mod draw;

use crate::library::{Library, QueryAnswer, QueryLists};
use crate::places::{List, first_difference};
use crate::quiet::by_the_rust;
use crate::shrink::{decimal, hexadecimal, parts, plainer, smallest, without, without_node};
use crate::tally::Outcome;
use compare::document01::{Refusal, inside, repeated};
use compare::published;
use compare::published::mesh::quad2d::QuadMeshQueryResult;
use compare::queries::{QueryCall, questions};

const NAMES: [&str; 12] = [
    "nearest_node_indices",
    "nearest_node_points",
    "nearest_node_distances",
    "nearest_element_indices",
    "nearest_element_reference_points",
    "nearest_element_points",
    "nearest_element_distances",
    "nearest_face_element_indices",
    "nearest_face_local_faces",
    "nearest_face_reference_coordinates",
    "nearest_face_points",
    "nearest_face_distances",
];

/// What both sides come to, or how they differ.
pub fn compared(library: &dyn Library, call: &QueryCall) -> Result<Outcome, String> {
    let mut lent = QueryLists::of(call);
    let answer = library.query(call, &mut lent);
    match questions(call) {
        Err(refusal) => {
            same_answer(answer, refused(&refusal))?;
            same_lists(&lent, None)?;
            // Questions 1 to 7 are about lists that the Rust has in other forms.
            if refusal.number >= 8 && by_the_rust(|| published::query(call)).is_ok() {
                return Err("document 01 refuses it, the Rust does not".into());
            }
            Ok(Outcome::Refused { number: refusal.number.into() })
        }
        Ok(()) => {
            let result = by_the_rust(|| published::query(call))
                .map_err(|why| format!("document 01 accepts it, the Rust does not: {why}"))?;
            same_answer(answer, accepted(call, &result))?;
            same_lists(&lent, Some(&result))?;
            let name = format!("the query, family {}", call.family);
            Ok(Outcome::Accepted { call: name, points: call.point_count() })
        }
    }
}

fn refused(refusal: &Refusal) -> QueryAnswer {
    QueryAnswer { question: refusal.number.into(), place: refusal.place, points: 0, repeated: 0, inside: 0 }
}

fn accepted(call: &QueryCall, result: &QuadMeshQueryResult<f64>) -> QueryAnswer {
    QueryAnswer {
        question: 0,
        place: 0,
        points: call.point_count(),
        repeated: repeated(call.rows()),
        inside: inside(result.nearest_element_distances.iter().copied()),
    }
}

fn same_answer(answer: QueryAnswer, expected: QueryAnswer) -> Result<(), String> {
    if answer == expected { Ok(()) } else { Err(format!("{answer:?}, expected {expected:?}")) }
}

fn same_lists(lent: &QueryLists, result: Option<&QuadMeshQueryResult<f64>>) -> Result<(), String> {
    let written = result.map(of_the_rust);
    for (number, list) in lists(lent).into_iter().enumerate() {
        first_difference(NAMES[number], number, list, written.map(|lists| lists[number]))?;
    }
    Ok(())
}

pub fn lists(lent: &QueryLists) -> [List<'_>; 12] {
    [
        List::Indices(&lent.nearest_node_indices),
        List::Floats(&lent.nearest_node_points),
        List::Floats(&lent.nearest_node_distances),
        List::Indices(&lent.nearest_element_indices),
        List::Floats(&lent.nearest_element_reference_points),
        List::Floats(&lent.nearest_element_points),
        List::Floats(&lent.nearest_element_distances),
        List::Indices(&lent.nearest_face_element_indices),
        List::Bytes(&lent.nearest_face_local_faces),
        List::Floats(&lent.nearest_face_reference_coordinates),
        List::Floats(&lent.nearest_face_points),
        List::Floats(&lent.nearest_face_distances),
    ]
}

fn of_the_rust(result: &QuadMeshQueryResult<f64>) -> [List<'_>; 12] {
    [
        List::Indices(&result.nearest_node_indices),
        List::Floats(result.nearest_node_points.as_flattened()),
        List::Floats(&result.nearest_node_distances),
        List::Indices(&result.nearest_element_indices),
        List::Floats(result.nearest_element_reference_points.as_flattened()),
        List::Floats(result.nearest_element_points.as_flattened()),
        List::Floats(&result.nearest_element_distances),
        List::Indices(&result.nearest_face_element_indices),
        List::Bytes(&result.nearest_face_local_faces),
        List::Floats(&result.nearest_face_reference_coordinates),
        List::Floats(result.nearest_face_points.as_flattened()),
        List::Floats(&result.nearest_face_distances),
    ]
}

// ---- a difference

/// The smallest call found in which the sides differ, and how.
pub fn report(library: &dyn Library, call: QueryCall) -> String {
    let small = smallest(call, simpler, |call| compared(library, call).is_err());
    let difference = compared(library, &small).err().expect("the smallest call differs");
    text(&small) + &difference + "\n"
}

fn simpler(call: &QueryCall) -> Box<dyn Iterator<Item = QueryCall> + '_> {
    let points = parts(call.point_count())
        .map(|part| QueryCall { points: without(&call.points, 2, &part), ..call.clone() });
    let elements = parts(call.element_count())
        .map(|part| QueryCall { elements: without(&call.elements, call.size(), &part), ..call.clone() });
    let nodes = (0..call.node_count()).filter_map(|node| {
        let (nodes, elements) = without_node(&call.nodes, &call.elements, node)?;
        Some(QueryCall { nodes, elements, ..call.clone() })
    });
    let limits = [0, call.limit / 2, call.limit.saturating_sub(1)]
        .into_iter()
        .filter(|&limit| limit < call.limit)
        .map(|limit| QueryCall { limit, ..call.clone() });
    let spare = (0..12).filter(|&list| call.spare[list] != 0).map(|list| {
        let mut call = call.clone();
        call.spare[list] = 0;
        call
    });
    let coordinates = plainer(&call.nodes).map(|nodes| QueryCall { nodes, ..call.clone() });
    let places = plainer(&call.points).map(|points| QueryCall { points, ..call.clone() });
    Box::new(points.chain(elements).chain(nodes).chain(limits).chain(spare).chain(coordinates).chain(places))
}

pub fn text(call: &QueryCall) -> String {
    let lines = [
        format!("query of family {}, limit {}", call.family, call.limit),
        format!("nodes {}", hexadecimal(&call.nodes)),
        format!("elements {}", decimal(&call.elements)),
        format!("points {}", hexadecimal(&call.points)),
        format!("places of the lent lists {}", decimal(&call.lent())),
    ];
    lines.join("\n") + "\n"
}
