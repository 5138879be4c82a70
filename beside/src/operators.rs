//! One operator on both sides, and what to do when they differ.

pub mod draw;

use crate::library::{Library, OperatorAnswer, TripletLists};
use crate::places::{List, first_difference};
use crate::quiet::by_the_rust;
use crate::shrink::{decimal, hexadecimal, parts, plainer, smallest, without, without_node};
use crate::tally::Outcome;
use compare::operators::{Call, Pairs, questions};
use compare::published;
use std::ops::Range;

/// The three lists that the Rust builds.
struct Built {
    rows: Vec<usize>,
    columns: Vec<usize>,
    values: Vec<f64>,
}

/// What both sides come to, or how they differ.
pub fn compared(library: &dyn Library, call: &Call) -> Result<Outcome, String> {
    let mut lent = TripletLists::of(call);
    let answer = library.operator(call, &call.pair_list(), &mut lent);
    match questions(call) {
        Err(refusal) => {
            let question = refusal.number.into();
            same_answer(
                answer,
                OperatorAnswer { question, place: refusal.place, rows: 0, columns: 0, triplets: 0 },
            )?;
            same_lists(&lent, None)?;
            if rust_asks(call, refusal.number) && by_the_rust(|| published::operator(call)).is_ok() {
                return Err("document 01 refuses it, the Rust does not".into());
            }
            Ok(Outcome::Refused { number: question })
        }
        Ok(()) => {
            let built = by_the_rust(|| published::operator(call))
                .map_err(|why| format!("document 01 accepts it, the Rust does not: {why}"))?;
            let rows = call.rows_a_point() * call.points();
            let columns = call.columns_a_node() * call.node_count();
            let triplets = built.triplets.len();
            same_answer(answer, OperatorAnswer { question: 0, place: 0, rows, columns, triplets })?;
            let built = Built {
                rows: built.triplets.iter().map(|triplet| triplet.row).collect(),
                columns: built.triplets.iter().map(|triplet| triplet.column).collect(),
                values: built.triplets.iter().map(|triplet| triplet.value).collect(),
            };
            same_lists(&lent, Some(&built))?;
            let name = format!("{:?}, family {}", call.operator, call.family);
            Ok(Outcome::Accepted { call: name, points: call.points() })
        }
    }
}

/// Questions 1 to 7 are about lists that the Rust has in other forms, and it takes no pairs that no angle has.
fn rust_asks(call: &Call, number: u8) -> bool {
    number >= 8 && !matches!(call.pairs, Pairs::Any(_))
}

fn same_answer(answer: OperatorAnswer, expected: OperatorAnswer) -> Result<(), String> {
    if answer == expected { Ok(()) } else { Err(format!("{answer:?}, expected {expected:?}")) }
}

fn same_lists(lent: &TripletLists, built: Option<&Built>) -> Result<(), String> {
    let rows = built.map(|built| List::Indices(&built.rows));
    let columns = built.map(|built| List::Indices(&built.columns));
    let values = built.map(|built| List::Floats(&built.values));
    first_difference("rows", 0, List::Indices(&lent.rows), rows)?;
    first_difference("columns", 1, List::Indices(&lent.columns), columns)?;
    first_difference("values", 2, List::Floats(&lent.values), values)
}

// ---- a difference

/// The smallest call found in which the sides differ, and how.
pub fn report(library: &dyn Library, call: Call) -> String {
    let small = smallest(call, simpler, |call| compared(library, call).is_err());
    let difference = compared(library, &small).err().expect("the smallest call differs");
    text(&small) + &difference + "\n"
}

fn simpler(call: &Call) -> Box<dyn Iterator<Item = Call> + '_> {
    let points = parts(call.points()).map(|part| Call {
        element_indices: without(&call.element_indices, 1, &part),
        reference_points: without(&call.reference_points, 2, &part),
        ..call.clone()
    });
    let elements = parts(call.element_count()).filter_map(|part| without_elements(call, &part));
    let fewer_nodes = (0..call.node_count()).filter_map(|node| {
        let (nodes, elements) = without_node(&call.nodes, &call.elements, node)?;
        Some(Call { nodes, elements, ..call.clone() })
    });
    let materials = parts(call.material_table.len() / 16)
        .map(|part| Call { material_table: without(&call.material_table, 16, &part), ..call.clone() });
    let ids =
        (0..call.material_ids.len()).filter(|&element| call.material_ids[element] != 0).map(|element| {
            let mut call = call.clone();
            call.material_ids[element] = 0;
            call
        });
    let spare = (0..3).filter(|&list| call.spare[list] != 0).map(|list| {
        let mut call = call.clone();
        call.spare[list] = 0;
        call
    });
    let nodes = plainer(&call.nodes).map(|nodes| Call { nodes, ..call.clone() });
    let references =
        plainer(&call.reference_points).map(|reference_points| Call { reference_points, ..call.clone() });
    let table = plainer(&call.material_table).map(|material_table| Call { material_table, ..call.clone() });
    let pairs = plainer_pairs(&call.pairs).map(|pairs| Call { pairs, ..call.clone() });
    let lists = points.chain(elements).chain(fewer_nodes).chain(materials).chain(ids).chain(spare);
    Box::new(lists.chain(nodes).chain(references).chain(table).chain(pairs))
}

/// The call without some elements that no point names.
fn without_elements(call: &Call, part: &Range<usize>) -> Option<Call> {
    let named = call.element_indices.iter().any(|element| part.contains(element));
    let renumbered = |&element: &usize| if element >= part.end { element - part.len() } else { element };
    let pairs = match &call.pairs {
        Pairs::NotGiven(numbers) => Pairs::NotGiven(numbers.clone()),
        Pairs::OfAngles(angles) => Pairs::OfAngles(without(angles, 1, part)),
        Pairs::Any(numbers) => Pairs::Any(without(numbers, 2, part)),
    };
    (!named).then(|| Call {
        elements: without(&call.elements, call.size(), part),
        element_indices: call.element_indices.iter().map(renumbered).collect(),
        material_ids: without(&call.material_ids, 1, part),
        pairs,
        ..call.clone()
    })
}

fn plainer_pairs(pairs: &Pairs) -> Box<dyn Iterator<Item = Pairs> + '_> {
    match pairs {
        Pairs::NotGiven(numbers) => Box::new(plainer(numbers).map(Pairs::NotGiven)),
        Pairs::OfAngles(angles) => Box::new(plainer(angles).map(Pairs::OfAngles)),
        Pairs::Any(numbers) => Box::new(plainer(numbers).map(Pairs::Any)),
    }
}

fn text(call: &Call) -> String {
    let lines = [
        format!("{:?} of family {}, {:?}", call.operator, call.family, call.formulation),
        format!("thickness {}, yes is {}", hexadecimal(&[call.thickness]), call.yes),
        format!("nodes {}", hexadecimal(&call.nodes)),
        format!("elements {}", decimal(&call.elements)),
        format!("element numbers {}", decimal(&call.element_indices)),
        format!("reference points {}", hexadecimal(&call.reference_points)),
        format!("material numbers {}", decimal(&call.material_ids)),
        format!("material table {}", hexadecimal(&call.material_table)),
        format!("pairs, given: {}; {}", call.pairs_given(), hexadecimal(&call.pair_list())),
        format!("places of the lent lists {}", decimal(&call.lent())),
    ];
    lines.join("\n") + "\n"
}
