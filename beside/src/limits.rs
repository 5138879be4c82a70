//! Calls at the limits: nothing at all, and 1,000,000 of each kind and one more.

use crate::comparison::{operator, query};
use crate::library::Library;
use crate::tally::Tallies;
use compare::cases::build::{PLAIN, RING, each_operator};
use compare::jobs::mesh::{FAMILIES, Mesh};
use compare::operators::{Call, MOST, OPERATORS, Operator, Pairs};
use compare::queries::QueryCall;

pub fn run(library: &dyn Library) -> Result<(), String> {
    let mut tallies = Tallies::of("limits");
    for family in FAMILIES {
        empty_lists(library, &mut tallies, family)?;
        one_short(library, &mut tallies, family)?;
        iterations(library, &mut tallies, family)?;
        for count in [MOST, MOST + 1] {
            queries_of(library, &mut tallies, family, count)?;
            operators_of(library, &mut tallies, family, count)?;
        }
    }
    tallies.print();
    Ok(())
}

fn ring(family: u8) -> Mesh {
    Mesh::of(family, &[RING])
}

fn one_point(family: u8) -> QueryCall {
    QueryCall::of(&ring(family), 0, &[[2.5, 0.25]])
}

/// Each list of length 0, and all of them.
fn empty_lists(library: &dyn Library, tallies: &mut Tallies, family: u8) -> Result<(), String> {
    let whole = one_point(family);
    let no_nodes = QueryCall { nodes: vec![], ..whole.clone() };
    let no_elements = QueryCall { elements: vec![], ..whole.clone() };
    let no_points = QueryCall { points: vec![], ..whole.clone() };
    let nothing = QueryCall { nodes: vec![], elements: vec![], points: vec![], ..whole };
    for call in [no_nodes, no_elements, no_points, nothing] {
        query(library, tallies, "query, empty lists", call)?;
    }
    let empty = Mesh { family, nodes: vec![], elements: vec![] };
    let without_elements = Mesh { elements: vec![], ..ring(family) };
    for mesh in [empty, without_elements, ring(family)] {
        for call in each_operator(&mesh, &[]) {
            operator(library, tallies, "operators, empty lists", call)?;
        }
    }
    let no_materials = Call { material_table: vec![], ..Call::of(Operator::Stress, &ring(family)) };
    operator(library, tallies, "operators, empty lists", no_materials)
}

/// Each list one number short, those that are given and those that are lent; and none, with every lent list just
/// full.
fn one_short(library: &dyn Library, tallies: &mut Tallies, family: u8) -> Result<(), String> {
    let class = "query, each list just full and one short";
    let whole = one_point(family);
    query(library, tallies, class, whole.clone())?;
    query(library, tallies, class, QueryCall { nodes: shorter(&whole.nodes), ..whole.clone() })?;
    query(library, tallies, class, QueryCall { elements: shorter(&whole.elements), ..whole.clone() })?;
    query(library, tallies, class, QueryCall { points: shorter(&whole.points), ..whole.clone() })?;
    for list in 0..12 {
        let mut call = whole.clone();
        call.spare[list] = -1;
        query(library, tallies, class, call)?;
    }
    let class = "operators, each list just full and one short";
    for whole in each_operator(&ring(family), &[(0, [0.25, -0.5])]) {
        let whole = if whole.operator == Operator::Stress { whole.paired(&[[0.8, 0.6]]) } else { whole };
        let mut calls = vec![
            whole.clone(),
            Call { nodes: shorter(&whole.nodes), ..whole.clone() },
            Call { elements: shorter(&whole.elements), ..whole.clone() },
            Call { element_indices: shorter(&whole.element_indices), ..whole.clone() },
            Call { reference_points: shorter(&whole.reference_points), ..whole.clone() },
            Call { material_ids: shorter(&whole.material_ids), ..whole.clone() },
            Call { material_table: shorter(&whole.material_table), ..whole.clone() },
            Call { pairs: Pairs::Any(shorter(&whole.pair_list())), ..whole.clone() },
        ];
        for list in 0..3 {
            let mut call = whole.clone();
            call.spare[list] = -1;
            calls.push(call);
        }
        for call in calls {
            operator(library, tallies, class, call)?;
        }
    }
    Ok(())
}

fn shorter<T: Clone>(list: &[T]) -> Vec<T> {
    list[..list.len().saturating_sub(1)].to_vec()
}

fn iterations(library: &dyn Library, tallies: &mut Tallies, family: u8) -> Result<(), String> {
    for limit in [1000, 1001] {
        query(
            library,
            tallies,
            "query, 1,000 iterations and one more",
            QueryCall { limit, ..one_point(family) },
        )?;
    }
    Ok(())
}

/// As many nodes, elements and points as are said, one kind at a time.
fn queries_of(library: &dyn Library, tallies: &mut Tallies, family: u8, count: usize) -> Result<(), String> {
    let mut call = one_point(family);
    call.nodes.extend(spread(2 * count - call.nodes.len()));
    query(library, tallies, "query, 1,000,000 nodes and one more", call)?;
    let mut call = one_point(family);
    call.elements = many_rows(&call.elements, count);
    query(library, tallies, "query, 1,000,000 elements and one more", call)?;
    let call = QueryCall { points: spread(2 * count).collect(), ..one_point(family) };
    query(library, tallies, "query, 1,000,000 points and one more", call)
}

fn operators_of(
    library: &dyn Library,
    tallies: &mut Tallies,
    family: u8,
    count: usize,
) -> Result<(), String> {
    let mesh = ring(family);
    for one in OPERATORS {
        let base = Call::of(one, &mesh).at(&[(0, [0.25, -0.5])]);
        let mut call = base.clone();
        call.nodes.extend(spread(2 * count - call.nodes.len()));
        operator(library, tallies, "operators, 1,000,000 nodes and one more", call)?;
        let mut call = base.clone();
        call.elements = many_rows(&call.elements, count);
        call.element_indices[0] = count - 1;
        if one == Operator::Stress {
            call = call.made_of(&[PLAIN]);
        }
        operator(library, tallies, "operators, 1,000,000 elements and one more", call)?;
        // The rows of 1,000,000 points of strain or stress in family 9 would take 1.7 GB in each side's lists.
        if count > MOST || one == Operator::Interpolation || family == 4 {
            points_of(library, tallies, &base, count)?;
        }
    }
    let base = Call::of(Operator::Stress, &mesh).at(&[(0, [0.25, -0.5])]);
    let call = Call { material_table: PLAIN.repeat(count), material_ids: vec![count - 1], ..base };
    operator(library, tallies, "operators, 1,000,000 materials and one more", call)
}

/// Points and element numbers, together and, past the limit, each alone.
fn points_of(library: &dyn Library, tallies: &mut Tallies, base: &Call, count: usize) -> Result<(), String> {
    let class = "operators, 1,000,000 points and element numbers, and one more of either";
    let references = |count: usize| spread(2 * count).map(|number| number.fract() - 0.5).collect::<Vec<_>>();
    let both = Call { element_indices: vec![0; count], reference_points: references(count), ..base.clone() };
    if count > MOST {
        let numbers = Call { reference_points: references(MOST), ..both.clone() };
        let points = Call { element_indices: vec![0; MOST], ..both.clone() };
        operator(library, tallies, class, numbers)?;
        operator(library, tallies, class, points)?;
    }
    operator(library, tallies, class, both)
}

/// Numbers about 0 to 4 with few digits, which soon repeat.
fn spread(count: usize) -> impl Iterator<Item = f64> {
    (0..count).map(|at| (at * 37 % 1024) as f64 / 256.0)
}

/// The row again and again, turned by one corner from time to time, so that not all elements are alike.
fn many_rows(row: &[u32], count: usize) -> Vec<u32> {
    let mut turned = row.to_vec();
    let mut rows = Vec::with_capacity(count * row.len());
    for element in 0..count {
        if element % 3 == 0 {
            turned[..4].rotate_left(1);
        }
        rows.extend_from_slice(&turned);
    }
    rows
}
