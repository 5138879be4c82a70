//! Every question that a call of this crate can answer no.

use sobrizenta::{
    QuadMeshView2d, Question, Refusal, Structural2dFormulation, quad_mesh_interpolation_operator,
    quad_mesh_strain_operator, quad_mesh_stress_operator, query_quad_mesh,
};

const NODES: [f64; 8] = [0.0, 0.0, 2.0, 0.0, 2.0, 2.0, 0.0, 2.0];
const SQUARE: QuadMeshView2d<'static> =
    QuadMeshView2d { family: 4, nodes_rz: &NODES, elements: &[0, 1, 2, 3] };
const MATERIAL: [f64; 16] = [1.0; 16];
const AXISYMMETRIC: Structural2dFormulation = Structural2dFormulation::Axisymmetric;

fn query(mesh: QuadMeshView2d<'_>, points: &[f64], limit: u64) -> Option<(Question, usize)> {
    query_quad_mesh(mesh, points, limit).err().map(numbers)
}

fn interpolation(elements: &[usize], references: &[f64]) -> Option<(Question, usize)> {
    quad_mesh_interpolation_operator(SQUARE, elements, references).err().map(numbers)
}

fn strain(mesh: QuadMeshView2d<'_>, reference: [f64; 2]) -> Option<(Question, usize)> {
    quad_mesh_strain_operator(mesh, &[0], &reference, AXISYMMETRIC).err().map(numbers)
}

fn stress(ids: &[usize], table: &[f64], pairs: Option<&[f64]>) -> Option<(Question, usize)> {
    quad_mesh_stress_operator(SQUARE, &[0], &[0.0, 0.0], ids, table, pairs, AXISYMMETRIC).err().map(numbers)
}

fn numbers(refusal: Refusal) -> (Question, usize) {
    (refusal.question, refusal.place)
}

#[test]
fn of_a_query() {
    let point = [1.0, 1.0];
    assert_eq!(query(SQUARE, &point, 1000), None);
    assert_eq!(query(SQUARE, &[], 0), None);
    assert_eq!(query(QuadMeshView2d { family: 5, ..SQUARE }, &point, 0), Some((Question::Family, 0)));
    assert_eq!(
        query(QuadMeshView2d { nodes_rz: &NODES[..7], ..SQUARE }, &point, 0),
        Some((Question::NodeList, 0))
    );
    assert_eq!(
        query(QuadMeshView2d { elements: &[0, 1, 2], ..SQUARE }, &point, 0),
        Some((Question::Connectivity, 0))
    );
    assert_eq!(query(SQUARE, &point, 1001), Some((Question::Iterations, 0)));
    assert_eq!(query(SQUARE, &[1.0], 0), Some((Question::PointList, 0)));
    assert_eq!(query(SQUARE, &vec![0.0; 2_000_002], 0), Some((Question::PointList, 0)));
    assert_eq!(
        query(QuadMeshView2d { elements: &[0, 1, 2, 3, 0, 1, 2, 4], ..SQUARE }, &point, 0),
        Some((Question::NodeNumber, 1))
    );
    let nothing = QuadMeshView2d { nodes_rz: &[], elements: &[], ..SQUARE };
    assert_eq!(query(nothing, &point, 0), Some((Question::NoNode, 0)));
    assert_eq!(query(QuadMeshView2d { elements: &[], ..SQUARE }, &point, 0), Some((Question::NoElement, 0)));
}

#[test]
fn of_an_operator() {
    assert_eq!(interpolation(&[0], &[0.0, 0.0]), None);
    assert_eq!(interpolation(&[], &[]), None);
    assert_eq!(interpolation(&[0], &[0.0]), Some((Question::PointList, 0)));
    assert_eq!(interpolation(&[0, 0], &[0.0, 0.0]), Some((Question::ElementCount, 0)));
    assert_eq!(interpolation(&[0, 1], &[0.0; 4]), Some((Question::ElementNumber, 1)));
    assert_eq!(strain(SQUARE, [0.0, 0.0]), None);
    assert_eq!(
        strain(QuadMeshView2d { elements: &[0, 3, 2, 1], ..SQUARE }, [0.0, 0.0]),
        Some((Question::Inverted, 0))
    );
    assert_eq!(strain(SQUARE, [-1.0, 0.0]), Some((Question::OnAxis, 0)));
}

#[test]
fn of_materials() {
    assert_eq!(stress(&[0], &MATERIAL, None), None);
    assert_eq!(stress(&[0], &MATERIAL, Some(&[1.0, 0.0])), None);
    assert_eq!(stress(&[0], &MATERIAL[..15], None), Some((Question::MaterialTable, 0)));
    assert_eq!(stress(&[0], &MATERIAL, Some(&[1.0])), Some((Question::MaterialTable, 0)));
    assert_eq!(stress(&[], &MATERIAL, None), Some((Question::MaterialCount, 0)));
    assert_eq!(stress(&[0], &MATERIAL, Some(&[])), Some((Question::PairCount, 0)));
    assert_eq!(stress(&[1], &MATERIAL, None), Some((Question::MaterialNumber, 0)));
}

#[test]
fn in_words() {
    let refusal = Refusal { question: Question::OnAxis, place: 3 };
    assert_eq!(
        refusal.to_string(),
        "refused by question 17 at point 3: the radius at the point is at most 2^-52"
    );
    let refusal = Refusal { question: Question::NoNode, place: 0 };
    assert_eq!(refusal.to_string(), "refused by question 9: there is no node");
}
