//! The stored jobs and operator cases, whose answers are the published Rust's, through this crate.

use sobrizenta::{
    QuadMeshSparseOperator, QuadMeshView2d, Refusal, Structural2dFormulation, answer_job,
    quad_mesh_interpolation_operator, quad_mesh_strain_operator, quad_mesh_stress_operator, query_quad_mesh,
};
use std::fs;
use std::path::{Path, PathBuf};

const ROOT: &str = concat!(env!("CARGO_MANIFEST_DIR"), "/../..");

/// NaN as a word, every other number by its bits.
fn digits(number: f64) -> String {
    if number.is_nan() { "nan".into() } else { format!("{:016x}", number.to_bits()) }
}

// ---- the conformance kit

/// Each job of the kit, with its name and its listing.
fn kit() -> Vec<(PathBuf, Vec<u8>, String)> {
    let folder = Path::new(ROOT).join("conformance");
    let jobs = fs::read_dir(folder.join("jobs")).expect("the kit has jobs");
    let file = |entry: fs::DirEntry| {
        let path = entry.path();
        let name = path.file_stem().expect("a job has a name").to_string_lossy().into_owned();
        let listing = fs::read_to_string(folder.join(format!("listings/{name}.txt"))).expect("a listing");
        (path.clone(), fs::read(path).expect("a job"), listing)
    };
    jobs.map(|entry| file(entry.expect("an entry"))).collect()
}

#[test]
fn answer_job_prints_every_listing_of_the_kit() {
    let kit = kit();
    assert!(kit.len() > 100);
    for (path, job, listing) in kit {
        assert_eq!(String::from_utf8(answer_job(&job)).expect("ASCII"), listing, "{}", path.display());
    }
}

#[test]
fn query_quad_mesh_answers_as_every_accepted_listing_of_the_kit_says() {
    let accepted = kit().into_iter().filter(|(_, _, listing)| listing.starts_with("query "));
    for (path, job, listing) in accepted {
        assert_eq!(queried(&job), listing, "{}", path.display());
    }
}

/// The listing of an accepted job, made from the lists that the query hands out.
fn queried(job: &[u8]) -> String {
    let (family, limit) = (job[2], u16::from_le_bytes([job[3], job[4]]));
    let (mut nodes, mut elements, mut points) = (vec![], vec![], vec![]);
    let mut rest = &job[5..];
    while !rest.is_empty() {
        let body = if rest[1] == b'E' { 4 * usize::from(family) } else { 16 };
        let bytes = &rest[2..2 + body];
        match rest[1] {
            b'N' => nodes.extend(floats(bytes)),
            b'E' => elements.extend(bytes.chunks(4).map(|four| u32::from_le_bytes(four.try_into().unwrap()))),
            _ => points.extend(floats(bytes)),
        }
        rest = &rest[2 + body..];
    }
    let mesh = QuadMeshView2d { family: family.into(), nodes_rz: &nodes, elements: &elements };
    let found = query_quad_mesh(mesh, &points, limit.into()).expect("an accepted job");
    let mut text = format!("query {} {} {}\n", points.len() / 2, found.repeated, found.inside);
    for at in 0..points.len() / 2 {
        let [xi, eta] = found.nearest_element_reference_points[at];
        text += &format!(
            "{at} {} {} {} {} {} {} {} {} {} {}\n",
            found.nearest_node_indices[at],
            digits(found.nearest_node_distances[at]),
            found.nearest_element_indices[at],
            digits(xi),
            digits(eta),
            digits(found.nearest_element_distances[at]),
            found.nearest_face_element_indices[at],
            found.nearest_face_local_faces[at],
            digits(found.nearest_face_reference_coordinates[at]),
            digits(found.nearest_face_distances[at]),
        );
    }
    text
}

fn floats(bytes: &[u8]) -> Vec<f64> {
    bytes.chunks(8).map(|eight| f64::from_le_bytes(eight.try_into().unwrap())).collect()
}

// ---- the operator cases; compare/README.md describes their bytes and their text

/// Takes numbers from the front of a case.
struct Reader<'a>(&'a [u8]);

impl<'a> Reader<'a> {
    fn take(&mut self, count: usize) -> &'a [u8] {
        let (taken, rest) = self.0.split_at(count);
        self.0 = rest;
        taken
    }

    fn byte(&mut self) -> u8 {
        self.take(1)[0]
    }

    fn short(&mut self) -> usize {
        u16::from_le_bytes(self.take(2).try_into().unwrap()).into()
    }

    fn indices(&mut self, count: usize) -> Vec<u32> {
        self.take(4 * count).chunks(4).map(|four| u32::from_le_bytes(four.try_into().unwrap())).collect()
    }

    fn wide(&mut self, count: usize) -> Vec<usize> {
        self.indices(count).into_iter().map(|index| index as usize).collect()
    }

    fn floats(&mut self, count: usize) -> Vec<f64> {
        floats(self.take(8 * count))
    }
}

fn operated(case: &[u8]) -> Result<QuadMeshSparseOperator, Refusal> {
    let mut case = Reader(case);
    let [operator, family, formulation, given] = [0; 4].map(|_| case.byte());
    let thickness = case.floats(1)[0];
    let counts = [0; 10].map(|_| case.short());
    let nodes = case.floats(counts[0]);
    let elements = case.indices(counts[1]);
    let element_indices = case.wide(counts[2]);
    let reference_points = case.floats(counts[3]);
    let material_ids = case.wide(counts[4]);
    let material_table = case.floats(counts[5]);
    let pairs = case.floats(counts[6]);
    assert!(case.0.is_empty());
    let mesh = QuadMeshView2d { family: family.into(), nodes_rz: &nodes, elements: &elements };
    let formulation = match formulation {
        0 => Structural2dFormulation::Axisymmetric,
        _ => Structural2dFormulation::PlaneStrain { thickness },
    };
    let pairs = (given != 0).then_some(&pairs[..]);
    match operator {
        0 => quad_mesh_interpolation_operator(mesh, &element_indices, &reference_points),
        1 => quad_mesh_strain_operator(mesh, &element_indices, &reference_points, formulation),
        _ => quad_mesh_stress_operator(
            mesh,
            &element_indices,
            &reference_points,
            &material_ids,
            &material_table,
            pairs,
            formulation,
        ),
    }
}

fn text(answer: Result<QuadMeshSparseOperator, Refusal>) -> String {
    match answer {
        Ok(operator) => {
            let line = |(row, column, value)| format!("{row} {column} {}\n", digits(value));
            let triplets: String = operator.triplets().map(line).collect();
            format!("built {} {} {}\n{triplets}", operator.nrow, operator.ncol, operator.values.len())
        }
        Err(refusal) => format!("refused {} {}\n", refusal.question.number(), refusal.place),
    }
}

#[test]
fn the_operators_answer_as_every_stored_case_says() {
    let folder = Path::new(ROOT).join("crates/replay_operators");
    let cases = fs::read(folder.join("stdin")).expect("the stored cases");
    let texts = fs::read_to_string(folder.join("stdout")).expect("their texts");
    let mut texts = texts.split("kept\n");
    let mut rest = Reader(&cases);
    let (mut compared, mut short) = (0, 0);
    while !rest.0.is_empty() {
        let length = rest.indices(1)[0] as usize;
        let case = rest.take(length);
        let expected = texts.next().expect("a text for each case");
        // Lists of the caller that are too short do not arise here: this crate lends its own.
        if expected == "refused 7 0\n" {
            short += 1;
            continue;
        }
        assert_eq!(text(operated(case)), expected, "case {}", compared + short);
        compared += 1;
    }
    assert!(compared > 700, "{compared}");
}
