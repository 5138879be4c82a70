//! Times of the proved library and of the published Rust, on the same inputs in one run.

use crate::archive::Archive;
use crate::clock::processor_seconds;
use crate::library::{Library, QueryLists, TripletLists};
use crate::quiet::by_the_rust;
use compare::cases::build::{any_material, moved_right};
use compare::document01::{self, MOST_ELEMENTS, MOST_POINTS};
use compare::jobs::files::{full_mesh, full_points};
use compare::jobs::mesh::{FAMILIES, Mesh};
use compare::jobs::random::Random;
use compare::jobs::shapes::scatter;
use compare::operator_turns::material::matrices;
use compare::operators::{Call, Operator, Pairs};
use compare::published::mesh::quad2d::{
    Quad4ReferenceElement, Quad9ReferenceElement, QuadMeshView2d, QuadReferenceElement,
    quad_mesh_stress_operator, query_quad_mesh,
};
use compare::published::physics::solenoid_stress::Structural2dFormulation;
use compare::published::{pairs, rows_of};
use compare::queries::QueryCall;
use std::env;
use std::hint::black_box;
use std::io::{self, Write};
use std::path::{Path, PathBuf};
use std::process::{Command, Stdio};

/// Elements a side of the mesh, and points: 256 elements and 256 points.
const SIDE: u32 = 16;
const POINTS: usize = 256;

/// How far the mesh is from the axis.
const AXIS: f64 = 8.0;

/// The instructions of a query are counted on the first of the points, because counting is slow.
const COUNTED_POINTS: usize = 32;

const LIMITS: [u64; 4] = [0, 1, 10, 50];

/// The limit of the whole-size jobs, and of the query whose answers the stress rows are made of.
const COMMON_LIMIT: u16 = 10;

/// How often each side of a row is timed, by turns.
const REPETITIONS: usize = 15;

/// A timing of fewer seconds is made of several calls.
const SHORTEST: f64 = 0.01;

/// One call or process, on both sides.
struct Row {
    name: String,
    /// What is counted, and how many of it the row has.
    unit: &'static str,
    count: usize,
    ours: Box<dyn FnMut()>,
    rust: Box<dyn FnMut()>,
}

// ---- commands

/// Prints the median of each side's times, for one of what the row counts, and that of their ratios. Rows whose
/// names do not have the word are left out.
pub fn run(word: &str) -> io::Result<()> {
    println!("| row | for each | ours, ns | Rust, ns | ratio |");
    println!("|---|---|---:|---:|---:|");
    let mut rows = call_rows(POINTS);
    rows.extend(process_rows()?);
    for mut row in rows.into_iter().filter(|row| row.name.contains(word)) {
        let [ours, rust, ratio] = medians(&mut row);
        let [ours, rust] = [ours, rust].map(|seconds| 1e9 * seconds / row.count as f64);
        println!("| {} | {} | {ours:.1} | {rust:.1} | {ratio:.2} |", row.name, row.unit);
    }
    Ok(())
}

/// Runs one side of one row once, for a tool that counts instructions in `counted_part`.
pub fn count(name: &str, side: &str) {
    let row = call_rows(COUNTED_POINTS).into_iter().find(|row| row.name == name);
    let mut row = row.unwrap_or_else(|| panic!("no row has the name {name:?}"));
    match side {
        "ours" => counted_part(&mut row.ours),
        "rust" => counted_part(&mut row.rust),
        _ => panic!("a side is \"ours\" or \"rust\""),
    }
}

/// Prints the instructions of each side of each row but the processes, counted by callgrind.
pub fn instructions(word: &str) {
    println!("| row | for each | ours | Rust | ratio |");
    println!("|---|---|---:|---:|---:|");
    for row in call_rows(COUNTED_POINTS).into_iter().filter(|row| row.name.contains(word)) {
        let [ours, rust] = ["ours", "rust"].map(|side| counted(&row.name, side) / row.count as f64);
        println!("| {} | {} | {ours:.0} | {rust:.0} | {:.2} |", row.name, row.unit, ours / rust);
    }
}

/// The only part of a run that is counted.
#[inline(never)]
#[unsafe(no_mangle)]
fn counted_part(work: &mut dyn FnMut()) {
    work();
}

fn counted(name: &str, side: &str) -> f64 {
    let output = Command::new("valgrind")
        .args(["--tool=callgrind", "--callgrind-out-file=/dev/null", "--collect-atstart=no"])
        .arg("--toggle-collect=counted_part")
        .arg(env::current_exe().expect("this program has a path"))
        .args(["count", name, side])
        .output()
        .expect("Debian's package valgrind is installed");
    let text = String::from_utf8_lossy(&output.stderr).into_owned();
    let collected = text.lines().find_map(|line| line.split_once("Collected :")).map(|(_, number)| number);
    let number = collected.and_then(|number| number.trim().parse().ok());
    number.unwrap_or_else(|| panic!("callgrind counted nothing:\n{text}"))
}

// ---- timing

/// The median seconds of a call of each side, and the median of the ratios of timings that follow each other.
fn medians(row: &mut Row) -> [f64; 3] {
    let first = seconds(&mut row.rust, 1).min(seconds(&mut row.ours, 1));
    let calls = (SHORTEST / first).ceil().max(1.0) as usize;
    let timed: Vec<[f64; 2]> =
        (0..REPETITIONS).map(|_| [seconds(&mut row.ours, calls), seconds(&mut row.rust, calls)]).collect();
    let median_of = |number: fn(&[f64; 2]) -> f64| median(timed.iter().map(number).collect());
    [median_of(|pair| pair[0]), median_of(|pair| pair[1]), median_of(|pair| pair[0] / pair[1])]
}

/// Seconds of one of several calls.
fn seconds(work: &mut dyn FnMut(), calls: usize) -> f64 {
    let start = processor_seconds();
    (0..calls).for_each(|_| work());
    (processor_seconds() - start) / calls as f64
}

fn median(mut numbers: Vec<f64>) -> f64 {
    numbers.sort_by(f64::total_cmp);
    numbers[numbers.len() / 2]
}

// ---- rows

/// The rows that call the library; the queries are of some of the points.
fn call_rows(points: usize) -> Vec<Row> {
    let mut rows = Vec::new();
    for family in FAMILIES {
        rows.extend(LIMITS.map(|limit| query_row(&mesh(family), limit, points)));
    }
    for family in FAMILIES {
        rows.extend([false, true].map(|with_pairs| stress_row(&mesh(family), with_pairs)));
    }
    rows
}

fn process_rows() -> io::Result<Vec<Row>> {
    let probe =
        env::var_os("SOBRIZENTA_PROBE").map_or_else(|| root().join("crates/probe/out/probe"), PathBuf::from);
    if !probe.exists() {
        eprintln!("{} is not there (rt run in crates/probe): its rows are left out", probe.display());
        return Ok(Vec::new());
    }
    FAMILIES.into_iter().map(|family| process_row(&probe, family)).collect()
}

fn root() -> PathBuf {
    Path::new(env!("CARGO_MANIFEST_DIR")).join("..")
}

/// A square of elements whose nodes are moved a little, away from the axis.
fn mesh(family: u8) -> Mesh {
    let mut random = Random::of_kind("bench");
    let grid = Mesh::grid(family, SIDE, SIDE, |[x, y]| {
        let moved = random.pair(-0.15, 0.15);
        [x + moved[0], y + moved[1]]
    });
    moved_right(grid, AXIS)
}

fn query_call(mesh: &Mesh, limit: u64, points: usize) -> QueryCall {
    let mut points = scatter(&mut Random::of_kind("bench points"), points, -1.0, 33.0);
    points.iter_mut().for_each(|point| point[0] += AXIS);
    QueryCall::of(mesh, limit, &points)
}

fn query_row(mesh: &Mesh, limit: u64, points: usize) -> Row {
    let call = query_call(mesh, limit, points);
    let rust = match mesh.family {
        4 => query_in::<Quad4ReferenceElement, 4>(&call),
        _ => query_in::<Quad9ReferenceElement, 9>(&call),
    };
    Row {
        name: format!("query, family {}, limit {limit}", mesh.family),
        unit: "point × element",
        count: call.point_count() * call.element_count(),
        rust,
        ours: Box::new({
            let mut lent = QueryLists::of(&call);
            move || assert_eq!(Archive.query(&call, &mut lent).question, 0)
        }),
    }
}

fn query_in<E: QuadReferenceElement<F>, const F: usize>(call: &QueryCall) -> Box<dyn FnMut()> {
    let (nodes, elements) = (pairs(&call.nodes), rows_of::<F>(&call.elements));
    let (points, limit) = (pairs(&call.points), call.limit as usize);
    Box::new(move || {
        let mesh = QuadMeshView2d { nodes_rz: &nodes, elements: &elements };
        drop(black_box(query_quad_mesh::<E, f64, F>(mesh, &points, limit).expect("the mesh is sound")));
    })
}

/// The stress rows of a query's answers.
fn stress_row(mesh: &Mesh, with_pairs: bool) -> Row {
    let query = query_call(mesh, COMMON_LIMIT.into(), POINTS);
    let mut answers = QueryLists::of(&query);
    Archive.query(&query, &mut answers);
    let mut random = Random::of_kind("bench materials");
    let mut call = Call::of(Operator::Stress, mesh).made_of(&[0; 4].map(|_| any_material(&mut random)));
    call.element_indices = answers.nearest_element_indices;
    call.reference_points = answers.nearest_element_reference_points;
    if with_pairs {
        let angles: Vec<f64> = (0..mesh.elements.len()).map(|_| random.between(-3.0, 3.0)).collect();
        call = call.turned_by(&angles);
    }
    let rust = match mesh.family {
        4 => stress_in::<Quad4ReferenceElement, 4, 8>(&call),
        _ => stress_in::<Quad9ReferenceElement, 9, 18>(&call),
    };
    let with = if with_pairs { "with" } else { "without" };
    Row {
        name: format!("stress, family {}, {with} pairs", mesh.family),
        unit: "point",
        count: call.points(),
        rust,
        ours: Box::new({
            let mut lent = TripletLists::of(&call);
            let pairs = call.pair_list();
            move || assert_eq!(Archive.operator(&call, &pairs, &mut lent).question, 0)
        }),
    }
}

fn stress_in<E: QuadReferenceElement<F>, const F: usize, const DOF: usize>(call: &Call) -> Box<dyn FnMut()> {
    let (nodes, elements) = (pairs(&call.nodes), rows_of::<F>(&call.elements));
    let (indices, points) = (call.element_indices.clone(), pairs(&call.reference_points));
    let (ids, table) = (call.material_ids.clone(), matrices(&call.material_table));
    let angles = match &call.pairs {
        Pairs::OfAngles(angles) => Some(angles.clone()),
        _ => None,
    };
    let formulation = Structural2dFormulation::Axisymmetric;
    Box::new(move || {
        let mesh = QuadMeshView2d { nodes_rz: &nodes, elements: &elements };
        let angles = angles.as_deref();
        let built = quad_mesh_stress_operator::<E, F, DOF>(
            mesh,
            &indices,
            &points,
            &ids,
            &table,
            angles,
            formulation,
        );
        drop(black_box(built.expect("the mesh is sound")));
    })
}

// ---- processes

/// A job with as many nodes, elements and points as there may be, answered by a process of each side: the program
/// `probe`, and this program's command `answer`, which runs the Rust.
fn process_row(probe: &Path, family: u8) -> io::Result<Row> {
    let mut random = Random::of_kind("bench job");
    let job = full_mesh(&mut random, family).job(COMMON_LIMIT, &full_points(&mut random));
    let listing = by_the_rust(|| Ok(document01::answer(&job))).expect("the job is sound");
    Ok(Row {
        name: format!("probe as a process, family {family}, limit {COMMON_LIMIT}"),
        unit: "point × element",
        count: MOST_POINTS * MOST_ELEMENTS,
        ours: process(probe, &[], &job, &listing),
        rust: process(&env::current_exe()?, &["answer"], &job, &listing),
    })
}

/// Runs a program with the job on its standard input, and checks what it prints.
fn process(program: &Path, arguments: &[&'static str], job: &[u8], listing: &[u8]) -> Box<dyn FnMut()> {
    let (program, arguments) = (program.to_owned(), arguments.to_vec());
    let (job, listing) = (job.to_vec(), listing.to_vec());
    Box::new(move || {
        let mut command = Command::new(&program);
        command.args(&arguments).stdin(Stdio::piped()).stdout(Stdio::piped()).stderr(Stdio::null());
        let mut child = command.spawn().expect("the program runs");
        // The pipe is dropped after the write, so that the program sees the end of the job.
        child.stdin.take().expect("it is piped").write_all(&job).expect("the program reads the job");
        let output = child.wait_with_output().expect("the program ends");
        assert!(output.stdout == listing, "{} prints another listing", program.display());
    })
}
