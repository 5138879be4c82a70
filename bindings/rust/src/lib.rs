//! The nearest node, element and face of each point on a mesh of quadrilaterals, and sparse rows for interpolation,
//! strain and stress, in binary64.
//!
//! A thin and safe layer over the C interface of a library whose every answer is proved, to the last bit, against a
//! written definition (`docs/DEFINITION.md`, of which [`EDITION`] is the edition). This layer is not proved: it makes
//! the lists, calls, and hands them out. Names follow cfsem-py's Rust. Every argument has an answer; there is no panic
//! and no precondition.
//!
//! Lists are plain: two coordinates a node or point, one after the other; node numbers, `family` of them an element.
//! Everything is counted from 0. `include/sobrizenta.h` explains parameters, units and limits; [`raw`] has its constants.
//!
//! ```
//! use sobrizenta::{QuadMeshView2d, quad_mesh_interpolation_operator, query_quad_mesh};
//!
//! // A square with its corners counter-clockwise, and a point on its right.
//! let mesh = QuadMeshView2d {
//!     family: 4,
//!     nodes_rz: &[0.0, 0.0, 2.0, 0.0, 2.0, 2.0, 0.0, 2.0],
//!     elements: &[0, 1, 2, 3],
//! };
//! let found = query_quad_mesh(mesh, &[3.0, 1.0], 10)?;
//! assert_eq!(found.nearest_node_indices, [1]);
//! assert_eq!(found.nearest_element_reference_points, [[1.0, 0.0]]);
//! assert_eq!(found.nearest_element_distances, [1.0]);
//!
//! // What the query handed out, as rows that interpolate there.
//! let references = found.nearest_element_reference_points.as_flattened();
//! let operator = quad_mesh_interpolation_operator(mesh, &found.nearest_element_indices, references)?;
//! let triplets: Vec<_> = operator.triplets().collect();
//! assert_eq!(triplets, [(0, 1, 0.5), (0, 2, 0.5)]);
//! # Ok::<(), sobrizenta::Refusal>(())
//! ```
//!
//! A refusal names the question that was answered no, and where:
//!
//! ```
//! use sobrizenta::{QuadMeshView2d, Question, query_quad_mesh};
//!
//! let mesh = QuadMeshView2d { family: 4, nodes_rz: &[0.0, 0.0], elements: &[0, 0, 0, 0, 0, 0, 0, 1] };
//! let refusal = query_quad_mesh(mesh, &[], 0).unwrap_err();
//! assert_eq!((refusal.question, refusal.place), (Question::NodeNumber, 1));
//! assert_eq!(
//!     refusal.to_string(),
//!     "refused by question 8 at element 1: a node number of the element is not below the number of nodes"
//! );
//! ```

#![warn(missing_docs)]

#[cfg(not(all(target_arch = "x86_64", target_os = "linux")))]
compile_error!("the archive is for x86-64 Linux");

pub mod raw;
mod refusal;

pub use refusal::{Question, Refusal};

/// The edition of `docs/DEFINITION.md` that the calls answer by. Each change of what a job or a call answers raises it.
pub const EDITION: u64 = raw::SOBRIZENTA_EDITION;

/// A mesh: the caller's lists, lent.
#[derive(Clone, Copy, Debug)]
pub struct QuadMeshView2d<'a> {
    /// Nodes an element: 4 (bilinear) or 9 (biquadratic).
    pub family: u64,
    /// Two coordinates a node, (r, z) or (x, y), in any unit of length. At most 1,000,000 nodes.
    pub nodes_rz: &'a [f64],
    /// `family` node numbers an element: corners counter-clockwise, then for 9 the midsides and the centre. At most
    /// 1,000,000 elements.
    pub elements: &'a [u32],
}

/// What a query found: one place a point in each list.
#[derive(Clone, Debug, PartialEq)]
pub struct QuadMeshQueryResult {
    /// The number of the nearest node.
    pub nearest_node_indices: Vec<usize>,
    /// Its coordinates.
    pub nearest_node_points: Vec<[f64; 2]>,
    /// Its distance.
    pub nearest_node_distances: Vec<f64>,
    /// The number of the nearest element.
    pub nearest_element_indices: Vec<usize>,
    /// The reference coordinates (ξ, η) of the nearest point in it, each from -1 to 1.
    pub nearest_element_reference_points: Vec<[f64; 2]>,
    /// The coordinates of that point.
    pub nearest_element_points: Vec<[f64; 2]>,
    /// Its distance; 0 where the point is inside.
    pub nearest_element_distances: Vec<f64>,
    /// The number of the nearest face's element.
    pub nearest_face_element_indices: Vec<usize>,
    /// The face, 0 to 3: bottom, right, top, left.
    pub nearest_face_local_faces: Vec<u8>,
    /// The coordinate s of the nearest point on it, from -1 to 1.
    pub nearest_face_reference_coordinates: Vec<f64>,
    /// The coordinates of that point.
    pub nearest_face_points: Vec<[f64; 2]>,
    /// Its distance.
    pub nearest_face_distances: Vec<f64>,
    /// How many elements have fewer distinct node numbers than `family`.
    pub repeated: usize,
    /// How many points have an element distance of 0.
    pub inside: usize,
}

/// A sparse matrix over the nodes, as triplets: its value in row `rows[i]` and column `columns[i]` is `values[i]`.
///
/// They are ordered by point, component, local node and displacement component. A value equal to 0 is left out. Where
/// an element repeats a node, a row and a column can occur together more than once; their values are to be added.
#[derive(Clone, Debug, PartialEq)]
pub struct QuadMeshSparseOperator {
    /// The row of each triplet.
    pub rows: Vec<usize>,
    /// The column of each triplet.
    pub columns: Vec<usize>,
    /// The value of each triplet.
    pub values: Vec<f64>,
    /// How many rows the matrix has.
    pub nrow: usize,
    /// How many columns the matrix has.
    pub ncol: usize,
}

impl QuadMeshSparseOperator {
    /// The triplets (row, column, value) in their order.
    pub fn triplets(&self) -> impl Iterator<Item = (usize, usize, f64)> + '_ {
        let positions = self.rows.iter().zip(&self.columns);
        positions.zip(&self.values).map(|((&row, &column), &value)| (row, column, value))
    }
}

/// What strain and stress mean.
#[derive(Clone, Copy, Debug, PartialEq)]
pub enum Structural2dFormulation {
    /// Components rr, zz, tt, rz.
    Axisymmetric,
    /// Components xx, yy, zz, xy.
    PlaneStrain {
        /// It is neither read nor tested.
        thickness: f64,
    },
}

impl Structural2dFormulation {
    /// The number and the thickness that the C interface takes.
    fn numbers(self) -> (u64, f64) {
        match self {
            Structural2dFormulation::Axisymmetric => (raw::SOBRIZENTA_AXISYMMETRIC, 0.0),
            Structural2dFormulation::PlaneStrain { thickness } => (raw::SOBRIZENTA_PLANE_STRAIN, thickness),
        }
    }
}

/// The points for which lists are made. A call with more points or element numbers is refused before its lists are
/// measured.
fn accepted_points(points: usize) -> usize {
    points.min(raw::SOBRIZENTA_MOST_POINTS)
}

/// The nearest node, element and face of each point.
///
/// `query_points` has two coordinates a point, at most 1,000,000 points. `max_iterations` limits the steps of a search from
/// each of its seeds, 0 to 1,000. Questions 1 to 5 and 8 to 10 may refuse it.
pub fn query_quad_mesh(
    mesh: QuadMeshView2d<'_>,
    query_points: &[f64],
    max_iterations: u64,
) -> Result<QuadMeshQueryResult, Refusal> {
    let count = accepted_points(query_points.len() / 2);
    let mut found = QuadMeshQueryResult {
        nearest_node_indices: vec![0; count],
        nearest_node_points: vec![[0.0; 2]; count],
        nearest_node_distances: vec![0.0; count],
        nearest_element_indices: vec![0; count],
        nearest_element_reference_points: vec![[0.0; 2]; count],
        nearest_element_points: vec![[0.0; 2]; count],
        nearest_element_distances: vec![0.0; count],
        nearest_face_element_indices: vec![0; count],
        nearest_face_local_faces: vec![0; count],
        nearest_face_reference_coordinates: vec![0.0; count],
        nearest_face_points: vec![[0.0; 2]; count],
        nearest_face_distances: vec![0.0; count],
        repeated: 0,
        inside: 0,
    };
    // SAFETY: each list is a pointer and the number of places behind it. The twelve that are written are lists of
    // their own, made above, so none overlaps another or what is read. No pointer of a slice or a list is null.
    #[rustfmt::skip]
    let answer = unsafe {
        raw::sobrizenta_query_quad_mesh(
            mesh.family,
            max_iterations,
            mesh.nodes_rz.as_ptr(), mesh.nodes_rz.len(),
            mesh.elements.as_ptr(), mesh.elements.len(),
            query_points.as_ptr(), query_points.len(),
            found.nearest_node_indices.as_mut_ptr(), count,
            found.nearest_node_points.as_mut_ptr().cast(), 2 * count,
            found.nearest_node_distances.as_mut_ptr(), count,
            found.nearest_element_indices.as_mut_ptr(), count,
            found.nearest_element_reference_points.as_mut_ptr().cast(), 2 * count,
            found.nearest_element_points.as_mut_ptr().cast(), 2 * count,
            found.nearest_element_distances.as_mut_ptr(), count,
            found.nearest_face_element_indices.as_mut_ptr(), count,
            found.nearest_face_local_faces.as_mut_ptr(), count,
            found.nearest_face_reference_coordinates.as_mut_ptr(), count,
            found.nearest_face_points.as_mut_ptr().cast(), 2 * count,
            found.nearest_face_distances.as_mut_ptr(), count,
        )
    };
    Refusal::unless_accepted(answer.question, answer.place)?;
    debug_assert_eq!(answer.points, count);
    Ok(QuadMeshQueryResult { repeated: answer.repeated, inside: answer.inside, ..found })
}

/// Rows that interpolate values of the nodes: one row a point, one column a node.
///
/// `element_indices` has the element of each point and `reference_points` its (ξ, η), such as a query hands out.
/// Questions 1 to 3, 5, 8, 11 and 14 may refuse it.
pub fn quad_mesh_interpolation_operator(
    mesh: QuadMeshView2d<'_>,
    element_indices: &[usize],
    reference_points: &[f64],
) -> Result<QuadMeshSparseOperator, Refusal> {
    let mut lent = Lent::new(mesh.family, element_indices, 1);
    // SAFETY: as for the query; the three lists that are written are those of `lent`.
    #[rustfmt::skip]
    let answer = unsafe {
        raw::sobrizenta_interpolation_operator(
            mesh.family,
            mesh.nodes_rz.as_ptr(), mesh.nodes_rz.len(),
            mesh.elements.as_ptr(), mesh.elements.len(),
            element_indices.as_ptr(), element_indices.len(),
            reference_points.as_ptr(), reference_points.len(),
            lent.rows.as_mut_ptr(), lent.rows.len(),
            lent.columns.as_mut_ptr(), lent.columns.len(),
            lent.values.as_mut_ptr(), lent.values.len(),
        )
    };
    lent.built(answer)
}

/// Rows that make strains of displacements: four rows a point, two columns a node.
///
/// Row 4 × point + component, column 2 × node + displacement component; the shear is the engineering one. Questions 1
/// to 3, 5, 8, 11, 14, 16 and, if axisymmetric, 17 may refuse it.
pub fn quad_mesh_strain_operator(
    mesh: QuadMeshView2d<'_>,
    element_indices: &[usize],
    reference_points: &[f64],
    formulation: Structural2dFormulation,
) -> Result<QuadMeshSparseOperator, Refusal> {
    let mut lent = Lent::new(mesh.family, element_indices, 8);
    let (formulation, thickness) = formulation.numbers();
    // SAFETY: as for interpolation.
    #[rustfmt::skip]
    let answer = unsafe {
        raw::sobrizenta_strain_operator(
            mesh.family,
            mesh.nodes_rz.as_ptr(), mesh.nodes_rz.len(),
            mesh.elements.as_ptr(), mesh.elements.len(),
            element_indices.as_ptr(), element_indices.len(),
            reference_points.as_ptr(), reference_points.len(),
            formulation,
            thickness,
            lent.rows.as_mut_ptr(), lent.rows.len(),
            lent.columns.as_mut_ptr(), lent.columns.len(),
            lent.values.as_mut_ptr(), lent.values.len(),
        )
    };
    lent.built(answer)
}

/// Rows that make stresses of displacements: the material of the point's element times its strain.
///
/// `material_ids` has the material number of each element of the mesh, and `material_table` sixteen numbers a
/// material: the matrix from strain to stress, row by row, at most 1,000,000 materials. If the materials are turned,
/// `material_orientation_pairs` has a pair (c, s) an element of the mesh: cosine and sine of the angle. Rows and
/// columns are those of strain. Questions 1 to 3, 5, 6, 8, 11 to 16 and, if axisymmetric, 17 may refuse it.
pub fn quad_mesh_stress_operator(
    mesh: QuadMeshView2d<'_>,
    element_indices: &[usize],
    reference_points: &[f64],
    material_ids: &[usize],
    material_table: &[f64],
    material_orientation_pairs: Option<&[f64]>,
    formulation: Structural2dFormulation,
) -> Result<QuadMeshSparseOperator, Refusal> {
    let mut lent = Lent::new(mesh.family, element_indices, 8);
    let (formulation, thickness) = formulation.numbers();
    let pairs = material_orientation_pairs.unwrap_or_default();
    // SAFETY: as for interpolation.
    #[rustfmt::skip]
    let answer = unsafe {
        raw::sobrizenta_stress_operator(
            mesh.family,
            mesh.nodes_rz.as_ptr(), mesh.nodes_rz.len(),
            mesh.elements.as_ptr(), mesh.elements.len(),
            element_indices.as_ptr(), element_indices.len(),
            reference_points.as_ptr(), reference_points.len(),
            formulation,
            thickness,
            material_ids.as_ptr(), material_ids.len(),
            material_table.as_ptr(), material_table.len(),
            material_orientation_pairs.is_some().into(),
            pairs.as_ptr(), pairs.len(),
            lent.rows.as_mut_ptr(), lent.rows.len(),
            lent.columns.as_mut_ptr(), lent.columns.len(),
            lent.values.as_mut_ptr(), lent.values.len(),
        )
    };
    lent.built(answer)
}

/// The listing of a job file, both as `docs/DEFINITION.md` has them. A job that is refused has a listing too.
///
/// ```
/// assert_eq!(sobrizenta::answer_job(b""), b"refused 19 0\n");
/// ```
pub fn answer_job(job: &[u8]) -> Vec<u8> {
    let mut listing = vec![0; raw::SOBRIZENTA_LISTING_ROOM];
    // SAFETY: as for the query; the list that is written is `listing`.
    let answer =
        unsafe { raw::sobrizenta_answer_job(job.as_ptr(), job.len(), listing.as_mut_ptr(), listing.len()) };
    debug_assert_eq!((answer.question, answer.place), (0, 0));
    listing.truncate(answer.bytes);
    listing
}

/// Lists lent for triplets, long enough for the worst case.
struct Lent {
    rows: Vec<usize>,
    columns: Vec<usize>,
    values: Vec<f64>,
}

impl Lent {
    /// `per_node` triplets at most for each point and node of its element. A family that is not known is refused
    /// before the lists are measured.
    fn new(family: u64, element_indices: &[usize], per_node: usize) -> Lent {
        let nodes = if family == 9 { 9 } else { 4 };
        let places = accepted_points(element_indices.len()) * per_node * nodes;
        Lent { rows: vec![0; places], columns: vec![0; places], values: vec![0.0; places] }
    }

    fn built(mut self, answer: raw::OperatorAnswer) -> Result<QuadMeshSparseOperator, Refusal> {
        Refusal::unless_accepted(answer.question, answer.place)?;
        for indices in [&mut self.rows, &mut self.columns] {
            indices.truncate(answer.triplets);
            indices.shrink_to_fit();
        }
        self.values.truncate(answer.triplets);
        self.values.shrink_to_fit();
        let Lent { rows, columns, values } = self;
        Ok(QuadMeshSparseOperator { rows, columns, values, nrow: answer.rows, ncol: answer.columns })
    }
}
