//! The C interface, as `include/sobrizenta.h` declares it; the calls of the crate are over it. The archive is for
//! x86-64 alone, where `usize` is both `size_t` and `uint64_t`.

#![allow(missing_docs)]

pub const SOBRIZENTA_EDITION: u64 = 1;

pub const SOBRIZENTA_MOST_NODES: usize = 1_000_000;
pub const SOBRIZENTA_MOST_ELEMENTS: usize = 1_000_000;
pub const SOBRIZENTA_MOST_ITERATIONS: u64 = 1000;
pub const SOBRIZENTA_MOST_POINTS: usize = 1_000_000;
pub const SOBRIZENTA_MOST_MATERIALS: usize = 1_000_000;

pub const SOBRIZENTA_JOB_MOST_NODES: usize = 512;
pub const SOBRIZENTA_JOB_MOST_ELEMENTS: usize = 256;
pub const SOBRIZENTA_JOB_MOST_POINTS: usize = 256;

pub const SOBRIZENTA_LISTING_ROOM: usize = 30_738;

pub const SOBRIZENTA_AXISYMMETRIC: u64 = 0;
pub const SOBRIZENTA_PLANE_STRAIN: u64 = 1;

/// `sobrizenta_query_answer`
#[repr(C)]
#[derive(Clone, Copy, Debug, PartialEq, Eq)]
pub struct QueryAnswer {
    pub question: u64,
    pub place: usize,
    pub points: usize,
    pub repeated: usize,
    pub inside: usize,
}

/// `sobrizenta_operator_answer`
#[repr(C)]
#[derive(Clone, Copy, Debug, PartialEq, Eq)]
pub struct OperatorAnswer {
    pub question: u64,
    pub place: usize,
    pub rows: usize,
    pub columns: usize,
    pub triplets: usize,
}

/// `sobrizenta_job_answer`
#[repr(C)]
#[derive(Clone, Copy, Debug, PartialEq, Eq)]
pub struct JobAnswer {
    pub question: u64,
    pub place: usize,
    pub bytes: usize,
}

#[rustfmt::skip]
unsafe extern "C" {
    pub fn sobrizenta_query_quad_mesh(
        family: u64,
        max_iterations: u64,
        nodes_rz: *const f64, nodes_rz_len: usize,
        elements: *const u32, elements_len: usize,
        points: *const f64, points_len: usize,
        nearest_node_indices: *mut usize, nearest_node_indices_len: usize,
        nearest_node_points: *mut f64, nearest_node_points_len: usize,
        nearest_node_distances: *mut f64, nearest_node_distances_len: usize,
        nearest_element_indices: *mut usize, nearest_element_indices_len: usize,
        nearest_element_reference_points: *mut f64, nearest_element_reference_points_len: usize,
        nearest_element_points: *mut f64, nearest_element_points_len: usize,
        nearest_element_distances: *mut f64, nearest_element_distances_len: usize,
        nearest_face_element_indices: *mut usize, nearest_face_element_indices_len: usize,
        nearest_face_local_faces: *mut u8, nearest_face_local_faces_len: usize,
        nearest_face_reference_coordinates: *mut f64, nearest_face_reference_coordinates_len: usize,
        nearest_face_points: *mut f64, nearest_face_points_len: usize,
        nearest_face_distances: *mut f64, nearest_face_distances_len: usize,
    ) -> QueryAnswer;

    pub fn sobrizenta_interpolation_operator(
        family: u64,
        nodes_rz: *const f64, nodes_rz_len: usize,
        elements: *const u32, elements_len: usize,
        element_indices: *const usize, element_indices_len: usize,
        reference_points: *const f64, reference_points_len: usize,
        rows: *mut usize, rows_len: usize,
        columns: *mut usize, columns_len: usize,
        values: *mut f64, values_len: usize,
    ) -> OperatorAnswer;

    pub fn sobrizenta_strain_operator(
        family: u64,
        nodes_rz: *const f64, nodes_rz_len: usize,
        elements: *const u32, elements_len: usize,
        element_indices: *const usize, element_indices_len: usize,
        reference_points: *const f64, reference_points_len: usize,
        formulation: u64,
        thickness: f64,
        rows: *mut usize, rows_len: usize,
        columns: *mut usize, columns_len: usize,
        values: *mut f64, values_len: usize,
    ) -> OperatorAnswer;

    pub fn sobrizenta_stress_operator(
        family: u64,
        nodes_rz: *const f64, nodes_rz_len: usize,
        elements: *const u32, elements_len: usize,
        element_indices: *const usize, element_indices_len: usize,
        reference_points: *const f64, reference_points_len: usize,
        formulation: u64,
        thickness: f64,
        material_ids: *const usize, material_ids_len: usize,
        material_table: *const f64, material_table_len: usize,
        pairs_given: u64,
        pairs: *const f64, pairs_len: usize,
        rows: *mut usize, rows_len: usize,
        columns: *mut usize, columns_len: usize,
        values: *mut f64, values_len: usize,
    ) -> OperatorAnswer;

    pub fn sobrizenta_answer_job(
        job: *const u8, job_len: usize,
        listing: *mut u8, listing_len: usize,
    ) -> JobAnswer;
}
