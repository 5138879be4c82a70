//! The proved library over the C interface as `bindings/rust` declares it, lists and lengths of any kind.

use crate::library::{JobAnswer, Library, OperatorAnswer, QueryAnswer, QueryLists, TripletLists};
use compare::operators::{Call, Formulation, Operator};
use compare::queries::QueryCall;
use sobrizenta::raw::{
    sobrizenta_answer_job, sobrizenta_interpolation_operator, sobrizenta_query_quad_mesh,
    sobrizenta_strain_operator, sobrizenta_stress_operator,
};

/// The archive that this program is linked with.
pub struct Archive;

// Every pointer below is that of a slice, beside that slice's length; no two of the lent ones overlap.
impl Library for Archive {
    fn query(&self, call: &QueryCall, lent: &mut QueryLists) -> QueryAnswer {
        unsafe {
            sobrizenta_query_quad_mesh(
                call.family,
                call.limit,
                call.nodes.as_ptr(),
                call.nodes.len(),
                call.elements.as_ptr(),
                call.elements.len(),
                call.points.as_ptr(),
                call.points.len(),
                lent.nearest_node_indices.as_mut_ptr(),
                lent.nearest_node_indices.len(),
                lent.nearest_node_points.as_mut_ptr(),
                lent.nearest_node_points.len(),
                lent.nearest_node_distances.as_mut_ptr(),
                lent.nearest_node_distances.len(),
                lent.nearest_element_indices.as_mut_ptr(),
                lent.nearest_element_indices.len(),
                lent.nearest_element_reference_points.as_mut_ptr(),
                lent.nearest_element_reference_points.len(),
                lent.nearest_element_points.as_mut_ptr(),
                lent.nearest_element_points.len(),
                lent.nearest_element_distances.as_mut_ptr(),
                lent.nearest_element_distances.len(),
                lent.nearest_face_element_indices.as_mut_ptr(),
                lent.nearest_face_element_indices.len(),
                lent.nearest_face_local_faces.as_mut_ptr(),
                lent.nearest_face_local_faces.len(),
                lent.nearest_face_reference_coordinates.as_mut_ptr(),
                lent.nearest_face_reference_coordinates.len(),
                lent.nearest_face_points.as_mut_ptr(),
                lent.nearest_face_points.len(),
                lent.nearest_face_distances.as_mut_ptr(),
                lent.nearest_face_distances.len(),
            )
        }
    }

    fn operator(&self, call: &Call, pairs: &[f64], lent: &mut TripletLists) -> OperatorAnswer {
        let formulation = call.yes_or_no(call.formulation == Formulation::PlaneStrain);
        match call.operator {
            Operator::Interpolation => unsafe {
                sobrizenta_interpolation_operator(
                    call.family,
                    call.nodes.as_ptr(),
                    call.nodes.len(),
                    call.elements.as_ptr(),
                    call.elements.len(),
                    call.element_indices.as_ptr(),
                    call.element_indices.len(),
                    call.reference_points.as_ptr(),
                    call.reference_points.len(),
                    lent.rows.as_mut_ptr(),
                    lent.rows.len(),
                    lent.columns.as_mut_ptr(),
                    lent.columns.len(),
                    lent.values.as_mut_ptr(),
                    lent.values.len(),
                )
            },
            Operator::Strain => unsafe {
                sobrizenta_strain_operator(
                    call.family,
                    call.nodes.as_ptr(),
                    call.nodes.len(),
                    call.elements.as_ptr(),
                    call.elements.len(),
                    call.element_indices.as_ptr(),
                    call.element_indices.len(),
                    call.reference_points.as_ptr(),
                    call.reference_points.len(),
                    formulation,
                    call.thickness,
                    lent.rows.as_mut_ptr(),
                    lent.rows.len(),
                    lent.columns.as_mut_ptr(),
                    lent.columns.len(),
                    lent.values.as_mut_ptr(),
                    lent.values.len(),
                )
            },
            Operator::Stress => unsafe {
                sobrizenta_stress_operator(
                    call.family,
                    call.nodes.as_ptr(),
                    call.nodes.len(),
                    call.elements.as_ptr(),
                    call.elements.len(),
                    call.element_indices.as_ptr(),
                    call.element_indices.len(),
                    call.reference_points.as_ptr(),
                    call.reference_points.len(),
                    formulation,
                    call.thickness,
                    call.material_ids.as_ptr(),
                    call.material_ids.len(),
                    call.material_table.as_ptr(),
                    call.material_table.len(),
                    call.yes_or_no(call.pairs_given()),
                    pairs.as_ptr(),
                    pairs.len(),
                    lent.rows.as_mut_ptr(),
                    lent.rows.len(),
                    lent.columns.as_mut_ptr(),
                    lent.columns.len(),
                    lent.values.as_mut_ptr(),
                    lent.values.len(),
                )
            },
        }
    }

    fn job(&self, job: &[u8], listing: &mut [u8]) -> JobAnswer {
        unsafe { sobrizenta_answer_job(job.as_ptr(), job.len(), listing.as_mut_ptr(), listing.len()) }
    }
}
