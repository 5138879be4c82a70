//! The published Rust, compiled where it lies; nothing of it is copied here.
//!
//! `build.rs` writes one `mod` line for each of the eight files. The modules around those lines stand where the
//! Rust's own paths (`crate::mesh`, `crate::physics`) look for them, and pass on the names that the eight files
//! take from modules not published to us.

use crate::document01::{Answer, Query};
use crate::operator_turns::material::{Matrix, matrices, oriented};
use crate::operators::{Built, Call, Formulation, Operator, Pairs, Triplet};
use crate::queries::QueryCall;
use mesh::elements::quad2d::mapping;
use mesh::quad2d::{
    Quad4ReferenceElement, Quad9ReferenceElement, QuadMeshQueryResult, QuadMeshSparseOperator,
    QuadMeshView2d, QuadReferenceElement, quad_mesh_interpolation_operator, quad_mesh_strain_operator,
    quad_mesh_stress_operator, query_quad_mesh,
};
use physics::solenoid_stress::Structural2dFormulation;

macro_rules! published {
    ($name:literal) => {
        include!(concat!(env!("OUT_DIR"), "/", $name, ".rs"));
    };
}

/// The Rust is a library, and only a part of it is compared; `math` passes on names of its missing file.
#[allow(dead_code, unused_imports, clippy::needless_range_loop)]
mod eight_files {
    published!("math");

    pub mod mesh {
        pub use super::math::Scalar;
        pub(crate) use super::math::cast;

        published!("quad2d");

        pub mod elements {
            pub mod quad2d {
                published!("mapping");
                published!("quad4");
                published!("quad9");
            }
        }
    }

    pub mod physics {
        pub mod solenoid_stress {
            published!("types");
            published!("axisym");
            published!("convenience");

            pub use axisym::build_b_matrix;
            pub use convenience::rotate_material_in_plane;
            pub(crate) use types::validate_element_material_inputs;
            pub use types::{DOF_PER_NODE, Structural2dFormulation};
        }
    }
}

pub use eight_files::{mesh, physics};

/// What the Rust answers to a query that document 01 accepts.
///
/// The Rust warns of repeated nodes on standard error; document 01 has a count in its place.
pub fn nearest(query: &Query) -> Vec<Answer> {
    let Query { family, limit, nodes, elements, points } = query;
    let result = query_lists((*family).into(), nodes, &elements.concat(), points, (*limit).into())
        .expect("the Rust accepts what document 01 accepts");
    (0..points.len()).map(|point| answer_of(&result, point)).collect()
}

/// The twelve lists of the Rust, or why it refuses a call whose lists are whole.
pub fn query(call: &QueryCall) -> Result<QuadMeshQueryResult<f64>, String> {
    let limit = usize::try_from(call.limit).expect("document 01 refuses more than 1,000 iterations");
    query_lists(call.family, &pairs(&call.nodes), &call.elements, &pairs(&call.points), limit)
}

fn query_lists(
    family: u64,
    nodes: &[[f64; 2]],
    elements: &[u32],
    points: &[[f64; 2]],
    limit: usize,
) -> Result<QuadMeshQueryResult<f64>, String> {
    match family {
        4 => query_in::<Quad4ReferenceElement, 4>(nodes, elements, points, limit),
        9 => query_in::<Quad9ReferenceElement, 9>(nodes, elements, points, limit),
        family => panic!("document 01 refuses family {family}"),
    }
}

fn query_in<E: QuadReferenceElement<F>, const F: usize>(
    nodes: &[[f64; 2]],
    elements: &[u32],
    points: &[[f64; 2]],
    limit: usize,
) -> Result<QuadMeshQueryResult<f64>, String> {
    let elements = rows_of(elements);
    query_quad_mesh::<E, f64, F>(QuadMeshView2d { nodes_rz: nodes, elements: &elements }, points, limit)
}

/// The connectivity in the Rust's form.
pub fn rows_of<const F: usize>(elements: &[u32]) -> Vec<[usize; F]> {
    elements.chunks_exact(F).map(numbers).collect()
}

fn numbers<const F: usize>(row: &[u32]) -> [usize; F] {
    std::array::from_fn(|local| row[local] as usize)
}

fn answer_of(result: &QuadMeshQueryResult<f64>, point: usize) -> Answer {
    Answer {
        node: result.nearest_node_indices[point],
        node_distance: result.nearest_node_distances[point],
        element: result.nearest_element_indices[point],
        reference: result.nearest_element_reference_points[point],
        element_distance: result.nearest_element_distances[point],
        face_element: result.nearest_face_element_indices[point],
        face: result.nearest_face_local_faces[point],
        s: result.nearest_face_reference_coordinates[point],
        face_distance: result.nearest_face_distances[point],
    }
}

// ---- the operators

/// What the Rust builds for a call, or why it refuses.
pub fn operator(call: &Call) -> Result<Built, String> {
    let built = match call.family {
        4 => operator_in::<Quad4ReferenceElement, 4, 8>(call),
        9 => operator_in::<Quad9ReferenceElement, 9, 18>(call),
        family => panic!("document 01 refuses family {family}"),
    }?;
    let positions = built.rows.into_iter().zip(built.cols);
    let triplet = |((row, column), value)| Triplet { row, column, value };
    let triplets = positions.zip(built.vals).map(triplet).collect();
    Ok(Built { rows: built.nrow, columns: built.ncol, triplets })
}

fn operator_in<E: QuadReferenceElement<F>, const F: usize, const DOF: usize>(
    call: &Call,
) -> Result<QuadMeshSparseOperator<f64>, String> {
    let nodes = pairs(&call.nodes);
    let elements = rows_of(&call.elements);
    let mesh = QuadMeshView2d { nodes_rz: &nodes, elements: &elements };
    let indices = &call.element_indices;
    let points = pairs(&call.reference_points);
    let formulation = formulation(call);
    match call.operator {
        Operator::Interpolation => quad_mesh_interpolation_operator::<E, f64, F>(mesh, indices, &points),
        Operator::Strain => quad_mesh_strain_operator::<E, F, DOF>(mesh, indices, &points, formulation),
        Operator::Stress => {
            let Materials { ids, table, angles } = materials(call);
            let angles = angles.as_deref();
            quad_mesh_stress_operator::<E, F, DOF>(mesh, indices, &points, &ids, &table, angles, formulation)
        }
    }
}

fn formulation(call: &Call) -> Structural2dFormulation {
    match call.formulation {
        Formulation::Axisymmetric => Structural2dFormulation::Axisymmetric,
        Formulation::PlaneStrain => Structural2dFormulation::PlaneStrain { thickness: call.thickness },
    }
}

pub fn pairs(list: &[f64]) -> Vec<[f64; 2]> {
    list.chunks_exact(2).map(|pair| [pair[0], pair[1]]).collect()
}

/// What the Rust's stress takes of the materials.
struct Materials {
    ids: Vec<usize>,
    table: Vec<Matrix>,
    angles: Option<Vec<f64>>,
}

/// The Rust takes angles. Pairs that no angle has are turned by our own reading of `rotate_material_in_plane`,
/// one material an element, and the Rust is given the turned materials and no angles.
fn materials(call: &Call) -> Materials {
    let ids = call.material_ids.clone();
    let table = matrices(&call.material_table);
    match &call.pairs {
        Pairs::NotGiven(_) => Materials { ids, table, angles: None },
        Pairs::OfAngles(angles) => Materials { ids, table, angles: Some(angles.clone()) },
        Pairs::Any(numbers) => {
            let material = |&id: &usize| table.get(id).copied().unwrap_or_default();
            let turned = ids.iter().zip(pairs(numbers)).map(|(id, pair)| oriented(&material(id), pair));
            Materials { ids: (0..ids.len()).collect(), table: turned.collect(), angles: None }
        }
    }
}

/// What questions 16 and 17 ask about at a point: the determinant and the radius, as the Rust computes them.
pub fn determinant_and_radius(call: &Call, point: usize) -> (f64, f64) {
    match call.family {
        4 => determinant_and_radius_in::<Quad4ReferenceElement, 4>(call, point),
        9 => determinant_and_radius_in::<Quad9ReferenceElement, 9>(call, point),
        family => panic!("document 01 refuses family {family}"),
    }
}

fn determinant_and_radius_in<E: QuadReferenceElement<F>, const F: usize>(
    call: &Call,
    point: usize,
) -> (f64, f64) {
    let pair_at = |list: &[f64], at: usize| [list[2 * at], list[2 * at + 1]];
    let row: [usize; F] = numbers(&call.elements[F * call.element_indices[point]..]);
    let coordinates = row.map(|node| pair_at(&call.nodes, node));
    let [xi, eta] = pair_at(&call.reference_points, point);
    let jacobian = mapping::jacobian(&coordinates, &E::grad_ref(xi, eta));
    let [radius, _] = mapping::map_point(&coordinates, &E::shape(xi, eta));
    (mapping::det_j(&jacobian), radius)
}

#[cfg(test)]
mod tests {
    use super::mesh::{Scalar, cast};

    fn epsilon<F: Scalar>() -> F {
        F::epsilon()
    }

    fn max<F: Scalar>(a: F, b: F) -> F {
        a.max(b)
    }

    fn min<F: Scalar>(a: F, b: F) -> F {
        a.min(b)
    }

    fn root<F: Scalar>(x: F) -> F {
        x.sqrt()
    }

    #[test]
    fn epsilon_is_two_to_minus_52() {
        assert_eq!(epsilon::<f64>().to_bits(), (1023 - 52) << 52);
    }

    #[test]
    fn cast_is_the_identity_on_the_literals_used() {
        for literal in [0.25, 0.5, 2.0, 64.0] {
            assert_eq!(cast::<f64>(literal).to_bits(), literal.to_bits());
        }
    }

    #[test]
    fn max_and_min_return_the_other_operand_of_a_nan() {
        for number in [-1.0, 0.0, 1.0, f64::INFINITY, f64::NEG_INFINITY] {
            for choose in [max::<f64>, min::<f64>] {
                assert_eq!(choose(f64::NAN, number), number);
                assert_eq!(choose(number, f64::NAN), number);
            }
        }
        assert!(max(f64::NAN, f64::NAN).is_nan() && min(f64::NAN, f64::NAN).is_nan());
    }

    /// A root r of a whole number m is the nearest when 2r - 1 and 2r + 1 square to less and to more than 4m.
    #[test]
    fn roots_are_the_nearest_ones_by_integer_squares() {
        let mut significand: u64 = 1 << 52;
        while significand < 1 << 53 {
            for shift in [52, 53] {
                let square = u128::from(significand) << shift;
                let nearest = root(square as f64) as u128;
                let [less, more] = [2 * nearest - 1, 2 * nearest + 1].map(|end| end * end);
                assert!(less < 4 * square && 4 * square < more);
            }
            significand += 0x0000_0123_4567_89ab;
        }
        assert_eq!(root(f64::from_bits(1)).to_bits(), (1023 - 537) << 52);
        assert_eq!(root(-0.0f64).to_bits(), (-0.0f64).to_bits());
        assert!(root(-1.0f64).is_nan() && root(f64::NAN).is_nan());
        assert_eq!(root(f64::INFINITY), f64::INFINITY);
    }
}
