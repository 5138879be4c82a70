//! The worked example of `docs/DEFINITION.md`: a point beside a square, the strain rows of the square's centre, and a refusal.

use sobrizenta::{
    QuadMeshQueryResult, QuadMeshSparseOperator, QuadMeshView2d, Refusal, Structural2dFormulation,
    quad_mesh_strain_operator, query_quad_mesh,
};

const NODES: [f64; 8] = [0.0, 0.0, 2.0, 0.0, 2.0, 2.0, 0.0, 2.0];
const PLANE_STRAIN: Structural2dFormulation = Structural2dFormulation::PlaneStrain { thickness: 1.0 };

fn main() -> Result<(), Refusal> {
    let square = QuadMeshView2d { family: 4, nodes_rz: &NODES, elements: &[0, 1, 2, 3] };
    print_points(&query_quad_mesh(square, &[3.0, 1.0], 0)?);
    print_operator("strain", &quad_mesh_strain_operator(square, &[0], &[0.0, 0.0], PLANE_STRAIN)?);

    // The same corners clockwise: the element is inverted.
    let inverted = QuadMeshView2d { elements: &[0, 3, 2, 1], ..square };
    match quad_mesh_strain_operator(inverted, &[0], &[0.0, 0.0], PLANE_STRAIN) {
        Ok(operator) => print_operator("strain", &operator),
        Err(refusal) => println!("refused {} {}", refusal.question.number(), refusal.place),
    }
    Ok(())
}

/// As a listing has them: floats by the hexadecimal digits of their bits.
fn print_points(found: &QuadMeshQueryResult) {
    println!("query {} {} {}", found.nearest_node_indices.len(), found.repeated, found.inside);
    for point in 0..found.nearest_node_indices.len() {
        let [xi, eta] = found.nearest_element_reference_points[point];
        println!(
            "{point} {} {:016x} {} {:016x} {:016x} {:016x} {} {} {:016x} {:016x}",
            found.nearest_node_indices[point],
            found.nearest_node_distances[point].to_bits(),
            found.nearest_element_indices[point],
            xi.to_bits(),
            eta.to_bits(),
            found.nearest_element_distances[point].to_bits(),
            found.nearest_face_element_indices[point],
            found.nearest_face_local_faces[point],
            found.nearest_face_reference_coordinates[point].to_bits(),
            found.nearest_face_distances[point].to_bits(),
        );
    }
}

fn print_operator(name: &str, operator: &QuadMeshSparseOperator) {
    println!("{name} {} {} {}", operator.nrow, operator.ncol, operator.values.len());
    for (row, column, value) in operator.triplets() {
        println!("{row} {column} {value}");
    }
}
