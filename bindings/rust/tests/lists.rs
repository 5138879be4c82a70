//! Which list holds what. A listing has no coordinates, so the stored jobs do not tell these lists apart.

use sobrizenta::{QuadMeshView2d, query_quad_mesh};

#[test]
fn every_list_of_a_query_is_where_it_belongs() {
    let mesh = QuadMeshView2d {
        family: 4,
        nodes_rz: &[0.0, 0.0, 2.0, 0.0, 2.0, 2.0, 0.0, 2.0, 4.0, 0.0, 4.0, 2.0],
        elements: &[0, 1, 2, 3, 1, 4, 5, 2],
    };
    let found = query_quad_mesh(mesh, &[3.0, 1.5], 10).expect("a sound mesh");
    assert_eq!(found.nearest_node_indices, [2]);
    assert_eq!(found.nearest_node_points, [[2.0, 2.0]]);
    assert_eq!(found.nearest_node_distances, [1.25f64.sqrt()]);
    assert_eq!(found.nearest_element_indices, [1]);
    assert_eq!(found.nearest_element_reference_points, [[0.0, 0.5]]);
    assert_eq!(found.nearest_element_points, [[3.0, 1.5]]);
    assert_eq!(found.nearest_element_distances, [0.0]);
    assert_eq!(found.nearest_face_element_indices, [1]);
    assert_eq!(found.nearest_face_local_faces, [2]);
    assert_eq!(found.nearest_face_reference_coordinates, [0.0]);
    assert_eq!(found.nearest_face_points, [[3.0, 2.0]]);
    assert_eq!(found.nearest_face_distances, [0.5]);
    assert_eq!((found.repeated, found.inside), (0, 1));
}
