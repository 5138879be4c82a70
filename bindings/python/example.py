"""The worked example of docs/DEFINITION.md: a point beside a square, the strain rows of the square's centre, and a refusal."""

import struct

import sobrizenta

NODES = [(0, 0), (2, 0), (2, 2), (0, 2)]
SQUARE = [(0, 1, 2, 3)]
CLOCKWISE = [(0, 3, 2, 1)]


def bits(number):
    """A float by the hexadecimal digits of its bits, as in a listing."""
    return struct.pack(">d", number).hex()


def print_nearest(point):
    found = sobrizenta.query_quad_mesh(4, NODES, SQUARE, [point], max_iterations=0)
    print("query", 1, found.repeated, found.inside)
    xi, eta = found.nearest_element_reference_points[0]
    print(
        0,
        found.nearest_node_indices[0],
        bits(found.nearest_node_distances[0]),
        found.nearest_element_indices[0],
        bits(xi),
        bits(eta),
        bits(found.nearest_element_distances[0]),
        found.nearest_face_element_indices[0],
        found.nearest_face_local_faces[0],
        bits(found.nearest_face_reference_coordinates[0]),
        bits(found.nearest_face_distances[0]),
    )


def print_strain(elements):
    try:
        strain = sobrizenta.quad_mesh_strain_operator(4, NODES, elements, [0], [(0, 0)], sobrizenta.PLANE_STRAIN)
    except sobrizenta.Refusal as refusal:
        print("refused", refusal.question, refusal.place)
        return
    print("strain", strain.nrow, strain.ncol, len(strain.vals))
    for row, column, value in zip(strain.rows, strain.cols, strain.vals):
        print(row, column, value)


print_nearest((3, 1))
print_strain(SQUARE)
print_strain(CLOCKWISE)  # inverted
