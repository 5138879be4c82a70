/* Sobrizenta: the nearest node, element and face of each point on a mesh of quadrilaterals, and sparse rows for interpolation, strain and stress.
 *
 * Written by hand for target/staticlib/libsobrizenta.a, which `bindings/archive` proves and writes. Link it with the C library; it needs memcpy and memset.
 * Each function below is proved to meet its contract, in crates/exports_c and crates/operator_exports_c. Nothing proves this header: it declares and explains them.
 * docs/DEFINITION.md defines every number that they hand out; SOBRIZENTA_EDITION is its edition. docs/REFUSALS.md has the table of the refusal numbers.
 *
 * THE MACHINE. x86-64 Linux, System V calling convention. double is IEEE 754 binary64. The floating-point control is the one that a C program
 * starts with: rounding to nearest, subnormal numbers kept. A program that is linked with -ffast-math may start with another, and then the bits differ.
 *
 * LISTS. A list is a pointer and a length. The length counts elements of the pointer's type, not bytes. Everything is counted from 0.
 *   The pointer is aligned for its type, and the list stays where it is until the call returns.
 *   Where the length is 0 nothing is read or written through the pointer. It is a reference all the same: give one that is not null.
 *   A list that is written (a pointer without const) overlaps no other list of the call. Lists that are only read may overlap each other.
 *   A list that is read holds a value in each place. A list that is written is lent: what it held before has no part in the answer.
 * A caller that breaks one of these rules is outside the proof. Every other argument has an answer: any number, any length, NaN and infinities too.
 *
 * ANSWERS. A call asks the questions of docs/DEFINITION.md that concern it, in order. The first that is answered no refuses the call:
 *   `question` is its number, `place` what the table of docs/REFUSALS.md says, and the counts are 0. No lent list is changed.
 * Where all are answered yes `question` and `place` are 0, and the counts and the lists have the answer. No refusal has question 0.
 *   Of each lent list the first places are written, as many as are said below. The rest stays as it was.
 * A NaN that is handed out may have any sign and payload. All other values are fixed to the last bit.
 *
 * THREADS. There is no state, no heap and no lock, and nothing but the answer and the lent lists is written. Calls may run at the same time in several threads
 * if no list that one of them writes is used by another; lists that are only read may be shared.
 * The stack: less than 16 KiB, and less than 128 KiB for sobrizenta_answer_job. `make -C bindings/c stack` measures it, by painting a stack and looking
 * for the deepest byte that a call has changed: 3,568 bytes at most in a query or an operator, 67,656 in a job. */
#ifndef SOBRIZENTA_H
#define SOBRIZENTA_H

#include <stddef.h>
#include <stdint.h>

#if SIZE_MAX != UINT64_MAX
#error "sobrizenta.h: the archive is for x86-64, where size_t has 64 bits"
#endif

#ifdef __cplusplus
extern "C" {
#endif

/* The edition of docs/DEFINITION.md that these calls answer by. Each change of what a job or a call answers raises it. */
#define SOBRIZENTA_EDITION 1

/* Limits of the query and the operators: more of one of these is refused, by question 2, 3, 4, 5 or 6. */
#define SOBRIZENTA_MOST_NODES 1000000
#define SOBRIZENTA_MOST_ELEMENTS 1000000
#define SOBRIZENTA_MOST_ITERATIONS 1000
#define SOBRIZENTA_MOST_POINTS 1000000 /* and element numbers */
#define SOBRIZENTA_MOST_MATERIALS 1000000

/* Limits of a job file: more is refused by question 21. The limit of iterations is the query's. */
#define SOBRIZENTA_JOB_MOST_NODES 512
#define SOBRIZENTA_JOB_MOST_ELEMENTS 256
#define SOBRIZENTA_JOB_MOST_POINTS 256

/* The bytes that sobrizenta_answer_job must be lent: room for every listing. The longest has 30,628. */
#define SOBRIZENTA_LISTING_ROOM 30738

/* What strain and stress mean: `formulation` of their operators. */
enum sobrizenta_formulation {
    SOBRIZENTA_AXISYMMETRIC = 0, /* components rr, zz, tt, rz */
    SOBRIZENTA_PLANE_STRAIN = 1  /* components xx, yy, zz, xy; so is any other number */
};

/* The numbers of the questions: `question` of an answer. F is the family. docs/REFUSALS.md has the whole table, with the places and the calls. */
enum sobrizenta_question {
    SOBRIZENTA_ACCEPTED = 0,          /* no refusal */
    SOBRIZENTA_FAMILY = 1,            /* Is the family 4 or 9? */
    SOBRIZENTA_NODE_LIST = 2,         /* Is the node list's length even, at most 1,000,000 nodes? */
    SOBRIZENTA_CONNECTIVITY = 3,      /* Is the connectivity whole elements, F numbers each, at most 1,000,000? */
    SOBRIZENTA_ITERATIONS = 4,        /* Is the limit of steps at most 1,000? */
    SOBRIZENTA_POINT_LIST = 5,        /* Are the point pairs whole, and points and element numbers at most 1,000,000 each? */
    SOBRIZENTA_MATERIAL_TABLE = 6,    /* Is the material table whole sixteens, at most 1,000,000, and, if pairs are given, their list's length even? */
    SOBRIZENTA_ROOM = 7,              /* Does each lent list hold the worst case? */
    SOBRIZENTA_NODE_NUMBER = 8,       /* Is every node number of the element below the number of nodes? Place: the element. */
    SOBRIZENTA_NO_NODE = 9,           /* Is there any node? */
    SOBRIZENTA_NO_ELEMENT = 10,       /* Is there any element? */
    SOBRIZENTA_ELEMENT_COUNT = 11,    /* Are there as many element numbers as reference points? */
    SOBRIZENTA_MATERIAL_COUNT = 12,   /* Are there as many material numbers as elements? */
    SOBRIZENTA_PAIR_COUNT = 13,       /* If pairs are given, are there as many as elements? */
    SOBRIZENTA_ELEMENT_NUMBER = 14,   /* Is the point's element number in the mesh? Place: the point. */
    SOBRIZENTA_MATERIAL_NUMBER = 15,  /* Is the material number of the point's element in the table? Place: the point. */
    SOBRIZENTA_INVERTED = 16,         /* Is the Jacobian determinant at the point not <= 0? NaN passes. Place: the point. */
    SOBRIZENTA_ON_AXIS = 17,          /* Axisymmetric: is the radius at the point not <= 2^-52? NaN passes. Place: the point. */
    /* of a job file. They stand in its listing alone, in the line `refused NUMBER PLACE`. Place: the record. */
    SOBRIZENTA_RECORD_MARK = 18,      /* Is the record's mark whole and known? */
    SOBRIZENTA_RECORD_ORDER = 19,     /* Is QF the first record, and only the first? */
    SOBRIZENTA_RECORD_BODY = 20,      /* Is the record's body whole? */
    SOBRIZENTA_RECORD_LIMIT = 21      /* Are there at most 512 nodes, 256 elements and 256 points? */
};

/* What a query answers. */
typedef struct {
    uint64_t question; /* 0: accepted */
    uint64_t place;
    uint64_t points;   /* the number n of points, all of them answered */
    uint64_t repeated; /* elements with fewer than F distinct node numbers; they are searched like any other */
    uint64_t inside;   /* points whose distance to the nearest element is 0 */
} sobrizenta_query_answer;

/* What an operator answers. */
typedef struct {
    uint64_t question; /* 0: built */
    uint64_t place;
    uint64_t rows;     /* of the sparse matrix: 1 a point for interpolation, 4 for strain and stress */
    uint64_t columns;  /* of the sparse matrix: 1 a node for interpolation, 2 for strain and stress */
    uint64_t triplets; /* how many triplets are written */
} sobrizenta_operator_answer;

/* What the job's call answers. */
typedef struct {
    uint64_t question; /* 0: listed; 7: the output is too short. No other number occurs */
    uint64_t place;    /* 0 */
    uint64_t bytes;    /* the listing's length */
} sobrizenta_job_answer;

/* THE MESH is the first parameters of the query and of each operator.
 *
 *   family     nodes an element, F: 4 (bilinear) or 9 (biquadratic).
 *   nodes_rz   two coordinates a node, (r, z) or (x, y), in a unit of length that is yours. At most 1,000,000 nodes; any values.
 *   elements   F node numbers an element: corners counter-clockwise, then for 9 the midsides from the bottom on and the centre. At most 1,000,000 elements.
 *
 * A reference point (xi, eta) lies in the square [-1, 1] x [-1, 1] of its element; it has no unit. Faces 0 to 3 are bottom, right, top and left. */

/* The nearest node, element and face of each point. Questions 1, 2, 3, 4, 5, 7, 8, 9, 10.
 * Each point is compared with every node and searched for in every element, so the time grows as points x (nodes + elements x steps).
 *
 *   max_iterations  the steps of a search from each of its seeds, at most. 0 to 1,000.
 *   points          two coordinates a point, in the unit of the nodes. At most 1,000,000 points; any values. Their number is n.
 *
 * The lent lists: the places that each must have at least, which are those that an acceptance writes; and what place p, or the pair 2p and 2p + 1, holds of point p.
 *
 *   nearest_node_indices                n    the number of the nearest node
 *   nearest_node_points                2n    its coordinates, as in nodes_rz
 *   nearest_node_distances              n    its distance, in the unit of length
 *   nearest_element_indices             n    the number of the nearest element
 *   nearest_element_reference_points   2n    xi and eta of the nearest point in it
 *   nearest_element_points             2n    the coordinates of that point
 *   nearest_element_distances           n    its distance; 0 where the point is inside
 *   nearest_face_element_indices        n    the number of the nearest face's element
 *   nearest_face_local_faces            n    the face, 0 to 3
 *   nearest_face_reference_coordinates  n    the coordinate s of the nearest point on it, -1 to 1 along the face
 *   nearest_face_points                2n    the coordinates of that point
 *   nearest_face_distances              n    its distance */
sobrizenta_query_answer sobrizenta_query_quad_mesh(
    uint64_t family,
    uint64_t max_iterations,
    const double *nodes_rz, size_t nodes_rz_len,
    const uint32_t *elements, size_t elements_len,
    const double *points, size_t points_len,
    uint64_t *nearest_node_indices, size_t nearest_node_indices_len,
    double *nearest_node_points, size_t nearest_node_points_len,
    double *nearest_node_distances, size_t nearest_node_distances_len,
    uint64_t *nearest_element_indices, size_t nearest_element_indices_len,
    double *nearest_element_reference_points, size_t nearest_element_reference_points_len,
    double *nearest_element_points, size_t nearest_element_points_len,
    double *nearest_element_distances, size_t nearest_element_distances_len,
    uint64_t *nearest_face_element_indices, size_t nearest_face_element_indices_len,
    uint8_t *nearest_face_local_faces, size_t nearest_face_local_faces_len,
    double *nearest_face_reference_coordinates, size_t nearest_face_reference_coordinates_len,
    double *nearest_face_points, size_t nearest_face_points_len,
    double *nearest_face_distances, size_t nearest_face_distances_len);

/* AN OPERATOR is a sparse matrix over the nodes, as triplets: its value in row rows[i] and column columns[i] is values[i].
 *
 *   element_indices   the number of the element of each point. At most 1,000,000. Their number is n.
 *   reference_points  xi and eta of each point in its element, two a point. Any values.
 *   rows, columns, values  lent, for the triplets. Each must have F x n places for interpolation, 8 x F x n for strain and stress; an acceptance writes the
 *                     first `triplets` of them.
 *
 * Both given lists can be those of a query, nearest_element_indices and nearest_element_reference_points.
 * The triplets are ordered by point, component, local node and displacement component. A value equal to 0, of either sign, is left out; NaN is kept.
 * Where an element repeats a node, several triplets can have the same row and column. Their values are to be added. */

/* Interpolation: from a value a node to a value a point. Row: the point. Column: the node. Value: a shape number, without a unit.
 * Questions 1, 2, 3, 5, 7, 8, 11, and for each point 14. */
sobrizenta_operator_answer sobrizenta_interpolation_operator(
    uint64_t family,
    const double *nodes_rz, size_t nodes_rz_len,
    const uint32_t *elements, size_t elements_len,
    const uint64_t *element_indices, size_t element_indices_len,
    const double *reference_points, size_t reference_points_len,
    uint64_t *rows, size_t rows_len,
    uint64_t *columns, size_t columns_len,
    double *values, size_t values_len);

/* Strain: from two displacements a node to four strains a point. Questions 1, 2, 3, 5, 7, 8, 11, and for each point 14, 16, 17.
 *
 *   formulation  SOBRIZENTA_AXISYMMETRIC, with components rr, zz, tt, rz, or SOBRIZENTA_PLANE_STRAIN, with components xx, yy, zz, xy. The shear is the engineering
 *                one. Any number but 0 is plane strain.
 *   thickness    of plane strain, in the unit of length. It is not read and not tested: any value.
 *
 * Row: 4 x point + component. Column: 2 x node + displacement component, 0 for r or x and 1 for z or y. Value: one over a length.
 * Question 17 is asked in the axisymmetric formulation alone. */
sobrizenta_operator_answer sobrizenta_strain_operator(
    uint64_t family,
    const double *nodes_rz, size_t nodes_rz_len,
    const uint32_t *elements, size_t elements_len,
    const uint64_t *element_indices, size_t element_indices_len,
    const double *reference_points, size_t reference_points_len,
    uint64_t formulation,
    double thickness,
    uint64_t *rows, size_t rows_len,
    uint64_t *columns, size_t columns_len,
    double *values, size_t values_len);

/* Stress: the material of the point's element times its strain. Questions 1, 2, 3, 5, 6, 7, 8, 11, 12, 13, and for each point 14, 15, 16, 17.
 * Formulation, thickness, rows and columns are those of strain. Value: a material's number over a length.
 *
 *   material_ids    the material number of each element, one an element of the mesh. Those of elements that no point names may be any.
 *   material_table  sixteen numbers a material, the 4 x 4 matrix from strain to stress row by row, in the order of the components, in a unit of pressure that is
 *                   yours. At most 1,000,000 materials; any values.
 *   pairs_given     whether the materials are turned: 0 is no, and any other number yes.
 *   pairs           if they are given, a pair (c, s) an element of the mesh: the cosine and the sine of the angle from the axis r or x to the material's first axis.
 *                   Any values; a pair equal to (1, 0) leaves the material as it is. If they are not given the list is not read and may have any length. */
sobrizenta_operator_answer sobrizenta_stress_operator(
    uint64_t family,
    const double *nodes_rz, size_t nodes_rz_len,
    const uint32_t *elements, size_t elements_len,
    const uint64_t *element_indices, size_t element_indices_len,
    const double *reference_points, size_t reference_points_len,
    uint64_t formulation,
    double thickness,
    const uint64_t *material_ids, size_t material_ids_len,
    const double *material_table, size_t material_table_len,
    uint64_t pairs_given,
    const double *pairs, size_t pairs_len,
    uint64_t *rows, size_t rows_len,
    uint64_t *columns, size_t columns_len,
    double *values, size_t values_len);

/* From the bytes of a job file to the bytes of its listing, both as docs/DEFINITION.md has them. Question 7.
 *
 *   job      the file's bytes, any number of them.
 *   listing  lent, at least SOBRIZENTA_LISTING_ROOM bytes; an acceptance writes the first `bytes` of them. ASCII, with no 0 at the end.
 *
 * A job that is refused has a listing too, the line `refused NUMBER PLACE`: the call is then accepted. */
sobrizenta_job_answer sobrizenta_answer_job(
    const uint8_t *job, size_t job_len,
    uint8_t *listing, size_t listing_len);

#ifdef __cplusplus
}
#endif

#endif
