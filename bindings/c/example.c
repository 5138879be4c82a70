/* The worked example of docs/DEFINITION.md: a point beside a square, the strain rows of the square's centre, and a refusal. */
#include <inttypes.h>
#include <stdio.h>
#include <string.h>

#include "sobrizenta.h"

#define COUNT(list) (sizeof(list) / sizeof((list)[0]))

/* A list as the calls take it: a pointer, and how many places it has. */
#define LIST(list) (list), COUNT(list)

static const double NODES[] = {0, 0, 2, 0, 2, 2, 0, 2};
static const uint32_t SQUARE[] = {0, 1, 2, 3};
static const uint32_t CLOCKWISE[] = {0, 3, 2, 1};

static uint64_t bits_of(double number) {
    uint64_t bits;
    memcpy(&bits, &number, sizeof bits);
    return bits;
}

/* A float by the hexadecimal digits of its bits, as in a listing. */
static void print_bits(double number) {
    printf(" %016" PRIx64, bits_of(number));
}

static void print_nearest(void) {
    const double point[] = {3, 1};
    uint64_t node[1], element[1], face_element[1];
    uint8_t face[1];
    double node_point[2], node_distance[1];
    double reference[2], element_point[2], element_distance[1];
    double s[1], face_point[2], face_distance[1];

    sobrizenta_query_answer answer = sobrizenta_query_quad_mesh(
        4, 0, LIST(NODES), LIST(SQUARE), LIST(point),
        LIST(node), LIST(node_point), LIST(node_distance),
        LIST(element), LIST(reference), LIST(element_point), LIST(element_distance),
        LIST(face_element), LIST(face), LIST(s), LIST(face_point), LIST(face_distance));
    if (answer.question != SOBRIZENTA_ACCEPTED) {
        printf("refused %" PRIu64 " %" PRIu64 "\n", answer.question, answer.place);
        return;
    }
    printf("query %" PRIu64 " %" PRIu64 " %" PRIu64 "\n", answer.points, answer.repeated, answer.inside);
    printf("0 %" PRIu64, node[0]);
    print_bits(node_distance[0]);
    printf(" %" PRIu64, element[0]);
    print_bits(reference[0]);
    print_bits(reference[1]);
    print_bits(element_distance[0]);
    printf(" %" PRIu64 " %d", face_element[0], face[0]);
    print_bits(s[0]);
    print_bits(face_distance[0]);
    printf("\n");
}

/* The strain rows of the centre of the square, whose corners are given in some order. */
static void print_strain(const uint32_t corners[4]) {
    const uint64_t element[] = {0};
    const double centre[] = {0, 0};
    uint64_t rows[8 * 4], columns[8 * 4];
    double values[8 * 4];

    sobrizenta_operator_answer answer = sobrizenta_strain_operator(
        4, LIST(NODES), corners, 4, LIST(element), LIST(centre), SOBRIZENTA_PLANE_STRAIN, 1.0,
        LIST(rows), LIST(columns), LIST(values));
    if (answer.question != SOBRIZENTA_ACCEPTED) {
        printf("refused %" PRIu64 " %" PRIu64 "\n", answer.question, answer.place);
        return;
    }
    printf("strain %" PRIu64 " %" PRIu64 " %" PRIu64 "\n", answer.rows, answer.columns, answer.triplets);
    for (uint64_t i = 0; i < answer.triplets; i++)
        printf("%" PRIu64 " %" PRIu64 " %g\n", rows[i], columns[i], values[i]);
}

int main(void) {
    print_nearest();
    print_strain(SQUARE);
    print_strain(CLOCKWISE); /* inverted */
    return 0;
}
