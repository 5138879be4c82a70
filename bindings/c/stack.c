/* The stack that each call takes: it runs on a stack of its own, painted before, and the deepest byte that has changed is looked for.
 * Prints the most over some inputs, and fails where a call takes as much as sobrizenta.h says that it stays below. */
#define _XOPEN_SOURCE 700
#include <stdio.h>
#include <string.h>
#include <ucontext.h>

#include "sobrizenta.h"

#define COUNT(list) (sizeof(list) / sizeof((list)[0]))

/* A list as the calls take it: a pointer, and how many places it has. */
#define LIST(list) (list), COUNT(list)

enum { PAINT = 0xa5, STACK = 1 << 20, BOUND = 16 << 10, BOUND_OF_A_JOB = 128 << 10 };

/* What the calls are given. The first four nodes are an element of family 4, all nine one of family 9. */
static uint64_t family, max_iterations, formulation;
static const double NODES[] = {0, 0, 2, 0, 2.1, 2, 0.5, 2.5, 1, 0.1, 2, 1, 1.2, 2.2, 0.2, 1, 1, 1.1};
static const uint32_t ELEMENT[] = {0, 1, 2, 3, 4, 5, 6, 7, 8};
static const double POINTS[] = {1, 1, 3, 1, -0.7, 2.9};
static const uint64_t NUMBERS[] = {0, 0, 0};
static const double REFERENCES[] = {0.3, -0.6, 0.1, 0.2, -0.5, 0.5};
static const uint64_t MATERIAL_NUMBERS[] = {0};
static const double MATERIAL[] = {1, 2, 3, 4, 5, 6, 7, 8, 9, 10, 11, 12, 13, 14, 15, 16};
static const double PAIR[] = {0.6, 0.8};
static uint8_t job[32 << 10];
static size_t job_len;

/* What they are lent. */
static uint64_t node[3], element[3], face_element[3], rows[8 * 9 * 3], columns[8 * 9 * 3];
static double node_point[6], node_distance[3], reference[6], element_point[6], element_distance[3], s[3], face_point[6], face_distance[3];
static double values[8 * 9 * 3];
static uint8_t face[3], listing[SOBRIZENTA_LISTING_ROOM];

static void no_call(void) {}

static void query(void) {
    sobrizenta_query_quad_mesh(
        family, max_iterations, NODES, 2 * family, ELEMENT, family, LIST(POINTS),
        LIST(node), LIST(node_point), LIST(node_distance),
        LIST(element), LIST(reference), LIST(element_point), LIST(element_distance),
        LIST(face_element), LIST(face), LIST(s), LIST(face_point), LIST(face_distance));
}

static void interpolation(void) {
    sobrizenta_interpolation_operator(
        family, NODES, 2 * family, ELEMENT, family, LIST(NUMBERS), LIST(REFERENCES), LIST(rows), LIST(columns), LIST(values));
}

static void strain(void) {
    sobrizenta_strain_operator(
        family, NODES, 2 * family, ELEMENT, family, LIST(NUMBERS), LIST(REFERENCES), formulation, 1.0, LIST(rows), LIST(columns), LIST(values));
}

static void stress(void) {
    sobrizenta_stress_operator(
        family, NODES, 2 * family, ELEMENT, family, LIST(NUMBERS), LIST(REFERENCES), formulation, 1.0,
        LIST(MATERIAL_NUMBERS), LIST(MATERIAL), 1, LIST(PAIR), LIST(rows), LIST(columns), LIST(values));
}

static void answer_job(void) {
    sobrizenta_answer_job(job, job_len, LIST(listing));
}

/* A record at the end of the job. */
static void put(const char *mark, const void *body, size_t len) {
    memcpy(job + job_len, mark, 2);
    memcpy(job + job_len + 2, body, len);
    job_len += 2 + len;
}

/* A job of the family and the limit: the same mesh and points. The machine's numbers are little-endian, as a job's are. */
static void make_job(void) {
    const uint8_t head[3] = {(uint8_t)family, (uint8_t)max_iterations, (uint8_t)(max_iterations >> 8)};
    job_len = 0;
    put("QF", head, sizeof head);
    for (size_t at = 0; at < family; at++)
        put("QN", NODES + 2 * at, 16);
    put("QE", ELEMENT, 4 * family);
    for (size_t at = 0; at < COUNT(POINTS); at += 2)
        put("QP", POINTS + at, 16);
}

/* The bytes of the painted stack down to the deepest that the call has changed. */
static size_t depth_of(void (*call)(void)) {
    static unsigned char stack[STACK];
    static ucontext_t caller, called;
    size_t untouched = 0;

    memset(stack, PAINT, STACK);
    getcontext(&called);
    called.uc_stack.ss_sp = stack;
    called.uc_stack.ss_size = STACK;
    called.uc_link = &caller;
    makecontext(&called, call, 0);
    swapcontext(&caller, &called);
    while (untouched < STACK && stack[untouched] == PAINT)
        untouched++;
    return STACK - untouched;
}

/* Prints the most that a call takes, in both families and formulations and with few and many steps. Whether it stays below the bound. */
static int stays_below(size_t bound, const char *name, void (*call)(void)) {
    const uint64_t families[] = {4, 9, 5}, limits[] = {0, 2, 1000, 1001};
    size_t most = 0;

    for (size_t at = 0; at < 2 * COUNT(families) * COUNT(limits); at++) {
        formulation = at % 2;
        family = families[at / 2 % COUNT(families)];
        max_iterations = limits[at / 2 / COUNT(families)];
        make_job();
        size_t depth = depth_of(call) - depth_of(no_call);
        most = depth > most ? depth : most;
    }
    printf("%-14s %6zu bytes\n", name, most);
    return most < bound;
}

int main(void) {
    int below = stays_below(BOUND, "query", query);
    below &= stays_below(BOUND, "interpolation", interpolation);
    below &= stays_below(BOUND, "strain", strain);
    below &= stays_below(BOUND, "stress", stress);
    below &= stays_below(BOUND_OF_A_JOB, "job", answer_job);
    return !below;
}
