/* Koshirga: the calls of the archive libc_api.a, which `tools/archive` makes. A whole program
 * that uses them is examples/balloon.c, examples/exporter.c has a mesh from outside, refused and
 * then mended, examples/buffers.c packs two balloons for the graphics card, examples/spread.c
 * spreads a correction over the points about one, and examples/shadow.c finds the islands of a
 * balloon with a shadowed rear; docs/DATASHEET.md says what every call does, step by step. Nine
 * calls at the end take mesh and grid as structs; they are compiled with the caller's code and call
 * the archive's.
 *
 * Every function returns for every argument and keeps no state. All floating-point data is
 * binary64, but for what koshirga_to_f32 returns and for packed positions, which are binary32. Each
 * operation is rounded once, by the clauses of IEEE 754-2019 that the function's comment names; a
 * product and a sum are fused only where a comment says so. Arithmetic on a NaN gives a NaN (6.2);
 * sign and payload of a NaN result are free. The caller's floating-point environment is the default
 * one: rounding to nearest, subnormals not flushed to zero.
 *
 * Slices. A slice is a pointer and the number of its elements. The pointer of an empty slice is not
 * null and is not read. Slices that are written overlap no other. The caller lends all memory. A
 * pointer to a mark is not null: its bool is 0 or 1 when a call is made, and no slice overlaps it.
 *
 * Data.
 *   Mesh: 1 to 65536 vertices with ids from 0. positions holds x, y and z of each in turn. starts
 *     has a place a vertex and one more, begins at 0, never falls and ends at the entry count: the
 *     neighbours of vertex v are entries[starts[v]] up to, and without, entries[starts[v + 1]], at
 *     most 32 of them.
 *   Mark: lists_ascend, a bool that belongs to a mesh as its slices do. True says that every
 *     neighbour list ascends: no entry is below the one before it, so that repeats stand side by
 *     side. koshirga_lattice and koshirga_renumber set it where they are accepted, and
 *     koshirga_mark_ascending sets or clears it by what it reads; a refused call leaves it as it
 *     was. No other call is lent it, and no other outcome of any call depends on it. A mesh from
 *     outside is unmarked, with false, until koshirga_mark_ascending. Nobody checks a caller who
 *     writes the mark himself, or who changes lists behind a true one.
 *   Lattice: the mesh that a frequency n from 1 to 80 gives, each of the icosahedron's twenty faces
 *     (its master faces) cut into n^2 triangles and put on the unit sphere.
 *   Id table: the ids of a lattice's points face by face, (n + 1)(n + 2)/2 slots each. The point
 *     with the weights a, b and n - a - b on the face's corners has slot a(n + 1) - a(a - 1)/2 + b.
 *   Grid: the six faces of a cube, each cut into g by g cells; g is its side. It keeps the pair it
 *     was built with: factor, for the side, and margin, for the cells around a vertex. Cell c has
 *     the ids cell_ids[cell_starts[c]] up to cell_ids[cell_starts[c + 1]]. The triangles at vertex
 *     v are the triples from number triangle_starts[v] up to triangle_starts[v + 1]; triple t is
 *     the ascending ids triples[3t], triples[3t + 1] and triples[3t + 2]. Positions are lent beside
 *     it.
 *   Words and floats: two slices in which grids are packed one behind another, buffers for the
 *     graphics card. A grid's level record says where it stands in them: vertex count, side, and
 *     five offsets, each in elements of its own slice. How many places of either are taken is the
 *     caller's to keep.
 *
 * Target. x86-64 Linux: an ELF object, the System V calling convention, instructions of the first
 * x86-64 processors (SSE2) alone. The code is position independent: it links with -pie, with
 * -no-pie and into a shared library. To link it needs memset, which every C library has, and
 * nothing else.
 *
 * Stack. koshirga_renumber takes 64 KiB and under 1 KiB more, also where it refuses. Every other
 * function takes under 1 KiB. This was read from the archive's code and isn't proved.
 */
#ifndef KOSHIRGA_H
#define KOSHIRGA_H

#include <stdbool.h>
#include <stddef.h>
#include <stdint.h>

#define KOSHIRGA_VERSION_MAJOR 0
#define KOSHIRGA_VERSION_MINOR 10
#define KOSHIRGA_VERSION_PATCH 0

#ifdef __cplusplus
extern "C" {
#endif

/* ---- refusals */

/* One of these is the result of a call that may be refused, or is in the first field of its answer,
 * `refusal`. A call is refused by the first of its rows that holds; its comment names them by
 * number, in their order, as docs/DATASHEET.md lays it down for all calls in one table. All other
 * fields are then 0, but for the index of KOSHIRGA_STARTS_FALL, and neither a slice nor a mark is
 * changed, but for the two slices of KOSHIRGA_UNREACHED and the scratch of KOSHIRGA_NO_PATH. Later
 * versions may add rows: take every number but KOSHIRGA_ACCEPTED for a refusal, also one that isn't
 * here.
 *
 * `index`, a field of some answers, belongs to KOSHIRGA_STARTS_FALL alone: the place in the start
 * list, counted from 0, of the first start that is below the one before it, so at least 1. The
 * starts 0, 5, 3, 2 have 2. With every other number, KOSHIRGA_ACCEPTED among them, it is 0.
 *
 * The order for a mesh is 2, 3, 17, 18, 3, 4. Row 3 stands there twice: a wrong length comes before
 * 17 and 18, which read the whole list, and a neighbour list over 32 behind them, as it has a
 * length only where no start falls. A query begins with 2, 19, 20, 2: row 2 for count and
 * positions, then the grid's pair, and row 2 once more for the side. It tests both start lists for
 * their lengths (3), and then only the part that it reads: whether it falls (18), whether it runs
 * past its ids or triples (3). Its index is 1 more than the cell or the vertex of that part,
 * whatever falls before. No query returns 17. A packing begins as a query does, with 2, 19, 20, 2
 * and 3 for the lengths, and then reads all lists whole, with no limit of 32: 17, 18, 4. Each of
 * these tests the cells first, so cell_starts before triangle_starts and cell_ids before triples;
 * which list falls, 18 doesn't say. */
enum koshirga_refusal {
    KOSHIRGA_ACCEPTED = 0,
    /* The frequency is below 1 or above 80. */
    KOSHIRGA_FREQUENCY = 1,
    /* No vertex, over 65536, positions not three a vertex; or, in a query or a packing, a side that
     * isn't that of count and factor. */
    KOSHIRGA_COUNT = 2,
    /* A start list has a wrong length; or a neighbour list is over 32; or, in a query, the part
     * that is read runs past cell_ids or triples. */
    KOSHIRGA_STARTS = 3,
    /* An id is not below the vertex count. */
    KOSHIRGA_ID = 4,
    /* A position isn't finite, or its length is below 2^-20 or above 2^20 (about 1e-6 and 1e6). */
    KOSHIRGA_POSITION = 5,
    /* The permutation has a wrong length, or isn't one of the ids. */
    KOSHIRGA_PERMUTATION = 6,
    /* entries_per_vertex is neither 1 nor the vertex count. */
    KOSHIRGA_ENTRIES_PER_VERTEX = 7,
    /* A slice that is filled, scratch or the id table is too short. In a packing: fewer places are
     * behind the taken ones than are written, or an offset is above 4294967295. */
    KOSHIRGA_ROOM = 8,
    /* The direction isn't finite, or its length is below 2^-20 or above 2^20. */
    KOSHIRGA_DIRECTION = 9,
    /* The outside flags sum to over 3: for a long direction close to an icosahedron vertex. */
    KOSHIRGA_FLAGS = 10,
    /* No vertex is placed in the direction's cell: the mesh has gaps. */
    KOSHIRGA_EMPTY_CELL = 11,
    /* No triangle at the nearest vertex has a least weight above minus infinity. */
    KOSHIRGA_NO_TRIANGLE = 12,
    /* The walk doesn't reach a vertex: the mesh is in several parts, which koshirga_walk_islands
     * numbers one behind another. */
    KOSHIRGA_UNREACHED = 13,
    /* A given vertex is not below the vertex count. */
    KOSHIRGA_VERTEX = 14,
    /* No path leads to the target. */
    KOSHIRGA_NO_PATH = 15,
    /* The starts don't span the entries: the first isn't 0, or the last isn't entries_length. In a
     * packing likewise cell_starts with cell_ids_length, and triangle_starts, three times whose
     * last has to be triples_length. */
    KOSHIRGA_STARTS_SPAN = 17,
    /* A start is below the one before it: starts[index] < starts[index - 1], so that the neighbours
     * of vertex index - 1 would end before they begin. In a query or a packing likewise
     * cell_starts, or triangle_starts. */
    KOSHIRGA_STARTS_FALL = 18,
    /* A grid's factor isn't finite, or is below 0.5 or above 4.0. */
    KOSHIRGA_FACTOR = 19,
    /* A grid's margin is above 3. */
    KOSHIRGA_MARGIN = 20
};

/* ---- binary64 */

/* How the bit pattern x stands to y in the total order (IEEE 754-2019, 5.10): -1 below, 0 the same,
 * 1 above. All 2^64 patterns are ordered, NaNs by sign, kind and payload: 5.10 d) 3) i) and ii);
 * the order of payloads, which that edition need not fix, is ours: the lesser below the greater for
 * +NaN and the reverse for -NaN, as the 2008 edition and Rust's total_cmp have it. */
int32_t koshirga_total_cmp(uint64_t x, uint64_t y);

/* The place of x in the total order (IEEE 754-2019, 5.10) of all 2^64 bit patterns, counted from 0.
 * Every NaN has one place, that of the pattern 0x7ff8000000000000. */
uint64_t koshirga_rank(double x);

/* The lesser of two numbers: minimumNumber (IEEE 754-2019, 9.6). x where x < y, and y where y < x;
 * of zeros of different sign -0, whichever comes first, as -0 compares less than +0 here; x where
 * both are the same. Where one is a NaN, quiet or signaling, the other is the result, and where
 * both are it is a NaN. That this one is quiet, as the clause asks, was seen in runs and isn't
 * proved. Commutative: x and y in either order have the same bits, but for those of a NaN. */
double koshirga_minimum_number(double x, double y);

/* The greatest whole number not above x: roundToIntegralTowardNegative (IEEE 754-2019, 5.9). An
 * infinity stays (5.9), and a zero result has the sign of x (6.3). */
double koshirga_floor(double x);

/* The least whole number not below x: roundToIntegralTowardPositive (IEEE 754-2019, 5.9). An
 * infinity stays (5.9), and a zero result has the sign of x (6.3). */
double koshirga_ceil(double x);

/* What became of a converted value; koshirga_to_i64 says when each holds. */
enum koshirga_conversion {
    KOSHIRGA_KEPT = 0,
    KOSHIRGA_CUT = 1,
    KOSHIRGA_HELD = 2,
    KOSHIRGA_NOT_A_NUMBER = 3
};

typedef struct koshirga_conversion_answer {
    int64_t whole;
    uint32_t how; /* a number of koshirga_conversion */
} koshirga_conversion_answer;

/* convertToIntegerTowardZero (IEEE 754-2019, 5.8), and what became of x. No x is refused; for each
 * exactly one holds:
 *   KOSHIRGA_KEPT          x is a whole number from -2^63 to 2^63 - 1, and whole is x. -2^63 itself
 *                          is kept, and so is -0, as 0.
 *   KOSHIRGA_CUT           x is between -2^63 and 2^63 and has a fraction, which is cut off toward
 *                          zero: -1.5 gives -1, and 0.5 and -0.5 give 0.
 *   KOSHIRGA_HELD          x is below -2^63, or is 2^63 or above, the infinities among them: whole
 *                          is the nearer end of the range, -2^63 or 2^63 - 1.
 *   KOSHIRGA_NOT_A_NUMBER  x is a NaN, and whole is 0.
 * The clause leaves whole open in the last two. A number at an end doesn't say that it was held:
 * -2^63 comes of -2^63, which is kept, and of -2^64, which is held. */
koshirga_conversion_answer koshirga_to_i64(double x);

/* x rounded to binary32, to nearest, ties to even: convertFormat (IEEE 754-2019, 5.4.2 and 4.3.1).
 * From 2^128 - 2^103 on, in magnitude, the result is an infinity (4.3.1), an infinity stays (6.1),
 * and a zero result has the sign of x (6.3). */
float koshirga_to_f32(double x);

/* a*b + c, exact and then rounded once, to nearest, ties to even: fusedMultiplyAdd (IEEE 754-2019,
 * 5.4.1 and 4.3.1). An exact zero sum of opposite signs is +0, and a result that is rounded to zero
 * keeps its sign (6.3). Zero times infinity, and opposite infinities, give a NaN (7.2). */
double koshirga_mul_add(double a, double b, double c);

/* The square root, exact and then rounded to nearest, ties to even: squareRoot (IEEE 754-2019,
 * 5.4.1 and 4.3.1). The root of -0 is -0 (6.3), that of a number below zero a NaN (7.2). */
double koshirga_sqrt(double x);

/* The same bits, the digits of the root taken one by one, as a laboratory may want to see them run.
 * koshirga_sqrt takes them where the processor's root is not the rounded one, and is faster where
 * it is. */
double koshirga_sqrt_by_digits(double x);

/* ---- vectors */

typedef struct koshirga_vector3 {
    double x, y, z;
} koshirga_vector3;

/* a.x*b.x + a.y*b.y + a.z*b.z, summed from the left: multiplication and addition, each rounded to
 * nearest, ties to even (IEEE 754-2019, 5.4.1 and 4.3.1). */
double koshirga_dot(koshirga_vector3 a, koshirga_vector3 b);

/* (a.y*b.z - a.z*b.y, a.z*b.x - a.x*b.z, a.x*b.y - a.y*b.x): multiplication and subtraction, each
 * rounded to nearest, ties to even (IEEE 754-2019, 5.4.1 and 4.3.1). */
koshirga_vector3 koshirga_cross(koshirga_vector3 a, koshirga_vector3 b);

/* a - b by component: subtraction (IEEE 754-2019, 5.4.1 and 4.3.1). */
koshirga_vector3 koshirga_minus(koshirga_vector3 a, koshirga_vector3 b);

/* a + b by component: addition (IEEE 754-2019, 5.4.1 and 4.3.1). */
koshirga_vector3 koshirga_plus(koshirga_vector3 a, koshirga_vector3 b);

/* Each component times factor: multiplication (IEEE 754-2019, 5.4.1 and 4.3.1). */
koshirga_vector3 koshirga_scale(koshirga_vector3 v, double factor);

/* Each component divided by divisor: division (IEEE 754-2019, 5.4.1 and 4.3.1). */
koshirga_vector3 koshirga_divide(koshirga_vector3 v, double divisor);

/* The squared length: koshirga_dot(v, v) (IEEE 754-2019, 5.4.1 and 4.3.1). */
double koshirga_norm_squared(koshirga_vector3 v);

/* The length: koshirga_sqrt(koshirga_norm_squared(v)) (IEEE 754-2019, 5.4.1 and 4.3.1). */
double koshirga_norm(koshirga_vector3 v);

/* Each component divided by the length: koshirga_divide(v, koshirga_norm(v)) (IEEE 754-2019, 5.4.1
 * and 4.3.1). So the zero vector gives NaNs. */
koshirga_vector3 koshirga_normalize(koshirga_vector3 v);

/* KOSHIRGA_ACCEPTED where v is accepted as a direction; KOSHIRGA_DIRECTION where a component isn't
 * finite (IEEE 754-2019, 5.7.2, isFinite) or koshirga_norm_squared(v) is outside 2^-40..2^40
 * (5.11), ends accepted. Positions of a mesh are tested likewise. Where v is accepted,
 * koshirga_normalize(v) is too. */
uint32_t koshirga_direction(koshirga_vector3 v);

/* ---- weights */

typedef struct koshirga_weights {
    double u, v, w;
} koshirga_weights;

/* The weights of a, b and c at the point of the triangle that is closest to p, after Christer
 * Ericson, Real-Time Collision Detection, Morgan Kaufmann 2005, pp. 141-142
 * (ClosestPtPointTriangle). In va, vb and vc the first product is fused with the rounded second
 * one; every other operation is rounded by itself (IEEE 754-2019, 5.4.1 and 4.3.1). */
koshirga_weights koshirga_projected_barycentric(koshirga_vector3 p, koshirga_vector3 a,
                                                koshirga_vector3 b, koshirga_vector3 c);

/* The least weight: koshirga_minimum_number of u and v, and of that and w (IEEE 754-2019, 9.6). The
 * three in any order have the same least: NaN is skipped, and -0 lies below +0. NaN where all three
 * are. */
double koshirga_least_weight(koshirga_weights weights);

/* ---- walks, steps, renumbering and mark */

typedef struct koshirga_walk_answer {
    uint32_t refusal, entries_read;
    size_t index; /* that of row 18 */
} koshirga_walk_answer;

typedef struct koshirga_islands_answer {
    uint32_t refusal, islands, entries_read;
    size_t index; /* that of row 18 */
} koshirga_islands_answer;

typedef struct koshirga_steps_answer {
    uint32_t refusal, steps, entries_read;
    size_t index; /* that of row 18 */
} koshirga_steps_answer;

typedef struct koshirga_within_answer {
    uint32_t refusal, vertices;
    size_t index; /* that of row 18 */
} koshirga_within_answer;

typedef struct koshirga_verdict_answer {
    uint32_t refusal;
    size_t index; /* that of row 18 */
} koshirga_verdict_answer;

/* Breadth first from vertex 0, neighbours in the order of their list. order gets the new id at each
 * old one, queue the old ids in that order; each needs a place a vertex, and surplus is untouched.
 * Rows 2, 3, 17, 18, 3, 4, 8, 13; 13 leaves reached ids numbered, 4294967295 for others and the
 * reached ids in queue, the other rows change nothing. */
koshirga_walk_answer koshirga_walk(const double *positions, size_t positions_length,
                                   const uint32_t *starts, size_t starts_length,
                                   const uint16_t *entries, size_t entries_length,
                                   uint32_t *order, size_t order_length,
                                   uint32_t *queue, size_t queue_length);

/* The walk over a mesh in several islands: breadth first from the lowest id without a number, the
 * root, and then again until all have one. What one walk numbers is an island, numbered behind the
 * last: a connected component where neighbours are mutual. Where they aren't, an island is what its
 * root reaches among the ids without a number, and an entry that names an id of an earlier island
 * is read and lets nothing enter. order gets the new id at each old one, and queue the old id at
 * each new one. island_starts gets the first new id of each island, so 0 for the first. The last
 * island ends at the vertex count, which isn't written; places behind the islands are untouched,
 * also below the count. islands says how many there are, at least one. Each list is read once, so
 * that entries_read is the entry count.
 *
 * Where vertex 0 reaches all, order, queue and entries_read are those of koshirga_walk, and there
 * is one island; where there are more, koshirga_walk is refused by row 13, which isn't met here.
 * Each of the three slices needs a place a vertex, and surplus is untouched. Positions are only
 * counted: there is no row 5. Rows 2, 3, 17, 18, 3, 4, 8 change nothing. */
koshirga_islands_answer koshirga_walk_islands(const double *positions, size_t positions_length,
                                              const uint32_t *starts, size_t starts_length,
                                              const uint16_t *entries, size_t entries_length,
                                              uint32_t *order, size_t order_length,
                                              uint32_t *queue, size_t queue_length,
                                              uint32_t *island_starts,
                                              size_t island_starts_length);

/* How many steps lead from one vertex to another, at least. A step goes from a vertex to an id of
 * its neighbour list. Lists need not be mutual: the way back may take another number of steps, or
 * there may be none. A walk breadth first from the first vertex, neighbours in the order of their
 * list, stops at the first entry that is the target; entries_read counts the entries up to and with
 * that one, repeats and a vertex in its own list too, and is at most the count of the walk to its
 * end. Where both are one vertex, steps and entries_read are 0, and row 15 is not met.
 *
 * A vertex may be any number: who passes -1 passes 4294967295, which is row 14. order and queue are
 * scratch, each at least as long as the longest of positions, starts and entries. Rows 2, 3, 17,
 * 18, 3, 4, 14, 8, 15; what 15 leaves in scratch is free, the other rows change nothing. */
koshirga_steps_answer koshirga_steps_between(const double *positions, size_t positions_length,
                                             const uint32_t *starts, size_t starts_length,
                                             const uint16_t *entries, size_t entries_length,
                                             uint32_t from, uint32_t to,
                                             uint32_t *order, size_t order_length,
                                             uint32_t *queue, size_t queue_length);

/* Fills list with the vertices at most so many steps away from a vertex, itself the first, in the
 * order of a walk that begins there. vertices says how many they are, and places behind them are
 * untouched. steps may be any number: 0 gives the vertex alone, and one from the vertex count on
 * gives all that the walk reaches. order is scratch as above. list needs a place a vertex, also
 * where fewer are filled. Rows 2, 3, 17, 18, 3, 4, 14, 8 change nothing. */
koshirga_within_answer koshirga_vertices_within(const double *positions, size_t positions_length,
                                                const uint32_t *starts, size_t starts_length,
                                                const uint16_t *entries, size_t entries_length,
                                                uint32_t vertex, size_t steps,
                                                uint32_t *order, size_t order_length,
                                                uint32_t *list, size_t list_length);

/* Renumbers mesh and data by a permutation that holds the new id at each old one, such as a walk's
 * order, and sets the mark: a vertex's neighbours get their new ids, and each list is then sorted,
 * repeats side by side; the order that it had is lost. So a renumbering by the identity sorts the
 * lists and moves nothing else, and walks and triples of a renumbered mesh follow the sorted lists.
 * values has entries_per_vertex entries a vertex, 1 or the vertex count; a tail shorter than a slab
 * is untouched. The last five slices are scratch, each at least as long as the longest slice before
 * them. An id table keeps the lattice's own ids. Takes over 64 KiB of stack. Rows 2, 3, 17, 18, 3,
 * 4, 6, 7, 8 change nothing, the mark included. */
koshirga_verdict_answer koshirga_renumber(double *positions, size_t positions_length,
                                          uint32_t *starts, size_t starts_length,
                                          uint16_t *entries, size_t entries_length,
                                          bool *lists_ascend,
                                          double *values, size_t values_length,
                                          const uint32_t *permutation, size_t permutation_length,
                                          size_t entries_per_vertex,
                                          uint32_t *sources, size_t sources_length,
                                          uint32_t *old_starts, size_t old_starts_length,
                                          uint16_t *old_entries, size_t old_entries_length,
                                          uint8_t *done, size_t done_length,
                                          double *held, size_t held_length);

/* Reads the neighbour lists of a mesh, such as one from outside, and changes the mark alone: true
 * where every list ascends, else false, whatever it was. Equal entries side by side ascend, and so
 * do a list of one entry and an empty one. Positions are only counted: there is no row 5. Rows 2,
 * 3, 17, 18, 3, 4 leave the mark as it was. */
koshirga_verdict_answer koshirga_mark_ascending(const double *positions, size_t positions_length,
                                                const uint32_t *starts, size_t starts_length,
                                                const uint16_t *entries, size_t entries_length,
                                                bool *lists_ascend);

/* ---- analytic location */

typedef struct koshirga_face_answer {
    uint32_t refusal, face;
} koshirga_face_answer;

typedef struct koshirga_analytic_answer {
    uint32_t refusal, first, second, third;
    double u, v, w; /* the weights of first, second and third */
} koshirga_analytic_answer;

typedef struct koshirga_vertex_answer {
    uint32_t refusal, id;
} koshirga_vertex_answer;

/* The master face of a direction, from its signs and flags. i, j and k: whether it is on the
 * negative side of each of three symmetry planes; these pick four faces. first, second and third:
 * whether it is outside each side plane of the first of them; these weigh 1, 2 and 3, and their sum
 * picks the face. Row 10 where it is above 3. */
koshirga_face_answer koshirga_choose_face(bool i, bool j, bool k, bool first, bool second,
                                          bool third);

/* The lattice triangle that a direction meets, with the weights of its corners. ids is the id table
 * of the frequency. The direction is not normalised. The answer's ids are the lattice's own, also
 * after the mesh was renumbered: take them through the permutation. Some of them may be equal, and
 * weights may lie outside 0 to 1 or sum to about 0: docs/DIFFERENCES.md has such directions. Each
 * operation is rounded by itself (IEEE 754-2019, 5.4.1 and 4.3.1; floor 5.9, conversion 5.8). Rows
 * 1, 8, 9, 10, 4. */
koshirga_analytic_answer koshirga_analytic_locate(uint32_t frequency, const uint16_t *ids,
                                                  size_t ids_length, koshirga_vector3 direction);

/* The last corner of that triangle with the greatest weight in total order (IEEE 754-2019, 5.10); a
 * lattice id too, and at times that of a neighbour of the nearest vertex. Rows as above. */
koshirga_vertex_answer koshirga_analytic_nearest(uint32_t frequency, const uint16_t *ids,
                                                 size_t ids_length, koshirga_vector3 direction);

/* ---- lattice and grid */

/* Writes the lattice of a frequency from 1 to 80: 10n^2 + 2 vertices (three coordinates each), one
 * start more, 60n^2 entries, and the id table of 20(n + 1)(n + 2)/2 places; surplus places are
 * untouched. Its neighbour lists ascend, and the mark is set. Without the surplus it passes the
 * mesh rows of every call: 2 to 5, 17 and 18. Each operation on coordinates is rounded by itself
 * (IEEE 754-2019, 5.4.1 and 4.3.1). Gives a refusal's number or 0. Rows 1, 8 change nothing, the
 * mark included. */
uint32_t koshirga_lattice(uint32_t frequency, double *positions, size_t positions_length,
                          uint32_t *starts, size_t starts_length, uint16_t *entries,
                          size_t entries_length, bool *lists_ascend, uint16_t *ids,
                          size_t ids_length);

typedef struct koshirga_build_answer {
    uint32_t refusal, side;
    size_t index;  /* that of row 18 */
    uint32_t held; /* how many conversions were held at an end */
} koshirga_build_answer;

/* The usual pair of a grid. */
#define KOSHIRGA_USUAL_FACTOR 1.2
#define KOSHIRGA_USUAL_MARGIN 1

/* Writes the cube grid of a mesh with a factor from 0.5 to 4.0 and a margin from 0 to 3, ends
 * accepted. Its side g is the greater of 2 and koshirga_ceil(koshirga_sqrt(count / 6.0) * factor):
 * division, root and product (IEEE 754-2019, 5.4.1 and 4.3.1), ceiling (5.9); from 2 to 420, as is
 * proved. A vertex is placed on each cube face that it is in front of, in the cells whose row and
 * column are at most margin from its own: with margin 0 in its own cell alone, and in none where
 * these lie outside the face. As a rule a greater factor leaves fewer candidates to compare in a
 * cell and more cells empty (row 11), and a greater margin does the reverse. Places needed:
 *   cell_starts      6g^2 + 1
 *   cell_ids         at most 3(2*margin + 1)^2 a vertex, as is proved: (2*margin + 1)^2 cells on
 *                    each of at most three cube faces, as of two opposite faces a vertex is placed
 *                    on one at most
 *   triangle_starts  one a vertex and one more
 *   triples          three ids for each triple, and each triangle is a triple at each of its three
 *                    vertices: 180n^2 for a lattice. For any mesh at most 9L(L - 1)/2 for each
 *                    neighbour list of L entries, repeats among them or not, as a triangle is two
 *                    places of its least vertex's list: at most 4464 a vertex, as L is at most 32.
 * The bound 4464 comes from counting and is no theorem of the proofs, nor is 180n^2, which was seen
 * for all 80 frequencies; where room is short, row 8 refuses. Surplus is untouched; the last start
 * of either list says how many ids or triples there are, and queries take the slices cut to these
 * lengths. Vertices are placed by division, fused multiply-add and product (IEEE 754-2019, 5.4.1
 * and 4.3.1) and the conversion of koshirga_to_i64 (5.8). Rows 2, 3, 17, 18, 3, 4, 5, 19, 20, 8
 * change nothing.
 *
 * held counts the conversions that are KOSHIRGA_HELD, which tells how often positions are almost
 * edge-on to a cube face. A vertex has two conversions on each face that it is in front of, for its
 * row and its column there, and each is counted once: at most six a vertex, as is proved. One is
 * held where the coordinate along the face's axis isn't 0 and is, in magnitude, below about g/2^64
 * of another, as where rounding left a little of what should be 0; the vertex is then in no cell of
 * that face. Positions and side alone decide the count. */
koshirga_build_answer koshirga_build_grid(const double *positions, size_t positions_length,
                                          const uint32_t *starts, size_t starts_length,
                                          const uint16_t *entries, size_t entries_length,
                                          uint32_t *cell_starts, size_t cell_starts_length,
                                          uint16_t *cell_ids, size_t cell_ids_length,
                                          uint32_t *triangle_starts, size_t triangle_starts_length,
                                          uint16_t *triples, size_t triples_length,
                                          double factor, uint32_t margin);

/* ---- grid queries */

typedef struct koshirga_nearest_answer {
    uint32_t refusal, id, candidates;
    double distance; /* SQUARED, from the normalised direction to the position as it is stored */
    size_t index;    /* that of row 18: the direction's cell + 1 */
} koshirga_nearest_answer;

typedef struct koshirga_located_answer {
    uint32_t refusal, first, second, third;
    double u, v, w, least; /* the weights of first, second and third; their koshirga_least_weight */
    size_t index;          /* that of row 18: the direction's cell + 1, or the nearest vertex + 1 */
} koshirga_located_answer;

/* The first candidate of the direction's cell with the least squared distance in total order (IEEE
 * 754-2019, 5.10), and how many candidates were compared. It is the nearest of the cell and not
 * always of the mesh. The direction is normalised first; that and the distances are rounded as the
 * vector calls round, and the cell is found by division, fused multiply-add and product (IEEE
 * 754-2019, 5.4.1 and 4.3.1) and conversion (5.8).
 *
 * factor and margin are the pair that the grid was built with, side is the builder's answer. Only
 * the pair's ranges are tested, and whether count and factor have this side: with another pair
 * whose side is the same, the answer is that of the cells as they are stored. Rows 2 (count and
 * positions), 19, 20, 2 (side), 3, 9, then in the cell 18, 3, 11, 4. */
koshirga_nearest_answer koshirga_grid_nearest(const double *positions, size_t positions_length,
                                              double factor, uint32_t margin, uint32_t side,
                                              const uint32_t *cell_starts,
                                              size_t cell_starts_length, const uint16_t *cell_ids,
                                              size_t cell_ids_length,
                                              const uint32_t *triangle_starts,
                                              size_t triangle_starts_length,
                                              koshirga_vector3 direction);

/* The triangle at the nearest vertex whose least weight is the greatest, the first of equals. The
 * weights are those of koshirga_projected_barycentric for the normalised direction, rounded as
 * there (IEEE 754-2019, 5.4.1 and 4.3.1), and the least is that of koshirga_least_weight (9.6).
 * Leasts are compared by > (5.11), where -0 and +0 are equal: which triangle is kept doesn't depend
 * on the sign of a zero least, as is proved. Rows as above, then at the nearest vertex 18, 3, 4,
 * 12. Which start list falls, 18 doesn't say: cell_starts where koshirga_grid_nearest is refused
 * too, and triangle_starts where it isn't. */
koshirga_located_answer koshirga_grid_locate(const double *positions, size_t positions_length,
                                             double factor, uint32_t margin, uint32_t side,
                                             const uint32_t *cell_starts,
                                             size_t cell_starts_length, const uint16_t *cell_ids,
                                             size_t cell_ids_length,
                                             const uint32_t *triangle_starts,
                                             size_t triangle_starts_length,
                                             const uint16_t *triples, size_t triples_length,
                                             koshirga_vector3 direction);

/* ---- buffers for the graphics card */

/* Where a packed grid stands: seven numbers, in this order. */
typedef struct koshirga_level_record {
    uint32_t vertices, side;
    uint32_t cell_starts, cell_ids, triangle_starts, triples; /* offsets in words */
    uint32_t positions;                                       /* the offset in floats */
} koshirga_level_record;

typedef struct koshirga_pack_answer {
    uint32_t refusal;
    koshirga_level_record level; /* seven zeros where the call is refused */
    size_t index;                /* that of row 18 */
} koshirga_pack_answer;

/* Writes a grid behind the first words_taken of the words and its positions behind the first
 * floats_taken of the floats; what stands before and behind is untouched. The words get the cell
 * starts, the cell ids, the triangle starts and the triples, one list behind another, each element
 * as it is: starts go on counting from the grid's own first id or triple. The floats get the
 * coordinates, each rounded by koshirga_to_f32 (IEEE 754-2019, 5.4.2 and 4.3.1); all of them are
 * finite, as is proved. Places needed behind the taken ones:
 *   words   cell_starts_length + cell_ids_length + triangle_starts_length + triples_length
 *   floats  positions_length
 * The next grid goes behind it: its words_taken is level.triples + triples_length, added as size_t,
 * and its floats_taken is level.positions + 3*level.vertices.
 *
 * The lists are read whole, and are cut to their lengths as for a query; whether ids or triples
 * ascend isn't asked. A taken count may be any number: beyond its slice it is row 8, as is an
 * offset above 4294967295, though the last list may end above. Rows 2 (count and positions), 19,
 * 20, 2 (side), 3 (lengths), 17, 18, 4, 5, 8 change nothing. */
koshirga_pack_answer koshirga_pack(const double *positions, size_t positions_length,
                                   double factor, uint32_t margin, uint32_t side,
                                   const uint32_t *cell_starts, size_t cell_starts_length,
                                   const uint16_t *cell_ids, size_t cell_ids_length,
                                   const uint32_t *triangle_starts, size_t triangle_starts_length,
                                   const uint16_t *triples, size_t triples_length,
                                   uint32_t *words, size_t words_length, size_t words_taken,
                                   float *floats, size_t floats_length, size_t floats_taken);

/* ---- mesh and grid as structs */

/* A mesh that is read, and its mark, which is last: an initialiser that ends before it leaves it
 * false, and so the mesh unmarked. */
typedef struct koshirga_mesh {
    const double *positions;
    size_t positions_length;
    const uint32_t *starts;
    size_t starts_length;
    const uint16_t *entries;
    size_t entries_length;
    bool lists_ascend;
} koshirga_mesh;

/* A grid that is read: its positions, the pair that it was built with, its side and its slices, cut
 * to their lengths. */
typedef struct koshirga_grid {
    const double *positions;
    size_t positions_length;
    double factor;
    uint32_t margin, side;
    const uint32_t *cell_starts;
    size_t cell_starts_length;
    const uint16_t *cell_ids;
    size_t cell_ids_length;
    const uint32_t *triangle_starts;
    size_t triangle_starts_length;
    const uint16_t *triples;
    size_t triples_length;
} koshirga_grid;

/* The slices lent to the builder, with their whole lengths. */
typedef struct koshirga_grid_slices {
    uint32_t *cell_starts;
    size_t cell_starts_length;
    uint16_t *cell_ids;
    size_t cell_ids_length;
    uint32_t *triangle_starts;
    size_t triangle_starts_length;
    uint16_t *triples;
    size_t triples_length;
} koshirga_grid_slices;

/* koshirga_mark_ascending of a mesh. Where it is accepted, mesh->lists_ascend says whether every
 * neighbour list ascends. Where it is refused, *mesh is as it was. */
static inline koshirga_verdict_answer koshirga_mark_ascending_of(koshirga_mesh *mesh) {
    return koshirga_mark_ascending(mesh->positions, mesh->positions_length, mesh->starts,
                                   mesh->starts_length, mesh->entries, mesh->entries_length,
                                   &mesh->lists_ascend);
}

/* koshirga_walk of a mesh. */
static inline koshirga_walk_answer koshirga_walk_mesh(koshirga_mesh mesh, uint32_t *order,
                                                      size_t order_length, uint32_t *queue,
                                                      size_t queue_length) {
    return koshirga_walk(mesh.positions, mesh.positions_length, mesh.starts, mesh.starts_length,
                         mesh.entries, mesh.entries_length, order, order_length, queue,
                         queue_length);
}

/* koshirga_walk_islands in a mesh. */
static inline koshirga_islands_answer koshirga_walk_islands_in(koshirga_mesh mesh, uint32_t *order,
                                                               size_t order_length,
                                                               uint32_t *queue, size_t queue_length,
                                                               uint32_t *island_starts,
                                                               size_t island_starts_length) {
    return koshirga_walk_islands(mesh.positions, mesh.positions_length, mesh.starts,
                                 mesh.starts_length, mesh.entries, mesh.entries_length, order,
                                 order_length, queue, queue_length, island_starts,
                                 island_starts_length);
}

/* koshirga_steps_between in a mesh. */
static inline koshirga_steps_answer koshirga_steps_between_in(koshirga_mesh mesh, uint32_t from,
                                                              uint32_t to, uint32_t *order,
                                                              size_t order_length, uint32_t *queue,
                                                              size_t queue_length) {
    return koshirga_steps_between(mesh.positions, mesh.positions_length, mesh.starts,
                                  mesh.starts_length, mesh.entries, mesh.entries_length, from, to,
                                  order, order_length, queue, queue_length);
}

/* koshirga_vertices_within in a mesh. */
static inline koshirga_within_answer koshirga_vertices_within_in(koshirga_mesh mesh,
                                                                 uint32_t vertex, size_t steps,
                                                                 uint32_t *order,
                                                                 size_t order_length,
                                                                 uint32_t *list,
                                                                 size_t list_length) {
    return koshirga_vertices_within(mesh.positions, mesh.positions_length, mesh.starts,
                                    mesh.starts_length, mesh.entries, mesh.entries_length, vertex,
                                    steps, order, order_length, list, list_length);
}

/* koshirga_build_grid of a mesh. Where it is accepted, *grid is the grid that was built, ready for
 * queries: it points to the mesh's positions and to the lent slices and copies none of them. Where
 * it is refused, *grid is as it was. */
static inline koshirga_build_answer koshirga_build_grid_of(koshirga_mesh mesh, double factor,
                                                           uint32_t margin,
                                                           koshirga_grid_slices lent,
                                                           koshirga_grid *grid) {
    const koshirga_build_answer built = koshirga_build_grid(
        mesh.positions, mesh.positions_length, mesh.starts, mesh.starts_length, mesh.entries,
        mesh.entries_length, lent.cell_starts, lent.cell_starts_length, lent.cell_ids,
        lent.cell_ids_length, lent.triangle_starts, lent.triangle_starts_length, lent.triples,
        lent.triples_length, factor, margin);
    if (built.refusal == KOSHIRGA_ACCEPTED) {
        const size_t side = built.side, cells = 6 * side * side;
        const size_t vertices = mesh.positions_length / 3;
        const size_t triple_count = lent.triangle_starts[vertices];
        grid->positions = mesh.positions;
        grid->positions_length = mesh.positions_length;
        grid->factor = factor;
        grid->margin = margin;
        grid->side = built.side;
        grid->cell_starts = lent.cell_starts;
        grid->cell_starts_length = cells + 1;
        grid->cell_ids = lent.cell_ids;
        grid->cell_ids_length = lent.cell_starts[cells];
        grid->triangle_starts = lent.triangle_starts;
        grid->triangle_starts_length = vertices + 1;
        grid->triples = lent.triples;
        grid->triples_length = 3 * triple_count;
    }
    return built;
}

/* koshirga_grid_nearest of a grid; its triples are not read. */
static inline koshirga_nearest_answer koshirga_nearest_in(const koshirga_grid *grid,
                                                          koshirga_vector3 direction) {
    return koshirga_grid_nearest(grid->positions, grid->positions_length, grid->factor,
                                 grid->margin, grid->side, grid->cell_starts,
                                 grid->cell_starts_length, grid->cell_ids, grid->cell_ids_length,
                                 grid->triangle_starts, grid->triangle_starts_length, direction);
}

/* koshirga_grid_locate of a grid. */
static inline koshirga_located_answer koshirga_locate_in(const koshirga_grid *grid,
                                                         koshirga_vector3 direction) {
    return koshirga_grid_locate(grid->positions, grid->positions_length, grid->factor, grid->margin,
                                grid->side, grid->cell_starts, grid->cell_starts_length,
                                grid->cell_ids, grid->cell_ids_length, grid->triangle_starts,
                                grid->triangle_starts_length, grid->triples, grid->triples_length,
                                direction);
}

/* koshirga_pack of a grid. */
static inline koshirga_pack_answer koshirga_pack_grid(const koshirga_grid *grid, uint32_t *words,
                                                      size_t words_length, size_t words_taken,
                                                      float *floats, size_t floats_length,
                                                      size_t floats_taken) {
    return koshirga_pack(grid->positions, grid->positions_length, grid->factor, grid->margin,
                         grid->side, grid->cell_starts, grid->cell_starts_length, grid->cell_ids,
                         grid->cell_ids_length, grid->triangle_starts, grid->triangle_starts_length,
                         grid->triples, grid->triples_length, words, words_length, words_taken,
                         floats, floats_length, floats_taken);
}

#ifdef __cplusplus
}
#endif

#endif
