/* What each call is to do, read a second time, in C, from the text that docs/DATASHEET.md puts into
 * steps. expected_NAME says what koshirga_NAME returns, and writes what it leaves into the slices
 * that it is given, and into the mark. It follows the text and nothing of the proved code.
 */
#ifndef READING_H
#define READING_H

#include "koshirga.h"

/* 0, but in `fuzz/run misread`, which builds with each other number in turn. Each puts one mistake
 * into the reading, and a run must then end with a difference:
 *   1. rows 5 and 9 refuse the upper end, 2^40
 *   2. va, vb and vc round both products
 *   3. flags 1 and 2 both set are refused
 *   4. the first corner of greatest weight, not the last
 *   5. row 4 before rows 3, 17 and 18
 *   6. the renumbering tests row 5
 *   7. row 8 before row 6
 *   8. floor in place of truncation when placing
 *   9. a query tests row 9 before the lengths of row 3
 *  10. of equal leasts the later triangle is kept
 *  11. refusal 13 leaves 0 at the ids that weren't reached
 *  12. no mistake in the reading: the engine is told of a place more than it is lent, and faults
 *  13. of several starts that fall the last is named
 *  14. row 17 after row 18
 *  15. the start before the one that falls is named
 *  16. a query tests its cell for running past the ids before falling
 *  17. row 17 is returned as 3
 *  18. the limit of 32 before row 18
 *  19. a location tests the vertex for running past the triples before falling
 *  20. a query names the first fall of the cell starts, not that of its cell
 *  21. a list over 32 carries the index of its end
 *  22. a query tests its cell starts for row 17
 *  23. a location names the vertex, not the start behind it
 *  24. the renumbering gives no index
 *  25. the builder gives no index
 *  26. row 19 refuses the lower end, 0.5
 *  27. row 19 refuses the upper end, 4.0
 *  28. row 20 before row 19
 *  29. a query tests g before rows 19 and 20
 *  30. a query takes 1.2 for the recorded factor
 *  31. a margin of 4 is accepted
 *  32. a query doesn't test row 20
 *  33. vertices are placed with margin 1, whichever is given
 *  34. vertices are placed a column further on one side
 *  35. a factor that is NaN is accepted
 *  36. row 8 before row 19
 *  37. rows 19 and 20 before row 5
 *  38. a query tests rows 19 and 20 before its positions
 *  39. a placement is clamped to the face, as a query is
 *  40. the side is a floor and 1 more, not a ceiling
 *  41. the factor stands under the root, as its square
 *  42. row 8 between rows 19 and 20
 *  43. conversions held at the upper end alone are counted
 *  44. -2^63 is called held
 *  45. -0 is called cut
 *  46. the count takes the faces with d = 0 too
 *  47. the count takes every conversion that gives an end of the range, -2^63 kept too
 *  48. a build that row 8 refuses carries the count
 *  49. the renumbering keeps the order of each list
 *  50. the renumbering sorts a list before it takes it through the permutation, not after
 *  51. the renumbering sorts from the greatest id down
 *  52. the renumbering drops repeats
 *  53. the renumbering by the identity leaves the lists as they are
 *  54. the renumbering keeps the order of each list where the mark is true
 *  55. the accepted renumbering leaves the mark
 *  56. the refused renumbering sets the mark
 *  57. the accepted lattice leaves the mark
 *  58. the refused lattice sets the mark
 *  59. mark_ascending never sets the mark
 *  60. mark_ascending never clears the mark
 *  61. mark_ascending clears the mark where it is refused
 *  62. mark_ascending clears the mark where a list has repeats
 *  63. mark_ascending looks at the first list alone
 *  64. mark_ascending leaves out the last list
 *  65. mark_ascending leaves out the first pair of each list
 *  66. mark_ascending leaves out the last pair of each list
 *  67. mark_ascending takes all entries for one list
 *  68. mark_ascending tests row 5
 *  69. mark_ascending gives no index
 *  70. mark_ascending sorts the lists
 *  71. ids above 32,767 stand before all others, in mark_ascending and in sorted lists
 *  72. in minimum_number the earlier of equals stays
 *  73. in least_weight the earlier of equals stays, as in document 01 before W-201
 *  74. in a location the earlier of equal weights is the least, as before W-201
 *  75. +0 lies below -0 in every minimum
 *  76. a NaN beside a number makes a minimum NaN, as in minimum (IEEE 754-2019, 9.6)
 *  77. a signaling NaN does so, a quiet one doesn't, as in minNum (IEEE 754-2008, 5.3.1)
 *  78. the third weight is left out of every least
 *  79. a least of +0 exceeds one of -0, and a later triangle is kept for it
 *  80. a number halfway between two of binary32 is rounded away from zero
 *  81. every number is rounded toward zero to binary32
 *  82. a result below the least normal number of binary32 is a zero
 *  83. no finite number is rounded to an infinity of binary32
 *  84. every zero of binary32 is +0
 *  85. a packing tests each start list for 17 and 18 before the next one
 *  86. a packing takes the last triangle start for a count of ids
 *  87. a packing leaves out row 17 for triangle starts
 *  88. a packing tests the triangle starts for row 18 before the cell starts
 *  89. a packing leaves out row 18 for triangle starts
 *  90. a packing gives no index
 *  91. a packing refuses a cell of over 32 ids
 *  92. a packing leaves out row 4 for cell ids
 *  93. a packing leaves out row 4 for triples
 *  94. a packing leaves out row 5
 *  95. row 5 before row 4 in a packing
 *  96. row 8 before row 5 in a packing
 *  97. a packing counts taken places modulo 2^64
 *  98. a packing has no row 8 for floats
 *  99. a packing leaves one place free behind it
 * 100. a packing takes offsets modulo 2^32
 * 101. the end of the last packed list is at most 4294967295
 * 102. the offset of packed positions may be above 4294967295
 * 103. a packing that row 8 refuses has a record
 * 104. a packing that row 8 refuses for its floats has written its words
 * 105. packed starts count from the beginning of the words
 * 106. a packing begins at the first place, whatever is taken
 * 107. triangle starts are packed before cell ids
 * 108. offsets of cell ids and triangle starts are exchanged in a record
 * 109. the offset of packed positions counts vertices
 * 110. packed coordinates are rounded toward zero
 * 111. the list that has the target is counted whole
 * 112. the entry that is the target is not counted
 * 113. 13 in place of 15
 * 114. row 8 before row 14
 * 115. a list of vertices needs as many places as scratch
 * 116. scratch of a search needs a place a vertex
 * 117. row 15 before row 8
 * 118. row 14 tests the first vertex alone
 * 119. equal ends are answered before row 8
 * 120. equal ends are searched: they are met at an entry, or are 15
 * 121. a vertex is taken modulo 65,536
 * 122. equal ends are answered before row 14
 * 123. a vertex in its own list is not counted
 * 124. repeats in a list are counted once
 * 125. the steps are those of the vertex whose list has the target
 * 126. a number of steps is taken modulo 2^32
 * 127. a list of vertices goes a step too far
 * 128. a list of vertices is filled to the end of the walk
 * 129. a search gives no index
 * 130. a search tests row 5
 * 131. a list of vertices ascends
 * 132. 15 carries the count of entries
 * 133. the root is the highest id without a number
 * 134. an island's number stands for its start
 * 135. an island's start is its root's old id
 * 136. a closing start stands behind the last island's
 * 137. places behind the islands' starts are cleared
 * 138. entries of the last island alone are counted
 * 139. the island starts need a place an island
 * 140. 13 where there are several islands
 * 141. the walk over all islands tests row 5
 * 142. it gives no index
 * 143. it takes neighbours for mutual
 * 144. each island is numbered from 0
 * 145. it needs as many places as scratch of a search
 * 146. repeats in a list are counted once in it
 * 147. the first island isn't counted */
#ifndef MISREAD
#define MISREAD 0
#endif
enum { MISREADINGS = 147 };

enum { FREQUENCY_MAX = 80, VERTEX_MAX = 65536, LIST_MAX = 32, MARGIN_MAX = 3, ROWS = 20 };

/* Whether a row has this number, up to ROWS: 16 is nobody's. */
bool is_row(uint32_t number);

/* A place that the walk didn't number. */
#define UNREACHED UINT32_C(4294967295)

/* What is read as a mesh. The renumbering writes to it. */
typedef struct mesh {
    double *positions;
    size_t positions_length;
    uint32_t *starts;
    size_t starts_length;
    uint16_t *entries;
    size_t entries_length;
} mesh;

/* What is read, or filled, as a grid, beside the positions. */
typedef struct grid {
    uint32_t *cell_starts;
    size_t cell_starts_length;
    uint16_t *cell_ids;
    size_t cell_ids_length;
    uint32_t *triangle_starts;
    size_t triangle_starts_length;
    uint16_t *triples;
    size_t triples_length;
} grid;

/* The pair with which a grid is built, and which its record keeps. */
typedef struct settings {
    double factor;
    uint32_t margin;
} settings;

#define FACTOR_LEAST 0.5
#define FACTOR_GREATEST 4.0

/* What document 01 had before W-210. */
#define USUAL_PAIR ((settings){1.2, 1})

/* A lattice, worked out once for each frequency. */
typedef struct lattice {
    size_t vertices, positions_length, starts_length, entries_length, ids_length;
    double *positions;
    uint32_t *starts;
    uint16_t *entries;
    uint16_t *ids;
} lattice;

/* Equal bits, or a NaN each, whose bits are free. */
bool same(double x, double y);

uint64_t bits_of(double x);
double from_bits(uint64_t bits);

/* The two kinds of NaN (IEEE 754-2019, 6.2.1). */
bool is_quiet(double x);
bool is_signaling(double x);

int32_t expected_total_cmp(uint64_t x, uint64_t y);
uint64_t expected_rank(double x);
double expected_minimum_number(double x, double y);
koshirga_conversion_answer expected_to_i64(double x);

/* The bits of a binary32 number. */
uint32_t float_bits(float x);
float expected_to_f32(double x);

double expected_dot(koshirga_vector3 a, koshirga_vector3 b);
koshirga_vector3 expected_cross(koshirga_vector3 a, koshirga_vector3 b);
koshirga_vector3 expected_minus(koshirga_vector3 a, koshirga_vector3 b);
koshirga_vector3 expected_plus(koshirga_vector3 a, koshirga_vector3 b);
koshirga_vector3 expected_scale(koshirga_vector3 v, double factor);
koshirga_vector3 expected_divide(koshirga_vector3 v, double divisor);
double expected_norm(koshirga_vector3 v);
koshirga_vector3 expected_normalize(koshirga_vector3 v);
uint32_t expected_direction(koshirga_vector3 v);

koshirga_weights expected_weights(koshirga_vector3 p, koshirga_vector3 a, koshirga_vector3 b,
                                  koshirga_vector3 c);
double expected_least(koshirga_weights weights);

/* The least by document 01, as it was before W-201: of equal weights the earlier, so that a zero
 * has the sign of the first one. */
double earlier_least(koshirga_weights weights);

koshirga_face_answer expected_choose_face(const bool signs[3], const bool outside[3]);
koshirga_analytic_answer expected_analytic_locate(uint32_t frequency, const uint16_t *ids,
                                                  size_t ids_length, koshirga_vector3 direction);
koshirga_vertex_answer expected_analytic_nearest(uint32_t frequency, const uint16_t *ids,
                                                 size_t ids_length, koshirga_vector3 direction);

/* The lattice of a frequency from 1 to 80; it stays until the program ends. */
const lattice *lattice_of(uint32_t frequency);

/* filled: positions, starts and entries; the mark and ids beside them. */
uint32_t expected_lattice(uint32_t frequency, mesh *filled, bool *lists_ascend, uint16_t *ids,
                          size_t ids_length);

/* The position of a vertex. */
koshirga_vector3 position_of(const double *positions, size_t v);

/* The first of rows 2, 3 (length), 17, 18, 3 (a list over 32) and 4 that holds, then row 5 where it
 * is asked for; 0 where none does. With row 18 the place of the start that falls, else 0. */
koshirga_verdict_answer mesh_row(const mesh *m, bool with_row_5);

/* Whether a vertex's list has an id, in a mesh that passes its rows. */
bool has_entry(const mesh *m, size_t vertex, size_t id);

koshirga_walk_answer expected_walk(const mesh *m, uint32_t *order, size_t order_length,
                                   uint32_t *queue, size_t queue_length);

koshirga_islands_answer expected_walk_islands(const mesh *m, uint32_t *order, size_t order_length,
                                              uint32_t *queue, size_t queue_length,
                                              uint32_t *island_starts, size_t island_starts_length);

/* The walk from a vertex to its end, in a mesh that passes its rows: the ids in its order, and for
 * each vertex the steps that lead there, UNREACHED for others. Gives how many are reached. */
size_t walk_from(const mesh *m, uint32_t from, uint32_t *queue, uint32_t *steps);

/* The places that each scratch slice of a search needs. */
size_t search_scratch(const mesh *m);

koshirga_steps_answer expected_steps_between(const mesh *m, uint32_t from, uint32_t to,
                                             size_t order_length, size_t queue_length);
koshirga_within_answer expected_vertices_within(const mesh *m, uint32_t vertex, size_t steps,
                                                size_t order_length, uint32_t *list,
                                                size_t list_length);

/* The places that each scratch slice of a renumbering needs; the mesh passes its rows. */
size_t renumber_scratch(const mesh *m, size_t values_length);

koshirga_verdict_answer expected_renumber(mesh *m, bool *lists_ascend, double *values,
                                          size_t values_length, const uint32_t *permutation,
                                          size_t permutation_length, size_t entries_per_vertex,
                                          const size_t scratch_lengths[5]);

/* Sorts ids: each is at most the next, and repeats stand side by side. */
void sort_ids(uint16_t *ids, size_t length);

koshirga_verdict_answer expected_mark_ascending(const mesh *m, bool *lists_ascend);

/* 19 or 20, the first of them that holds; 0 where none does. */
uint32_t settings_row(settings pair);

/* The side for a count above 0, where row 19 lets the factor pass; for others any number. */
uint32_t grid_side(double factor, size_t count);

/* The lengths of the grid of a mesh that passes rows 2 to 5, with a pair that passes rows 19 and
 * 20; its slices are not looked at. */
grid grid_lengths(const mesh *m, settings pair);

/* How many conversions of a build give an end of the signed range: held at the upper one, held at
 * the lower one, or the lower one itself, kept. */
typedef struct ends {
    uint32_t held_upper, held_lower, kept_lower;
} ends;

/* Of a mesh that passes rows 2 to 5. */
ends ends_of(const mesh *m, uint32_t side);

koshirga_build_answer expected_build_grid(const mesh *m, settings pair, grid *filled);

/* The cell of a direction that passes row 9. */
size_t cell_of(uint32_t side, koshirga_vector3 direction);

koshirga_nearest_answer expected_grid_nearest(const double *positions, size_t positions_length,
                                              settings pair, uint32_t side, const grid *g,
                                              koshirga_vector3 direction);
koshirga_located_answer expected_grid_locate(const double *positions, size_t positions_length,
                                             settings pair, uint32_t side, const grid *g,
                                             koshirga_vector3 direction);

/* How many words a grid is packed into. */
size_t packed_words(const grid *g);

koshirga_pack_answer expected_pack(const double *positions, size_t positions_length, settings pair,
                                   uint32_t side, const grid *g, uint32_t *words,
                                   size_t words_length, size_t words_taken, float *floats,
                                   size_t floats_length, size_t floats_taken);

#endif
