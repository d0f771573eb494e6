/* Counts calls by entry point and row, and ends the run: with tables when the limit is reached, or
 * at the first difference. */
#ifndef TALLY_H
#define TALLY_H

#include <stdbool.h>
#include <stddef.h>
#include <stdint.h>

/* Every function of koshirga.h, in its order. */
#define ENTRY_POINTS(X)                                                                           \
    X(total_cmp) X(rank) X(minimum_number) X(floor) X(ceil) X(to_i64) X(to_f32) X(mul_add)        \
    X(sqrt) X(sqrt_by_digits) X(dot) X(cross) X(minus) X(plus) X(scale) X(divide)                 \
    X(norm_squared) X(norm) X(normalize) X(direction) X(projected_barycentric) X(least_weight)    \
    X(walk) X(walk_islands) X(steps_between) X(vertices_within) X(renumber) X(mark_ascending)     \
    X(choose_face) X(analytic_locate) X(analytic_nearest) X(lattice) X(build_grid)                \
    X(grid_nearest) X(grid_locate) X(pack) X(mark_ascending_of) X(walk_mesh) X(walk_islands_in)   \
    X(steps_between_in) X(vertices_within_in) X(build_grid_of) X(nearest_in) X(locate_in)         \
    X(pack_grid)

#define ENTRY(name) ENTRY_##name,
typedef enum entry { ENTRY_POINTS(ENTRY) ENTRIES } entry;
#undef ENTRY

/* Ways in which starts are refused, each with the calls that can meet it: those that read a whole
 * mesh, both queries, these and the packing, or the location alone. A run must meet each way in
 * each of its calls. In a whole mesh the start at 1 can't fall alone: the one before it would not
 * be 0, and that is 17. */
#define START_WAYS(X)                                                                              \
    X(LENGTH, WHOLE, "3: wrong length")                                                            \
    X(LENGTH_AND_FALL, WHOLE, "3: wrong length, and a start falls")                                \
    X(SPAN_FIRST, WHOLE, "17: the first start isn't 0")                                            \
    X(SPAN_BELOW, WHOLE, "17: the last is below the entry count")                                  \
    X(SPAN_ABOVE, WHOLE, "17: the last is above the entry count")                                  \
    X(SPAN_AND_SECOND, WHOLE, "17: and the start at 1 falls")                                      \
    X(SPAN_AND_FALL, WHOLE, "17: and a later start falls")                                         \
    X(FALL_FIRST, WHOLE, "18: at 2, the first that can fall")                                      \
    X(FALL_MIDDLE, WHOLE, "18: between")                                                           \
    X(FALL_LAST, WHOLE, "18: at the last start")                                                   \
    X(FALL_AGAIN, WHOLE, "18: and a later start falls")                                            \
    X(FALL_AND_LONG, WHOLE, "18: and a list is over 32")                                           \
    X(LONG_LIST, WHOLE, "3: a list over 32")                                                       \
    X(CELL_LENGTH, RECORDS, "3: wrong length of cell starts")                                      \
    X(VERTEX_LENGTH, RECORDS, "3: wrong length of triangle starts")                                \
    X(CELL_FIRST, QUERIES, "18: in the cell, at 1")                                                \
    X(CELL_MIDDLE, QUERIES, "18: in the cell, between")                                            \
    X(CELL_LAST, QUERIES, "18: in the cell, at the last start")                                    \
    X(CELL_AND_PAST, QUERIES, "18: in the cell, and past the ids")                                 \
    X(CELL_NOT_FIRST, QUERIES, "18: in the cell, behind another fall")                             \
    X(PAST_IDS, QUERIES, "3: past the ids")                                                        \
    X(VERTEX_FIRST, LOCATION, "18: at the vertex, at 1")                                           \
    X(VERTEX_MIDDLE, LOCATION, "18: at the vertex, between")                                       \
    X(VERTEX_LAST, LOCATION, "18: at the vertex, at the last start")                               \
    X(VERTEX_AND_PAST, LOCATION, "18: at the vertex, and past the triples")                        \
    X(VERTEX_NOT_FIRST, LOCATION, "18: at the vertex, behind another fall")                        \
    X(PAST_TRIPLES, LOCATION, "3: past the triples")

/* The same for pairs, and for what else is wrong beside them: in the builder, both queries and the
 * packing, in the builder alone, in the queries and the packing, or in the queries alone. 0:
 * accepted. */
#define PAIR_WAYS(X)                                                                               \
    X(FACTOR_NAN, PAIRS, "19: a NaN")                                                              \
    X(FACTOR_INFINITE, PAIRS, "19: an infinity")                                                   \
    X(FACTOR_ZERO, PAIRS, "19: a zero")                                                            \
    X(FACTOR_NEGATIVE, PAIRS, "19: below 0")                                                       \
    X(FACTOR_BELOW, PAIRS, "19: above 0 and below 0.5")                                            \
    X(FACTOR_SUBNORMAL, PAIRS, "19: a subnormal")                                                  \
    X(FACTOR_NEXT_BELOW, PAIRS, "19: the double below 0.5")                                        \
    X(FACTOR_NEXT_ABOVE, PAIRS, "19: the double above 4.0")                                        \
    X(FACTOR_ABOVE, PAIRS, "19: above 4.0")                                                        \
    X(FACTOR_AND_MARGIN, PAIRS, "19: and a margin above 3")                                        \
    X(MARGIN_NEXT, PAIRS, "20: 4")                                                                 \
    X(MARGIN_ABOVE, PAIRS, "20: above 4")                                                          \
    X(POSITION_AND_FACTOR, BUILDER, "5: and a factor that 19 refuses")                             \
    X(POSITION_AND_MARGIN, BUILDER, "5: and a margin above 3")                                     \
    X(FACTOR_AND_ROOM, BUILDER, "19: and too little room for triangles")                           \
    X(MARGIN_AND_ROOM, BUILDER, "20: and too little room for triangles")                           \
    X(COUNT_AND_FACTOR, RECORDS, "2: positions, and a factor that 19 refuses")                     \
    X(COUNT_AND_MARGIN, RECORDS, "2: positions, and a margin above 3")                             \
    X(FACTOR_AND_SIDE, RECORDS, "19: and g outside 2 to 420")                                      \
    X(MARGIN_AND_SIDE, RECORDS, "20: and g isn't the side")                                        \
    X(PAIR_AND_LENGTH, RECORDS, "19, 20: and a wrong length of starts")                            \
    X(PAIR_AND_DIRECTION, QUERIES, "19, 20: and a direction that 9 refuses")                       \
    X(SIDE, RECORDS, "2: g isn't the side")                                                        \
    X(SIDE_OF_USUAL, RECORDS, "2: g is the side of 1.2 alone")                                     \
    X(SIDE_BUT_LENGTH, RECORDS, "3: factor and g changed together")                                \
    X(LEAST, PAIRS, "0: factor 0.5")                                                               \
    X(LEAST_NEXT, PAIRS, "0: the double above 0.5")                                                \
    X(GREATEST_NEXT, PAIRS, "0: the double below 4.0")                                             \
    X(GREATEST, PAIRS, "0: factor 4.0")                                                            \
    X(USUAL_NEXT, PAIRS, "0: a double next to 1.2")                                                \
    X(MARGIN_0, PAIRS, "0: margin 0")                                                              \
    X(MARGIN_1, PAIRS, "0: margin 1")                                                              \
    X(MARGIN_2, PAIRS, "0: margin 2")                                                              \
    X(MARGIN_3, PAIRS, "0: margin 3")                                                              \
    X(USUAL, PAIRS, "0: the usual pair")                                                           \
    X(FACTOR_CHANGED, RECORDS, "0: another factor than at building")                               \
    X(MARGIN_CHANGED, RECORDS, "0: another margin than at building")

/* The same for conversions to a whole number: in the conversion itself, in it and in an accepted
 * build whose placing had one, or in a build that was refused. */
#define CONVERSION_WAYS(X)                                                                         \
    X(KEPT, CONVERSION, "kept")                                                                    \
    X(KEPT_ZERO, CONVERSION, "kept: -0")                                                           \
    X(KEPT_LOWER, ENDS, "kept: -2^63")                                                             \
    X(CUT, CONVERSION, "cut")                                                                      \
    X(CUT_TO_ZERO, CONVERSION, "cut to 0")                                                         \
    X(HELD_UPPER, ENDS, "held at the upper end")                                                   \
    X(HELD_NEXT, CONVERSION, "held at the upper end: 2^63")                                        \
    X(HELD_LOWER, ENDS, "held at the lower end")                                                   \
    X(HELD_INFINITE, CONVERSION, "held: an infinity")                                              \
    X(NOT_A_NUMBER, CONVERSION, "not a number")                                                    \
    X(HELD_AND_ROOM, BUILDER, "8: and conversions that would be held")

/* The same for the mark, before and after a call that is lent it, and for the order of lists: as
 * mark_ascending reads them, or as a renumbering has them before it sorts. A pair is an entry and
 * the next one of its list; it falls where the next one is below it, and a list falls where one of
 * its pairs does. */
#define MARK_WAYS(X)                                                                               \
    X(MARK_SET, MARKS, "0: false, then true")                                                      \
    X(MARK_STILL_SET, MARKS, "0: true, then true")                                                 \
    X(MARK_CLEARED, MARKING, "0: true, then false")                                                \
    X(MARK_STILL_CLEAR, MARKING, "0: false, then false")                                           \
    X(MARK_KEPT_CLEAR, MARKS, "refused: false, and kept")                                          \
    X(MARK_KEPT_SET, MARKS, "refused: true, and kept")                                             \
    X(ASCEND_REPEATS, MARKING, "no list falls: repeats side by side")                              \
    X(ASCEND_BORDER, MARKING, "no list falls: the next begins lower")                              \
    X(ASCEND_SHORT, MARKING, "no list falls: all empty or of one entry")                           \
    X(ASCEND_POSITION, MARKING, "no list falls: a position that 5 refuses")                        \
    X(ONE_LIST_FIRST, MARKING, "one list falls: the first")                                        \
    X(ONE_LIST_MIDDLE, MARKING, "one list falls: between")                                         \
    X(ONE_LIST_LAST, MARKING, "one list falls: the last")                                          \
    X(ONE_PAIR_FIRST, MARKING, "one pair falls: the first of its list")                            \
    X(ONE_PAIR_MIDDLE, MARKING, "one pair falls: between")                                         \
    X(ONE_PAIR_LAST, MARKING, "one pair falls: the last of its list")                              \
    X(SEVERAL_LISTS, MARKING, "several lists fall")                                                \
    X(MAPPED_ASCEND, RENUMBERING, "mapped: no list falls")                                         \
    X(MAPPED_FALL, RENUMBERING, "mapped: a list falls")                                            \
    X(MAPPED_FALL_NEW, RENUMBERING, "mapped: a list falls, and none did")                          \
    X(MAPPED_ASCEND_NEW, RENUMBERING, "mapped: no list falls, and one did")                        \
    X(MAPPED_APART, RENUMBERING, "mapped: repeats that stand apart")                               \
    X(MAPPED_SAME, RENUMBERING, "mapped by the identity: a list falls")

/* The same for minima: of two operands in minimum_number, of three weights in least_weight and in
 * an accepted location. A number is what isn't a NaN. In the first way a least is -0 by W-201, and
 * was +0 before it. In the last two another triangle at the vertex, later than the one that is
 * kept, has a zero of the other sign as its least. */
#define MINIMUM_WAYS(X)                                                                            \
    X(UPPER_ZERO_FIRST, MINIMA, "a zero: +0 stands before -0")                                     \
    X(UPPER_ZERO_AT_ONCE, LEASTS, "a zero: +0 is the first weight, then -0")                       \
    X(LOWER_ZERO_FIRST, MINIMA, "a zero: -0 stands before +0")                                     \
    X(LIKE_ZEROS, MINIMA, "a zero: several, of one sign")                                          \
    X(EQUAL_NUMBERS, MINIMA, "equal numbers that aren't zeros")                                    \
    X(LOWER_INFINITY, DRAWN, "minus infinity")                                                     \
    X(UPPER_INFINITY, DRAWN, "plus infinity: no lesser number")                                    \
    X(NAN_BEFORE, MINIMA, "a NaN before a number")                                                 \
    X(NAN_BEHIND, MINIMA, "a NaN behind a number")                                                 \
    X(SIGNALING_BEFORE, DRAWN, "a signaling NaN before a number")                                  \
    X(SIGNALING_BEHIND, DRAWN, "a signaling NaN behind a number")                                  \
    X(NAN_AND_ZEROS, WEIGHTS, "a NaN, and zeros of both signs")                                    \
    X(NO_NUMBER, DRAWN, "no number: a quiet NaN among them")                                       \
    X(ALL_SIGNALING, DRAWN, "no number: all are signaling")                                        \
    X(LOWER_ZERO_KEPT, LOCATION, "-0 is kept, a later triangle has +0")                            \
    X(UPPER_ZERO_KEPT, LOCATION, "+0 is kept, a later triangle has -0")

/* The same for numbers rounded to binary32. */
#define ROUNDING_WAYS(X)                                                                           \
    X(EXACT, ROUNDING, "a number of binary32")                                                     \
    X(TOWARD_ZERO, ROUNDING, "rounded toward zero")                                                \
    X(AWAY, ROUNDING, "rounded away from zero")                                                    \
    X(TIE_TOWARD_ZERO, ROUNDING, "a tie, rounded toward zero")                                     \
    X(TIE_AWAY, ROUNDING, "a tie, rounded away from zero")                                         \
    X(CARRIED, ROUNDING, "carried to a power of two")                                              \
    X(SUBNORMAL, ROUNDING, "to a subnormal number")                                                \
    X(SUBNORMAL_TIE, ROUNDING, "to a subnormal number, a tie")                                     \
    X(LEAST_NORMAL, ROUNDING, "carried to the least normal number")                                \
    X(ZERO_TIE, ROUNDING, "2^-150, to a zero")                                                     \
    X(ZERO, ROUNDING, "below 2^-150, to a zero")                                                   \
    X(LOWER_ZERO, ROUNDING, "a negative number, to -0")                                            \
    X(ZERO_STAYS, ROUNDING, "-0")                                                                  \
    X(GREATEST_FLOAT, ROUNDING, "to the greatest number, and was above")                           \
    X(OVERFLOW_TIE, ROUNDING, "2^128 - 2^103, to an infinity")                                     \
    X(OVERFLOW, ROUNDING, "above it, to an infinity")                                              \
    X(INFINITY_KEPT, ROUNDING, "an infinity")                                                      \
    X(ROUNDED_NAN, ROUNDING, "a NaN")

/* The same for what is packed, and for how it is refused, beside the pair. */
#define PACKING_WAYS(X)                                                                            \
    X(NONE_TAKEN, PACKING, "0: no place is taken of either")                                       \
    X(BOTH_TAKEN, PACKING, "0: places are taken of both")                                          \
    X(BEHIND_GRID, PACKING, "0: behind another grid")                                              \
    X(FULL, PACKING, "0: no place is left of either")                                              \
    X(SURPLUS, PACKING, "0: places are left of both")                                              \
    X(NO_IDS, PACKING, "0: no cell has an id")                                                     \
    X(NO_TRIPLES, PACKING, "0: no triples")                                                        \
    X(LARGE_CELL, PACKING, "0: a cell with over 32 ids")                                           \
    X(MANY_TRIANGLES, PACKING, "0: a vertex with over 32 triangles")                               \
    X(FALLING_IDS, PACKING, "0: a cell whose ids don't ascend")                                    \
    X(FALLING_TRIPLE, PACKING, "0: a triple that doesn't ascend")                                  \
    X(PACKED_INEXACT, PACKING, "0: a coordinate that is rounded")                                  \
    X(PACKED_TIE, PACKING, "0: a coordinate that is a tie")                                        \
    X(PACKED_SUBNORMAL, PACKING, "0: a coordinate, to a subnormal number")                         \
    X(PACKED_LOWER_ZERO, PACKING, "0: a coordinate, to -0")                                        \
    X(OFFSET_GREATEST, PACKING, "0: the last list at 4294967295")                                  \
    X(OFFSET_BEFORE, PACKING, "0: the last list below, its end above")                             \
    X(FLOATS_GREATEST, PACKING, "0: the positions at 4294967295")                                  \
    X(CELLS_FIRST, PACKING, "17: the first cell start isn't 0")                                    \
    X(CELLS_BELOW, PACKING, "17: the last is below the count of ids")                              \
    X(CELLS_ABOVE, PACKING, "17: the last is above the count of ids")                              \
    X(CELLS_AND_TRIANGLES, PACKING, "17: of cells, and of triangles")                              \
    X(TRIANGLES_FIRST, PACKING, "17: the first triangle start isn't 0")                            \
    X(TRIANGLES_BELOW, PACKING, "17: triples behind the last one")                                 \
    X(TRIANGLES_ABOVE, PACKING, "17: the last one past the triples")                               \
    X(TRIANGLES_THIRD, PACKING, "17: triples cut within one")                                      \
    X(TRIANGLES_WRAP, PACKING, "17: three times the last fits in 32 bits")                        \
    X(TRIANGLES_AND_FALL, PACKING, "17: of triangles, and a cell start falls")                     \
    X(CELLS_FALL_FIRST, PACKING, "18: in the cells, at 2")                                         \
    X(CELLS_FALL_MIDDLE, PACKING, "18: in the cells, between")                                     \
    X(CELLS_FALL_LAST, PACKING, "18: in the cells, at the last start")                             \
    X(CELLS_FALL_AGAIN, PACKING, "18: in the cells, and a later one falls")                        \
    X(BOTH_FALL, PACKING, "18: in the cells, and in the triangles")                                \
    X(TRIANGLES_FALL_FIRST, PACKING, "18: in the triangles, at 2")                                 \
    X(TRIANGLES_FALL_MIDDLE, PACKING, "18: in the triangles, between")                             \
    X(TRIANGLES_FALL_LAST, PACKING, "18: in the triangles, at the last start")                     \
    X(TRIANGLES_FALL_AGAIN, PACKING, "18: in the triangles, and a later one")                      \
    X(FALL_AND_ID, PACKING, "18: and an id that 4 refuses")                                        \
    X(CELL_ID, PACKING, "4: a cell's id")                                                          \
    X(TRIPLE_ID, PACKING, "4: a triple's")                                                         \
    X(BOTH_IDS, PACKING, "4: ids of both")                                                         \
    X(ID_AND_POSITION, PACKING, "4: and a position that 5 refuses")                                \
    X(POSITION, PACKING, "5: a position")                                                          \
    X(POSITION_NAN, PACKING, "5: a position with a NaN")                                           \
    X(POSITION_AND_ROOM, PACKING, "5: and too little room")                                        \
    X(WORD_SHORT, PACKING, "8: one word too few")                                                  \
    X(FLOAT_SHORT, PACKING, "8: one float too few")                                                \
    X(WORDS_FULL, PACKING, "8: all words are taken")                                               \
    X(FLOATS_FULL, PACKING, "8: all floats are taken")                                             \
    X(WORDS_PAST, PACKING, "8: one word more is taken than there are")                             \
    X(FLOATS_PAST, PACKING, "8: one float more is taken")                                          \
    X(WORDS_ALL, PACKING, "8: 2^64 - 1 words are taken")                                           \
    X(FLOATS_ALL, PACKING, "8: 2^64 - 1 floats are taken")                                         \
    X(WORDS_WRAP, PACKING, "8: words whose sum wraps to a fitting one")                            \
    X(FLOATS_WRAP, PACKING, "8: floats whose sum wraps so")                                        \
    X(OFFSET_ABOVE, PACKING, "8: the last list at 4294967296")                                     \
    X(FLOATS_ABOVE, PACKING, "8: the positions at 4294967296")                                     \
    X(ALL_ABOVE, PACKING, "8: the first list at 4294967296")

/* The same for steps between two vertices and for lists of vertices: how these calls are refused
 * behind the rows of the mesh, and what is found. A walk is the one from the first vertex to its
 * end. */
#define SEARCH_WAYS(X)                                                                             \
    X(VERTEX_NEXT, SEARCHES, "14: the vertex count")                                               \
    X(VERTEX_GREATEST, SEARCHES, "14: 4294967295")                                                 \
    X(VERTEX_LOW_BITS, SEARCHES, "14: low 16 bits below the count")                                \
    X(FIRST_VERTEX, STEPPING, "14: the first vertex alone")                                        \
    X(SECOND_VERTEX, STEPPING, "14: the second vertex alone")                                      \
    X(EQUAL_AND_VERTEX, STEPPING, "14: both ends are one vertex")                                  \
    X(VERTEX_AND_ROOM, SEARCHES, "14: and too little room")                                        \
    X(ORDER_SHORT, SEARCHES, "8: the order alone, one place too short")                            \
    X(QUEUE_SHORT, STEPPING, "8: the queue alone, one place too short")                            \
    X(LIST_SHORT, LISTING, "8: the list alone, one place too short")                               \
    X(SCRATCH_A_VERTEX, SEARCHES, "8: scratch with a place a vertex")                              \
    X(EQUAL_AND_ROOM, STEPPING, "8: both ends are one vertex")                                     \
    X(ROOM_AND_NO_PATH, STEPPING, "8: and no path leads to the target")                            \
    X(NO_PATH, STEPPING, "15: no entry is read")                                                   \
    X(NO_PATH_READ, STEPPING, "15: entries are read")                                              \
    X(NO_PATH_BACK, STEPPING, "15: a path leads back")                                             \
    X(EQUAL, STEPPING, "0: both ends are one vertex")                                              \
    X(EQUAL_OWN, STEPPING, "0: both ends are one, in its own list")                                \
    X(ONE_STEP, STEPPING, "0: one step")                                                           \
    X(MANY_STEPS, STEPPING, "0: over 100 steps")                                                   \
    X(OWN_ENTRY, STEPPING, "0: the first vertex in its own list")                                  \
    X(MET_FIRST, STEPPING, "0: met in the first place of several")                                 \
    X(MET_LAST, STEPPING, "0: met in the last place of several")                                   \
    X(MET_TWICE, STEPPING, "0: the target twice in one list")                                      \
    X(READ_ALL, STEPPING, "0: met at the walk's last entry")                                       \
    X(ONE_WAY, STEPPING, "0: no path leads back")                                                  \
    X(OTHER_BACK, STEPPING, "0: another number of steps back")                                     \
    X(NO_STEP, LISTING, "0: 0 steps")                                                              \
    X(ALONE, LISTING, "0: steps, but the vertex alone")                                            \
    X(FARTHEST_NEARLY, LISTING, "0: a step fewer than to the farthest")                            \
    X(FARTHEST, LISTING, "0: as many as to the farthest")                                          \
    X(FARTHEST_PAST, LISTING, "0: a step more than to the farthest")                               \
    X(STEPS_LOW_BITS, LISTING, "0: low 32 bits would give fewer")                                  \
    X(ALL_STEPS, LISTING, "0: 2^64 - 1 steps")                                                     \
    X(ISLAND, LISTING, "0: not all of the mesh is reached")                                        \
    X(ROOM_BEHIND, LISTING, "0: places below the count are left")                                  \
    X(SHORT_LIST, LISTING, "0: a list that is shorter than scratch")

/* The same for the walk over all islands. An island is in a row where its ids are those from its
 * root on. */
#define ISLAND_WAYS(X)                                                                             \
    X(NUMBERS_SHORT, ISLANDS, "8: the order alone, one place too short")                           \
    X(IDS_SHORT, ISLANDS, "8: the queue alone, one place too short")                               \
    X(STARTS_SHORT, ISLANDS, "8: the starts alone, one place too short")                           \
    X(STARTS_AN_ISLAND, ISLANDS, "8: the starts alone, a place an island")                         \
    X(ONE_VERTEX, ISLANDS, "0: one vertex")                                                        \
    X(ONE_ISLAND, ISLANDS, "0: one island of several vertices")                                    \
    X(NO_ENTRIES, ISLANDS, "0: several vertices and no entry")                                     \
    X(EACH_ALONE, ISLANDS, "0: each vertex an island, with entries")                               \
    X(MANY_ISLANDS, ISLANDS, "0: over 100 islands")                                                \
    X(FIRST_ALONE, ISLANDS, "0: vertex 0 alone, before others")                                    \
    X(LAST_ALONE, ISLANDS, "0: the last id alone, behind others")                                  \
    X(MUTUAL_IN_ROW, ISLANDS, "0: mutual, each island in a row")                                   \
    X(MUTUAL_MIXED, ISLANDS, "0: mutual, an island not in a row")                                  \
    X(NAMES_EARLIER, ISLANDS, "0: an entry names an earlier island")                               \
    X(NOT_BACK, ISLANDS, "0: an island doesn't lead back to its root")                             \
    X(ISLANDS_ROW_5, ISLANDS, "0: a position that 5 refuses")                                      \
    X(STARTS_BEHIND, ISLANDS, "0: places below the count are left")                                \
    X(NUMBERING_SURPLUS, ISLANDS, "0: surplus in all three")

#define WAYS(X)                                                                                    \
    START_WAYS(X)                                                                                  \
    PAIR_WAYS(X)                                                                                   \
    CONVERSION_WAYS(X)                                                                             \
    MARK_WAYS(X)                                                                                   \
    MINIMUM_WAYS(X)                                                                                \
    ROUNDING_WAYS(X)                                                                               \
    PACKING_WAYS(X)                                                                                \
    SEARCH_WAYS(X)                                                                                 \
    ISLAND_WAYS(X)

#define WAY(name, calls, text) WAY_##name,
typedef enum way { WAYS(WAY) WAY_COUNT } way;
#undef WAY

/* The first way of the pairs, of the conversions, of the marks, of the minima, of the roundings, of
 * the packings, of the searches and of the islands. */
enum {
    WAY_PAIRS = WAY_FACTOR_NAN,
    WAY_CONVERSIONS = WAY_KEPT,
    WAY_MARKS = WAY_MARK_SET,
    WAY_MINIMA = WAY_UPPER_ZERO_FIRST,
    WAY_ROUNDINGS = WAY_EXACT,
    WAY_PACKINGS = WAY_NONE_TAKEN,
    WAY_SEARCHES = WAY_VERTEX_NEXT,
    WAY_ISLANDS = WAY_NUMBERS_SHORT
};

/* The call was answered by this row; 0: accepted. */
void count(entry of, uint32_t row);

/* The call was answered in this way; an answer may have several. */
void count_way(entry of, way met);

/* The lattice of this frequency, from 1 to 80, was built. */
void count_lattice(uint32_t frequency);

/* A grid of this side was built, with so many conversions held at an end. */
void count_built(uint32_t side, uint32_t held);

/* A mesh of so many lists was renumbered, of which so many fell before they were sorted. */
void count_renumbered(size_t lists, size_t falling);

/* A grid was packed into so many words and floats. */
void count_packed(size_t words, size_t floats);

/* Ends the run unless the fact holds. */
void hold(entry of, bool fact, const char *what);

/* The number that a call returned beside the one that it should. */
void hold_row(entry of, uint32_t expected, uint32_t returned);

/* The index beside it; with every number but 18 it has to be 0. */
void hold_index(entry of, uint32_t row, size_t expected, size_t returned);

/* Reads the limits: KOSHIRGA_FUZZ_CALLS and KOSHIRGA_FUZZ_SECONDS, whichever comes first. */
void tally_begin(void);

/* To be called after each input. Where a limit is reached it prints the tables and ends the
 * program, with status 0; 1 where an entry point wasn't called or a way not met. */
void tally_input(void);

#endif
