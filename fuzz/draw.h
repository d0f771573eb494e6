/* Draws inputs. Decisions are taken from the fuzzer's bytes as long as they last, and then, like
 * all bulk, from numbers that follow from these bytes: the same bytes give the same calls. */
#ifndef DRAW_H
#define DRAW_H

#include "reading.h"

typedef struct draw {
    const uint8_t *bytes;
    size_t length, at;
    uint64_t state;
} draw;

draw draw_from(const uint8_t *bytes, size_t length);

/* Any 64 bits. */
uint64_t any_bits(draw *d);

/* A number below n, which is above 0. */
uint32_t below(draw *d, uint32_t n);

bool one_in(draw *d, uint32_t n);

/* Any double: bit patterns, special values, whole numbers, and numbers about 1. */
double any_double(draw *d);

/* A number to be converted to a whole one: at an end of the signed range, to some ulps, one whose
 * last bit is worth about 1, or any. */
double any_converted(draw *d);

/* A number to be rounded to binary32: such a number, halfway between two, or some ulps beside
 * these; its magnitude any, about the greatest, among the subnormals or about half the least one.
 * Or any double. */
double any_rounded(draw *d);

/* The bits of an operand of a minimum: zeros, infinities and NaNs of both signs, the NaNs quiet and
 * signaling with any payload, small numbers, and any. Bits, as not every machine passes a signaling
 * NaN as it is. */
uint64_t operand_bits(draw *d);

/* Those of another operand beside it: the same, of the other sign, some ulps from it, or any. */
uint64_t other_operand_bits(draw *d, uint64_t bits);

/* From -1 to 1. */
double signed_unit(draw *d);

koshirga_vector3 any_vector(draw *d);

/* Directions: on the sphere, at lattice points, along axes and diagonals, long ones about the
 * icosahedron's vertices, at the ends of row 9, and any at all. */
koshirga_vector3 any_direction(draw *d);

/* The most places that any_length adds. */
enum { SURPLUS_MAX = 40 };

/* The places of a buffer for the graphics card, and how many of them are taken. */
typedef struct buffer {
    size_t length, taken;
    bool far; /* as lend_far makes it: there are at least FAR_TOUCHED places */
} buffer;

/* A buffer into which so many elements are packed: room enough as a rule, one place too few or
 * more, the taken ones up to the end, past it, or so many that a sum would wrap. */
buffer any_buffer(draw *d, size_t needed);

/* A far buffer. `before` elements of the needed ones stand before the last list, whose offset is
 * about 2^32. */
buffer any_far_buffer(draw *d, size_t before, size_t needed);

/* A length for a slice of which `needed` places are needed: enough as a rule, too short at times.
 */
size_t any_length(draw *d, size_t needed);

/* Row 19 lets it pass: the ends, 1.2, the doubles next to these, halves, doubles at which the side
 * of this count, which is above 0, steps, and any between. */
double allowed_factor(draw *d, size_t count);

/* Row 19 lets it pass, and the side of this count, which is above 0, is the given one as a rule,
 * where a factor has it. */
double factor_of_side(draw *d, uint32_t side, size_t count);

/* Row 19 refuses it, but for some of any bits: the doubles next to the ends, NaNs of both signs and
 * all payloads, infinities, zeros, negatives, subnormals. */
double wrong_factor(draw *d);

/* Row 20 refuses it: 4 or a little more, the greatest, low bits that alone would pass, any. */
uint32_t wrong_margin(draw *d);

/* A pair for a count above 0: the usual one as a rule; allowed ones; one of both wrong, or both. */
settings any_settings(draw *d, size_t count);

/* Room in which a mesh is drawn and then damaged. */
enum {
    POSITIONS_ROOM = 3 * (VERTEX_MAX + 2),
    STARTS_ROOM = VERTEX_MAX + 4,
    ENTRIES_ROOM = 8 * VERTEX_MAX
};

/* A mesh in rooms of its own, good till the next call: a lattice, a random mesh, a fan, one at the
 * limit of the count, or any slices. */
mesh any_mesh(draw *d);

/* A path of some hundred vertices in the same rooms, one way or both ways, cut at times. */
mesh long_path(draw *d);

/* A mesh of several parts side by side in the same rooms: vertices alone, rings, stars, lattices,
 * paths one way, random lists; at times the ids are mixed, an entry leads to another part, or the
 * last id is alone. */
mesh island_mesh(draw *d);

/* A mesh in the same rooms, and so many directions to ask for in it: three to five vertices, each a
 * neighbour of all others, at small numbers and zeros of both signs. Two of them are so close that
 * the square of their distance is about the least double above 0, or all stand on a line, one of
 * them that close to a zero itself. For directions beside these products underflow, and weights are
 * zeros of both signs at times. */
mesh close_mesh(draw *d, koshirga_vector3 *directions, int asked);

/* Sorts the lists of a mesh that passes its rows, or doesn't; then makes one pair fall at times. */
void arrange_lists(draw *d, mesh *m);

/* Puts one thing of it wrong, or nothing at times. */
void damage_mesh(draw *d, mesh *m);

/* A vertex of so many: below the count as a rule; or the count, a little more, far above, the
 * greatest, one whose low 16 bits alone are below the count. */
uint32_t any_vertex(draw *d, size_t count);

/* A number of steps: up to 3, about those to the farthest vertex, one whose low 32 bits alone are
 * few, 2^64 - 1 or a little less, or any. */
size_t any_steps(draw *d, uint32_t farthest);

/* Makes starts fall at one place or at several; there are two at least, the last at `last`. */
void damage_falls(draw *d, uint32_t *starts, size_t last);

/* count numbers, a permutation of those below it: none moved, reversed, turned or random. */
void any_permutation(draw *d, uint32_t *permutation, size_t count);

#endif
