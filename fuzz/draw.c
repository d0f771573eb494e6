#include "draw.h"

#include <math.h>
#include <string.h>

typedef koshirga_vector3 vector;

#define ELEMENTS(table) ((uint32_t)(sizeof(table) / sizeof *(table)))

draw draw_from(const uint8_t *bytes, size_t length) {
    uint64_t hash = UINT64_C(0xcbf29ce484222325); /* FNV-1a */
    for (size_t i = 0; i < length; i++)
        hash = (hash ^ bytes[i]) * UINT64_C(0x100000001b3);
    return (draw){bytes, length, 0, hash};
}

/* splitmix64 */
uint64_t any_bits(draw *d) {
    uint64_t z = d->state += UINT64_C(0x9e3779b97f4a7c15);
    z = (z ^ z >> 30) * UINT64_C(0xbf58476d1ce4e5b9);
    z = (z ^ z >> 27) * UINT64_C(0x94d049bb133111eb);
    return z ^ z >> 31;
}

uint32_t below(draw *d, uint32_t n) {
    if (d->at == d->length)
        return (uint32_t)((any_bits(d) >> 32) * n >> 32);
    uint64_t value = 0, range = 1;
    while (range < n && d->at < d->length) { /* as many bytes as n has */
        value = value << 8 | d->bytes[d->at++];
        range <<= 8;
    }
    return (uint32_t)(value % n);
}

bool one_in(draw *d, uint32_t n) { return below(d, n) == 0; }

/* ---- numbers */

double signed_unit(draw *d) { return (double)(int64_t)any_bits(d) * 0x1p-63; }

static double special(draw *d) {
    static const double TABLE[] = {
        0.0, 1.0, 0.5, 1.5, 2.25, 1e-12, 0x1p20, 0x1p-20, 0x1p40, 0x1p-40, 0x1p52, 0x1p53, 0x1p63,
        0x1p511, 0x1p-537, 0x1p-1022, 0x1p-1074, 0x1.0000000000001p0, 0x1.fffffffffffffp-1,
        0x1.6a09e667f3bcdp19, 0x1.fffffffffffffp62, 0x1.fffffffffffffp1023, INFINITY, NAN};
    static const uint64_t NANS[] = {0x7ff0000000000001, 0x7ff8000000000000, 0x7fffffffffffffff,
                                    0xfff0000000000001, 0xfff8000000000001};
    uint32_t which = below(d, 2 * ELEMENTS(TABLE) + ELEMENTS(NANS));
    if (which < 2 * ELEMENTS(TABLE))
        return which % 2 ? -TABLE[which / 2] : TABLE[which / 2];
    return from_bits(NANS[which - 2 * ELEMENTS(TABLE)]);
}

double any_double(draw *d) {
    switch (below(d, 8)) {
    case 0: return special(d);
    case 1: return from_bits(any_bits(d));
    case 2: return (double)below(d, 9) - 4;
    case 3: return (double)below(d, 65536) / 2 - 16384;
    case 4: return ldexp(signed_unit(d), (int)below(d, 60) - 30);
    case 5: return ldexp(signed_unit(d), (int)below(d, 2160) - 1080);
    case 6: { /* some ulps beside a special value */
        uint64_t bits = bits_of(special(d));
        return from_bits(bits + below(d, 7) - 3);
    }
    default: return signed_unit(d);
    }
}

/* The number that a pattern of binary32 is. */
static double value_of(uint32_t bits) {
    float x;
    memcpy(&x, &bits, sizeof x);
    return (double)x;
}

double any_converted(draw *d) {
    double magnitude;
    switch (below(d, 4)) {
    case 0: magnitude = from_bits(bits_of(0x1p63) + below(d, 5) - 2); break;
    case 1: /* of up to 53 bits */
        magnitude = ldexp((double)(any_bits(d) >> (11 + below(d, 53))), (int)below(d, 8) - 4);
        break;
    default: return any_double(d);
    }
    return one_in(d, 2) ? magnitude : -magnitude;
}

double any_rounded(draw *d) {
    enum { GREATEST = 0x7f7fffff, LEAST_NORMAL = 0x00800000 }; /* patterns of binary32 */
    uint32_t bits = (uint32_t)(any_bits(d) % GREATEST);
    double magnitude, next;
    switch (below(d, 8)) {
    case 0: bits = GREATEST - below(d, 2); break;
    case 1: bits = below(d, 3); break;
    case 2: bits = (uint32_t)(any_bits(d) % LEAST_NORMAL); break;
    case 3: bits = LEAST_NORMAL + below(d, 5) - 2; break;
    case 4: bits = (uint32_t)(127 - below(d, 20)) << 23 | (uint32_t)(any_bits(d) >> 41); break;
    case 5: bits = (1 + below(d, 254)) << 23 | (one_in(d, 2) ? 0x7fffff : 0); break;
    case 6: return any_double(d);
    default: break;
    }
    magnitude = value_of(bits);
    next = bits == GREATEST ? 0x1p128 : value_of(bits + 1);
    if (one_in(d, 4))
        next = magnitude;
    magnitude += (next - magnitude) / 2;
    if (one_in(d, 2) && magnitude > 0)
        magnitude = from_bits(bits_of(magnitude) + below(d, 5) - 2);
    return one_in(d, 2) ? magnitude : -magnitude;
}

static const uint64_t SIGN = UINT64_C(1) << 63, INFINITE = UINT64_C(2047) << 52;

/* A NaN with any payload; the first fraction bit makes it quiet (IEEE 754-2019, 6.2.1). */
static uint64_t quiet_nan(draw *d) { return INFINITE | UINT64_C(1) << 51 | any_bits(d) >> 13; }

static uint64_t signaling_nan(draw *d) { return INFINITE | any_bits(d) >> 13 | 1; }

uint64_t operand_bits(draw *d) {
    uint64_t sign = one_in(d, 2) ? SIGN : 0;
    switch (below(d, 8)) {
    case 0:
    case 1: return sign; /* a zero */
    case 2: return sign | INFINITE;
    case 3: return sign | quiet_nan(d);
    case 4: return sign | signaling_nan(d);
    case 5: return sign | (1 + below(d, 3)); /* next to zero */
    case 6: return sign | bits_of(1 + below(d, 2));
    default: return bits_of(any_double(d));
    }
}

uint64_t other_operand_bits(draw *d, uint64_t bits) {
    switch (below(d, 8)) {
    case 0: return bits;
    case 1: return bits ^ SIGN;
    case 2: return bits + below(d, 5) - 2;
    default: return operand_bits(d);
    }
}

vector any_vector(draw *d) {
    switch (below(d, 4)) {
    case 0: return (vector){any_double(d), any_double(d), any_double(d)};
    case 1: return any_direction(d);
    default: return (vector){signed_unit(d), signed_unit(d), signed_unit(d)};
    }
}

static vector lattice_point(draw *d) {
    const lattice *l = lattice_of(1 + below(d, 4));
    const double *p = l->positions + 3 * below(d, (uint32_t)l->vertices);
    return (vector){p[0], p[1], p[2]};
}

/* The squared length is at an end of rows 5 and 9, or just beyond it. */
static vector at_an_end(draw *d) {
    double length = one_in(d, 2) ? 0x1p20 : 0x1p-20;
    vector v = {0, 0, 0};
    double *part[3] = {&v.x, &v.y, &v.z};
    *part[below(d, 3)] = from_bits(bits_of(one_in(d, 2) ? length : -length) + below(d, 5) - 2);
    if (one_in(d, 2))
        v = expected_scale(lattice_point(d), length);
    return v;
}

/* About an icosahedron vertex. Long ones, off by no more than some ulps, have flag sums above 3. */
static vector about_a_corner(draw *d) {
    const double *p = lattice_of(1)->positions + 3 * below(d, 12);
    double off = one_in(d, 4) ? ldexp(1, -(int)below(d, 50)) : 0x1p-52;
    double length =
        one_in(d, 4) ? ldexp(1, (int)below(d, 41) - 20) : ldexp(1, 12 + (int)below(d, 8));
    vector moved = {p[0] + signed_unit(d) * off, p[1] + signed_unit(d) * off,
                    p[2] + signed_unit(d) * off};
    return expected_scale(moved, length * (1.5 + 0.5 * signed_unit(d)));
}

/* From -1 to 1, in halves, with zeros of both signs. */
static double half(draw *d) {
    static const double HALVES[] = {-1, -0.5, -0.0, 0, 0.5, 1};
    return HALVES[below(d, ELEMENTS(HALVES))];
}

vector any_direction(draw *d) {
    switch (below(d, 12)) {
    case 0: return (vector){any_double(d), any_double(d), any_double(d)};
    case 1: return at_an_end(d);
    case 2: return (vector){half(d), half(d), half(d)};
    case 3: return about_a_corner(d);
    case 4: return expected_scale(lattice_point(d), ldexp(1, (int)below(d, 41) - 20));
    case 5: return expected_plus(lattice_point(d), lattice_point(d)); /* on an edge's plane */
    case 6:
        return expected_plus(lattice_point(d), expected_plus(lattice_point(d), lattice_point(d)));
    default: return (vector){signed_unit(d), signed_unit(d), signed_unit(d)};
    }
}

size_t any_length(draw *d, size_t needed) {
    switch (below(d, 16)) {
    case 0: return needed ? needed - 1 : 0;
    case 1: return one_in(d, 4) ? 0 : (size_t)(any_bits(d) % (needed + 1));
    case 2:
    case 3: return needed + 1 + below(d, 4);
    case 4: return needed + below(d, SURPLUS_MAX + 1);
    default: return needed;
    }
}

/* ---- buffers */

buffer any_buffer(draw *d, size_t needed) {
    size_t taken = one_in(d, 3) ? 0 : below(d, SURPLUS_MAX + 1);
    buffer b = {any_length(d, taken + needed), taken, false};
    switch (below(d, 32)) {
    case 0: b.taken = b.length; break;
    case 1: b.taken = b.length + 1; break;
    case 2: b.taken = SIZE_MAX - (one_in(d, 2) ? 0 : below(d, 3)); break;
    case 3: b.taken = 0 - needed + below(d, SURPLUS_MAX); break; /* with the needed ones it wraps */
    case 4: b.taken = (size_t)any_bits(d); break;
    case 5: b.taken += (size_t)1 << 32; break; /* its low bits alone would fit */
    default: break;
    }
    return b;
}

buffer any_far_buffer(draw *d, size_t before, size_t needed) {
    size_t offset = ((size_t)1 << 32) + below(d, 5) - 3;
    buffer b = {0, one_in(d, 4) ? offset : offset - before, true};
    b.length = b.taken + needed + (one_in(d, 2) ? 0 : below(d, SURPLUS_MAX));
    b.length -= one_in(d, 8);
    return b;
}

/* ---- pairs */

/* Some ulps from a number above 0, the next double as a rule. */
static double beside(draw *d, double x, bool above) {
    uint64_t ulps = one_in(d, 4) ? 2 + below(d, 3) : 1;
    return from_bits(above ? bits_of(x) + ulps : bits_of(x) - ulps);
}

/* The root of a sixth of the count times this is a whole number, or some ulps beside one. */
static double at_a_step(draw *d, size_t count) {
    double root = sqrt((double)count / 6);
    double whole = 1 + (double)below(d, 1 + (uint32_t)(root * FACTOR_GREATEST));
    return from_bits(bits_of(whole / root) + below(d, 5) - 2);
}

double allowed_factor(draw *d, size_t count) {
    double step = at_a_step(d, count);
    switch (below(d, 8)) {
    case 0: return one_in(d, 2) ? FACTOR_LEAST : FACTOR_GREATEST;
    case 1: return one_in(d, 2) ? beside(d, FACTOR_LEAST, true) : beside(d, FACTOR_GREATEST, false);
    case 2: return one_in(d, 4) ? 1.2 : beside(d, 1.2, one_in(d, 2));
    case 3: return 0.5 + 0.5 * below(d, 8);
    case 4:
    case 5:
        if (step >= FACTOR_LEAST && step <= FACTOR_GREATEST)
            return step;
        break;
    default: break;
    }
    return 2.25 + 1.75 * signed_unit(d);
}

double factor_of_side(draw *d, uint32_t side, size_t count) {
    double cells = (double)side - 0.5 - 0.5 * signed_unit(d);
    return fmin(fmax(cells / sqrt((double)count / 6), FACTOR_LEAST), FACTOR_GREATEST);
}

double wrong_factor(draw *d) {
    uint64_t sign = one_in(d, 2) ? SIGN : 0;
    switch (below(d, 10)) {
    case 0: return beside(d, FACTOR_LEAST, false);
    case 1: return beside(d, FACTOR_GREATEST, true);
    case 2: return from_bits(sign | quiet_nan(d));
    case 3: return from_bits(sign | signaling_nan(d));
    case 4: return sign ? -INFINITY : INFINITY;
    case 5: return sign ? -0.0 : 0.0;
    case 6: return -allowed_factor(d, 1 + below(d, 9));
    case 7: return from_bits(sign | any_bits(d) >> 12 | 1); /* below every normal number */
    case 8: return sign ? 4.5 + 0.5 * below(d, 100) : 0.49 * fabs(signed_unit(d));
    default: return one_in(d, 2) ? from_bits(any_bits(d)) : any_double(d);
    }
}

uint32_t wrong_margin(draw *d) {
    switch (below(d, 5)) {
    case 0: return MARGIN_MAX + 1;
    case 1: return MARGIN_MAX + 2 + below(d, 8);
    case 2: return (UINT32_C(1) << (8 + below(d, 24))) + below(d, MARGIN_MAX + 1);
    case 3: return UINT32_MAX - below(d, 3);
    default: return MARGIN_MAX + 1 + (uint32_t)(any_bits(d) % (UINT32_MAX - MARGIN_MAX));
    }
}

settings any_settings(draw *d, size_t count) {
    if (!one_in(d, count > 5000 ? 2 : 4)) /* so large a count is rare */
        return USUAL_PAIR;
    settings pair = {allowed_factor(d, count), below(d, MARGIN_MAX + 1)};
    uint32_t wrong = below(d, 12);
    if (wrong < 3)
        pair.factor = wrong_factor(d);
    if (wrong >= 2 && wrong < 5)
        pair.margin = wrong_margin(d);
    return pair;
}

/* ---- meshes */

static double positions_room[POSITIONS_ROOM];
static uint32_t starts_room[STARTS_ROOM];
static uint16_t entries_room[ENTRIES_ROOM];

static mesh room(void) {
    return (mesh){.positions = positions_room, .starts = starts_room, .entries = entries_room};
}

static void append_position(mesh *m, vector v) {
    memcpy(m->positions + m->positions_length, &v, sizeof v);
    m->positions_length += 3;
}

static void append_entry(mesh *m, size_t id) { m->entries[m->entries_length++] = (uint16_t)id; }

/* Ends the list of the next vertex, or gives the first start. */
static void append_start(mesh *m) { m->starts[m->starts_length++] = (uint32_t)m->entries_length; }

static mesh lattice_mesh(uint32_t frequency) {
    const lattice *l = lattice_of(frequency);
    mesh m = room();
    m.positions_length = l->positions_length;
    m.starts_length = l->starts_length;
    m.entries_length = l->entries_length;
    memcpy(m.positions, l->positions, l->positions_length * sizeof *l->positions);
    memcpy(m.starts, l->starts, l->starts_length * sizeof *l->starts);
    memcpy(m.entries, l->entries, l->entries_length * sizeof *l->entries);
    return m;
}

/* Almost edge-on to a cube face: a component is so small that another one divided by it is past the
 * signed range as a rule, or overflows. Or it is such, to an ulp, that the other's cells are an end
 * of this range: with a side of 2 as a rule, with 4, 8 or 16 at times. */
static vector almost_edge_on(draw *d, vector v) {
    double *part[3] = {&v.x, &v.y, &v.z};
    uint32_t which = below(d, 3);
    double *small = part[which], other = *part[(which + 1 + below(d, 2)) % 3];
    if (one_in(d, 2)) {
        *small = ldexp(*small, -(int)below(d, 1075));
        return v;
    }
    int exponent = one_in(d, 2) ? -63 : -60 - (int)below(d, 4);
    *small = from_bits(bits_of(ldexp(one_in(d, 2) ? other : -other, exponent)) + below(d, 3) - 1);
    return v;
}

/* Row 5 passes. */
static vector any_position(draw *d) {
    for (;;) {
        vector v = {signed_unit(d), signed_unit(d), signed_unit(d)};
        switch (below(d, 16)) {
        case 0:
            v = almost_edge_on(d, v);
            v = one_in(d, 4) ? almost_edge_on(d, v) : v;
            break;
        case 1: v.y = one_in(d, 2) ? 0.0 : -0.0; break;
        case 2: v = lattice_point(d); break;
        case 3: v = at_an_end(d); break;
        case 4: v = expected_scale(v, ldexp(1, (int)below(d, 41) - 20)); break;
        case 5: v.z = v.x; break;
        default: break;
        }
        if (expected_direction(v) == 0)
            return v;
    }
}

/* Lists with repeats and own vertices; a neighbour need not list back; at times an island, and at
 * times no list of two entries. */
static mesh random_mesh(draw *d) {
    mesh m = room();
    uint32_t count = 1 + below(d, one_in(d, 4) ? 40 : 9);
    uint32_t longest = one_in(d, 8) ? LIST_MAX : one_in(d, 16) ? below(d, 2) : 7;
    uint32_t cut = one_in(d, 4) ? below(d, count) : count;
    append_start(&m);
    for (uint32_t v = 0; v < count; v++) {
        append_position(&m, any_position(d));
        uint32_t low = v < cut ? 0 : cut, high = v < cut ? cut : count;
        for (uint32_t i = below(d, longest + 1); i > 0; i--)
            append_entry(&m, low + below(d, high - low));
        append_start(&m);
    }
    return m;
}

/* A ring of vertices about one or two poles: mutual lists, with a triangle at each edge. */
static mesh fan_mesh(draw *d) {
    mesh m = room();
    uint32_t ring = 3 + below(d, LIST_MAX - 2), poles = 1 + below(d, 2);
    append_start(&m);
    for (uint32_t v = 0; v < ring + poles; v++) {
        double angle = 6.283185307179586 * v / ring;
        bool pole = v >= ring;
        append_position(&m, pole ? (vector){0, 0, v == ring ? 1 : -1}
                                 : (vector){cos(angle), sin(angle), 0});
        for (uint32_t i = 0; pole && i < ring; i++)
            append_entry(&m, i);
        if (!pole) {
            append_entry(&m, (v + 1) % ring);
            append_entry(&m, (v + ring - 1) % ring);
            for (uint32_t i = 0; i < poles; i++)
                append_entry(&m, ring + i);
        }
        append_start(&m);
    }
    return m;
}

static vector turned(vector v, uint32_t times) {
    for (; times > 0; times--)
        v = (vector){v.y, v.z, v.x};
    return v;
}

static double any_zero(draw *d) { return one_in(d, 2) ? 0.0 : -0.0; }

/* Beside the x axis stands a vertex whose z is `gap`. Either another has a zero there and the same
 * x and y, and the rest stand below the two in y as a rule, and across the gap in z; or all stand
 * on a line along z, the first on the gap's side and the rest across it. */
mesh close_mesh(draw *d, vector *directions, int asked) {
    mesh m = room();
    uint32_t count = 3 + below(d, 3), turns = below(d, 3);
    uint32_t first = one_in(d, 4) ? below(d, count) : 0, last = count - 1;
    uint32_t second = first != last && one_in(d, 2) ? last : (first + 1 + below(d, last)) % count;
    bool line = one_in(d, 3);
    double gap =
        line ? ldexp(1 + below(d, 64), -1074) : ldexp(8 + below(d, 8), -538 - (int)below(d, 4));
    gap = one_in(d, 2) ? gap : -gap;
    vector at = {one_in(d, 4) ? half(d) : 1, one_in(d, 4) ? half(d) : any_zero(d), any_zero(d)};
    append_start(&m);
    for (uint32_t v = 0; v < count; v++) {
        vector other = {half(d), half(d), half(d)};
        if (line) {
            other = (vector){at.x, at.y, copysign(signed_unit(d), v == 0 ? gap : -gap)};
        } else if (one_in(d, 2)) {
            other.y = one_in(d, 2) ? -1 : -0.5;
            other.z = copysign(one_in(d, 2) ? 1 : 0.5, -gap);
        }
        vector here = v == second ? (vector){at.x, at.y, gap} : v == first && !line ? at : other;
        if (expected_direction(here)) /* row 5 */
            here.x = 1;
        append_position(&m, turned(here, turns));
        for (uint32_t w = 0; w < count; w++)
            if (w != v)
                append_entry(&m, w);
        append_start(&m);
    }
    for (int i = 0; i < asked; i++) {
        vector towards = {one_in(d, 4) ? half(d) : 1, one_in(d, 4) ? half(d) : -0.125 * below(d, 5),
                          one_in(d, 4) ? gap * half(d) : any_zero(d)};
        directions[i] = turned(towards, turns);
    }
    return m;
}

/* A path one way or both ways, which is cut at times. */
static mesh path_mesh(draw *d, uint32_t count) {
    mesh m = room();
    uint32_t cut = one_in(d, 2) ? below(d, count) : count;
    bool both_ways = one_in(d, 2);
    vector at = any_position(d);
    append_start(&m);
    for (uint32_t v = 0; v < count; v++) {
        append_position(&m, (vector){at.y, at.z, at.x});
        at = (vector){at.y, at.z, at.x};
        if (both_ways && v > 0)
            append_entry(&m, v - 1);
        if (v + 1 < count && v != cut)
            append_entry(&m, v + 1);
        append_start(&m);
    }
    return m;
}

/* 65,536 vertices, or some more or fewer. */
static mesh greatest_mesh(draw *d) { return path_mesh(d, VERTEX_MAX + 1 - below(d, 3)); }

mesh long_path(draw *d) { return path_mesh(d, 200 + below(d, 200)); }

static void append_alone(draw *d, mesh *m) {
    append_position(m, any_position(d));
    append_start(m);
}

/* Vertices behind those that there are, their neighbours among themselves. */
static void append_part(draw *d, mesh *m) {
    uint32_t before = (uint32_t)(m->positions_length / 3), kind = below(d, 8);
    uint32_t count = kind < 2 ? 1 : 2 + below(d, 7);
    const lattice *l = lattice_of(1 + below(d, 2));
    if (kind == 2)
        count = (uint32_t)l->vertices;
    for (uint32_t v = 0; v < count; v++) {
        switch (kind) {
        case 0: break; /* alone */
        case 1: append_entry(m, before); break;
        case 2:
            for (size_t e = l->starts[v]; e < l->starts[v + 1]; e++)
                append_entry(m, before + l->entries[e]);
            break;
        case 3: /* a ring */
            append_entry(m, before + (v + 1) % count);
            append_entry(m, before + (v + count - 1) % count);
            break;
        case 4: /* a star */
            for (uint32_t i = 1; v == 0 && i < count; i++)
                append_entry(m, before + i);
            if (v > 0)
                append_entry(m, before);
            break;
        case 5: /* a path downwards */
            if (v > 0)
                append_entry(m, before + v - 1);
            break;
        default:
            for (uint32_t i = below(d, 4); i > 0; i--)
                append_entry(m, before + below(d, count));
            break;
        }
        append_alone(d, m);
    }
}

/* Gives each vertex another id; its list keeps its order. */
static void mix_ids(draw *d, mesh *m) {
    static uint32_t id_of[VERTEX_MAX], starts[STARTS_ROOM];
    static uint16_t entries[ENTRIES_ROOM];
    uint32_t count = (uint32_t)(m->positions_length / 3);
    any_permutation(d, id_of, count);
    memcpy(starts, m->starts, m->starts_length * sizeof *starts);
    memcpy(entries, m->entries, m->entries_length * sizeof *entries);
    for (uint32_t v = 0; v < count; v++)
        m->starts[id_of[v] + 1] = starts[v + 1] - starts[v];
    for (uint32_t v = 0; v < count; v++)
        m->starts[v + 1] += m->starts[v];
    for (uint32_t v = 0; v < count; v++)
        for (uint32_t e = starts[v], at = m->starts[id_of[v]]; e < starts[v + 1]; e++, at++)
            m->entries[at] = (uint16_t)id_of[entries[e]];
}

mesh island_mesh(draw *d) {
    mesh m = room();
    append_start(&m);
    for (uint32_t i = below(d, 6); i > 0; i--)
        append_part(d, &m);
    for (uint32_t i = one_in(d, 12) ? 100 + below(d, 60) : 0; i > 0; i--)
        append_alone(d, &m);
    if (m.positions_length == 0)
        append_part(d, &m);
    if (one_in(d, 2))
        mix_ids(d, &m);
    if (one_in(d, 4) && m.entries_length > 0)
        m.entries[below(d, (uint32_t)m.entries_length)] =
            (uint16_t)below(d, (uint32_t)(m.positions_length / 3));
    if (one_in(d, 8))
        append_alone(d, &m);
    return m;
}

/* Any slices at all, of the fuzzer's bytes as long as they last. */
static mesh any_slices(draw *d) {
    mesh m = room();
    m.positions_length = below(d, 20);
    m.starts_length = one_in(d, 2) ? m.positions_length / 3 + 1 : below(d, 12);
    m.entries_length = below(d, 20);
    for (size_t i = 0; i < m.positions_length; i++)
        m.positions[i] = any_double(d);
    for (size_t i = 0; i < m.starts_length; i++)
        m.starts[i] = one_in(d, 8) ? (uint32_t)any_bits(d) : below(d, 20);
    if (m.starts_length > 1 && one_in(d, 2)) { /* row 17 passes, and starts fall anywhere */
        m.starts[0] = 0;
        m.starts[m.starts_length - 1] = (uint32_t)m.entries_length;
    }
    for (size_t i = 0; i < m.entries_length; i++)
        m.entries[i] = (uint16_t)(one_in(d, 8) ? any_bits(d) : below(d, 7));
    return m;
}

mesh any_mesh(draw *d) {
    uint32_t kind = below(d, 256);
    /* Large meshes are drawn whatever the next bytes are: libFuzzer changes an input many times,
     * and where bytes decided, a run would spend most of its time on large meshes, or draw few. */
    uint64_t large = any_bits(d) % 4096;
    if (large < 3)
        return greatest_mesh(d);
    if (large < 5)
        return lattice_mesh(1 + below(d, FREQUENCY_MAX));
    if (kind < 40)
        return lattice_mesh(1);
    if (kind < 70)
        return lattice_mesh(2);
    if (kind < 80)
        return lattice_mesh(3);
    if (kind == 80 && one_in(d, 16))
        return lattice_mesh(4 + below(d, 6));
    if (kind < 110)
        return fan_mesh(d);
    if (kind < 150)
        return any_slices(d);
    return random_mesh(d);
}

/* A number below n, which is above 0: the first, the last, or any. */
static uint32_t first_or_last(draw *d, uint32_t n) {
    switch (below(d, 3)) {
    case 0: return 0;
    case 1: return n - 1;
    default: return below(d, n);
    }
}

/* Exchanges the entries of a pair that rises, or of the next one that does, lists taken in a
 * ring. */
static void make_pair_fall(draw *d, mesh *m) {
    uint32_t count = (uint32_t)m->starts_length - 1, first = first_or_last(d, count);
    for (uint32_t tried = 0; tried < count; tried++) {
        uint32_t v = (first + tried) % count, length = m->starts[v + 1] - m->starts[v];
        if (length < 2)
            continue;
        uint32_t pairs = length - 1, place = first_or_last(d, pairs);
        for (uint32_t i = 0; i < pairs; i++) {
            uint16_t *pair = m->entries + m->starts[v] + (place + i) % pairs, lower = pair[0];
            if (pair[1] <= lower)
                continue;
            pair[0] = pair[1];
            pair[1] = lower;
            return;
        }
    }
}

void arrange_lists(draw *d, mesh *m) {
    bool sorted = one_in(d, 2), falls = one_in(d, 2);
    if (mesh_row(m, false).refusal)
        return;
    for (size_t v = 0; sorted && v + 1 < m->starts_length; v++)
        sort_ids(m->entries + m->starts[v], m->starts[v + 1] - m->starts[v]);
    if (falls)
        make_pair_fall(d, m);
}

/* The place of a start that is to fall: at times 1, for which the first has to be above 0; often 2,
 * the first that can fall behind a 0, or the last. */
static size_t any_fall(draw *d, size_t last) {
    switch (below(d, 8)) {
    case 0: return 1;
    case 1:
    case 2: return last < 2 ? last : 2;
    case 3:
    case 4: return last;
    default: return 1 + below(d, (uint32_t)last);
    }
}

/* Puts the start at a place, which is not the first, below the one before it: lowers it, or raises
 * that one, so far at times that the list before is over the limit. */
static void make_fall(draw *d, uint32_t *starts, size_t place) {
    uint32_t *start = starts + place;
    if (start[-1] > 0 && one_in(d, 3))
        start[0] = start[-1] - 1 - (one_in(d, 2) ? 0 : below(d, start[-1]));
    else
        start[-1] = start[0] + 1 + (one_in(d, 2) ? below(d, 3) : below(d, 3 * LIST_MAX));
}

void damage_falls(draw *d, uint32_t *starts, size_t last) {
    for (uint32_t i = one_in(d, 3) ? 2 + below(d, 2) : 1; i > 0; i--)
        make_fall(d, starts, any_fall(d, last));
}

static void damage_starts(draw *d, mesh *m) {
    if (m->starts_length < 2)
        return;
    size_t last = m->starts_length - 1;
    uint32_t *start = &m->starts[below(d, (uint32_t)m->starts_length)];
    switch (below(d, 16)) {
    case 0: m->starts[0] = 1 + below(d, 3); break;
    case 1: m->starts[last] += 1 + below(d, 3); break;
    case 2: m->starts[last] -= 1 + below(d, 3); break;
    case 3: *start = (uint32_t)any_bits(d); break;
    case 4: *start = 0; break;
    case 5: *start += below(d, 5) - 2; break;
    case 6: /* row 17 twice over, and a fall */
        m->starts[0] = 1 + below(d, 3);
        m->starts[last] += below(d, 3) - 1;
        make_fall(d, m->starts, any_fall(d, last));
        break;
    case 7:
    case 8: /* several falls */
        for (uint32_t i = 2 + below(d, 2); i > 0; i--)
            make_fall(d, m->starts, any_fall(d, last));
        break;
    default: make_fall(d, m->starts, any_fall(d, last)); break;
    }
}

/* Makes the list of a vertex longer, up to and beyond the limit. */
static void lengthen_list(draw *d, mesh *m) {
    size_t count = m->starts_length - 1;
    if (mesh_row(m, false).refusal || m->entries_length + 40 > ENTRIES_ROOM)
        return;
    uint32_t v = below(d, (uint32_t)count), end = m->starts[v + 1];
    uint32_t added = LIST_MAX - 1 + below(d, 3) - (end - m->starts[v]);
    if (added > LIST_MAX + 1)
        return;
    memmove(m->entries + end + added, m->entries + end,
            (m->entries_length - end) * sizeof *m->entries);
    for (uint32_t i = 0; i < added; i++)
        m->entries[end + i] = (uint16_t)below(d, (uint32_t)count);
    for (size_t i = v + 1; i <= count; i++)
        m->starts[i] += added;
    m->entries_length += added;
}

static void damage_position(draw *d, mesh *m) {
    size_t v = below(d, (uint32_t)(m->positions_length / 3));
    if (one_in(d, 2)) {
        m->positions[3 * v + below(d, 3)] = any_double(d);
        return;
    }
    vector end = at_an_end(d);
    memcpy(m->positions + 3 * v, &end, sizeof end);
}

void damage_mesh(draw *d, mesh *m) {
    size_t count = m->positions_length / 3;
    if (count == 0 || m->starts_length == 0)
        return;
    switch (below(d, 16)) {
    case 0: m->positions_length -= one_in(d, 4) ? m->positions_length : 1 + below(d, 3); break;
    case 1:
        if (m->positions_length < POSITIONS_ROOM)
            m->positions[m->positions_length++] = any_double(d);
        break;
    case 2:
        if (one_in(d, 4))
            damage_starts(d, m);
        m->starts_length -= one_in(d, 4) ? m->starts_length : 1;
        break;
    case 3:
        if (one_in(d, 4))
            damage_starts(d, m);
        if (m->starts_length < STARTS_ROOM) {
            m->starts[m->starts_length] = (uint32_t)m->entries_length;
            m->starts_length++;
        }
        break;
    case 4:
    case 5:
    case 6:
    case 7:
    case 8: damage_starts(d, m); break;
    case 9:
        if (m->entries_length > 0)
            m->entries_length -= one_in(d, 4) ? m->entries_length : 1;
        break;
    case 10:
    case 11:
        lengthen_list(d, m);
        if (one_in(d, 4))
            damage_starts(d, m);
        break;
    case 12:
    case 13:
        if (m->entries_length > 0)
            m->entries[below(d, (uint32_t)m->entries_length)] =
                (uint16_t)(one_in(d, 2) ? count : any_bits(d));
        break;
    default: damage_position(d, m); break;
    }
}

uint32_t any_vertex(draw *d, size_t count) {
    uint32_t id = count ? below(d, (uint32_t)count) : 0;
    switch (below(d, 40)) {
    case 0: return (uint32_t)count;
    case 1: return (uint32_t)count + 1 + below(d, 4);
    case 2: return UINT32_MAX - (one_in(d, 2) ? 0 : below(d, 3));
    case 3: return (uint32_t)any_bits(d);
    case 4: return id + 65536 * (1 + below(d, 65535));
    default: return id;
    }
}

size_t any_steps(draw *d, uint32_t farthest) {
    switch (below(d, 8)) {
    case 0: return SIZE_MAX - (one_in(d, 2) ? 0 : below(d, 3));
    case 1: return ((size_t)1 << (32 + below(d, 32))) + below(d, 4);
    case 2: return (size_t)any_bits(d);
    case 3:
    case 4: return (size_t)farthest + 1 - below(d, farthest > 0 ? 3 : 2);
    default: return below(d, 4);
    }
}

void any_permutation(draw *d, uint32_t *permutation, size_t count) {
    uint32_t kind = below(d, 8), turn = below(d, (uint32_t)count);
    for (size_t v = 0; v < count; v++)
        permutation[v] = (uint32_t)(kind == 0 ? v : kind == 1 ? count - 1 - v : (v + turn) % count);
    for (size_t v = count - 1; kind > 2 && v > 0; v--) {
        size_t other = any_bits(d) % (v + 1);
        uint32_t kept = permutation[v];
        permutation[v] = permutation[other];
        permutation[other] = kept;
    }
}
