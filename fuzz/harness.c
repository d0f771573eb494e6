/* What libFuzzer runs: every function of koshirga.h on drawn arguments. Each answer, each element
 * of each lent slice and the mark are compared with the papers' second reading (reading.h). */
#include <float.h>
#include <math.h>
#include <stdlib.h>
#include <string.h>

#include "draw.h"
#include "lent.h"
#include "tally.h"

typedef koshirga_vector3 vector;

static bool same_vectors(vector a, vector b) {
    return same(a.x, b.x) && same(a.y, b.y) && same(a.z, b.z);
}

/* Calls koshirga_NAME and compares with what is expected, by `equal`. */
#define COMPARE(name, equal, expected, ...)                                                        \
    do {                                                                                           \
        hold(ENTRY_##name, equal(koshirga_##name(__VA_ARGS__), (expected)), "the result");         \
        count(ENTRY_##name, 0);                                                                    \
    } while (0)

#define EQUAL(a, b) ((a) == (b))

/* ---- binary64, vectors and weights */

/* Counts what became of a converted value. */
static void count_conversion(double x, koshirga_conversion_answer answer) {
    static const way CASES[] = {[KOSHIRGA_KEPT] = WAY_KEPT,
                                [KOSHIRGA_CUT] = WAY_CUT,
                                [KOSHIRGA_HELD] = WAY_HELD_UPPER,
                                [KOSHIRGA_NOT_A_NUMBER] = WAY_NOT_A_NUMBER};
    bool held = answer.how == KOSHIRGA_HELD;
    count_way(ENTRY_to_i64, held && x < 0 ? WAY_HELD_LOWER : CASES[answer.how]);
    if (answer.how == KOSHIRGA_KEPT && x == 0 && signbit(x))
        count_way(ENTRY_to_i64, WAY_KEPT_ZERO);
    if (answer.how == KOSHIRGA_KEPT && x == -0x1p63)
        count_way(ENTRY_to_i64, WAY_KEPT_LOWER);
    if (answer.how == KOSHIRGA_CUT && answer.whole == 0)
        count_way(ENTRY_to_i64, WAY_CUT_TO_ZERO);
    if (held && x == 0x1p63)
        count_way(ENTRY_to_i64, WAY_HELD_NEXT);
    if (held && isinf(x))
        count_way(ENTRY_to_i64, WAY_HELD_INFINITE);
}

static void call_to_i64(double x) {
    koshirga_conversion_answer expected = expected_to_i64(x), answer = koshirga_to_i64(x);
    hold(ENTRY_to_i64, expected.whole == answer.whole, "the number");
    hold(ENTRY_to_i64, expected.how == answer.how, "what became of the value");
    /* 2^63 - 1 is no double: converted back it would be 2^63 */
    hold(ENTRY_to_i64,
         (answer.how == KOSHIRGA_KEPT) == (answer.whole < INT64_MAX && (double)answer.whole == x),
         "kept exactly where the number is the value");
    count(ENTRY_to_i64, 0);
    count_conversion(x, answer);
}

static bool same_floats(float x, float y) {
    return float_bits(x) == float_bits(y) || (isnan(x) && isnan(y));
}

/* Whether a number is halfway between its rounded one and the next of binary32 on its side. */
static bool is_tie(double x, float rounded) {
    float next = nextafterf(rounded, x > (double)rounded ? INFINITY : -INFINITY);
    return isfinite(next) && x != (double)rounded && (double)rounded + (double)next == 2 * x;
}

/* Counts how a number was rounded to binary32. */
static void count_rounding(double x, float rounded) {
    static const entry of = ENTRY_to_f32;
    double from = fabs(x), to = fabs((double)rounded);
    bool tie = isfinite(rounded) && is_tie(x, rounded), subnormal = to > 0 && to < 0x1p-126;
    if (isnan(x) || isinf(x)) {
        count_way(of, isnan(x) ? WAY_ROUNDED_NAN : WAY_INFINITY_KEPT);
        return;
    }
    if (isinf(rounded)) {
        count_way(of, from == 0x1p128 - 0x1p103 ? WAY_OVERFLOW_TIE : WAY_OVERFLOW);
        return;
    }
    if (subnormal)
        count_way(of, tie ? WAY_SUBNORMAL_TIE : WAY_SUBNORMAL);
    if (from == to) {
        count_way(of, x == 0 && signbit(x) ? WAY_ZERO_STAYS : WAY_EXACT);
        return;
    }
    if (tie)
        count_way(of, to < from ? WAY_TIE_TOWARD_ZERO : WAY_TIE_AWAY);
    else
        count_way(of, to < from ? WAY_TOWARD_ZERO : WAY_AWAY);
    if (to == 0)
        count_way(of, tie ? WAY_ZERO_TIE : WAY_ZERO);
    if (to == 0 && x < 0)
        count_way(of, WAY_LOWER_ZERO);
    if (to == 0x1p-126 && from < to)
        count_way(of, WAY_LEAST_NORMAL);
    if (to > 0x1p-126 && from < to && float_bits(rounded) << 9 == 0)
        count_way(of, WAY_CARRIED);
    if (to == FLT_MAX && from > to)
        count_way(of, WAY_GREATEST_FLOAT);
}

static void call_to_f32(double x) {
    entry of = ENTRY_to_f32;
    float answer = koshirga_to_f32(x);
    hold(of, same_floats(expected_to_f32(x), answer), "the result");
    hold(of, same_floats((float)x, answer), "what a cast in C gives");
    hold(of, isnan(x) || !signbit(x) == !signbit(answer), "the sign");
    count(of, 0);
    count_rounding(x, answer);
}

/* Counts what a minimum of two or three operands was found among. */
static void count_minimum(entry of, const double *operands, int length, double least) {
    int upper = 0, lower = 0, equal = 0, nans = 0, signaling = 0;
    bool lower_first = false, nan_before = false, nan_behind = false;
    bool signaling_before = false, signaling_behind = false;
    for (int i = 0; i < length; i++) {
        double x = operands[i];
        if (isnan(x)) {
            nan_behind |= nans < i;
            signaling_behind |= nans < i && is_signaling(x);
            nans++;
            signaling += is_signaling(x);
            continue;
        }
        nan_before |= nans > 0;
        signaling_before |= signaling > 0;
        equal += x == least;
        lower_first |= x == 0 && signbit(x) && !upper;
        lower += x == 0 && signbit(x);
        upper += x == 0 && !signbit(x);
    }
    bool both_zeros = least == 0 && upper && lower;
    if (both_zeros)
        count_way(of, lower_first ? WAY_LOWER_ZERO_FIRST : WAY_UPPER_ZERO_FIRST);
    if (both_zeros && length == 3 && operands[0] == 0 && !lower_first)
        count_way(of, WAY_UPPER_ZERO_AT_ONCE);
    if (both_zeros && nans)
        count_way(of, WAY_NAN_AND_ZEROS);
    if (!both_zeros && equal > 1)
        count_way(of, least == 0 ? WAY_LIKE_ZEROS : WAY_EQUAL_NUMBERS);
    if (isinf(least))
        count_way(of, least < 0 ? WAY_LOWER_INFINITY : WAY_UPPER_INFINITY);
    if (nan_before)
        count_way(of, WAY_NAN_BEFORE);
    if (nan_behind)
        count_way(of, WAY_NAN_BEHIND);
    if (signaling_before)
        count_way(of, WAY_SIGNALING_BEFORE);
    if (signaling_behind)
        count_way(of, WAY_SIGNALING_BEHIND);
    if (nans == length)
        count_way(of, signaling == length ? WAY_ALL_SIGNALING : WAY_NO_NUMBER);
}

/* An argument of these bits. Where doubles were passed by a unit that quiets NaNs, as the x87 does,
 * a signaling one wouldn't reach the call. */
static double passed(entry of, uint64_t bits) {
    double x = from_bits(bits);
    hold(of, bits_of(x) == bits, "an argument keeps its bits");
    return x;
}

static uint64_t call_rank(double x) {
    uint64_t rank = koshirga_rank(x);
    hold(ENTRY_rank, expected_rank(x) == rank, "the result");
    count(ENTRY_rank, 0);
    return rank;
}

static double call_minimum_number(double x, double y) {
    const double operands[2] = {x, y};
    entry of = ENTRY_minimum_number;
    double least = koshirga_minimum_number(x, y);
    hold(of, same(expected_minimum_number(x, y), least), "the result");
    hold(of, isnan(x) && isnan(y) ? is_quiet(least) : !isnan(least), "a number or a quiet NaN");
    hold(of, isnan(least) || same(least, x) || same(least, y), "one of the operands");
    count(of, 0);
    count_minimum(of, operands, 2, least);
    return least;
}

/* Drawn operands in both orders. */
static void ordered_operands(draw *d) {
    entry of = ENTRY_minimum_number;
    uint64_t p = operand_bits(d), q = other_operand_bits(d, p);
    double x = passed(of, p), y = passed(of, q);
    double least = call_minimum_number(x, y);
    hold(of, same(least, call_minimum_number(y, x)), "the same in either order");
    uint64_t rank_x = call_rank(x), rank_y = call_rank(y); /* that of a NaN is the greatest */
    hold(of, call_rank(least) == (rank_x < rank_y ? rank_x : rank_y), "the lesser rank");
}

static void arithmetic(draw *d) {
    double x = any_double(d), y = any_double(d), z = any_double(d);
    uint64_t p = bits_of(any_double(d)), q = one_in(d, 8) ? p : any_bits(d);
    if (one_in(d, 2)) /* a sum that cancels, to some ulps */
        z = from_bits(bits_of(-(x * y)) + below(d, 5) - 2);
    COMPARE(total_cmp, EQUAL, expected_total_cmp(p, q), p, q);
    call_rank(x);
    COMPARE(floor, same, floor(x), x);
    COMPARE(ceil, same, ceil(x), x);
    call_to_i64(any_converted(d));
    call_to_f32(any_rounded(d));
    call_to_f32(any_rounded(d));
    call_to_f32(x);
    COMPARE(mul_add, same, fma(x, y, z), x, y, z);
    COMPARE(sqrt, same, sqrt(x), x);
    COMPARE(sqrt, same, sqrt(fabs(y)), fabs(y));
    COMPARE(sqrt_by_digits, same, sqrt(x), x);
    COMPARE(sqrt_by_digits, same, sqrt(fabs(y)), fabs(y));
}

static void vectors(draw *d) {
    vector a = any_vector(d), b = any_vector(d);
    double k = any_double(d);
    COMPARE(dot, same, expected_dot(a, b), a, b);
    COMPARE(cross, same_vectors, expected_cross(a, b), a, b);
    COMPARE(minus, same_vectors, expected_minus(a, b), a, b);
    COMPARE(plus, same_vectors, expected_plus(a, b), a, b);
    COMPARE(scale, same_vectors, expected_scale(a, k), a, k);
    COMPARE(divide, same_vectors, expected_divide(a, k), a, k);
    COMPARE(norm_squared, same, expected_dot(a, a), a);
    COMPARE(norm, same, expected_norm(a), a);
    COMPARE(normalize, same_vectors, expected_normalize(a), a);
    for (int i = 0; i < 2; i++) {
        vector v = any_direction(d);
        uint32_t row = koshirga_direction(v);
        hold_row(ENTRY_direction, expected_direction(v), row);
        count(ENTRY_direction, row);
    }
}

static bool same_weights(koshirga_weights a, koshirga_weights b) {
    return same(a.u, b.u) && same(a.v, b.v) && same(a.w, b.w);
}

static double call_least_weight(double u, double v, double w) {
    const double all[3] = {u, v, w};
    entry of = ENTRY_least_weight;
    koshirga_weights weights = {u, v, w};
    double least = koshirga_least_weight(weights), earlier = earlier_least(weights);
    hold(of, same(expected_least(weights), least), "the result");
    hold(of, isnan(earlier) ? is_quiet(least) : least == earlier,
         "a quiet NaN, or document 01's least but for a zero's sign");
    hold(of, isnan(least) || same(least, u) || same(least, v) || same(least, w),
         "one of the weights");
    hold(of, !(u < least) && !(v < least) && !(w < least), "no weight below the least");
    count(of, 0);
    count_minimum(of, all, 3, least);
    return least;
}

/* Drawn weights in each order. */
static void ordered_weights(draw *d) {
    static const uint8_t ORDERS[6][3] = {{0, 1, 2}, {0, 2, 1}, {1, 0, 2},
                                         {1, 2, 0}, {2, 0, 1}, {2, 1, 0}};
    uint64_t bits = operand_bits(d);
    double three[3], leasts[6];
    for (int i = 0; i < 3; i++)
        three[i] = passed(ENTRY_least_weight, i ? other_operand_bits(d, bits) : bits);
    for (int i = 0; i < 6; i++) {
        const uint8_t *o = ORDERS[i];
        leasts[i] = call_least_weight(three[o[0]], three[o[1]], three[o[2]]);
        hold(ENTRY_least_weight, same(leasts[0], leasts[i]), "the same in any order");
    }
}

static void weights(draw *d) {
    vector a = any_vector(d), b = any_vector(d), c = any_vector(d), p = any_vector(d);
    if (one_in(d, 8))
        b = a;
    if (one_in(d, 8))
        c = expected_plus(a, expected_scale(expected_minus(b, a), signed_unit(d)));
    if (one_in(d, 2)) { /* in the triangle's plane, or close to it */
        p = expected_plus(a, expected_scale(expected_minus(b, a), 1.5 * signed_unit(d)));
        p = expected_plus(p, expected_scale(expected_minus(c, a), 1.5 * signed_unit(d)));
    }
    if (one_in(d, 4)) {
        mesh close = close_mesh(d, &p, 1);
        a = position_of(close.positions, 0);
        b = position_of(close.positions, 1);
        c = position_of(close.positions, 2);
        p = expected_normalize(p);
    }
    koshirga_weights found = expected_weights(p, a, b, c);
    COMPARE(projected_barycentric, same_weights, found, p, a, b, c);
    call_least_weight(found.u, found.v, found.w);
}

/* ---- analytic location */

static void choose_face(draw *d) {
    uint32_t all = below(d, 64);
    bool s[3] = {all & 1, all & 2, all & 4}, o[3] = {all & 8, all & 16, all & 32};
    koshirga_face_answer expected = expected_choose_face(s, o);
    koshirga_face_answer answer = koshirga_choose_face(s[0], s[1], s[2], o[0], o[1], o[2]);
    hold_row(ENTRY_choose_face, expected.refusal, answer.refusal);
    hold(ENTRY_choose_face, expected.face == answer.face, "the face");
    count(ENTRY_choose_face, answer.refusal);
}

/* As a rule small, as calls on large lattices take long. */
static uint32_t any_frequency(draw *d, uint32_t large_one_in) {
    switch (below(d, 24)) {
    case 0: return one_in(d, 4) ? (uint32_t)any_bits(d) : one_in(d, 2) ? 0 : FREQUENCY_MAX + 1;
    case 1: return one_in(d, large_one_in) ? 1 + below(d, FREQUENCY_MAX) : 4 + below(d, 4);
    default: return 1 + below(d, 3);
    }
}

static bool is_frequency(uint32_t n) { return n >= 1 && n <= FREQUENCY_MAX; }

/* Bytes to fill slices with, from any of so many places. */
enum { GARBAGE_PLACES = 1 << 20 };
static uint8_t garbage[GARBAGE_PLACES * sizeof(uint64_t) + LENT_BYTES];

static const void *any_garbage(draw *d) {
    return garbage + any_bits(d) % GARBAGE_PLACES * sizeof(uint64_t);
}

/* The id table of a lattice, with some ids put wrong at times. Gives its length, surplus
 * included. */
static size_t any_table(draw *d, uint32_t frequency, uint16_t *table) {
    const lattice *l = lattice_of(frequency);
    size_t length = any_length(d, l->ids_length);
    memcpy(table, any_garbage(d), (l->ids_length + SURPLUS_MAX) * sizeof *table);
    memcpy(table, l->ids, l->ids_length * sizeof *table);
    size_t damaged = one_in(d, 3) ? l->ids_length / 8 : below(d, 2);
    for (size_t i = 0; i < damaged; i++)
        table[any_bits(d) % l->ids_length] = (uint16_t)(one_in(d, 2) ? l->vertices : any_bits(d));
    return length;
}

static void analytic(draw *d) {
    static uint16_t table[10 * (FREQUENCY_MAX + 1) * (FREQUENCY_MAX + 2) + SURPLUS_MAX];
    uint32_t n = any_frequency(d, 8);
    size_t length = is_frequency(n) ? any_table(d, n, table) : below(d, 61);
    lent ids = lend(0, table, length, sizeof *table, one_in(d, 2));
    for (int i = 0; i < 6; i++) {
        vector v = any_direction(d);
        koshirga_analytic_answer e = expected_analytic_locate(n, ids.expected, length, v);
        koshirga_analytic_answer at = koshirga_analytic_locate(n, ids.at, length, v);
        hold_row(ENTRY_analytic_locate, e.refusal, at.refusal);
        hold(ENTRY_analytic_locate,
             e.first == at.first && e.second == at.second && e.third == at.third, "the triple");
        hold(ENTRY_analytic_locate, same(e.u, at.u) && same(e.v, at.v) && same(e.w, at.w),
             "the weights");
        hold(ENTRY_analytic_locate, as_expected(0), "the id table changed");
        count(ENTRY_analytic_locate, at.refusal);

        koshirga_vertex_answer f = expected_analytic_nearest(n, ids.expected, length, v);
        koshirga_vertex_answer vertex = koshirga_analytic_nearest(n, ids.at, length, v);
        hold_row(ENTRY_analytic_nearest, f.refusal, vertex.refusal);
        hold(ENTRY_analytic_nearest, f.id == vertex.id, "the vertex");
        hold(ENTRY_analytic_nearest, as_expected(0), "the id table changed");
        count(ENTRY_analytic_nearest, vertex.refusal);
    }
}

/* ---- the mark, and the order of lists */

/* The slice as which the mark is lent, or the struct that has it. */
enum { MARK = 10 };

static lent lend_mark(draw *d, bool before) {
    return lend(MARK, &before, 1, sizeof before, one_in(d, 2));
}

/* Counts what the mark was before a call and is after it. */
static void count_mark(entry of, bool before, bool after, uint32_t row) {
    if (row)
        count_way(of, after ? WAY_MARK_KEPT_SET : WAY_MARK_KEPT_CLEAR);
    else if (after)
        count_way(of, before ? WAY_MARK_STILL_SET : WAY_MARK_SET);
    else
        count_way(of, before ? WAY_MARK_CLEARED : WAY_MARK_STILL_CLEAR);
}

/* How the lists of a mesh that passes its rows are ordered, their entries taken through q where it
 * isn't null. tally.h says what falls. */
typedef struct list_order {
    size_t falling_lists, falling_pairs;
    size_t list, pair, pairs; /* of the last pair that falls: list, place, and pairs of the list */
    size_t longest;
    bool repeats, apart; /* equal entries side by side, or with others between them */
    bool border;         /* a list begins below the entry before it, which ends another */
} list_order;

static list_order order_of(const mesh *m, const uint32_t *q) {
    list_order found = {0};
    for (size_t v = 0; v + 1 < m->starts_length; v++) {
        uint32_t list[LIST_MAX], before = 0;
        size_t start = m->starts[v], length = m->starts[v + 1] - start, falls = 0;
        for (size_t i = 0; i < length; i++) {
            uint32_t id = m->entries[start + i];
            list[i] = q ? q[id] : id;
            for (size_t j = 0; j + 1 < i; j++)
                found.apart |= list[j] == list[i] && list[i - 1] != list[i];
            found.repeats |= i > 0 && before == list[i];
            if (i > 0 && list[i] < before) {
                falls++;
                found.list = v, found.pair = i - 1, found.pairs = length - 1;
            }
            before = list[i];
        }
        found.border |= length > 0 && start > 0 && m->entries[start] < m->entries[start - 1];
        found.longest = length > found.longest ? length : found.longest;
        found.falling_pairs += falls;
        found.falling_lists += falls > 0;
    }
    return found;
}

/* ---- lattice */

static void call_lattice(draw *d) {
    uint32_t n = any_frequency(d, 8);
    size_t lengths[4] = {36, 13, 60, 60};
    if (is_frequency(n)) {
        const lattice *l = lattice_of(n);
        lengths[0] = any_length(d, l->positions_length);
        lengths[1] = any_length(d, l->starts_length);
        lengths[2] = any_length(d, l->entries_length);
        lengths[3] = any_length(d, l->ids_length);
    }
    lent positions =
        lend(0, any_garbage(d), lengths[0], sizeof(double), MISREAD != 12 && one_in(d, 2));
    lent starts = lend(1, any_garbage(d), lengths[1], sizeof(uint32_t), one_in(d, 2));
    lent entries = lend(2, any_garbage(d), lengths[2], sizeof(uint16_t), one_in(d, 2));
    lent ids = lend(3, any_garbage(d), lengths[3], sizeof(uint16_t), one_in(d, 2));
    bool before = one_in(d, 2);
    lent mark = lend_mark(d, before);
    mesh filled = {positions.expected, lengths[0],       starts.expected,
                   lengths[1],         entries.expected, lengths[2]};
    uint32_t expected = expected_lattice(n, &filled, mark.expected, ids.expected, lengths[3]);
    uint32_t row =
        koshirga_lattice(n, positions.at, lengths[0] + (MISREAD == 12), starts.at, lengths[1],
                         entries.at, lengths[2], mark.at, ids.at, lengths[3]);
    hold_row(ENTRY_lattice, expected, row);
    hold(ENTRY_lattice, as_expected(0), "the positions");
    hold(ENTRY_lattice, as_expected(1), "the starts");
    hold(ENTRY_lattice, as_expected(2), "the entries");
    hold(ENTRY_lattice, as_expected(3), "the id table");
    hold(ENTRY_lattice, as_expected(MARK), "the mark");
    count(ENTRY_lattice, row);
    count_mark(ENTRY_lattice, before, *(bool *)mark.at, row);
    if (row)
        return;
    const lattice *l = lattice_of(n);
    mesh left = {positions.at,     l->positions_length, starts.at,
                 l->starts_length, entries.at,          l->entries_length};
    hold(ENTRY_lattice, order_of(&left, NULL).falling_pairs == 0, "the lists ascend");
    count_lattice(n);
}

/* ---- walk, renumbering and mark_ascending */

/* Lends a mesh as slices 0 to 2. `expected` gets their copies. */
static mesh lend_mesh(draw *d, const mesh *m, mesh *expected) {
    lent positions = lend(0, m->positions, m->positions_length, sizeof *m->positions, one_in(d, 2));
    lent starts = lend(1, m->starts, m->starts_length, sizeof *m->starts, one_in(d, 2));
    lent entries = lend(2, m->entries, m->entries_length, sizeof *m->entries, one_in(d, 2));
    *expected = (mesh){positions.expected, positions.length, starts.expected,
                       starts.length,      entries.expected, entries.length};
    return (mesh){positions.at,  positions.length, starts.at,
                  starts.length, entries.at,       entries.length};
}

static void hold_mesh(entry of) {
    hold(of, as_expected(0), "the positions");
    hold(of, as_expected(1), "the starts");
    hold(of, as_expected(2), "the entries");
}

/* 0 where it is the first start that can fall, 2 where it is the last of the list, 1 between. */
static int place_of(size_t index, size_t first, size_t last) {
    return index == first ? 0 : index == last ? 2 : 1;
}

/* Counts how the starts of a mesh were refused. */
static void count_starts(entry of, const mesh *m, uint32_t row, size_t index) {
    size_t count = m->positions_length / 3, length = m->starts_length, last = length - 1, falls = 0;
    bool over = false;
    if (row != 3 && row != 17 && row != 18)
        return;
    for (size_t i = 1; i < length; i++) {
        falls += m->starts[i] < m->starts[i - 1];
        over |= m->starts[i] > m->starts[i - 1] && m->starts[i] - m->starts[i - 1] > LIST_MAX;
    }
    if (row == 3)
        count_way(of, length == count + 1 ? WAY_LONG_LIST : WAY_LENGTH);
    if (row == 3 && falls)
        count_way(of, WAY_LENGTH_AND_FALL);
    if (row == 17)
        count_way(of, m->starts[0] != 0                     ? WAY_SPAN_FIRST
                      : m->starts[last] < m->entries_length ? WAY_SPAN_BELOW
                                                            : WAY_SPAN_ABOVE);
    if (row == 17 && falls)
        count_way(of, m->starts[1] < m->starts[0] ? WAY_SPAN_AND_SECOND : WAY_SPAN_AND_FALL);
    if (row == 18)
        count_way(of, WAY_FALL_FIRST + place_of(index, 2, last));
    if (row == 18 && falls > 1)
        count_way(of, WAY_FALL_AGAIN);
    if (row == 18 && over)
        count_way(of, WAY_FALL_AND_LONG);
}

/* Whether the header's call that takes structs stands in for the archive's own. */
static bool by_structs(draw *d) { return one_in(d, 8); }

static koshirga_mesh mesh_struct(const mesh *m, bool lists_ascend) {
    return (koshirga_mesh){m->positions, m->positions_length, m->starts,   m->starts_length,
                           m->entries,   m->entries_length,   lists_ascend};
}

static void call_walk(draw *d, const mesh *drawn) {
    mesh e, m = lend_mesh(d, drawn, &e);
    bool structs = by_structs(d);
    entry of = structs ? ENTRY_walk_mesh : ENTRY_walk;
    size_t vertices = m.positions_length / 3;
    size_t order_length = any_length(d, vertices), queue_length = any_length(d, vertices);
    lent order = lend(3, any_garbage(d), order_length, sizeof(uint32_t), one_in(d, 2));
    lent queue = lend(4, any_garbage(d), queue_length, sizeof(uint32_t), one_in(d, 2));
    koshirga_walk_answer expected =
        expected_walk(&e, order.expected, order_length, queue.expected, queue_length);
    koshirga_walk_answer answer =
        structs
            ? koshirga_walk_mesh(mesh_struct(&m, one_in(d, 2)), order.at, order_length, queue.at,
                                 queue_length)
            : koshirga_walk(m.positions, m.positions_length, m.starts, m.starts_length, m.entries,
                            m.entries_length, order.at, order_length, queue.at, queue_length);
    hold_row(of, expected.refusal, answer.refusal);
    hold_index(of, answer.refusal, expected.index, answer.index);
    hold(of, expected.entries_read == answer.entries_read, "the count of entries");
    hold_mesh(of);
    hold(of, as_expected(3), "the order");
    hold(of, as_expected(4), "the queue");
    const uint32_t *ids = queue.at, *places = order.at;
    for (uint32_t i = 0; !answer.refusal && i < vertices; i++)
        hold(of, ids[i] < vertices && places[ids[i]] == i, "queue and order are inverse");
    count(of, answer.refusal);
    count_starts(of, &e, answer.refusal, answer.index);
}

/* Meshes of so many vertices have ways and steps worked out a second time. */
enum { FEW_VERTICES = 64 };

/* The steps from a vertex to each of a few, by those alone that `entered` has where it isn't NULL;
 * UNREACHED where no such path leads. Every entry may shorten a way, until none does. */
static void steps_among(const mesh *m, uint32_t from, const bool *entered, uint32_t *steps) {
    size_t count = m->positions_length / 3;
    for (size_t v = 0; v < count; v++)
        steps[v] = v == from ? 0 : UNREACHED;
    for (bool shortened = true; shortened;) {
        shortened = false;
        for (size_t v = 0; v < count; v++)
            for (size_t e = m->starts[v]; steps[v] != UNREACHED && e < m->starts[v + 1]; e++) {
                uint32_t next = m->entries[e];
                if ((!entered || entered[next]) && steps[v] + 1 < steps[next]) {
                    steps[next] = steps[v] + 1;
                    shortened = true;
                }
            }
    }
}

static void steps_to_all(const mesh *m, uint32_t from, uint32_t *steps) {
    steps_among(m, from, NULL, steps);
}

/* ---- the walk over all islands */

/* What an accepted walk over all islands is read by: where each island ends, its own start the end
 * of the one before. */
typedef struct numbering {
    const uint32_t *order, *queue, *starts;
    uint32_t islands, count;
} numbering;

static uint32_t island_end(const numbering *n, uint32_t island) {
    return island + 1 < n->islands ? n->starts[island + 1] : n->count;
}

static uint32_t top_of(uint32_t *above, uint32_t vertex) {
    for (; above[vertex] != vertex; vertex = above[vertex])
        above[vertex] = above[above[vertex]]; /* ways to the top stay short */
    return vertex;
}

/* Puts the vertices of a mesh into pieces: each entry joins two, whichever way it goes. Gives how
 * many pieces there are; those with one top are one piece. */
static uint32_t join_pieces(const mesh *m, uint32_t *above) {
    uint32_t count = (uint32_t)(m->positions_length / 3), pieces = count;
    for (uint32_t v = 0; v < count; v++)
        above[v] = v;
    for (uint32_t v = 0; v < count; v++)
        for (size_t e = m->starts[v]; e < m->starts[v + 1]; e++) {
            uint32_t one = top_of(above, v), other = top_of(above, m->entries[e]);
            pieces -= one != other;
            above[one] = other;
        }
    return pieces;
}

static bool is_mutual(const mesh *m) {
    for (uint32_t v = 0; v + 1 < m->starts_length; v++)
        for (size_t e = m->starts[v]; e < m->starts[v + 1]; e++)
            if (!has_entry(m, m->entries[e], v))
                return false;
    return true;
}

/* Of a few vertices each island has those to which ways lead from its root, by ids of no earlier
 * one alone, the nearer ones first. */
static void hold_ways(entry of, const mesh *m, const numbering *n) {
    uint32_t steps[FEW_VERTICES];
    bool entered[FEW_VERTICES], those = true, nearer_first = true;
    for (uint32_t island = 0; island < n->islands; island++) {
        uint32_t start = n->starts[island], end = island_end(n, island);
        for (uint32_t v = 0; v < n->count; v++)
            entered[v] = n->order[v] >= start;
        steps_among(m, n->queue[start], entered, steps);
        for (uint32_t i = start; i < n->count; i++)
            those &= (steps[n->queue[i]] != UNREACHED) == (i < end);
        for (uint32_t i = start + 1; i < end; i++)
            nearer_first &= steps[n->queue[i - 1]] <= steps[n->queue[i]];
    }
    hold(of, those, "islands of those that their roots lead to");
    hold(of, nearer_first, "the nearer ones first");
}

static void hold_islands(entry of, const mesh *m, const numbering *n) {
    static uint32_t above[VERTEX_MAX];
    bool inverse = true, ascend = n->starts[0] == 0, lowest = true, one_piece = true;
    for (uint32_t i = 0; i < n->count; i++)
        inverse &= n->queue[i] < n->count && n->order[n->queue[i]] == i;
    hold(of, inverse, "queue and order are inverse");
    for (uint32_t island = 0; island < n->islands; island++)
        ascend &= n->starts[island] < island_end(n, island) && n->starts[island] < n->count;
    hold(of, ascend, "starts that ascend from 0 and stay below the count");
    uint32_t least = n->count;
    for (uint32_t island = n->islands; island-- > 0;) {
        for (uint32_t i = n->starts[island]; i < island_end(n, island); i++)
            least = n->queue[i] < least ? n->queue[i] : least;
        lowest &= n->queue[n->starts[island]] == least;
    }
    hold(of, lowest, "roots that are the lowest ids left");
    uint32_t pieces = join_pieces(m, above);
    for (uint32_t island = 0; island < n->islands; island++)
        for (uint32_t i = n->starts[island]; i < island_end(n, island); i++)
            one_piece &= top_of(above, n->queue[i]) == top_of(above, n->queue[n->starts[island]]);
    hold(of, one_piece, "islands within one piece each");
    hold(of, is_mutual(m) ? n->islands == pieces : n->islands >= pieces,
         "as many islands as pieces where neighbours are mutual");
    if (n->count <= FEW_VERTICES)
        hold_ways(of, m, n);
}

/* The ordinary walk over the same mesh: refused by 13 exactly where there are several islands. It
 * numbers the first of them likewise, and no other vertex. */
static void hold_beside_walk(draw *d, entry of, const mesh *m, const numbering *n,
                             uint32_t entries_read) {
    enum { BESIDE_ORDER = 6, BESIDE_QUEUE = 7 };
    lent order = lend(BESIDE_ORDER, any_garbage(d), n->count, sizeof(uint32_t), one_in(d, 2));
    lent queue = lend(BESIDE_QUEUE, any_garbage(d), n->count, sizeof(uint32_t), one_in(d, 2));
    koshirga_walk_answer walk =
        koshirga_walk(m->positions, m->positions_length, m->starts, m->starts_length, m->entries,
                      m->entries_length, order.at, n->count, queue.at, n->count);
    count(ENTRY_walk, walk.refusal);
    hold(of, walk.refusal == (n->islands > 1 ? 13 : 0), "13 where there are several islands");
    hold(of, walk.entries_read == (walk.refusal ? 0 : entries_read), "the walk's entries");
    uint32_t first_island = island_end(n, 0);
    const uint32_t *places = order.at;
    bool same_order = true;
    for (uint32_t v = 0; v < n->count; v++)
        same_order &= places[v] == (n->order[v] < first_island ? n->order[v] : UNREACHED);
    hold(of, same_order, "the walk's order of the first island");
    hold(of, memcmp(queue.at, n->queue, first_island * sizeof *n->queue) == 0,
         "the walk's queue of the first island");
}

/* Counts which of the slices is too short. */
static void count_numbering_room(entry of, const mesh *m, const size_t *lengths) {
    static uint32_t above[VERTEX_MAX];
    size_t count = m->positions_length / 3;
    bool order_fits = lengths[0] >= count, queue_fits = lengths[1] >= count;
    bool starts_fit = lengths[2] >= count;
    if (lengths[0] + 1 == count && queue_fits && starts_fit)
        count_way(of, WAY_NUMBERS_SHORT);
    if (lengths[1] + 1 == count && order_fits && starts_fit)
        count_way(of, WAY_IDS_SHORT);
    if (lengths[2] + 1 == count && order_fits && queue_fits)
        count_way(of, WAY_STARTS_SHORT);
    if (!starts_fit && order_fits && queue_fits && is_mutual(m) &&
        lengths[2] >= join_pieces(m, above))
        count_way(of, WAY_STARTS_AN_ISLAND);
}

/* Counts what islands were found, and in what slices. */
static void count_islands(entry of, const mesh *m, const numbering *n, const size_t *lengths) {
    uint32_t last_start = n->starts[n->islands - 1], mixed = 0, earlier = 0, not_back = 0;
    bool mutual = is_mutual(m);
    for (uint32_t island = 0; island < n->islands; island++) {
        uint32_t start = n->starts[island], end = island_end(n, island);
        for (uint32_t i = start; i < end; i++) {
            uint32_t v = n->queue[i];
            mixed += v >= n->queue[start] + (end - start);
            for (size_t e = m->starts[v]; e < m->starts[v + 1]; e++)
                earlier += n->order[m->entries[e]] < start;
        }
        uint32_t last = n->queue[end - 1];
        not_back += end - start > 1 && m->starts[last] == m->starts[last + 1];
    }
    if (n->islands == 1)
        count_way(of, n->count == 1 ? WAY_ONE_VERTEX : WAY_ONE_ISLAND);
    if (n->islands > 1 && n->islands == n->count)
        count_way(of, m->entries_length ? WAY_EACH_ALONE : WAY_NO_ENTRIES);
    if (n->islands > 100)
        count_way(of, WAY_MANY_ISLANDS);
    if (n->islands > 1 && island_end(n, 0) == 1)
        count_way(of, WAY_FIRST_ALONE);
    if (n->islands > 1 && last_start + 1 == n->count && n->queue[last_start] == last_start)
        count_way(of, WAY_LAST_ALONE);
    if (n->islands > 1 && mutual)
        count_way(of, mixed ? WAY_MUTUAL_MIXED : WAY_MUTUAL_IN_ROW);
    if (earlier)
        count_way(of, WAY_NAMES_EARLIER);
    if (not_back)
        count_way(of, WAY_NOT_BACK);
    if (mesh_row(m, true).refusal == 5)
        count_way(of, WAY_ISLANDS_ROW_5);
    if (n->islands < n->count)
        count_way(of, WAY_STARTS_BEHIND);
    if (lengths[0] > n->count && lengths[1] > n->count && lengths[2] > n->count)
        count_way(of, WAY_NUMBERING_SURPLUS);
}

static void call_walk_islands(draw *d, const mesh *drawn) {
    mesh e, m = lend_mesh(d, drawn, &e);
    bool structs = by_structs(d);
    entry of = structs ? ENTRY_walk_islands_in : ENTRY_walk_islands;
    size_t vertices = m.positions_length / 3, lengths[3];
    lent slices[3];
    for (int i = 0; i < 3; i++) {
        lengths[i] = any_length(d, vertices);
        slices[i] = lend(3 + i, any_garbage(d), lengths[i], sizeof(uint32_t), one_in(d, 2));
    }
    koshirga_islands_answer expected =
        expected_walk_islands(&e, slices[0].expected, lengths[0], slices[1].expected, lengths[1],
                              slices[2].expected, lengths[2]);
    koshirga_islands_answer answer =
        structs ? koshirga_walk_islands_in(mesh_struct(&m, one_in(d, 2)), slices[0].at, lengths[0],
                                           slices[1].at, lengths[1], slices[2].at, lengths[2])
                : koshirga_walk_islands(m.positions, m.positions_length, m.starts, m.starts_length,
                                        m.entries, m.entries_length, slices[0].at, lengths[0],
                                        slices[1].at, lengths[1], slices[2].at, lengths[2]);
    hold_row(of, expected.refusal, answer.refusal);
    hold_index(of, answer.refusal, expected.index, answer.index);
    hold(of, expected.islands == answer.islands, "the count of islands");
    hold(of, expected.entries_read == answer.entries_read, "the count of entries");
    hold_mesh(of);
    hold(of, as_expected(3), "the order");
    hold(of, as_expected(4), "the queue");
    hold(of, as_expected(5), "the island starts");
    count(of, answer.refusal);
    count_starts(of, &e, answer.refusal, answer.index);
    if (answer.refusal == 8)
        count_numbering_room(of, &e, lengths);
    if (answer.refusal)
        return;
    hold(of, answer.entries_read == m.entries_length, "all entries are read");
    numbering n = {slices[0].at, slices[1].at, slices[2].at, answer.islands, (uint32_t)vertices};
    hold_islands(of, &m, &n);
    hold_beside_walk(d, of, &m, &n, answer.entries_read);
    count_islands(of, &e, &n, lengths);
}

/* ---- steps between vertices, and lists of vertices */

/* Counts how a given vertex was refused. */
static void count_vertex(entry of, uint32_t vertex, size_t count) {
    if (vertex == count)
        count_way(of, WAY_VERTEX_NEXT);
    if (vertex == UINT32_MAX)
        count_way(of, WAY_VERTEX_GREATEST);
    if (vertex > UINT16_MAX && (uint16_t)vertex < count)
        count_way(of, WAY_VERTEX_LOW_BITS);
}

/* Counts in which place of its list the target was met, from the walk's order. */
static void count_met(entry of, const mesh *m, const uint32_t *queue, size_t reached, uint32_t to,
                      uint32_t read) {
    size_t before = 0, head = 0, all = 0;
    while (before + (m->starts[queue[head] + 1] - m->starts[queue[head]]) < read) {
        before += m->starts[queue[head] + 1] - m->starts[queue[head]];
        head++;
    }
    size_t start = m->starts[queue[head]], length = m->starts[queue[head] + 1] - start, times = 0;
    for (size_t i = 0; i < length; i++)
        times += m->entries[start + i] == to;
    for (size_t i = 0; i < reached; i++)
        all += m->starts[queue[i] + 1] - m->starts[queue[i]];
    hold(of, read <= all, "no more entries than the walk to its end");
    if (length > 1 && read == before + 1)
        count_way(of, WAY_MET_FIRST);
    if (length > 1 && read == before + length)
        count_way(of, WAY_MET_LAST);
    if (times > 1)
        count_way(of, WAY_MET_TWICE);
    if (read == all)
        count_way(of, WAY_READ_ALL);
}

/* What a search is asked beside its mesh, and its slices' lengths: the second is queue or list. */
typedef struct search {
    uint32_t from, to;
    size_t order_length, second_length;
} search;

/* Counts what was refused behind the rows of the mesh, or found. */
static void count_steps(entry of, const mesh *m, const search *s, koshirga_steps_answer answer) {
    static uint32_t queue[VERTEX_MAX], steps[VERTEX_MAX], steps_back[VERTEX_MAX];
    size_t count = m->positions_length / 3, scratch = search_scratch(m);
    bool order_fits = s->order_length >= scratch, queue_fits = s->second_length >= scratch;
    bool equal = s->from == s->to;
    if (answer.refusal == 14) {
        bool first = s->from >= count, second = s->to >= count;
        if (first)
            count_vertex(of, s->from, count);
        if (second)
            count_vertex(of, s->to, count);
        if (equal)
            count_way(of, WAY_EQUAL_AND_VERTEX);
        if (first != second)
            count_way(of, first ? WAY_FIRST_VERTEX : WAY_SECOND_VERTEX);
        if (!order_fits || !queue_fits)
            count_way(of, WAY_VERTEX_AND_ROOM);
        return;
    }
    if (answer.refusal != 0 && answer.refusal != 8 && answer.refusal != 15)
        return;
    walk_from(m, s->from, queue, steps);
    bool path = steps[s->to] != UNREACHED;
    if (answer.refusal == 8) {
        if (s->order_length + 1 == scratch && queue_fits)
            count_way(of, WAY_ORDER_SHORT);
        if (s->second_length + 1 == scratch && order_fits)
            count_way(of, WAY_QUEUE_SHORT);
        if (s->order_length >= count && s->second_length >= count)
            count_way(of, WAY_SCRATCH_A_VERTEX);
        if (equal)
            count_way(of, WAY_EQUAL_AND_ROOM);
        if (!path)
            count_way(of, WAY_ROOM_AND_NO_PATH);
        return;
    }
    hold(of, answer.refusal == 0 || !path, "15 where no path leads");
    walk_from(m, s->to, queue, steps_back);
    bool back = steps_back[s->from] != UNREACHED;
    if (answer.refusal == 15) {
        bool none = m->starts[s->from] == m->starts[s->from + 1];
        count_way(of, none ? WAY_NO_PATH : WAY_NO_PATH_READ);
        if (back)
            count_way(of, WAY_NO_PATH_BACK);
        return;
    }
    if (equal) {
        count_way(of, WAY_EQUAL);
        if (has_entry(m, s->from, s->from))
            count_way(of, WAY_EQUAL_OWN);
        return;
    }
    size_t reached = walk_from(m, s->from, queue, steps);
    count_met(of, m, queue, reached, s->to, answer.entries_read);
    if (answer.steps == 1)
        count_way(of, WAY_ONE_STEP);
    if (answer.steps > 100)
        count_way(of, WAY_MANY_STEPS);
    if (has_entry(m, s->from, s->from))
        count_way(of, WAY_OWN_ENTRY);
    if (!back)
        count_way(of, WAY_ONE_WAY);
    if (back && steps_back[s->from] != answer.steps)
        count_way(of, WAY_OTHER_BACK);
}

/* Any vertex; or the one that the search begins at, the last of its list, or that of the walk. */
static uint32_t any_target(draw *d, const mesh *m, uint32_t from) {
    static uint32_t queue[VERTEX_MAX], steps[VERTEX_MAX];
    size_t count = m->positions_length / 3;
    uint32_t kind = below(d, 8);
    bool walks = from < count && !mesh_row(m, false).refusal;
    if (kind == 1 && walks && m->starts[from] < m->starts[from + 1])
        return m->entries[m->starts[from + 1] - 1];
    if (kind == 2 && walks)
        return queue[walk_from(m, from, queue, steps) - 1];
    return kind == 0 ? from : any_vertex(d, count);
}

static void call_steps_between(draw *d, const mesh *drawn) {
    mesh e, m = lend_mesh(d, drawn, &e);
    bool structs = by_structs(d);
    entry of = structs ? ENTRY_steps_between_in : ENTRY_steps_between;
    size_t vertices = m.positions_length / 3, scratch = search_scratch(&m);
    search s = {any_vertex(d, vertices), 0, any_length(d, scratch), any_length(d, scratch)};
    s.to = any_target(d, &e, s.from);
    lent order = lend(3, any_garbage(d), s.order_length, sizeof(uint32_t), one_in(d, 2));
    lent queue = lend(4, any_garbage(d), s.second_length, sizeof(uint32_t), one_in(d, 2));
    koshirga_steps_answer expected =
        expected_steps_between(&e, s.from, s.to, s.order_length, s.second_length);
    koshirga_steps_answer answer =
        structs ? koshirga_steps_between_in(mesh_struct(&m, one_in(d, 2)), s.from, s.to, order.at,
                                            s.order_length, queue.at, s.second_length)
                : koshirga_steps_between(m.positions, m.positions_length, m.starts, m.starts_length,
                                         m.entries, m.entries_length, s.from, s.to, order.at,
                                         s.order_length, queue.at, s.second_length);
    uint32_t row = answer.refusal;
    hold_row(of, expected.refusal, row);
    hold_index(of, row, expected.index, answer.index);
    hold(of, expected.steps == answer.steps, "the steps");
    hold(of, expected.entries_read == answer.entries_read, "the count of entries");
    hold_mesh(of);
    hold(of, as_expected_from(3, row == 0 || row == 15 ? scratch : 0), "the order");
    hold(of, as_expected_from(4, row == 0 || row == 15 ? scratch : 0), "the queue");
    if (row == 0 && vertices <= FEW_VERTICES) {
        uint32_t steps[FEW_VERTICES];
        steps_to_all(&m, s.from, steps);
        hold(of, answer.steps == steps[s.to], "no shorter way");
    }
    count(of, row);
    count_starts(of, &e, row, answer.index);
    count_steps(of, &e, &s, answer);
}

/* Counts what was refused behind the rows of the mesh, or filled. */
static void count_within(entry of, const mesh *m, const search *s, size_t steps,
                         koshirga_within_answer answer) {
    static uint32_t queue[VERTEX_MAX], steps_to[VERTEX_MAX];
    size_t count = m->positions_length / 3, scratch = search_scratch(m);
    bool order_fits = s->order_length >= scratch, list_fits = s->second_length >= count;
    if (answer.refusal == 14) {
        count_vertex(of, s->from, count);
        if (!order_fits || !list_fits)
            count_way(of, WAY_VERTEX_AND_ROOM);
    }
    if (answer.refusal == 8) {
        if (s->order_length + 1 == scratch && list_fits)
            count_way(of, WAY_ORDER_SHORT);
        if (s->second_length + 1 == count && order_fits)
            count_way(of, WAY_LIST_SHORT);
        if (s->order_length >= count && list_fits)
            count_way(of, WAY_SCRATCH_A_VERTEX);
    }
    if (answer.refusal)
        return;
    size_t reached = walk_from(m, s->from, queue, steps_to);
    uint32_t farthest = steps_to[queue[reached - 1]];
    if (steps == 0)
        count_way(of, WAY_NO_STEP);
    if (steps > 0 && answer.vertices == 1)
        count_way(of, WAY_ALONE);
    if (farthest > 0 && steps == farthest - 1)
        count_way(of, WAY_FARTHEST_NEARLY);
    if (farthest > 0 && steps == farthest)
        count_way(of, WAY_FARTHEST);
    if (steps == (size_t)farthest + 1)
        count_way(of, WAY_FARTHEST_PAST);
    if (steps > UINT32_MAX && (uint32_t)steps < farthest)
        count_way(of, WAY_STEPS_LOW_BITS);
    if (steps == SIZE_MAX)
        count_way(of, WAY_ALL_STEPS);
    if (steps >= farthest && reached < count)
        count_way(of, WAY_ISLAND);
    if (answer.vertices < count)
        count_way(of, WAY_ROOM_BEHIND);
    if (s->second_length < scratch)
        count_way(of, WAY_SHORT_LIST);
}

/* A list begins at the vertex and has no id twice. Of a few vertices it has those to which so many
 * steps lead, the nearer ones first. */
static void hold_list(entry of, const mesh *m, uint32_t vertex, size_t steps, const uint32_t *list,
                      uint32_t length) {
    static bool seen[VERTEX_MAX];
    size_t count = m->positions_length / 3;
    hold(of, length > 0 && length <= count && list[0] == vertex, "a list that begins there");
    bool ids = true;
    memset(seen, 0, count);
    for (uint32_t i = 0; i < length; i++) {
        ids &= list[i] < count && !seen[list[i]];
        if (ids)
            seen[list[i]] = true;
    }
    hold(of, ids, "ids below the count, none twice");
    if (count > FEW_VERTICES)
        return;
    uint32_t steps_to[FEW_VERTICES];
    bool those = true, nearer_first = true;
    steps_to_all(m, vertex, steps_to);
    for (size_t v = 0; v < count; v++)
        those &= seen[v] == (steps_to[v] != UNREACHED && steps_to[v] <= steps);
    for (uint32_t i = 1; i < length; i++)
        nearer_first &= steps_to[list[i - 1]] <= steps_to[list[i]];
    hold(of, those, "those to which so many steps lead");
    hold(of, nearer_first, "the nearer ones first");
}

static void call_vertices_within(draw *d, const mesh *drawn) {
    static uint32_t queue[VERTEX_MAX], steps_to[VERTEX_MAX];
    mesh e, m = lend_mesh(d, drawn, &e);
    bool structs = by_structs(d);
    entry of = structs ? ENTRY_vertices_within_in : ENTRY_vertices_within;
    size_t vertices = m.positions_length / 3, scratch = search_scratch(&m);
    search s = {any_vertex(d, vertices), 0, any_length(d, scratch), any_length(d, vertices)};
    uint32_t farthest = 0;
    if (s.from < vertices && !mesh_row(&e, false).refusal)
        farthest = steps_to[queue[walk_from(&e, s.from, queue, steps_to) - 1]];
    size_t steps = any_steps(d, farthest);
    lent order = lend(3, any_garbage(d), s.order_length, sizeof(uint32_t), one_in(d, 2));
    lent list = lend(4, any_garbage(d), s.second_length, sizeof(uint32_t), one_in(d, 2));
    koshirga_within_answer expected =
        expected_vertices_within(&e, s.from, steps, s.order_length, list.expected, s.second_length);
    koshirga_within_answer answer =
        structs
            ? koshirga_vertices_within_in(mesh_struct(&m, one_in(d, 2)), s.from, steps, order.at,
                                          s.order_length, list.at, s.second_length)
            : koshirga_vertices_within(m.positions, m.positions_length, m.starts, m.starts_length,
                                       m.entries, m.entries_length, s.from, steps, order.at,
                                       s.order_length, list.at, s.second_length);
    hold_row(of, expected.refusal, answer.refusal);
    hold_index(of, answer.refusal, expected.index, answer.index);
    hold(of, expected.vertices == answer.vertices, "the count of vertices");
    hold_mesh(of);
    hold(of, as_expected_from(3, answer.refusal ? 0 : scratch), "the order");
    hold(of, as_expected(4), "the list");
    if (!answer.refusal)
        hold_list(of, &m, s.from, steps, list.at, answer.vertices);
    count(of, answer.refusal);
    count_starts(of, &e, answer.refusal, answer.index);
    count_within(of, &e, &s, steps, answer);
}

static size_t any_entries_per_vertex(draw *d, size_t vertices) {
    switch (below(d, 16)) {
    case 0: return 0;
    case 1: return vertices + 1;
    case 2: return (size_t)any_bits(d);
    case 3: return below(d, 4);
    case 4:
    case 5:
    case 6:
    case 7:
    case 8: return vertices;
    default: return 1;
    }
}

/* Some slabs, and a tail. Of a large slab a part only. */
static size_t any_values_length(draw *d, size_t vertices, size_t per_vertex) {
    if (vertices > 5000)
        return below(d, 2 * (uint32_t)vertices);
    size_t slab = per_vertex == vertices ? vertices * vertices : vertices;
    if (slab > 2500)
        slab = vertices;
    return slab * below(d, 4) + (one_in(d, 2) ? below(d, (uint32_t)slab + 1) : 0);
}

static void damage_permutation(draw *d, uint32_t *permutation, size_t *length) {
    uint32_t *at = &permutation[below(d, (uint32_t)*length)];
    switch (below(d, 24)) {
    case 0: *at = permutation[below(d, (uint32_t)*length)]; break;
    case 1: *at = (uint32_t)*length; break;
    case 2: *at = (uint32_t)any_bits(d); break;
    case 3: *at = *at + 65536; break;
    case 4: *length -= 1; break;
    case 5:
        permutation[*length] = (uint32_t)*length;
        *length += 1;
        break;
    case 6: *length = 0; break;
    default: break;
    }
}

/* Counts how the lists were ordered that mark_ascending read. */
static void count_order(entry of, const mesh *m, const list_order *found) {
    size_t last = m->starts_length - 2;
    if (found->falling_lists > 1)
        count_way(of, WAY_SEVERAL_LISTS);
    if (found->falling_lists == 1)
        count_way(of, WAY_ONE_LIST_FIRST + place_of(found->list, 0, last));
    if (found->falling_pairs == 1)
        count_way(of, WAY_ONE_PAIR_FIRST + place_of(found->pair, 0, found->pairs - 1));
    if (found->falling_lists)
        return;
    if (found->repeats)
        count_way(of, WAY_ASCEND_REPEATS);
    if (found->border)
        count_way(of, WAY_ASCEND_BORDER);
    if (found->longest < 2)
        count_way(of, WAY_ASCEND_SHORT);
    if (mesh_row(m, true).refusal == 5)
        count_way(of, WAY_ASCEND_POSITION);
}

/* A struct whose padding holds any bytes, lent whole. */
static lent lend_struct(draw *d, const mesh *m, bool lists_ascend) {
    koshirga_mesh lent_mesh;
    memcpy(&lent_mesh, any_garbage(d), sizeof lent_mesh);
    lent_mesh.positions = m->positions;
    lent_mesh.positions_length = m->positions_length;
    lent_mesh.starts = m->starts;
    lent_mesh.starts_length = m->starts_length;
    lent_mesh.entries = m->entries;
    lent_mesh.entries_length = m->entries_length;
    lent_mesh.lists_ascend = lists_ascend;
    return lend(MARK, &lent_mesh, 1, sizeof lent_mesh, one_in(d, 2));
}

static void call_mark_ascending(draw *d, const mesh *drawn) {
    mesh e, m = lend_mesh(d, drawn, &e);
    bool structs = by_structs(d), before = one_in(d, 2);
    entry of = structs ? ENTRY_mark_ascending_of : ENTRY_mark_ascending;
    lent mark = structs ? lend_struct(d, &m, before) : lend_mark(d, before);
    koshirga_mesh *as_struct = mark.at, *expected_struct = mark.expected;
    bool *after = structs ? &as_struct->lists_ascend : mark.at;
    koshirga_verdict_answer expected =
        expected_mark_ascending(&e, structs ? &expected_struct->lists_ascend : mark.expected);
    koshirga_verdict_answer answer =
        structs ? koshirga_mark_ascending_of(as_struct)
                : koshirga_mark_ascending(m.positions, m.positions_length, m.starts,
                                          m.starts_length, m.entries, m.entries_length, after);
    hold_row(of, expected.refusal, answer.refusal);
    hold_index(of, answer.refusal, expected.index, answer.index);
    hold_mesh(of);
    hold(of, as_expected(MARK), structs ? "the struct with its mark" : "the mark");
    count(of, answer.refusal);
    count_mark(of, before, *after, answer.refusal);
    count_starts(of, &e, answer.refusal, answer.index);
    if (answer.refusal)
        return;
    list_order found = order_of(&m, NULL);
    hold(of, *after == (found.falling_pairs == 0), "true exactly where no pair falls");
    count_order(of, &e, &found);
}

/* Counts how the lists of a renumbered mesh were ordered before it, and when they were mapped. */
static void count_mapped(const mesh *before, const uint32_t *q, const list_order *mapped) {
    size_t lists = before->starts_length - 1, moved = 0;
    for (size_t v = 0; v < lists; v++)
        moved += q[v] != v;
    bool fell = order_of(before, NULL).falling_lists, falls = mapped->falling_lists;
    count_renumbered(lists, mapped->falling_lists);
    count_way(ENTRY_renumber, falls ? WAY_MAPPED_FALL : WAY_MAPPED_ASCEND);
    if (falls != fell)
        count_way(ENTRY_renumber, falls ? WAY_MAPPED_FALL_NEW : WAY_MAPPED_ASCEND_NEW);
    if (mapped->apart)
        count_way(ENTRY_renumber, WAY_MAPPED_APART);
    if (falls && !moved)
        count_way(ENTRY_renumber, WAY_MAPPED_SAME);
}

/* Whether each list of the mesh after has the entries of the earlier one taken through q, each as
 * often. */
static bool same_entries(const mesh *before, const mesh *after, const uint32_t *q) {
    for (size_t v = 0; v + 1 < before->starts_length; v++) {
        size_t start = before->starts[v], end = before->starts[v + 1];
        size_t new_start = after->starts[q[v]], new_end = after->starts[q[v] + 1];
        if (new_end - new_start != end - start)
            return false;
        for (size_t i = start; i < end; i++) {
            size_t were = 0, are = 0;
            for (size_t j = 0; j < end - start; j++) {
                were += before->entries[start + j] == before->entries[i];
                are += after->entries[new_start + j] == q[before->entries[i]];
            }
            if (are != were)
                return false;
        }
    }
    return true;
}

/* Renumbers `drawn` too where the call is accepted, so that later calls see the mesh after it. */
static void call_renumber(draw *d, mesh *drawn) {
    static uint32_t permutation_room[STARTS_ROOM], order_room[STARTS_ROOM], queue_room[STARTS_ROOM];
    mesh e, m = lend_mesh(d, drawn, &e);
    size_t vertices = m.positions_length / 3, permutation_length = vertices;
    if (vertices > 0 && vertices <= VERTEX_MAX + 1) {
        bool walked = one_in(d, 4) &&
                      !expected_walk(&e, order_room, STARTS_ROOM, queue_room, STARTS_ROOM).refusal;
        if (walked)
            memcpy(permutation_room, order_room, vertices * sizeof *order_room);
        else
            any_permutation(d, permutation_room, vertices);
        damage_permutation(d, permutation_room, &permutation_length);
    }
    size_t per_vertex = any_entries_per_vertex(d, vertices);
    size_t values_length = any_values_length(d, vertices, per_vertex);
    size_t least = renumber_scratch(&m, values_length);
    static const size_t SIZES[5] = {sizeof(uint32_t), sizeof(uint32_t), sizeof(uint16_t), 1,
                                    sizeof(double)};
    lent values = lend(3, any_garbage(d), values_length, sizeof(double), one_in(d, 2));
    lent permutation =
        lend(4, permutation_room, permutation_length, sizeof(uint32_t), one_in(d, 2));
    bool before = one_in(d, 2);
    lent mark = lend_mark(d, before);
    lent scratch[5];
    size_t scratch_lengths[5];
    bool all_enough = one_in(d, 2);
    for (int i = 0; i < 5; i++) {
        scratch_lengths[i] = all_enough ? least + below(d, 3) : any_length(d, least);
        scratch[i] = lend(5 + i, any_garbage(d), scratch_lengths[i], SIZES[i], one_in(d, 2));
    }
    koshirga_verdict_answer expected =
        expected_renumber(&e, mark.expected, values.expected, values_length, permutation.expected,
                          permutation_length, per_vertex, scratch_lengths);
    koshirga_verdict_answer answer = koshirga_renumber(
        m.positions, m.positions_length, m.starts, m.starts_length, m.entries, m.entries_length,
        mark.at, values.at, values_length, permutation.at, permutation_length, per_vertex,
        scratch[0].at, scratch_lengths[0], scratch[1].at, scratch_lengths[1], scratch[2].at,
        scratch_lengths[2], scratch[3].at, scratch_lengths[3], scratch[4].at, scratch_lengths[4]);
    hold_row(ENTRY_renumber, expected.refusal, answer.refusal);
    hold_index(ENTRY_renumber, answer.refusal, expected.index, answer.index);
    hold_mesh(ENTRY_renumber);
    hold(ENTRY_renumber, as_expected(MARK), "the mark");
    hold(ENTRY_renumber, as_expected(3), "the values");
    hold(ENTRY_renumber, as_expected(4), "the permutation");
    for (int i = 0; i < 5; i++)
        hold(ENTRY_renumber, as_expected_from(5 + i, answer.refusal ? 0 : least), "scratch");
    count(ENTRY_renumber, answer.refusal);
    count_mark(ENTRY_renumber, before, *(bool *)mark.at, answer.refusal);
    count_starts(ENTRY_renumber, &e, answer.refusal, answer.index);
    if (answer.refusal)
        return;
    list_order mapped = order_of(drawn, permutation.expected);
    hold(ENTRY_renumber, mesh_row(&m, false).refusal == 0, "the mesh passes its rows again");
    hold(ENTRY_renumber, order_of(&m, NULL).falling_pairs == 0, "the lists ascend");
    hold(ENTRY_renumber, same_entries(drawn, &m, permutation.expected), "the ids of each list");
    count_mapped(drawn, permutation.expected, &mapped);
    memcpy(drawn->positions, m.positions, m.positions_length * sizeof *m.positions);
    memcpy(drawn->starts, m.starts, m.starts_length * sizeof *m.starts);
    memcpy(drawn->entries, m.entries, m.entries_length * sizeof *m.entries);
}

/* ---- grid */

/* Room for a grid that is damaged and then queried. */
enum {
    SIDE_MAX = 420,
    CELLS_ROOM = 6 * SIDE_MAX * SIDE_MAX + 2,
    IDS_ROOM = 147 * VERTEX_MAX + 2,
    TRIPLES_ROOM = 3 << 20
};

static double query_positions[POSITIONS_ROOM];
static uint32_t query_cell_starts[CELLS_ROOM], query_triangle_starts[STARTS_ROOM];
static uint16_t query_cell_ids[IDS_ROOM], query_triples[TRIPLES_ROOM];

static grid query_room(void) {
    return (grid){.cell_starts = query_cell_starts,
                  .cell_ids = query_cell_ids,
                  .triangle_starts = query_triangle_starts,
                  .triples = query_triples};
}

/* What a query takes, but for the direction; and pair and side as the grid was built with them. */
typedef struct query {
    double *positions;
    size_t positions_length;
    settings pair;
    uint32_t side;
    grid grid;
    settings built_pair;
    uint32_t built_side;
} query;

/* Lends a grid as slices 3 to 6. `expected` gets their copies. */
static grid lend_grid(draw *d, const grid *g, grid *expected) {
    lent cell_starts =
        lend(3, g->cell_starts, g->cell_starts_length, sizeof(uint32_t), one_in(d, 2));
    lent cell_ids = lend(4, g->cell_ids, g->cell_ids_length, sizeof(uint16_t), one_in(d, 2));
    lent triangle_starts =
        lend(5, g->triangle_starts, g->triangle_starts_length, sizeof(uint32_t), one_in(d, 2));
    lent triples = lend(6, g->triples, g->triples_length, sizeof(uint16_t), one_in(d, 2));
    *expected =
        (grid){cell_starts.expected,     cell_starts.length,     cell_ids.expected, cell_ids.length,
               triangle_starts.expected, triangle_starts.length, triples.expected,  triples.length};
    return (grid){cell_starts.at,     cell_starts.length,     cell_ids.at, cell_ids.length,
                  triangle_starts.at, triangle_starts.length, triples.at,  triples.length};
}

static void hold_grid(entry of) {
    hold(of, as_expected(3), "the cell starts");
    hold(of, as_expected(4), "the cell ids");
    hold(of, as_expected(5), "the triangle starts");
    hold(of, as_expected(6), "the triples");
}

/* Cells and triangles that a built grid has: a side, parts that are filled, ids below the count, no
 * more cells to a vertex than three faces have about it; and no more than three conversions held to
 * a vertex, as of two components one at most is so much greater than the other. */
static void hold_built(entry of, const grid *g, const grid *lengths, settings pair,
                       koshirga_build_answer answer) {
    static uint32_t cells_of_id[VERTEX_MAX];
    size_t vertices = lengths->triangle_starts_length - 1, side = answer.side;
    size_t cells = 6 * side * side, across = 2 * (size_t)pair.margin + 1;
    size_t most = 3 * across * across;
    hold(of, side >= 2 && side <= SIDE_MAX, "a side from 2 to 420");
    hold(of, g->cell_starts[cells] == lengths->cell_ids_length, "the last cell's end");
    hold(of, g->cell_starts[cells] <= most * vertices, "at most so many ids");
    hold(of, 3 * (size_t)g->triangle_starts[vertices] == lengths->triples_length,
         "the last triangle's end");
    bool below_count = true, ascending = true, few = true;
    memset(cells_of_id, 0, vertices * sizeof *cells_of_id);
    for (size_t i = 0; i < lengths->cell_ids_length; i++) {
        below_count &= g->cell_ids[i] < vertices;
        few &= ++cells_of_id[g->cell_ids[i]] <= most;
    }
    for (size_t i = 0; i < lengths->triples_length; i += 3) {
        below_count &= g->triples[i + 2] < vertices;
        ascending &= g->triples[i] < g->triples[i + 1] && g->triples[i + 1] < g->triples[i + 2];
    }
    hold(of, below_count, "ids below the count");
    hold(of, few, "at most so many ids of a vertex");
    hold(of, ascending, "ascending triples");
    hold(of, answer.held <= 3 * vertices, "at most so many conversions held");
}

/* Counts what the factor was that row 19 refused. */
static void count_factor(entry of, double factor) {
    count_way(of, isnan(factor)   ? WAY_FACTOR_NAN
                  : isinf(factor) ? WAY_FACTOR_INFINITE
                  : factor == 0   ? WAY_FACTOR_ZERO
                  : factor < 0    ? WAY_FACTOR_NEGATIVE
                  : factor < 0.5  ? WAY_FACTOR_BELOW
                                  : WAY_FACTOR_ABOVE);
    if (fpclassify(factor) == FP_SUBNORMAL)
        count_way(of, WAY_FACTOR_SUBNORMAL);
    if (factor == nextafter(0.5, 0))
        count_way(of, WAY_FACTOR_NEXT_BELOW);
    if (factor == nextafter(4, 5))
        count_way(of, WAY_FACTOR_NEXT_ABOVE);
}

/* Counts what the pair was that was refused, or accepted. */
static void count_pair(entry of, settings pair, uint32_t row) {
    double factor = pair.factor;
    if (row == 19) {
        count_factor(of, factor);
        if (pair.margin > MARGIN_MAX)
            count_way(of, WAY_FACTOR_AND_MARGIN);
    }
    if (row == 20)
        count_way(of, pair.margin == MARGIN_MAX + 1 ? WAY_MARGIN_NEXT : WAY_MARGIN_ABOVE);
    if (row)
        return;
    count_way(of, WAY_MARGIN_0 + pair.margin);
    if (factor == 0.5)
        count_way(of, WAY_LEAST);
    if (factor == nextafter(0.5, 1))
        count_way(of, WAY_LEAST_NEXT);
    if (factor == nextafter(4, 0))
        count_way(of, WAY_GREATEST_NEXT);
    if (factor == 4)
        count_way(of, WAY_GREATEST);
    if (factor == nextafter(1.2, 0) || factor == nextafter(1.2, 2))
        count_way(of, WAY_USUAL_NEXT);
    if (factor == 1.2 && pair.margin == 1)
        count_way(of, WAY_USUAL);
}

/* Counts what else a build would have been refused for, or was. */
static void count_build(entry of, settings pair, const grid *given, const grid *needed,
                        uint32_t row) {
    bool short_room = given->triangle_starts_length < needed->triangle_starts_length ||
                      given->triples_length < needed->triples_length;
    count_pair(of, pair, row);
    if (row == 5 && settings_row(pair))
        count_way(of, settings_row(pair) == 19 ? WAY_POSITION_AND_FACTOR : WAY_POSITION_AND_MARGIN);
    if ((row == 19 || row == 20) && short_room)
        count_way(of, row == 19 ? WAY_FACTOR_AND_ROOM : WAY_MARGIN_AND_ROOM);
}

/* Counts at which ends a build's conversions were held, or would have been but for row 8. */
static void count_ends(entry of, const mesh *m, settings pair, uint32_t row) {
    if (row != 0 && row != 8)
        return;
    ends found = ends_of(m, grid_side(pair.factor, m->positions_length / 3));
    if (row == 8) {
        if (found.held_upper || found.held_lower)
            count_way(of, WAY_HELD_AND_ROOM);
        return;
    }
    if (found.held_upper)
        count_way(of, WAY_HELD_UPPER);
    if (found.held_lower)
        count_way(of, WAY_HELD_LOWER);
    if (found.kept_lower)
        count_way(of, WAY_KEPT_LOWER);
}

/* The struct that a build leaves: the grid with its slices cut to their lengths, or what it was. */
static void hold_struct(const koshirga_grid *left, const koshirga_grid *before, const mesh *m,
                        settings pair, const grid *g, const grid *lengths,
                        koshirga_build_answer answer) {
    if (answer.refusal) {
        hold(ENTRY_build_grid_of, memcmp(left, before, sizeof *left) == 0, "the struct changed");
        return;
    }
    hold(ENTRY_build_grid_of,
         left->positions == m->positions && left->positions_length == m->positions_length,
         "the struct's positions");
    hold(ENTRY_build_grid_of,
         bits_of(left->factor) == bits_of(pair.factor) && left->margin == pair.margin,
         "the struct's pair");
    hold(ENTRY_build_grid_of, left->side == answer.side, "the struct's side");
    hold(ENTRY_build_grid_of,
         left->cell_starts == g->cell_starts &&
             left->cell_starts_length == lengths->cell_starts_length &&
             left->cell_ids == g->cell_ids && left->cell_ids_length == lengths->cell_ids_length,
         "the struct's cells");
    hold(ENTRY_build_grid_of,
         left->triangle_starts == g->triangle_starts &&
             left->triangle_starts_length == lengths->triangle_starts_length &&
             left->triples == g->triples && left->triples_length == lengths->triples_length,
         "the struct's triangles");
}

/* Copies a slice into its room, with a 0 behind it, as it may be lengthened. */
static void *keep(void *room, const void *from, size_t length, size_t size) {
    memcpy(room, from, length * size);
    memset((uint8_t *)room + length * size, 0, size);
    return room;
}

/* Whether a grid was built; it is then in `built`, cut to its lengths, beside its positions. */
static bool call_build_grid(draw *d, const mesh *drawn, query *built) {
    mesh e, m = lend_mesh(d, drawn, &e);
    size_t vertices = e.positions_length / 3;
    settings pair = any_settings(d, vertices ? vertices : 1);
    grid needed = {.cell_starts_length = 25,
                   .cell_ids_length = 30,
                   .triangle_starts_length = vertices + 1,
                   .triples_length = 30};
    if (mesh_row(&e, true).refusal == 0)
        needed = grid_lengths(&e, settings_row(pair) ? USUAL_PAIR : pair);
    if (needed.triples_length + 2 > TRIPLES_ROOM)
        abort(); /* no drawn mesh has so many */
    grid given = needed, g_expected;
    const void *filling = any_garbage(d);
    given.cell_starts = given.triangle_starts = (uint32_t *)(uintptr_t)filling;
    given.cell_ids = given.triples = (uint16_t *)(uintptr_t)filling;
    if (!one_in(d, 3)) {
        given.cell_starts_length = any_length(d, needed.cell_starts_length);
        given.cell_ids_length = any_length(d, needed.cell_ids_length);
        given.triangle_starts_length = any_length(d, needed.triangle_starts_length);
        given.triples_length = any_length(d, needed.triples_length);
    }
    grid g = lend_grid(d, &given, &g_expected);
    koshirga_build_answer expected = expected_build_grid(&e, pair, &g_expected), answer;
    bool structs = by_structs(d);
    entry of = structs ? ENTRY_build_grid_of : ENTRY_build_grid;
    if (structs) {
        koshirga_grid left, before;
        memcpy(&before, any_garbage(d), sizeof before);
        memcpy(&left, &before, sizeof left);
        koshirga_grid_slices slices = {
            g.cell_starts,     g.cell_starts_length,     g.cell_ids, g.cell_ids_length,
            g.triangle_starts, g.triangle_starts_length, g.triples,  g.triples_length};
        answer = koshirga_build_grid_of(mesh_struct(&m, one_in(d, 2)), pair.factor, pair.margin,
                                        slices, &left);
        hold_row(of, expected.refusal, answer.refusal);
        hold_struct(&left, &before, &m, pair, &g, &needed, answer);
    } else {
        answer = koshirga_build_grid(
            m.positions, m.positions_length, m.starts, m.starts_length, m.entries, m.entries_length,
            g.cell_starts, g.cell_starts_length, g.cell_ids, g.cell_ids_length, g.triangle_starts,
            g.triangle_starts_length, g.triples, g.triples_length, pair.factor, pair.margin);
        hold_row(of, expected.refusal, answer.refusal);
    }
    hold_index(of, answer.refusal, expected.index, answer.index);
    hold(of, expected.side == answer.side, "the side");
    hold(of, expected.held == answer.held, "the count of conversions held");
    hold_mesh(of);
    hold_grid(of);
    count(of, answer.refusal);
    count_starts(of, &e, answer.refusal, answer.index);
    count_build(of, pair, &given, &needed, answer.refusal);
    count_ends(of, &e, pair, answer.refusal);
    if (answer.refusal)
        return false;
    hold_built(of, &g, &needed, pair, answer);
    count_built(answer.side, answer.held);
    *built =
        (query){query_positions, m.positions_length, pair, answer.side, needed, pair, answer.side};
    keep(query_positions, m.positions, m.positions_length, sizeof *m.positions);
    built->grid.cell_starts =
        keep(query_cell_starts, g.cell_starts, needed.cell_starts_length, sizeof(uint32_t));
    built->grid.cell_ids =
        keep(query_cell_ids, g.cell_ids, needed.cell_ids_length, sizeof(uint16_t));
    built->grid.triangle_starts = keep(query_triangle_starts, g.triangle_starts,
                                       needed.triangle_starts_length, sizeof(uint32_t));
    built->grid.triples = keep(query_triples, g.triples, needed.triples_length, sizeof(uint16_t));
    return true;
}

/* ---- grid queries */

/* Lends positions as slice 0 and the grid as slices 3 to 6. */
static query lend_query(draw *d, const query *q, query *expected) {
    lent positions = lend(0, q->positions, q->positions_length, sizeof(double), one_in(d, 2));
    query lent_query = *q;
    *expected = *q;
    lent_query.positions = positions.at;
    expected->positions = positions.expected;
    lent_query.grid = lend_grid(d, &q->grid, &expected->grid);
    return lent_query;
}

static void hold_query(entry of) {
    hold(of, as_expected(0), "the positions");
    hold_grid(of);
}

static koshirga_nearest_answer nearest_of(const query *e, vector v) {
    return expected_grid_nearest(e->positions, e->positions_length, e->pair, e->side, &e->grid, v);
}

static koshirga_located_answer located_of(const query *e, vector v) {
    return expected_grid_locate(e->positions, e->positions_length, e->pair, e->side, &e->grid, v);
}

static koshirga_grid grid_struct(const query *q) {
    return (koshirga_grid){.positions = q->positions,
                           .positions_length = q->positions_length,
                           .factor = q->pair.factor,
                           .margin = q->pair.margin,
                           .side = q->side,
                           .cell_starts = q->grid.cell_starts,
                           .cell_starts_length = q->grid.cell_starts_length,
                           .cell_ids = q->grid.cell_ids,
                           .cell_ids_length = q->grid.cell_ids_length,
                           .triangle_starts = q->grid.triangle_starts,
                           .triangle_starts_length = q->grid.triangle_starts_length,
                           .triples = q->grid.triples,
                           .triples_length = q->grid.triples_length};
}

/* Counts what the recorded pair was, and what else was wrong or had been changed; `direction` is
 * the row that a query's direction has. */
static void count_record(entry of, const query *e, uint32_t direction, uint32_t row) {
    size_t vertices = e->positions_length / 3;
    bool positions = vertices > 0 && vertices <= VERTEX_MAX && e->positions_length % 3 == 0;
    uint32_t pair_row = settings_row(e->pair);
    uint32_t side = positions && !pair_row ? grid_side(e->pair.factor, vertices) : 0;
    bool lengths = e->grid.cell_starts_length == 6 * (size_t)e->side * e->side + 1 &&
                   e->grid.triangle_starts_length == vertices + 1;
    bool other_factor = e->pair.factor != e->built_pair.factor;
    count_pair(of, e->pair, row);
    if (row == 2 && !positions && pair_row)
        count_way(of, pair_row == 19 ? WAY_COUNT_AND_FACTOR : WAY_COUNT_AND_MARGIN);
    if (row == 19 && (e->side < 2 || e->side > SIDE_MAX))
        count_way(of, WAY_FACTOR_AND_SIDE);
    if (row == 20 && e->side != grid_side(e->pair.factor, vertices))
        count_way(of, WAY_MARGIN_AND_SIDE);
    if ((row == 19 || row == 20) && !lengths)
        count_way(of, WAY_PAIR_AND_LENGTH);
    if ((row == 19 || row == 20) && direction)
        count_way(of, WAY_PAIR_AND_DIRECTION);
    if (row == 2 && positions)
        count_way(of, WAY_SIDE);
    if (row == 2 && positions && e->side == grid_side(1.2, vertices) && e->side != side)
        count_way(of, WAY_SIDE_OF_USUAL);
    if (row == 3 && !lengths && other_factor && e->side != e->built_side)
        count_way(of, WAY_SIDE_BUT_LENGTH);
    if (row == 0 && other_factor)
        count_way(of, WAY_FACTOR_CHANGED);
    if (row == 0 && e->pair.margin != e->built_pair.margin)
        count_way(of, WAY_MARGIN_CHANGED);
}

/* Counts how a query refused the lengths of its starts, or the part that it read. */
static void count_part(entry of, const query *e, vector v, uint32_t row, size_t index) {
    const grid *g = &e->grid;
    if (row != 3 && row != 18)
        return;
    if (g->cell_starts_length != 6 * (size_t)e->side * e->side + 1) {
        count_way(of, WAY_CELL_LENGTH);
        return;
    }
    if (g->triangle_starts_length != e->positions_length / 3 + 1) {
        count_way(of, WAY_VERTEX_LENGTH);
        return;
    }
    bool in_cell = nearest_of(e, v).refusal;
    if (row == 3) {
        count_way(of, in_cell ? WAY_PAST_IDS : WAY_PAST_TRIPLES);
        return;
    }
    const uint32_t *starts = in_cell ? g->cell_starts : g->triangle_starts;
    size_t last = (in_cell ? g->cell_starts_length : g->triangle_starts_length) - 1;
    size_t most = in_cell ? g->cell_ids_length : g->triples_length / 3, before = 0;
    for (size_t i = 1; i < index; i++)
        before += starts[i] < starts[i - 1];
    count_way(of, (in_cell ? WAY_CELL_FIRST : WAY_VERTEX_FIRST) + place_of(index, 1, last));
    if (starts[index] > most)
        count_way(of, in_cell ? WAY_CELL_AND_PAST : WAY_VERTEX_AND_PAST);
    if (before)
        count_way(of, in_cell ? WAY_CELL_NOT_FIRST : WAY_VERTEX_NOT_FIRST);
}

static void call_nearest(const query *q, const query *e, vector v, bool structs) {
    const grid *g = &q->grid;
    koshirga_grid as_struct = grid_struct(q);
    entry of = structs ? ENTRY_nearest_in : ENTRY_grid_nearest;
    koshirga_nearest_answer expected = nearest_of(e, v);
    koshirga_nearest_answer answer =
        structs ? koshirga_nearest_in(&as_struct, v)
                : koshirga_grid_nearest(q->positions, q->positions_length, q->pair.factor,
                                        q->pair.margin, q->side, g->cell_starts,
                                        g->cell_starts_length, g->cell_ids, g->cell_ids_length,
                                        g->triangle_starts, g->triangle_starts_length, v);
    hold_row(of, expected.refusal, answer.refusal);
    hold_index(of, answer.refusal, expected.index, answer.index);
    hold(of, expected.id == answer.id, "the vertex");
    hold(of, expected.candidates == answer.candidates, "the count of candidates");
    hold(of, same(expected.distance, answer.distance), "the distance");
    hold(of, answer.refusal || answer.id < q->positions_length / 3, "an id below the count");
    hold_query(of);
    count(of, answer.refusal);
    count_record(of, e, expected_direction(v), answer.refusal);
    count_part(of, e, v, answer.refusal, answer.index);
}

/* Counts what the least weight of a located triangle was found among, and beside. */
static void count_located(entry of, const query *e, vector v, const koshirga_located_answer *at) {
    const double weights[3] = {at->u, at->v, at->w};
    const grid *g = &e->grid;
    count_minimum(of, weights, 3, at->least);
    if (at->least != 0)
        return;
    uint32_t nearest = nearest_of(e, v).id;
    bool other_zero = false;
    for (size_t i = g->triangle_starts[nearest]; i < g->triangle_starts[nearest + 1]; i++) {
        const uint16_t *t = g->triples + 3 * i;
        double least = expected_least(
            expected_weights(expected_normalize(v), position_of(e->positions, t[0]),
                             position_of(e->positions, t[1]), position_of(e->positions, t[2])));
        other_zero |= least == 0 && !signbit(least) != !signbit(at->least);
    }
    if (other_zero)
        count_way(of, signbit(at->least) ? WAY_LOWER_ZERO_KEPT : WAY_UPPER_ZERO_KEPT);
}

static void call_locate(const query *q, const query *e, vector v, bool structs) {
    const grid *g = &q->grid;
    koshirga_grid as_struct = grid_struct(q);
    entry of = structs ? ENTRY_locate_in : ENTRY_grid_locate;
    koshirga_located_answer expected = located_of(e, v);
    koshirga_located_answer at =
        structs
            ? koshirga_locate_in(&as_struct, v)
            : koshirga_grid_locate(q->positions, q->positions_length, q->pair.factor,
                                   q->pair.margin, q->side, g->cell_starts, g->cell_starts_length,
                                   g->cell_ids, g->cell_ids_length, g->triangle_starts,
                                   g->triangle_starts_length, g->triples, g->triples_length, v);
    size_t vertices = q->positions_length / 3;
    hold_row(of, expected.refusal, at.refusal);
    hold_index(of, at.refusal, expected.index, at.index);
    hold(of,
         expected.first == at.first && expected.second == at.second && expected.third == at.third,
         "the triple");
    hold(of, same(expected.u, at.u) && same(expected.v, at.v) && same(expected.w, at.w),
         "the weights");
    hold(of, same(expected.least, at.least), "the least weight");
    hold(of, at.refusal || (at.first < vertices && at.second < vertices && at.third < vertices),
         "ids below the count");
    hold(of, at.refusal || (!(at.u < at.least) && !(at.v < at.least) && !(at.w < at.least)),
         "no weight below the least");
    hold(of, at.refusal || at.least == earlier_least((koshirga_weights){at.u, at.v, at.w}),
         "document 01's least but for a zero's sign");
    hold_query(of);
    count(of, at.refusal);
    count_record(of, e, expected_direction(v), at.refusal);
    count_part(of, e, v, at.refusal, at.index);
    if (!at.refusal)
        count_located(of, e, v, &at);
}

/* Both queries in one way, so that the archive's two get the same inputs. */
static void call_both(draw *d, const query *q, const query *e, vector v) {
    bool structs = by_structs(d);
    call_nearest(q, e, v, structs);
    call_locate(q, e, v, structs);
}

static void call_queries(draw *d, const query *drawn, int directions) {
    query e, q = lend_query(d, drawn, &e);
    for (int i = 0; i < directions; i++)
        call_both(d, &q, &e, any_direction(d));
}

/* A start that is wrong as a rule; three times some of them is small in 32 bits. */
static uint32_t wrong_start(draw *d) {
    static const uint32_t THIRDS[] = {0x55555555, 0x55555556, 0xaaaaaaab, 0xaaaaaaac};
    switch (below(d, 4)) {
    case 0: return THIRDS[below(d, 4)];
    case 1: return UINT32_MAX - below(d, 3);
    case 2: return (uint32_t)any_bits(d);
    default: return below(d, 64);
    }
}

static void change_length(draw *d, size_t *length) {
    switch (below(d, 4)) {
    case 0: *length = 0; break;
    case 1: *length += 1; break;
    default: *length -= *length > 0; break;
    }
}

static void change_side(draw *d, uint32_t *side) {
    *side = one_in(d, 2) ? *side + below(d, 3) - 1 : (uint32_t)any_bits(d);
}

/* Puts the starts of a part wrong, or one of them; `most` is the greatest end that fits. */
static void damage_part(draw *d, uint32_t *starts, size_t most) {
    switch (below(d, 6)) {
    case 0: starts[1] = starts[0]; break;
    case 1: starts[0] = starts[1] + below(d, 3); break;
    case 2: starts[1] = starts[0] - (starts[0] > 0); break;
    case 3: starts[1] = (uint32_t)most + below(d, 2); break;
    case 4: /* falls, to a place that is past the list as a rule */
        starts[1] = (uint32_t)most + below(d, 3);
        starts[0] = starts[1] + 1 + below(d, 3);
        break;
    default: starts[below(d, 2)] = wrong_start(d); break;
    }
}

/* Puts one thing wrong in the cell that starts at `starts`. */
static void damage_cell(draw *d, grid *g, uint32_t *starts, size_t vertices) {
    size_t length = starts[1] - starts[0];
    switch (below(d, 8)) {
    case 0:
    case 1:
    case 2:
    case 3:
    case 4: damage_part(d, starts, g->cell_ids_length); break;
    case 5: g->cell_ids_length = starts[1] - (length > 0); break;
    default:
        if (length > 0)
            g->cell_ids[starts[0] + below(d, (uint32_t)length)] =
                (uint16_t)(one_in(d, 2) ? vertices : any_bits(d));
    }
}

/* The same for the triangles at a vertex. */
static void damage_triangles(draw *d, query *q, uint32_t *starts, size_t vertices) {
    grid *g = &q->grid;
    size_t length = starts[1] - starts[0];
    switch (below(d, 9)) {
    case 0:
    case 1:
    case 2:
    case 3:
    case 4: damage_part(d, starts, g->triples_length / 3); break;
    case 5: g->triples_length = 3 * (size_t)starts[1] - (length > 0); break;
    case 6:
        for (size_t i = 0; i < length; i++) /* no weight of these triangles is a number */
            q->positions[3 * g->triples[3 * (starts[0] + i) + below(d, 3)]] = any_double(d);
        break;
    case 7:
        if (length > 0) /* other triangles, degenerate ones too */
            for (int i = 0; i < 3; i++)
                g->triples[3 * (starts[0] + below(d, (uint32_t)length)) + (uint32_t)i] =
                    (uint16_t)below(d, (uint32_t)vertices);
        break;
    default:
        if (length > 0)
            g->triples[3 * starts[0] + below(d, 3 * (uint32_t)length)] =
                (uint16_t)(one_in(d, 2) ? vertices : any_bits(d));
    }
}

/* Changes the recorded pair: to another of the same side as a rule, to another side, to one that
 * rows 19 and 20 refuse; at times together with g or the positions. */
static void change_pair(draw *d, query *q) {
    size_t vertices = q->positions_length / 3, at_least_one = vertices ? vertices : 1;
    switch (below(d, 12)) {
    case 0: q->pair.factor = from_bits(bits_of(q->pair.factor) + 2 * below(d, 2) - 1); break;
    case 1: q->pair.margin = below(d, MARGIN_MAX + 1); break;
    case 2: q->pair.factor = factor_of_side(d, q->side, at_least_one); break;
    case 3: q->pair = any_settings(d, at_least_one); break;
    case 4: q->pair.factor = allowed_factor(d, at_least_one); break;
    case 5:
        q->pair.factor = allowed_factor(d, at_least_one);
        q->side = grid_side(q->pair.factor, at_least_one);
        break;
    case 6:
    case 7: q->pair.factor = wrong_factor(d); break;
    case 8:
    case 9: q->pair.margin = wrong_margin(d); break;
    default: q->pair = (settings){wrong_factor(d), wrong_margin(d)}; break;
    }
    if (one_in(d, 8))
        change_side(d, &q->side);
    else if (one_in(d, 8))
        change_length(d, &q->positions_length);
}

/* Damages a grid where a query for this direction meets it. */
static void damage_query(draw *d, query *q, vector v) {
    grid *g = &q->grid;
    size_t vertices = q->positions_length / 3;
    uint32_t kind = below(d, 16);
    switch (kind) {
    case 0: change_side(d, &q->side); return;
    case 1: change_length(d, &q->positions_length); return;
    case 2: change_length(d, &g->cell_starts_length); return;
    case 3: change_length(d, &g->triangle_starts_length); return;
    case 4: change_length(d, &g->cell_ids_length); return;
    case 5: change_length(d, &g->triples_length); return;
    case 6: q->positions[any_bits(d) % q->positions_length] = any_double(d); return;
    default: break;
    }
    koshirga_nearest_answer nearest = nearest_of(q, v);
    uint32_t row = located_of(q, v).refusal;
    if (kind < 11 && (nearest.refusal == 0 || nearest.refusal == 11))
        damage_cell(d, g, g->cell_starts + cell_of(q->side, v), vertices);
    else if (row == 0 || row == 12)
        damage_triangles(d, q, g->triangle_starts + nearest.id, vertices);
}

/* Small slices of any content, in the lengths of a grid as a rule. */
static void any_grid(draw *d) {
    uint32_t vertices = 1 + below(d, 6);
    settings pair = any_settings(d, vertices);
    uint32_t side = settings_row(pair) ? 2 : grid_side(pair.factor, vertices);
    query q = {query_positions, 3 * vertices, pair, side, query_room(), pair, side};
    grid *g = &q.grid;
    g->cell_starts_length = 6 * (size_t)side * side + 1;
    g->cell_ids_length = below(d, 12);
    g->triangle_starts_length = vertices + 1;
    g->triples_length = below(d, 24);
    for (size_t i = 0; i < q.positions_length; i++)
        q.positions[i] = one_in(d, 12) ? any_double(d) : signed_unit(d);
    uint32_t start = 0;
    for (size_t i = 0; i <= g->cell_starts_length; i++)
        g->cell_starts[i] = one_in(d, 16) ? wrong_start(d) : (start += below(d, 8) == 0);
    start = 0;
    for (size_t i = 0; i <= g->triangle_starts_length; i++)
        g->triangle_starts[i] = one_in(d, 16) ? wrong_start(d) : (start += below(d, 3));
    for (size_t i = 0; i < g->cell_ids_length; i++)
        g->cell_ids[i] = (uint16_t)below(d, vertices + one_in(d, 32));
    for (size_t i = 0; i < g->triples_length; i++)
        g->triples[i] = (uint16_t)below(d, vertices + one_in(d, 32));
    if (one_in(d, 8))
        change_length(d, one_in(d, 2) ? &g->cell_starts_length : &g->triangle_starts_length);
    call_queries(d, &q, 4);
}

/* ---- buffers for the graphics card */

/* The slices into which grids are packed. */
enum { WORDS = 7, FLOATS = 8 };

static bool fits(buffer b, size_t needed) {
    return b.taken <= b.length && b.length - b.taken >= needed;
}

static bool same_records(koshirga_level_record a, koshirga_level_record b) {
    return memcmp(&a, &b, sizeof a) == 0;
}

/* How many starts fall. */
static size_t falls_of(const uint32_t *starts, size_t length) {
    size_t falls = 0;
    for (size_t i = 1; i < length; i++)
        falls += starts[i] < starts[i - 1];
    return falls;
}

static bool ids_past(const uint16_t *ids, size_t length, size_t count) {
    for (size_t i = 0; i < length; i++)
        if (ids[i] >= count)
            return true;
    return false;
}

/* Counts how the start lists of a packed grid were refused. */
static void count_packed_starts(entry of, const query *e, uint32_t row, size_t index) {
    const grid *g = &e->grid;
    size_t count = e->positions_length / 3, cells = g->cell_starts_length - 1;
    if (row == 3) {
        bool in_cells = g->cell_starts_length != 6 * (size_t)e->side * e->side + 1;
        count_way(of, in_cells ? WAY_CELL_LENGTH : WAY_VERTEX_LENGTH);
        return;
    }
    size_t cell_falls = falls_of(g->cell_starts, cells + 1);
    size_t triangle_falls = falls_of(g->triangle_starts, count + 1);
    size_t last = g->triangle_starts[count], third = g->triples_length / 3;
    bool cells_span = g->cell_starts[0] == 0 && g->cell_starts[cells] == g->cell_ids_length;
    bool triangles_span = g->triangle_starts[0] == 0 && 3 * last == g->triples_length;
    if (row == 17 && !cells_span) {
        count_way(of, g->cell_starts[0] != 0                       ? WAY_CELLS_FIRST
                      : g->cell_starts[cells] < g->cell_ids_length ? WAY_CELLS_BELOW
                                                                   : WAY_CELLS_ABOVE);
        if (!triangles_span)
            count_way(of, WAY_CELLS_AND_TRIANGLES);
    } else if (row == 17) {
        bool whole = g->triples_length % 3 == 0;
        count_way(of, g->triangle_starts[0] != 0                  ? WAY_TRIANGLES_FIRST
                      : (uint32_t)(3 * last) == g->triples_length ? WAY_TRIANGLES_WRAP
                      : !whole                                    ? WAY_TRIANGLES_THIRD
                      : last < third                              ? WAY_TRIANGLES_BELOW
                                                                  : WAY_TRIANGLES_ABOVE);
        if (cell_falls)
            count_way(of, WAY_TRIANGLES_AND_FALL);
    }
    if (row != 18)
        return;
    if (cell_falls) {
        count_way(of, WAY_CELLS_FALL_FIRST + place_of(index, 2, cells));
        if (cell_falls > 1)
            count_way(of, WAY_CELLS_FALL_AGAIN);
        if (triangle_falls)
            count_way(of, WAY_BOTH_FALL);
    } else {
        count_way(of, WAY_TRIANGLES_FALL_FIRST + place_of(index, 2, count));
        if (triangle_falls > 1)
            count_way(of, WAY_TRIANGLES_FALL_AGAIN);
    }
    if (ids_past(g->cell_ids, g->cell_ids_length, count) ||
        ids_past(g->triples, g->triples_length, count))
        count_way(of, WAY_FALL_AND_ID);
}

/* Counts which ids or positions were refused. */
static void count_packed_ids(entry of, const query *e, uint32_t row, bool room) {
    const grid *g = &e->grid;
    size_t count = e->positions_length / 3;
    bool in_cells = ids_past(g->cell_ids, g->cell_ids_length, count);
    bool in_triples = ids_past(g->triples, g->triples_length, count);
    bool position = false, not_a_number = false;
    for (size_t v = 0; v < count; v++) {
        vector p = position_of(e->positions, v);
        position |= expected_direction(p) != 0;
        not_a_number |= isnan(p.x) || isnan(p.y) || isnan(p.z);
    }
    if (row == 4) {
        count_way(of, in_cells && in_triples ? WAY_BOTH_IDS
                      : in_cells             ? WAY_CELL_ID
                                             : WAY_TRIPLE_ID);
        if (position)
            count_way(of, WAY_ID_AND_POSITION);
        return;
    }
    count_way(of, not_a_number ? WAY_POSITION_NAN : WAY_POSITION);
    if (!room)
        count_way(of, WAY_POSITION_AND_ROOM);
}

/* Counts why there was too little room, where that is so in one of the two alone. */
static void count_no_room(entry of, buffer w, size_t words, size_t before, buffer f,
                          size_t floats) {
    const size_t next = (size_t)1 << 32;
    bool words_fit = fits(w, words), floats_fit = fits(f, floats);
    if (words_fit && floats_fit) {
        if (w.taken + before == next && f.taken < next)
            count_way(of, WAY_OFFSET_ABOVE);
        if (w.taken == next && f.taken < next)
            count_way(of, WAY_ALL_ABOVE);
        if (f.taken == next && w.taken + before < next)
            count_way(of, WAY_FLOATS_ABOVE);
        return;
    }
    if (!words_fit && !floats_fit)
        return;
    buffer b = words_fit ? f : w;
    size_t needed = words_fit ? floats : words;
    if (b.taken == SIZE_MAX)
        count_way(of, words_fit ? WAY_FLOATS_ALL : WAY_WORDS_ALL);
    if (b.taken > b.length && b.taken + needed <= b.length)
        count_way(of, words_fit ? WAY_FLOATS_WRAP : WAY_WORDS_WRAP);
    if (b.taken > b.length && b.taken - b.length == 1)
        count_way(of, words_fit ? WAY_FLOATS_PAST : WAY_WORDS_PAST);
    if (b.taken == b.length)
        count_way(of, words_fit ? WAY_FLOATS_FULL : WAY_WORDS_FULL);
    if (b.taken < b.length && b.length - b.taken == needed - 1)
        count_way(of, words_fit ? WAY_FLOAT_SHORT : WAY_WORD_SHORT);
}

/* Counts what the lists of a packed grid were. */
static void count_packed_lists(entry of, const query *e) {
    const grid *g = &e->grid;
    bool large = false, many = false, falling_ids = false, falling_triple = false;
    for (size_t c = 0; c + 1 < g->cell_starts_length; c++) {
        size_t start = g->cell_starts[c], end = g->cell_starts[c + 1];
        large |= end - start > LIST_MAX;
        for (size_t i = start + 1; i < end; i++)
            falling_ids |= g->cell_ids[i] < g->cell_ids[i - 1];
    }
    for (size_t v = 0; v + 1 < g->triangle_starts_length; v++)
        many |= g->triangle_starts[v + 1] - g->triangle_starts[v] > LIST_MAX;
    for (size_t i = 0; i < g->triples_length; i += 3)
        falling_triple |=
            g->triples[i] >= g->triples[i + 1] || g->triples[i + 1] >= g->triples[i + 2];
    if (g->cell_ids_length == 0)
        count_way(of, WAY_NO_IDS);
    if (g->triples_length == 0)
        count_way(of, WAY_NO_TRIPLES);
    if (large)
        count_way(of, WAY_LARGE_CELL);
    if (many)
        count_way(of, WAY_MANY_TRIANGLES);
    if (falling_ids)
        count_way(of, WAY_FALLING_IDS);
    if (falling_triple)
        count_way(of, WAY_FALLING_TRIPLE);
}

/* Counts how the coordinates of a packed grid were rounded. */
static void count_packed_coordinates(entry of, const query *e) {
    bool inexact = false, tie = false, subnormal = false, lower_zero = false;
    for (size_t i = 0; i < e->positions_length; i++) {
        double x = e->positions[i];
        float rounded = (float)x;
        if ((double)rounded == x && x != 0)
            continue;
        inexact |= (double)rounded != x;
        tie |= is_tie(x, rounded);
        subnormal |= rounded != 0 && fabsf(rounded) < FLT_MIN;
        lower_zero |= rounded == 0 && signbit(rounded);
    }
    if (inexact)
        count_way(of, WAY_PACKED_INEXACT);
    if (tie)
        count_way(of, WAY_PACKED_TIE);
    if (subnormal)
        count_way(of, WAY_PACKED_SUBNORMAL);
    if (lower_zero)
        count_way(of, WAY_PACKED_LOWER_ZERO);
}

/* Counts where an accepted grid was packed; `behind`: another was packed before into the slices. */
static void count_place(entry of, buffer w, size_t words, buffer f, size_t floats,
                        koshirga_level_record level, bool behind) {
    if (w.taken == 0 && f.taken == 0)
        count_way(of, WAY_NONE_TAKEN);
    if (w.taken > 0 && f.taken > 0)
        count_way(of, WAY_BOTH_TAKEN);
    if (behind)
        count_way(of, WAY_BEHIND_GRID);
    if (w.taken + words == w.length && f.taken + floats == f.length)
        count_way(of, WAY_FULL);
    if (w.taken + words < w.length && f.taken + floats < f.length)
        count_way(of, WAY_SURPLUS);
    if (level.triples == UINT32_MAX)
        count_way(of, WAY_OFFSET_GREATEST);
    if (level.triples < UINT32_MAX && w.taken + words > (size_t)UINT32_MAX + 1)
        count_way(of, WAY_OFFSET_BEFORE);
    if (level.positions == UINT32_MAX)
        count_way(of, WAY_FLOATS_GREATEST);
}

static bool ids_stand(const uint32_t *words, const uint16_t *ids, size_t length) {
    for (size_t i = 0; i < length; i++)
        if (words[i] != ids[i])
            return false;
    return true;
}

static bool starts_stand(const uint32_t *words, const uint32_t *starts, size_t length) {
    return length == 0 || memcmp(words, starts, length * sizeof *starts) == 0;
}

/* Each list stands at its offset, each coordinate is what a cast in C gives, and none is infinite
 * or a NaN. */
static void hold_packed(entry of, const query *q, const uint32_t *words, const float *floats,
                        koshirga_level_record level) {
    const grid *g = &q->grid;
    hold(of, starts_stand(words + level.cell_starts, g->cell_starts, g->cell_starts_length),
         "the cell starts at their offset");
    hold(of, ids_stand(words + level.cell_ids, g->cell_ids, g->cell_ids_length),
         "the cell ids at their offset");
    hold(of,
         starts_stand(words + level.triangle_starts, g->triangle_starts, g->triangle_starts_length),
         "the triangle starts at their offset");
    hold(of, ids_stand(words + level.triples, g->triples, g->triples_length),
         "the triples at their offset");
    bool cast = true, finite = true;
    for (size_t i = 0; i < q->positions_length; i++) {
        float packed = floats[level.positions + i];
        cast &= float_bits(packed) == float_bits((float)q->positions[i]);
        finite &= isfinite(packed) != 0;
    }
    hold(of, cast, "what a cast in C gives, at its offset");
    hold(of, finite, "finite floats");
}

/* Packs a grid up to three times into the same slices, each time behind the last. */
static void call_pack(draw *d, const query *drawn) {
    query e, q = lend_query(d, drawn, &e);
    size_t words_needed = packed_words(&q.grid), floats_needed = q.positions_length;
    size_t before = words_needed - q.grid.triples_length;
    bool large = words_needed > 1 << 16, structs = by_structs(d);
    bool small = words_needed + floats_needed < FAR_TOUCHED / 2;
    entry of = structs ? ENTRY_pack_grid : ENTRY_pack;
    if (large && !one_in(d, 4))
        return;
    uint32_t times = large ? 1 : 1 + below(d, 3), far = small ? below(d, 24) : 0;
    buffer w = far == 1 || far == 2 ? any_far_buffer(d, before, words_needed)
                                    : any_buffer(d, times * words_needed);
    buffer f = far == 2 || far == 3 ? any_far_buffer(d, 0, floats_needed)
                                    : any_buffer(d, times * floats_needed);
    lent words = w.far ? lend_far(WORDS, any_garbage(d), w.length)
                       : lend(WORDS, any_garbage(d), w.length, sizeof(uint32_t), one_in(d, 2));
    lent floats = f.far ? lend_far(FLOATS, any_garbage(d), f.length)
                        : lend(FLOATS, any_garbage(d), f.length, sizeof(float), one_in(d, 2));
    koshirga_grid as_struct = grid_struct(&q);
    for (uint32_t i = 0; i < times; i++) {
        const grid *g = &q.grid;
        koshirga_pack_answer expected =
            expected_pack(e.positions, e.positions_length, e.pair, e.side, &e.grid, words.expected,
                          w.length, w.taken, floats.expected, f.length, f.taken);
        koshirga_pack_answer answer =
            structs ? koshirga_pack_grid(&as_struct, words.at, w.length, w.taken, floats.at,
                                         f.length, f.taken)
                    : koshirga_pack(q.positions, q.positions_length, q.pair.factor, q.pair.margin,
                                    q.side, g->cell_starts, g->cell_starts_length, g->cell_ids,
                                    g->cell_ids_length, g->triangle_starts,
                                    g->triangle_starts_length, g->triples, g->triples_length,
                                    words.at, w.length, w.taken, floats.at, f.length, f.taken);
        uint32_t row = answer.refusal;
        hold_row(of, expected.refusal, row);
        hold_index(of, row, expected.index, answer.index);
        hold(of, same_records(expected.level, answer.level), "the record");
        hold_query(of);
        hold(of, as_expected(WORDS), "the words");
        hold(of, as_expected(FLOATS), "the floats");
        count(of, row);
        count_record(of, &e, 0, row);
        if (row == 3 || row == 17 || row == 18)
            count_packed_starts(of, &e, row, answer.index);
        if (row == 4 || row == 5)
            count_packed_ids(of, &e, row, fits(w, words_needed) && fits(f, floats_needed));
        if (row == 8)
            count_no_room(of, w, words_needed, before, f, floats_needed);
        if (row)
            return;
        hold_packed(of, &q, words.at, floats.at, answer.level);
        count_place(of, w, words_needed, f, floats_needed, answer.level, i > 0);
        count_packed_lists(of, &e);
        count_packed_coordinates(of, &e);
        count_packed(words_needed, floats_needed);
        w.taken = answer.level.triples + q.grid.triples_length;
        f.taken = answer.level.positions + 3 * (size_t)answer.level.vertices;
    }
}

/* Ids at any places of starts that never fall; gives how many the last start counts. */
static uint32_t fill_starts(draw *d, uint32_t *starts, size_t length, uint32_t most) {
    uint32_t count = 0;
    for (size_t i = 0; i < length; i++) {
        starts[i] = count;
        if (i + 1 < length && one_in(d, 4))
            count += one_in(d, 24) ? LIST_MAX + below(d, 3) : below(d, most);
    }
    return count;
}

/* A small grid that a packing accepts, as no builder makes it. */
static query packable_grid(draw *d) {
    uint32_t vertices = 1 + below(d, one_in(d, 4) ? 40 : 6);
    settings pair = {allowed_factor(d, vertices), below(d, MARGIN_MAX + 1)};
    uint32_t side = grid_side(pair.factor, vertices);
    query q = {query_positions, 3 * (size_t)vertices, pair, side, query_room(), pair, side};
    grid *g = &q.grid;
    g->cell_starts_length = 6 * (size_t)side * side + 1;
    g->triangle_starts_length = vertices + 1;
    bool no_ids = one_in(d, 12);
    g->cell_ids_length = fill_starts(d, g->cell_starts, g->cell_starts_length, no_ids ? 1 : 4);
    g->triples_length = 3 * fill_starts(d, g->triangle_starts, vertices + 1, 4);
    for (size_t i = 0; i < g->cell_ids_length; i++)
        g->cell_ids[i] = (uint16_t)below(d, vertices);
    for (size_t i = 0; i < g->triples_length; i++)
        g->triples[i] = (uint16_t)below(d, vertices);
    for (size_t v = 0; v < vertices; v++) {
        vector at = {1, signed_unit(d), one_in(d, 2) ? 0.0 : -0.0};
        memcpy(q.positions + 3 * v, &at, sizeof at);
    }
    return q;
}

/* Puts coordinates at numbers that binary32 doesn't have; row 5 passes as a rule. */
static void vary_coordinates(draw *d, query *q) {
    for (uint32_t i = below(d, 6); i > 0; i--) {
        double x = any_rounded(d);
        while (fabs(x) >= 0x1p19 && isfinite(x))
            x *= 0x1p-32;
        q->positions[any_bits(d) % q->positions_length] = x;
    }
}

/* Puts one thing of a grid wrong that a packing reads, which a query may not. */
static void damage_packable(draw *d, query *q) {
    grid *g = &q->grid;
    uint32_t vertices = (uint32_t)(q->positions_length / 3);
    size_t cells = g->cell_starts_length - 1;
    uint16_t past = (uint16_t)(one_in(d, 2) ? vertices : UINT16_MAX);
    switch (below(d, 20)) {
    case 0: g->cell_starts[0] = 1 + below(d, 3); break;
    case 1: g->cell_starts[cells] += below(d, 3) - 1; break;
    case 2: change_length(d, &g->cell_ids_length); break;
    case 3: g->triangle_starts[0] = 1 + below(d, 3); break;
    case 4: g->triangle_starts[vertices] += below(d, 3) - 1; break;
    case 5: change_length(d, &g->triples_length); break;
    case 6: g->triples_length -= g->triples_length > 2 ? 3 : 0; break;
    case 7: /* 3 times the last start, in 32 bits, is a length that is no multiple of 3 */
        g->triples_length -= g->triples_length > 0;
        g->triangle_starts[vertices] = (uint32_t)g->triples_length * UINT32_C(0xaaaaaaab);
        break;
    case 8:
    case 9: damage_falls(d, g->cell_starts, cells); break;
    case 10:
    case 11: damage_falls(d, g->triangle_starts, vertices); break;
    case 12:
    case 13:
        if (g->cell_ids_length > 0)
            g->cell_ids[any_bits(d) % g->cell_ids_length] = past;
        break;
    case 14:
    case 15:
        if (g->triples_length > 0)
            g->triples[any_bits(d) % g->triples_length] = past;
        break;
    case 16: q->positions[any_bits(d) % q->positions_length] = any_double(d); break;
    case 17: {
        vector v = any_direction(d);
        memcpy(q->positions + 3 * below(d, vertices), &v, sizeof v);
        break;
    }
    case 18:
        if (one_in(d, 2))
            change_length(d, one_in(d, 2) ? &g->cell_starts_length : &g->triangle_starts_length);
        else
            change_side(d, &q->side);
        break;
    default: change_pair(d, q); break;
    }
}

/* ---- scenarios */

static void packings(draw *d) {
    query q = packable_grid(d);
    vary_coordinates(d, &q);
    call_pack(d, &q);
    for (int i = 0; i < 3; i++) {
        if (q.positions_length < 3 || q.grid.cell_starts_length < 2 ||
            q.grid.triangle_starts_length != q.positions_length / 3 + 1)
            return; /* what is left isn't damaged as a whole */
        damage_packable(d, &q);
        call_pack(d, &q);
    }
}

static void meshes(draw *d) {
    mesh m = any_mesh(d);
    arrange_lists(d, &m);
    if (one_in(d, 2))
        damage_mesh(d, &m);
    if (one_in(d, 16))
        damage_mesh(d, &m);
    call_walk(d, &m);
    call_walk_islands(d, &m);
    call_steps_between(d, &m);
    call_vertices_within(d, &m);
    call_mark_ascending(d, &m);
    call_renumber(d, &m);
    if (one_in(d, 2))
        call_renumber(d, &m);
    if (one_in(d, 4))
        call_mark_ascending(d, &m);
    query q;
    if (!call_build_grid(d, &m, &q))
        return;
    call_queries(d, &q, 3);
    call_pack(d, &q);
    query changed = q;
    change_pair(d, &changed);
    call_queries(d, &changed, 1);
    call_pack(d, &changed);
    for (int i = 0; i < 2; i++) {
        vector v = any_direction(d);
        damage_query(d, &q, v);
        changed = q;
        if (one_in(d, 4))
            change_pair(d, &changed);
        query e, lent_query = lend_query(d, &changed, &e);
        call_both(d, &lent_query, &e, v);
        call_pack(d, &changed);
        if (q.positions_length == 0 || q.side != q.built_side || q.grid.cell_starts_length == 0 ||
            q.grid.triangle_starts_length == 0)
            return; /* nothing is left to be damaged */
    }
}

/* Meshes of several parts, each walked twice. */
static void islands(draw *d) {
    for (int i = 0; i < 3; i++) {
        mesh m = island_mesh(d);
        if (one_in(d, 8))
            damage_mesh(d, &m);
        call_walk_islands(d, &m);
        call_walk_islands(d, &m);
    }
}

/* Several searches in one mesh. */
static void searches(draw *d) {
    mesh m = one_in(d, 12) ? long_path(d) : any_mesh(d);
    if (one_in(d, 8))
        damage_mesh(d, &m);
    for (int i = 0; i < 4; i++) {
        call_steps_between(d, &m);
        call_vertices_within(d, &m);
    }
}

static void close_meshes(draw *d) {
    vector directions[6];
    mesh m = close_mesh(d, directions, 6);
    query q, e;
    if (!call_build_grid(d, &m, &q))
        return;
    query lent_query = lend_query(d, &q, &e);
    for (int i = 0; i < 6; i++)
        call_both(d, &lent_query, &e, directions[i]);
}

static void repeat(void (*scenario)(draw *d), int times, draw *d) {
    for (int i = 0; i < times; i++)
        scenario(d);
}

int LLVMFuzzerInitialize(int *argc, char ***argv);
int LLVMFuzzerTestOneInput(const uint8_t *bytes, size_t length);

int LLVMFuzzerInitialize(int *argc, char ***argv) {
    (void)argc;
    (void)argv;
    draw d = draw_from(NULL, 0);
    for (size_t i = 0; i < sizeof garbage; i += sizeof(uint64_t)) {
        uint64_t bits = any_bits(&d);
        memcpy(garbage + i, &bits, sizeof bits);
    }
    tally_begin();
    return 0;
}

int LLVMFuzzerTestOneInput(const uint8_t *bytes, size_t length) {
    draw d = draw_from(bytes, length);
    switch (below(&d, 24)) {
    case 0: repeat(arithmetic, 3, &d); break;
    case 1: repeat(vectors, 4, &d); break;
    case 2: repeat(weights, 6, &d); break;
    case 3: repeat(choose_face, 8, &d); break;
    case 4:
    case 5:
    case 6: analytic(&d); break;
    case 7: repeat(call_lattice, 3, &d); break;
    case 8:
    case 9: any_grid(&d); break;
    case 10:
    case 11: close_meshes(&d); break;
    case 12:
        repeat(ordered_operands, 2, &d);
        repeat(ordered_weights, 2, &d);
        break;
    case 13:
    case 14: repeat(packings, 2, &d); break;
    case 15: searches(&d); break;
    case 16: islands(&d); break;
    default: meshes(&d); break;
    }
    tally_input();
    return 0;
}
