/* A balloon over koshirga.h: the levels of a loudspeaker at the vertices of a lattice, and the
 * level in any direction.
 *
 * Usage: balloon [X Y Z]      the direction, of any length from 2^-20 to 2^20; default 1 0.5 0.25
 *
 * The steps are those of a real program: make the lattice and attach a level to each vertex;
 * renumber both in breadth-first order, so that neighbours lie close in memory; build the grid; ask
 * it. The analytic locator, which needs no grid and knows the lattice's own numbering alone, is
 * asked before. Its weights differ a little from the grid's: it projects radially, while the grid's
 * are those of the triangle's closest point. Every call says by a number whether it was refused,
 * and one of the numbers comes with an index; accepted_at() turns both into a message. */
#include <math.h>
#include <stdio.h>
#include <stdlib.h>

#include "koshirga.h"

enum { FREQUENCY = 20 };

/* The grid's pair: the factor of its side, from 0.5 to 4.0, and the margin of cells around a
 * vertex, from 0 to 3. */
static const double FACTOR = KOSHIRGA_USUAL_FACTOR;
enum { MARGIN = KOSHIRGA_USUAL_MARGIN };

/* ---- what every program needs */

/* What to tell the user, by the number that a call answers. */
static const char *const REFUSALS[] = {
    [KOSHIRGA_FREQUENCY] = "the frequency is below 1 or above 80",
    [KOSHIRGA_COUNT] = "no vertex, over 65536 of them, positions not three a vertex, or a side "
                       "that isn't that of count and factor",
    [KOSHIRGA_STARTS] = "a start list has a wrong length or runs past its ids or triples, or a "
                        "neighbour list is over 32",
    [KOSHIRGA_ID] = "an id is not below the vertex count",
    [KOSHIRGA_POSITION] = "a position isn't finite, or its length is below 2^-20 or above 2^20",
    [KOSHIRGA_PERMUTATION] = "not a permutation of the ids",
    [KOSHIRGA_ENTRIES_PER_VERTEX] = "the entries a vertex are neither 1 nor the vertex count",
    [KOSHIRGA_ROOM] = "a slice is too short, or an offset is above 4294967295",
    [KOSHIRGA_DIRECTION] = "the direction isn't finite, or its length is below 2^-20 or above 2^20",
    [KOSHIRGA_FLAGS] = "the outside flags sum to over 3: a long direction close to an icosahedron "
                       "vertex",
    [KOSHIRGA_EMPTY_CELL] = "no vertex is in the direction's cell",
    [KOSHIRGA_NO_TRIANGLE] = "no triangle at the nearest vertex has a least weight",
    [KOSHIRGA_UNREACHED] = "the mesh is not connected",
    [KOSHIRGA_VERTEX] = "a given vertex is not below the vertex count",
    [KOSHIRGA_NO_PATH] = "no path leads to the target",
    [KOSHIRGA_STARTS_SPAN] = "the first start isn't 0, or the last isn't the number of entries, "
                             "ids or triples",
    [KOSHIRGA_STARTS_FALL] = "a start is below the one before it",
    [KOSHIRGA_FACTOR] = "the grid's factor isn't finite, or is below 0.5 or above 4.0",
    [KOSHIRGA_MARGIN] = "the grid's margin is above 3",
};

/* Ends the program where a call was refused; index is that of its answer. */
static void accepted_at(const char *call, uint32_t refusal, size_t index) {
    size_t rows = sizeof REFUSALS / sizeof *REFUSALS;
    if (refusal == KOSHIRGA_ACCEPTED)
        return;
    fprintf(stderr, "balloon: %s is refused (%u): %s", call, (unsigned)refusal,
            refusal < rows && REFUSALS[refusal] ? REFUSALS[refusal] : "an unknown row");
    if (refusal == KOSHIRGA_STARTS_FALL)
        fprintf(stderr, ": the start at index %zu of its list, counted from 0", index);
    fprintf(stderr, "\n");
    exit(1);
}

/* The same for a call whose answer has no index. */
static void accepted(const char *call, uint32_t refusal) { accepted_at(call, refusal, 0); }

/* Room for a slice; never null, as koshirga.h asks, and of at least one element. */
static void *room(size_t count, size_t size) {
    void *slice = calloc(count > 0 ? count : 1, size);
    if (!slice) {
        fprintf(stderr, "balloon: no memory\n");
        exit(1);
    }
    return slice;
}

/* A mesh with its id table and one level a vertex. */
typedef struct balloon {
    size_t vertices, entries, ids;
    double *positions; /* three a vertex */
    uint32_t *starts;  /* vertices + 1 */
    uint16_t *neighbours;
    bool lists_ascend; /* the mark of the mesh */
    uint16_t *table;   /* for the analytic locator */
    double *levels;
} balloon;

static koshirga_mesh mesh_of(const balloon *b) {
    return (koshirga_mesh){
        .positions = b->positions,
        .positions_length = 3 * b->vertices,
        .starts = b->starts,
        .starts_length = b->vertices + 1,
        .entries = b->neighbours,
        .entries_length = b->entries,
        .lists_ascend = b->lists_ascend,
    };
}

/* ---- the steps */

/* Sound pressure level in dB of a cardioid that faces +x, 94 dB on its axis, with a floor of 54 dB.
 */
static double cardioid_level(koshirga_vector3 unit) {
    double pressure = 0.5 + 0.5 * unit.x;
    return 94 + 20 * log10(fmax(pressure, 0.01));
}

static balloon make_balloon(uint32_t frequency) {
    size_t n = frequency;
    balloon b = {.vertices = 10 * n * n + 2, .entries = 60 * n * n, .ids = 10 * (n + 1) * (n + 2)};
    b.positions = room(3 * b.vertices, sizeof *b.positions);
    b.starts = room(b.vertices + 1, sizeof *b.starts);
    b.neighbours = room(b.entries, sizeof *b.neighbours);
    b.table = room(b.ids, sizeof *b.table);
    b.levels = room(b.vertices, sizeof *b.levels);
    accepted("the lattice",
             koshirga_lattice(frequency, b.positions, 3 * b.vertices, b.starts, b.vertices + 1,
                              b.neighbours, b.entries, &b.lists_ascend, b.table, b.ids));
    for (size_t v = 0; v < b.vertices; v++) {
        const double *p = b.positions + 3 * v;
        b.levels[v] = cardioid_level((koshirga_vector3){p[0], p[1], p[2]});
    }
    return b;
}

/* Renumbers mesh and levels in walk order, which leaves each neighbour list ascending and the mesh
 * marked so. Returns the new id of each old one. */
static uint32_t *renumber_by_walk(balloon *b) {
    uint32_t *order = room(b->vertices, sizeof *order);
    uint32_t *queue = room(b->vertices, sizeof *queue);
    koshirga_walk_answer walk =
        koshirga_walk_mesh(mesh_of(b), order, b->vertices, queue, b->vertices);
    accepted_at("the walk", walk.refusal, walk.index);

    /* Each scratch slice is as long as the longest slice of the call. */
    size_t longest = b->entries > 3 * b->vertices ? b->entries : 3 * b->vertices;
    uint32_t *sources = room(longest, sizeof *sources);
    uint32_t *old_starts = room(longest, sizeof *old_starts);
    uint16_t *old_entries = room(longest, sizeof *old_entries);
    uint8_t *done = room(longest, sizeof *done);
    double *held = room(longest, sizeof *held);
    koshirga_verdict_answer renumbered = koshirga_renumber(
        b->positions, 3 * b->vertices, b->starts, b->vertices + 1, b->neighbours, b->entries,
        &b->lists_ascend, b->levels, b->vertices, order, b->vertices, 1, sources, longest,
        old_starts, longest, old_entries, longest, done, longest, held, longest);
    accepted_at("the renumbering", renumbered.refusal, renumbered.index);
    free(queue);
    free(sources);
    free(old_starts);
    free(old_entries);
    free(done);
    free(held);
    return order;
}

/* Slices that are long enough for the balloon's grid. */
static koshirga_grid_slices room_for_grid(const balloon *b) {
    /* The side, as koshirga.h gives it: the ceiling of root(count/6) * FACTOR, at least 2. */
    double across = koshirga_ceil(koshirga_sqrt((double)b->vertices / 6) * FACTOR);
    size_t side = across > 2 ? (size_t)across : 2;
    size_t near = 2 * MARGIN + 1;
    koshirga_grid_slices lent = {
        .cell_starts_length = 6 * side * side + 1,
        .cell_ids_length = 3 * near * near * b->vertices, /* on three faces at most */
        .triangle_starts_length = b->vertices + 1,
        .triples_length = 3 * b->entries, /* of a lattice: 180n^2, three ids a triple */
    };
    lent.cell_starts = room(lent.cell_starts_length, sizeof *lent.cell_starts);
    lent.cell_ids = room(lent.cell_ids_length, sizeof *lent.cell_ids);
    lent.triangle_starts = room(lent.triangle_starts_length, sizeof *lent.triangle_starts);
    lent.triples = room(lent.triples_length, sizeof *lent.triples);
    return lent;
}

/* The balloon's grid in the lent slices, which a query gets cut to what was filled. Prints how many
 * conversions were held at an end, as calibration staff want to know. */
static koshirga_grid make_grid(const balloon *b, koshirga_grid_slices lent) {
    koshirga_grid grid = {0};
    koshirga_build_answer built = koshirga_build_grid_of(mesh_of(b), FACTOR, MARGIN, lent, &grid);
    accepted_at("the grid", built.refusal, built.index);
    printf("grid built: %u conversions held at an end of the signed range\n\n",
           (unsigned)built.held);
    return grid;
}

/* ---- what is printed */

static void print_mark(koshirga_mesh mesh) {
    printf("mesh renumbered in walk order: %s\n",
           mesh.lists_ascend ? "marked, every neighbour list ascends" : "unmarked");
}

static void print_location(const uint32_t ids[3], const double weights[3], const double levels[3]) {
    double level = 0, sum = 0;
    printf("    vertex    weight     level\n");
    for (int i = 0; i < 3; i++) {
        printf("    %6u  %8.6f  %5.2f dB\n", (unsigned)ids[i], weights[i], levels[i]);
        level += weights[i] * levels[i];
        sum += weights[i];
    }
    if (fabs(sum - 1) < 1e-6)
        printf("    interpolated level  %5.2f dB\n", level);
    else
        printf("    the weights sum to %g and not to 1: see docs/DIFFERENCES.md\n", sum);
}

static koshirga_analytic_answer ask_analytic(const balloon *b, koshirga_vector3 direction) {
    koshirga_analytic_answer at = koshirga_analytic_locate(FREQUENCY, b->table, b->ids, direction);
    accepted("the analytic location", at.refusal);
    koshirga_vertex_answer nearest =
        koshirga_analytic_nearest(FREQUENCY, b->table, b->ids, direction);
    accepted("the analytic nearest vertex", nearest.refusal);
    printf("analytic, in the lattice's numbering\n");
    print_location(
        (const uint32_t[]){at.first, at.second, at.third}, (const double[]){at.u, at.v, at.w},
        (const double[]){b->levels[at.first], b->levels[at.second], b->levels[at.third]});
    printf("    nearest vertex %u, %.2f dB\n\n", (unsigned)nearest.id, b->levels[nearest.id]);
    return at;
}

static void ask_grid(const balloon *b, const koshirga_grid *grid, koshirga_vector3 direction) {
    koshirga_located_answer at = koshirga_locate_in(grid, direction);
    accepted_at("the location", at.refusal, at.index);
    koshirga_nearest_answer nearest = koshirga_nearest_in(grid, direction);
    accepted_at("the nearest vertex", nearest.refusal, nearest.index);
    printf("grid of side %u, in walk order\n", (unsigned)grid->side);
    print_location(
        (const uint32_t[]){at.first, at.second, at.third}, (const double[]){at.u, at.v, at.w},
        (const double[]){b->levels[at.first], b->levels[at.second], b->levels[at.third]});
    printf("    least weight        %8.6f\n", at.least);
    printf("    nearest vertex %u, %.2f dB, at distance %.4f, of %u candidates\n",
           (unsigned)nearest.id, b->levels[nearest.id], koshirga_sqrt(nearest.distance),
           (unsigned)nearest.candidates);
}

static double number(const char *text) {
    char *end;
    double x = strtod(text, &end);
    if (end == text || *end != '\0') {
        fprintf(stderr, "balloon: not a number: %s\n", text);
        exit(2);
    }
    return x;
}

int main(int argc, char **argv) {
    koshirga_vector3 direction = {1, 0.5, 0.25};
    if (argc == 4) {
        direction = (koshirga_vector3){number(argv[1]), number(argv[2]), number(argv[3])};
    } else if (argc != 1) {
        fprintf(stderr, "usage: balloon [X Y Z]\n");
        return 2;
    }
    accepted("the direction", koshirga_direction(direction));

    balloon b = make_balloon(FREQUENCY);
    printf("lattice of frequency %d: %zu vertices\n", FREQUENCY, b.vertices);
    printf("direction (%g, %g, %g): %.2f dB by the formula itself\n\n", direction.x, direction.y,
           direction.z, cardioid_level(koshirga_normalize(direction)));
    koshirga_analytic_answer analytic = ask_analytic(&b, direction);

    uint32_t *order = renumber_by_walk(&b);
    print_mark(mesh_of(&b));
    koshirga_grid_slices lent = room_for_grid(&b);
    koshirga_grid grid = make_grid(&b, lent);
    ask_grid(&b, &grid, direction);
    /* The id table keeps the lattice's numbering: its answers are taken through the walk's order.
     */
    printf("    the analytic triple in walk order: %u %u %u\n", (unsigned)order[analytic.first],
           (unsigned)order[analytic.second], (unsigned)order[analytic.third]);

    free(order);
    free(b.positions);
    free(b.starts);
    free(b.neighbours);
    free(b.table);
    free(b.levels);
    free(lent.cell_starts);
    free(lent.cell_ids);
    free(lent.triangle_starts);
    free(lent.triples);
    return 0;
}
