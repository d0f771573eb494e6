/* A balloon whose rear was shadowed, by the ring of a stand and by its pole: which of the measured
 * points belong together, and where too few do to interpolate between them. The points are those of
 * the lattice of frequency 4 that weren't in the shadow.
 *
 * Usage: shadow      exit status 0 where each island has the points that a walk from its first one
 *                    reaches and the ordinary walk is refused, else 1 */
#include <stdio.h>
#include <stdlib.h>
#include <string.h>

#include "koshirga.h"

enum { FREQUENCY = 4, VERTICES = 162, ENTRIES = 960, IDS = 300 };

/* A triangle has so many points. */
enum { LEAST = 3 };

/* A mesh with slices of its own, and the number of its vertices. */
typedef struct balloon {
    double positions[3 * VERTICES];
    uint32_t starts[VERTICES + 1];
    uint16_t entries[ENTRIES];
    size_t vertices;
} balloon;

static void expect(bool fact, const char *what) {
    if (fact)
        return;
    fprintf(stderr, "shadow: %s\n", what);
    exit(1);
}

/* The rear is where x is below 0. */
static bool in_shadow(const double *position) {
    const double x = position[0], y = position[1];
    return (x > -0.85 && x < -0.6) || (x < 0 && y > 0.05 && y < 0.35);
}

/* Leaves out the points that are in the shadow, of neighbour lists too. ids gets the old id of each
 * vertex that is left. */
static void measure(const balloon *whole, balloon *left, uint32_t *ids) {
    uint32_t places[VERTICES];
    for (uint32_t v = 0; v < VERTICES; v++) {
        places[v] = VERTICES;
        if (in_shadow(whole->positions + 3 * v))
            continue;
        places[v] = (uint32_t)left->vertices;
        memcpy(left->positions + 3 * left->vertices, whole->positions + 3 * v, 3 * sizeof(double));
        ids[left->vertices++] = v;
    }
    uint32_t end = 0;
    for (size_t i = 0; i < left->vertices; i++) {
        for (uint32_t e = whole->starts[ids[i]]; e < whole->starts[ids[i] + 1]; e++)
            if (places[whole->entries[e]] < VERTICES)
                left->entries[end++] = (uint16_t)places[whole->entries[e]];
        left->starts[i + 1] = end;
    }
}

/* Prints each island and tells how many are too small. Its points stand side by side in the queue,
 * the lowest id first; a walk from there has to reach the same ones. */
static uint32_t show(koshirga_mesh mesh, const uint32_t *ids, const uint32_t *queue,
                     const uint32_t *island_starts, uint32_t islands) {
    static uint32_t scratch[ENTRIES], list[VERTICES];
    uint32_t small = 0;
    printf("%6s %6s %6s\n", "island", "points", "first");
    for (uint32_t i = 0; i < islands; i++) {
        const uint32_t start = island_starts[i];
        const uint32_t end =
            i + 1 < islands ? island_starts[i + 1] : (uint32_t)(mesh.positions_length / 3);
        const bool too_small = end - start < LEAST;
        printf("%6u %6u %6u%s\n", (unsigned)i, (unsigned)(end - start), (unsigned)ids[queue[start]],
               too_small ? "  too small" : "");
        small += too_small;
        const koshirga_within_answer reached = koshirga_vertices_within_in(
            mesh, queue[start], SIZE_MAX, scratch, ENTRIES, list, VERTICES);
        expect(reached.refusal == KOSHIRGA_ACCEPTED && reached.vertices == end - start &&
                   memcmp(list, queue + start, (end - start) * sizeof *list) == 0,
               "an island should be what its first point leads to");
    }
    return small;
}

int main(void) {
    static balloon whole, left;
    static uint16_t table[IDS];
    static uint32_t ids[VERTICES], order[VERTICES], queue[VERTICES], island_starts[VERTICES];
    bool lists_ascend = false;
    const uint32_t row =
        koshirga_lattice(FREQUENCY, whole.positions, 3 * VERTICES, whole.starts, VERTICES + 1,
                         whole.entries, ENTRIES, &lists_ascend, table, IDS);
    expect(row == KOSHIRGA_ACCEPTED, "the lattice should be accepted");
    measure(&whole, &left, ids);
    const koshirga_mesh mesh = {
        .positions = left.positions,
        .positions_length = 3 * left.vertices,
        .starts = left.starts,
        .starts_length = left.vertices + 1,
        .entries = left.entries,
        .entries_length = left.starts[left.vertices],
    };
    printf("%u of %u points are measured\n", (unsigned)left.vertices, (unsigned)VERTICES);

    const koshirga_walk_answer walk = koshirga_walk_mesh(mesh, order, VERTICES, queue, VERTICES);
    printf("the ordinary walk: refused %u\n", (unsigned)walk.refusal);
    expect(walk.refusal == KOSHIRGA_UNREACHED, "the ordinary walk should be refused with 13");
    const koshirga_islands_answer found =
        koshirga_walk_islands_in(mesh, order, VERTICES, queue, VERTICES, island_starts, VERTICES);
    expect(found.refusal == KOSHIRGA_ACCEPTED, "the walk over all islands should be accepted");
    const uint32_t small = show(mesh, ids, queue, island_starts, found.islands);
    printf("%u islands, %u of them too small to interpolate in\n", (unsigned)found.islands,
           (unsigned)small);
    return 0;
}
