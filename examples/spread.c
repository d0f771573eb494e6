/* A correction of one measured point, spread over all points within three steps of it: the whole of
 * it at the point itself, and less with each step. The points are those of the lattice of frequency
 * 4.
 *
 * Usage: spread      exit status 0 where each point is corrected by the steps that lead to it and a
 *                    vertex that isn't there is refused, else 1 */
#include <stdio.h>
#include <stdlib.h>

#include "koshirga.h"

enum { FREQUENCY = 4, VERTICES = 162, ENTRIES = 960, IDS = 300 };

enum { CHOSEN = 40, STEPS = 3 };
static const double CORRECTION = -2; /* dB */

static void expect(bool fact, const char *what) {
    if (fact)
        return;
    fprintf(stderr, "spread: %s\n", what);
    exit(1);
}

/* Falls evenly, to 0 at the first step that isn't taken. */
static double correction_after(uint32_t steps) {
    return steps > STEPS ? 0 : CORRECTION * (STEPS + 1 - steps) / (STEPS + 1);
}

/* Corrects each level once. A list is the front of the next one, which has a step more: what it
 * holds behind that front is as many steps away as were asked for. */
static void spread(koshirga_mesh mesh, uint32_t *order, double *levels) {
    uint32_t list[VERTICES], nearer = 0;
    printf("%5s %6s %6s  vertices\n", "steps", "dB", "points");
    for (uint32_t steps = 0; steps <= STEPS; steps++) {
        koshirga_within_answer within =
            koshirga_vertices_within_in(mesh, CHOSEN, steps, order, ENTRIES, list, VERTICES);
        expect(within.refusal == KOSHIRGA_ACCEPTED, "the vertices should be found");
        printf("%5u %6.2f %6u ", (unsigned)steps, correction_after(steps),
               (unsigned)(within.vertices - nearer));
        for (uint32_t i = nearer; i < within.vertices; i++) {
            levels[list[i]] += correction_after(steps);
            printf(" %u", (unsigned)list[i]);
        }
        printf("\n");
        nearer = within.vertices;
    }
}

int main(void) {
    static double positions[3 * VERTICES], levels[VERTICES];
    static uint32_t starts[VERTICES + 1], order[ENTRIES], queue[ENTRIES];
    static uint16_t entries[ENTRIES], ids[IDS];
    koshirga_mesh mesh = {
        .positions = positions,
        .positions_length = 3 * VERTICES,
        .starts = starts,
        .starts_length = VERTICES + 1,
        .entries = entries,
        .entries_length = ENTRIES,
    };
    uint32_t row = koshirga_lattice(FREQUENCY, positions, 3 * VERTICES, starts, VERTICES + 1,
                                    entries, ENTRIES, &mesh.lists_ascend, ids, IDS);
    expect(row == KOSHIRGA_ACCEPTED, "the lattice should be accepted");
    printf("%g dB at vertex %d, over %d steps\n", CORRECTION, CHOSEN, STEPS);
    spread(mesh, order, levels);

    /* The entries are the longest slice, and so scratch is as long as they are. */
    for (uint32_t v = 0; v < VERTICES; v++) {
        koshirga_steps_answer between =
            koshirga_steps_between_in(mesh, CHOSEN, v, order, ENTRIES, queue, ENTRIES);
        expect(between.refusal == KOSHIRGA_ACCEPTED, "each vertex should be reached");
        expect(levels[v] == correction_after(between.steps), "a level should be another");
    }
    koshirga_steps_answer none =
        koshirga_steps_between_in(mesh, CHOSEN, (uint32_t)-1, order, ENTRIES, queue, ENTRIES);
    printf("to vertex -1: refused %u\n", (unsigned)none.refusal);
    expect(none.refusal == KOSHIRGA_VERTEX, "vertex -1 should be refused with 14");
    return 0;
}
