/* What the author of a mesh exporter learns from a refusal: three vertices with four neighbours in
 * all, whose start list went wrong at one place, are handed to the walk. With the start mended, the
 * mesh is read for its mark: whether every neighbour list ascends.
 *
 * Usage: exporter      exit status 0 where the walk names that place and both marks are right,
 *                      else 1 */
#include <stdio.h>

#include "koshirga.h"

enum { VERTICES = 3, STARTS = VERTICES + 1, ENTRIES = 4 };

static const double POSITIONS[3 * VERTICES] = {1, 0, 0, 0, 1, 0, 0, 0, 1};
/* Vertex 1 would have the entries from 3 up to 2. */
static const uint32_t FALLING[STARTS] = {0, 3, 2, 4};
static const uint32_t MENDED[STARTS] = {0, 2, 3, 4};
/* As they were exported, and with the list of vertex 0 sorted. */
static const uint16_t NEIGHBOURS[ENTRIES] = {2, 1, 0, 0};
static const uint16_t SORTED[ENTRIES] = {1, 2, 0, 0};

/* What is wrong with the starts, by the header's constants. */
static void explain(koshirga_walk_answer walk) {
    switch (walk.refusal) {
    case KOSHIRGA_ACCEPTED:
        printf("KOSHIRGA_ACCEPTED: nothing is wrong\n");
        break;
    case KOSHIRGA_STARTS:
        printf("KOSHIRGA_STARTS: there aren't %d starts, or a neighbour list is over 32\n", STARTS);
        break;
    case KOSHIRGA_STARTS_SPAN:
        printf("KOSHIRGA_STARTS_SPAN: the first start isn't 0, or the last isn't %d\n", ENTRIES);
        break;
    case KOSHIRGA_STARTS_FALL:
        printf("KOSHIRGA_STARTS_FALL: starts[%zu] is %u, and starts[%zu] before it is %u\n",
               walk.index, (unsigned)FALLING[walk.index], walk.index - 1,
               (unsigned)FALLING[walk.index - 1]);
        break;
    default:
        printf("another refusal: koshirga.h names it\n");
    }
}

/* The mark of the mended mesh with these entries: from outside, it is unmarked until it is read. */
static bool read_mark(const uint16_t *entries) {
    koshirga_mesh mesh = {
        .positions = POSITIONS,
        .positions_length = 3 * VERTICES,
        .starts = MENDED,
        .starts_length = STARTS,
        .entries = entries,
        .entries_length = ENTRIES,
    };
    koshirga_verdict_answer read = koshirga_mark_ascending_of(&mesh);
    printf("neighbours");
    for (int i = 0; i < ENTRIES; i++)
        printf(" %u", (unsigned)entries[i]);
    if (read.refusal != KOSHIRGA_ACCEPTED)
        printf(": refused %u\n", (unsigned)read.refusal);
    else
        printf(": %s\n", mesh.lists_ascend ? "every list ascends" : "not every list ascends");
    return mesh.lists_ascend;
}

int main(void) {
    uint32_t order[VERTICES], queue[VERTICES];
    printf("starts");
    for (int i = 0; i < STARTS; i++)
        printf(" %u", (unsigned)FALLING[i]);
    printf(" of %d entries\n", ENTRIES);
    koshirga_walk_answer walk = koshirga_walk(POSITIONS, 3 * VERTICES, FALLING, STARTS, NEIGHBOURS,
                                              ENTRIES, order, VERTICES, queue, VERTICES);
    printf("refused %u at %zu\n", (unsigned)walk.refusal, walk.index);
    explain(walk);
    if (walk.refusal != 18 || walk.index != 2) {
        fprintf(stderr, "exporter: the walk should be refused with 18 at 2\n");
        return 1;
    }
    printf("starts mended to");
    for (int i = 0; i < STARTS; i++)
        printf(" %u", (unsigned)MENDED[i]);
    printf("\n");
    const bool exported = read_mark(NEIGHBOURS), sorted = read_mark(SORTED);
    if (exported || !sorted) {
        fprintf(stderr, "exporter: the sorted lists alone should be marked\n");
        return 1;
    }
    return 0;
}
