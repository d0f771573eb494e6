/* Two balloons for the graphics card: the grids of the lattices of frequency 1 and 2 are packed one
 * behind the other into a slice of words and a slice of floats, and a viewer then finds in these
 * what it draws, by each grid's level record alone.
 *
 * Usage: buffers      exit status 0 where records, words and floats are the expected ones and a
 *                     third grid, for which no place is left, is refused, else 1 */
#include <stdio.h>
#include <stdlib.h>
#include <string.h>

#include "koshirga.h"

/* The greatest lengths, those of frequency 2. Its grid has the side 4. */
enum {
    VERTICES = 42,
    ENTRIES = 240,
    IDS = 120,
    CELLS = 6 * 4 * 4,
    CELL_IDS = 27 * VERTICES,
    TRIPLES = 720
};

/* What both grids need, and nothing more. */
enum { WORDS = 304 + 1212, FLOATS = 36 + 126 };

/* The slices of a grid and of its mesh. */
typedef struct balloon {
    double positions[3 * VERTICES];
    uint32_t starts[VERTICES + 1], cell_starts[CELLS + 1], triangle_starts[VERTICES + 1];
    uint16_t entries[ENTRIES], ids[IDS], cell_ids[CELL_IDS], triples[TRIPLES];
    koshirga_grid grid;
} balloon;

/* What the two slices of the card hold, and how many places of each are taken. */
typedef struct buffers {
    uint32_t words[WORDS];
    float floats[FLOATS];
    size_t words_taken, floats_taken;
} buffers;

static void expect(bool fact, const char *what) {
    if (fact)
        return;
    fprintf(stderr, "buffers: %s\n", what);
    exit(1);
}

/* The lattice of a frequency up to 2, and its grid. */
static void make_balloon(balloon *b, uint32_t frequency) {
    const size_t square = (size_t)frequency * frequency, vertices = 10 * square + 2;
    bool lists_ascend = false;
    uint32_t row = koshirga_lattice(frequency, b->positions, 3 * VERTICES, b->starts, VERTICES + 1,
                                    b->entries, ENTRIES, &lists_ascend, b->ids, IDS);
    expect(row == KOSHIRGA_ACCEPTED, "the lattice should be accepted");
    const koshirga_mesh mesh = {
        .positions = b->positions,
        .positions_length = 3 * vertices,
        .starts = b->starts,
        .starts_length = vertices + 1,
        .entries = b->entries,
        .entries_length = 60 * square,
        .lists_ascend = lists_ascend,
    };
    const koshirga_grid_slices lent = {
        .cell_starts = b->cell_starts,
        .cell_starts_length = CELLS + 1,
        .cell_ids = b->cell_ids,
        .cell_ids_length = CELL_IDS,
        .triangle_starts = b->triangle_starts,
        .triangle_starts_length = VERTICES + 1,
        .triples = b->triples,
        .triples_length = TRIPLES,
    };
    koshirga_build_answer built =
        koshirga_build_grid_of(mesh, KOSHIRGA_USUAL_FACTOR, KOSHIRGA_USUAL_MARGIN, lent, &b->grid);
    expect(built.refusal == KOSHIRGA_ACCEPTED, "the grid should be accepted");
}

/* Packs a grid behind what is taken, and counts its places as taken where it is accepted. */
static koshirga_pack_answer pack(buffers *card, const koshirga_grid *grid) {
    koshirga_pack_answer packed = koshirga_pack_grid(grid, card->words, WORDS, card->words_taken,
                                                     card->floats, FLOATS, card->floats_taken);
    if (packed.refusal == KOSHIRGA_ACCEPTED) {
        card->words_taken = packed.level.triples + grid->triples_length;
        card->floats_taken = packed.level.positions + 3 * (size_t)packed.level.vertices;
    }
    return packed;
}

static void print_record(const koshirga_level_record *level) {
    printf("%u vertices, side %u, offsets %u %u %u %u and %u\n", (unsigned)level->vertices,
           (unsigned)level->side, (unsigned)level->cell_starts, (unsigned)level->cell_ids,
           (unsigned)level->triangle_starts, (unsigned)level->triples, (unsigned)level->positions);
}

/* What a viewer does: nothing but words, floats and the record is read. */
static void draw_first(const buffers *card, const koshirga_level_record *level) {
    const uint32_t *cell_starts = card->words + level->cell_starts;
    const uint32_t *cell_ids = card->words + level->cell_ids;
    const uint32_t *triangle_starts = card->words + level->triangle_starts;
    const uint32_t *triples = card->words + level->triples;
    const float *positions = card->floats + level->positions;
    printf("  cell 0 has the ids");
    for (uint32_t i = cell_starts[0]; i < cell_starts[1]; i++)
        printf(" %u", (unsigned)cell_ids[i]);
    printf("\n  vertex 1 has %u triangles, the first of them with the corners\n",
           (unsigned)(triangle_starts[2] - triangle_starts[1]));
    for (uint32_t corner = 0; corner < 3; corner++) {
        const uint32_t id = triples[3 * triangle_starts[1] + corner];
        const float *position = positions + 3 * id;
        printf("  %4u at (%.7g, %.7g, %.7g)\n", (unsigned)id, (double)position[0],
               (double)position[1], (double)position[2]);
    }
}

/* Whether the words and floats that a record names are a grid's. */
static bool holds(const buffers *card, const koshirga_level_record *level,
                  const koshirga_grid *grid) {
    bool same = memcmp(card->words + level->cell_starts, grid->cell_starts,
                       grid->cell_starts_length * sizeof(uint32_t)) == 0 &&
                memcmp(card->words + level->triangle_starts, grid->triangle_starts,
                       grid->triangle_starts_length * sizeof(uint32_t)) == 0;
    for (size_t i = 0; i < grid->cell_ids_length; i++)
        same &= card->words[level->cell_ids + i] == grid->cell_ids[i];
    for (size_t i = 0; i < grid->triples_length; i++)
        same &= card->words[level->triples + i] == grid->triples[i];
    for (size_t i = 0; i < grid->positions_length; i++)
        same &= card->floats[level->positions + i] == koshirga_to_f32(grid->positions[i]);
    return same;
}

static bool is_record(const koshirga_level_record *level, const uint32_t expected[7]) {
    return level->vertices == expected[0] && level->side == expected[1] &&
           level->cell_starts == expected[2] && level->cell_ids == expected[3] &&
           level->triangle_starts == expected[4] && level->triples == expected[5] &&
           level->positions == expected[6];
}

int main(void) {
    static const uint32_t EXPECTED[2][7] = {{12, 2, 0, 25, 111, 124, 0},
                                            {42, 4, 304, 401, 753, 796, 36}};
    static balloon balloons[2];
    static buffers card, before;
    koshirga_level_record levels[2];
    for (uint32_t i = 0; i < 2; i++) {
        make_balloon(&balloons[i], i + 1);
        koshirga_pack_answer packed = pack(&card, &balloons[i].grid);
        expect(packed.refusal == KOSHIRGA_ACCEPTED, "there should be room for both grids");
        levels[i] = packed.level;
    }
    printf("%zu words and %zu floats are taken\n", card.words_taken, card.floats_taken);
    for (int i = 0; i < 2; i++) {
        print_record(&levels[i]);
        draw_first(&card, &levels[i]);
        expect(is_record(&levels[i], EXPECTED[i]), "the record should be another");
        expect(holds(&card, &levels[i], &balloons[i].grid), "the grid should stand at its record");
    }
    before = card;
    koshirga_pack_answer refused = pack(&card, &balloons[0].grid);
    printf("a third grid: refused %u\n", (unsigned)refused.refusal);
    expect(refused.refusal == KOSHIRGA_ROOM, "a third grid should be refused with 8");
    expect(memcmp(&card, &before, sizeof card) == 0, "a refused grid should change nothing");
    return 0;
}
