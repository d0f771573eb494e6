#define _DEFAULT_SOURCE

#include "tally.h"

#include <inttypes.h>
#include <stdio.h>
#include <stdlib.h>
#include <time.h>

#include "reading.h"

#define NAME(name) #name,
static const char *const NAMES[ENTRIES] = {ENTRY_POINTS(NAME)};
#undef NAME

/* The calls whose ways are counted, as columns. Which of them can meet a way: a bit each, the first
 * the lowest. */
enum {
    COLUMNS = 15,
    MINIMUM = 1,
    CONVERSION = 2,
    WEIGHTS = 4,
    LATTICE = 8,
    WALK = 16,
    RENUMBERING = 32,
    MARKING = 64,
    BUILDER = 128,
    LOCATION = 512,
    ROUNDING = 1024,
    PACKING = 2048,
    STEPPING = 4096,
    LISTING = 8192,
    ISLANDS = 16384,
    SEARCHES = STEPPING | LISTING,
    WHOLE = WALK | RENUMBERING | MARKING | BUILDER | SEARCHES | ISLANDS,
    QUERIES = 256 | LOCATION,
    RECORDS = QUERIES | PACKING,
    PAIRS = BUILDER | RECORDS,
    ENDS = CONVERSION | BUILDER,
    MARKS = LATTICE | RENUMBERING | MARKING,
    DRAWN = MINIMUM | WEIGHTS,
    LEASTS = WEIGHTS | LOCATION,
    MINIMA = DRAWN | LOCATION
};
static const entry WITH_WAYS[COLUMNS] = {
    ENTRY_minimum_number, ENTRY_to_i64,          ENTRY_least_weight,   ENTRY_lattice,
    ENTRY_walk,           ENTRY_renumber,        ENTRY_mark_ascending, ENTRY_build_grid,
    ENTRY_grid_nearest,   ENTRY_grid_locate,     ENTRY_to_f32,         ENTRY_pack,
    ENTRY_steps_between,  ENTRY_vertices_within, ENTRY_walk_islands};
#define WAY(name, calls, text) {calls, text},
static const struct {
    unsigned calls;
    const char *text;
} WAYS_OF[WAY_COUNT] = {WAYS(WAY)};
#undef WAY

static uint64_t calls[ENTRIES][ROWS + 1];
static uint64_t ways[ENTRIES][WAY_COUNT];
static uint64_t all_calls, inputs, facts;
static bool built[FREQUENCY_MAX + 1];
static uint32_t least_side = UINT32_MAX, greatest_side, most_held;
static uint64_t builds_with_held, renumbered_lists, renumbered_falling;
static uint64_t packed_words_sum, packed_floats_sum;
static uint64_t calls_limit = UINT64_MAX;
static double seconds_limit = 1e18, begun;

static double seconds_of(clockid_t clock) {
    struct timespec t;
    clock_gettime(clock, &t);
    return (double)t.tv_sec + 1e-9 * (double)t.tv_nsec;
}

void count(entry of, uint32_t row) {
    hold(of, is_row(row), "a refusal that no row has");
    calls[of][row]++;
    all_calls++;
}

void count_way(entry of, way met) { ways[of][met]++; }

void count_lattice(uint32_t frequency) { built[frequency] = true; }

void count_built(uint32_t side, uint32_t held) {
    least_side = side < least_side ? side : least_side;
    greatest_side = side > greatest_side ? side : greatest_side;
    most_held = held > most_held ? held : most_held;
    builds_with_held += held > 0;
}

void count_renumbered(size_t lists, size_t falling) {
    renumbered_lists += lists;
    renumbered_falling += falling;
}

void count_packed(size_t words, size_t floats) {
    packed_words_sum += words;
    packed_floats_sum += floats;
}

void hold(entry of, bool fact, const char *what) {
    facts++;
    if (fact)
        return;
    printf("koshirga_%s differs after %" PRIu64 " calls: %s\n", NAMES[of], all_calls, what);
    fflush(stdout);
    abort();
}

void hold_row(entry of, uint32_t expected, uint32_t returned) {
    facts++;
    if (expected == returned)
        return;
    printf("koshirga_%s differs after %" PRIu64 " calls: row %" PRIu32 " expected, row %" PRIu32
           " returned (0: accepted)\n",
           NAMES[of], all_calls, expected, returned);
    fflush(stdout);
    abort();
}

void hold_index(entry of, uint32_t row, size_t expected, size_t returned) {
    hold(of, (row == 18) == (returned > 0), "an index with row 18 alone");
    facts++;
    if (expected == returned)
        return;
    printf("koshirga_%s differs after %" PRIu64 " calls: index %zu expected, index %zu returned\n",
           NAMES[of], all_calls, expected, returned);
    fflush(stdout);
    abort();
}

void tally_begin(void) {
    const char *limit = getenv("KOSHIRGA_FUZZ_CALLS");
    if (limit)
        calls_limit = strtoull(limit, NULL, 10);
    limit = getenv("KOSHIRGA_FUZZ_SECONDS");
    if (limit)
        seconds_limit = strtod(limit, NULL);
    begun = seconds_of(CLOCK_MONOTONIC);
}

static void print_count(uint64_t n) {
    if (n)
        printf(" %9" PRIu64, n);
    else
        printf("         .");
}

/* A run of any size calls each entry point. Says which it didn't, and gives how many. */
static int print_uncalled(void) {
    int found = 0;
    for (int of = 0; of < ENTRIES; of++) {
        uint64_t sum = 0;
        for (uint32_t row = 0; row <= ROWS; row++)
            sum += calls[of][row];
        if (!sum) {
            printf("koshirga_%s was never called: the run is too short\n", NAMES[of]);
            found++;
        }
    }
    return found;
}

/* The same for the ways that weren't met. */
static int print_unmet(void) {
    int found = 0;
    for (int w = 0; w < WAY_COUNT; w++)
        for (int column = 0; column < COLUMNS; column++)
            if (WAYS_OF[w].calls >> column & 1 && !ways[WITH_WAYS[column]][w]) {
                printf("koshirga_%s never met \"%s\": the run is too short\n",
                       NAMES[WITH_WAYS[column]], WAYS_OF[w].text);
                found++;
            }
    return found;
}

static void print_rows(void) {
    uint64_t rows[ROWS + 1] = {0};
    printf("\n%-21s  %9s %9s", "entry point", "calls", "accepted");
    for (uint32_t row = 1; row <= ROWS; row++)
        if (is_row(row))
            printf("    row %2" PRIu32, row);
    printf("\n");
    for (int of = 0; of < ENTRIES; of++) {
        uint64_t sum = 0;
        for (uint32_t row = 0; row <= ROWS; row++) {
            sum += calls[of][row];
            rows[row] += calls[of][row];
        }
        printf("%-21s ", NAMES[of]);
        print_count(sum);
        for (uint32_t row = 0; row <= ROWS; row++)
            if (is_row(row))
                print_count(calls[of][row]);
        printf("\n");
    }
    printf("%-21s ", "all");
    print_count(all_calls);
    for (uint32_t row = 0; row <= ROWS; row++)
        if (is_row(row))
            print_count(rows[row]);
    printf("\n");
}

/* The ways from `first` up to `end`, in the columns of these calls. */
static void print_ways(const char *title, unsigned of, int first, int end) {
    printf("\n%-42s", title);
    for (int column = 0; column < COLUMNS; column++)
        if (of >> column & 1)
            printf(" %15s", NAMES[WITH_WAYS[column]]);
    printf("\n");
    for (int w = first; w < end; w++) {
        printf("%-42s", WAYS_OF[w].text);
        for (int column = 0; column < COLUMNS; column++)
            if (of >> column & 1) {
                printf("      ");
                print_count(ways[WITH_WAYS[column]][w]);
            }
        printf("\n");
    }
}

static void print_tables(double seconds) {
    print_rows();
    print_ways("starts refused, by row", WHOLE | RECORDS, 0, WAY_PAIRS);
    print_ways("pairs, by row (0: accepted)", PAIRS, WAY_PAIRS, WAY_CONVERSIONS);
    print_ways("conversions", ENDS, WAY_CONVERSIONS, WAY_MARKS);
    print_ways("the mark (0: accepted), and lists", MARKS, WAY_MARKS, WAY_MINIMA);
    print_ways("minima", MINIMA, WAY_MINIMA, WAY_ROUNDINGS);
    print_ways("rounded to binary32", ROUNDING, WAY_ROUNDINGS, WAY_PACKINGS);
    print_ways("packed (0: accepted)", PACKING, WAY_PACKINGS, WAY_SEARCHES);
    print_ways("steps and lists (0: accepted)", SEARCHES, WAY_SEARCHES, WAY_ISLANDS);
    print_ways("islands (0: accepted)", ISLANDS, WAY_ISLANDS, WAY_COUNT);
    int frequencies = 0;
    for (int n = 1; n <= FREQUENCY_MAX; n++)
        frequencies += built[n];
    printf("\nlattices of %d of the %d frequencies\n", frequencies, FREQUENCY_MAX);
    printf("grids of sides from %" PRIu32 " to %" PRIu32 "\n", least_side, greatest_side);
    printf("%" PRIu64 " of them with conversions held at an end, at most %" PRIu32 " in one\n",
           builds_with_held, most_held);
    printf("%" PRIu64 " of %" PRIu64 " renumbered lists fell before they were sorted\n",
           renumbered_falling, renumbered_lists);
    printf("%" PRIu64 " words and %" PRIu64 " floats packed\n", packed_words_sum,
           packed_floats_sum);
    printf("%" PRIu64 " calls from %" PRIu64 " inputs, %.0f s (%.0f s of processor time)\n",
           all_calls, inputs, seconds, seconds_of(CLOCK_PROCESS_CPUTIME_ID));
    printf("%" PRIu64 " facts held, 0 faults, 0 differences\n", facts);
}

void tally_input(void) {
    inputs++;
    double seconds = seconds_of(CLOCK_MONOTONIC) - begun;
    if (all_calls < calls_limit && seconds < seconds_limit)
        return;
    print_tables(seconds);
    int missed = print_uncalled() + print_unmet();
    fflush(stdout);
    _Exit(missed ? 1 : 0); /* libFuzzer takes exit for a fault */
}
