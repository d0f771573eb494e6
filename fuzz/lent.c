#define _DEFAULT_SOURCE

#include "lent.h"

#include <stdint.h>
#include <stdio.h>
#include <stdlib.h>
#include <string.h>
#include <sys/mman.h>
#include <unistd.h>

enum {
    BESIDE = 64, /* bytes at the open end that are compared */
    UNTOUCHED = 0xa5
};

typedef struct place {
    uint8_t *room, *expected_room;    /* LENT_BYTES bytes between two pages that can't be touched */
    uint8_t *far_room, *far_expected; /* where the part of a far slice that can be touched begins */
    uint8_t *at, *expected;
    size_t bytes, size;
} place;

static place places[LENT_MAX];

/* So many bytes that can be touched, between so many that can't and a page that can't. */
static uint8_t *guarded_room(size_t before, size_t bytes) {
    size_t page = (size_t)sysconf(_SC_PAGESIZE);
    uint8_t *all = mmap(NULL, before + bytes + page, PROT_NONE,
                        MAP_PRIVATE | MAP_ANONYMOUS | MAP_NORESERVE, -1, 0);
    if (all == MAP_FAILED || mprotect(all + before, bytes, PROT_READ | PROT_WRITE)) {
        perror("fuzz: no memory for lent slices");
        exit(2);
    }
    return all + before;
}

lent lend(int which, const void *from, size_t length, size_t size, bool behind) {
    place *p = &places[which];
    if (!p->room) {
        size_t page = (size_t)sysconf(_SC_PAGESIZE);
        p->room = guarded_room(page, LENT_BYTES);
        p->expected_room = guarded_room(page, LENT_BYTES);
    }
    size_t bytes = length * size;
    if (bytes > LENT_BYTES - BESIDE)
        abort();
    p->bytes = bytes;
    p->size = size;
    p->at = behind && bytes ? p->room : p->room + LENT_BYTES - bytes;
    p->expected = p->expected_room + LENT_BYTES - bytes;
    if (bytes) {
        memcpy(p->at, from, bytes);
        memcpy(p->expected, from, bytes);
    }
    memset(p->at == p->room ? p->room + bytes : p->at - BESIDE, UNTOUCHED, BESIDE);
    return (lent){p->at, p->expected, length};
}

lent lend_far(int which, const void *from, size_t length) {
    enum { WIDTH = 4, TOUCHED = FAR_TOUCHED * WIDTH, ROOM = TOUCHED + (1 << 12) };
    place *p = &places[which];
    if (!p->far_room) {
        p->far_room = guarded_room(FAR_MAX * WIDTH, ROOM);
        p->far_expected = guarded_room(FAR_MAX * WIDTH, ROOM);
    }
    if (length < FAR_TOUCHED || length > FAR_MAX)
        abort();
    p->bytes = TOUCHED;
    p->size = WIDTH;
    p->at = p->far_room + ROOM - TOUCHED;
    p->expected = p->far_expected + ROOM - TOUCHED;
    memcpy(p->at, from, TOUCHED);
    memcpy(p->expected, from, TOUCHED);
    memset(p->at - BESIDE, UNTOUCHED, BESIDE);
    size_t before = (length - FAR_TOUCHED) * WIDTH;
    return (lent){p->at - before, p->expected - before, length};
}

static bool beside_untouched(const place *p) {
    const uint8_t *beside = p->at == p->room ? p->room + p->bytes : p->at - BESIDE;
    for (int i = 0; i < BESIDE; i++)
        if (beside[i] != UNTOUCHED)
            return false;
    return true;
}

bool as_expected(int which) {
    const place *p = &places[which];
    bool equal = p->bytes == 0 || memcmp(p->at, p->expected, p->bytes) == 0;
    return beside_untouched(p) && equal;
}

bool as_expected_from(int which, size_t used) {
    const place *p = &places[which];
    size_t skipped = used * p->size;
    bool equal = p->bytes <= skipped ||
                 memcmp(p->at + skipped, p->expected + skipped, p->bytes - skipped) == 0;
    return beside_untouched(p) && equal;
}
