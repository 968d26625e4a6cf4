/* Two tablets compare their stands by digest: the same stand on both, one block off, and the section that has it. Then
   two stands that differ in two blocks and have one digest: their stored forms tell them apart. */
#include <inttypes.h>
#include <stdio.h>
#include <string.h>

#include "stand.h"

#define SECTIONS 2

/* a tablet with cells along x, in two sections at most */
typedef struct {
    stand_volume volume;
    uint16_t cells[SECTIONS * 4096];
    uint64_t hashes[SECTIONS], last[SECTIONS];
    uint32_t versions[SECTIONS], log[SECTIONS];
    size_t n;
} tablet;

#define STORAGE(t) \
    (t)->cells, (t)->n * 4096, (t)->hashes, (t)->n, (t)->versions, (t)->n, (t)->log, (t)->n, (t)->last, (t)->n

static stand_cell at(int32_t x) {
    return (stand_cell){x, 0, 0};
}

static void open_row(tablet *t, int32_t length) {
    t->n = (size_t)stand_chunk_count(stand_header(at(0), (stand_extent){length, 1, 1}).volume).value;
    t->volume = stand_open(at(0), (stand_extent){length, 1, 1}, STORAGE(t)).volume;
}

static void set(tablet *t, int32_t x, uint16_t finish) {
    t->volume = stand_set(t->volume, STORAGE(t), at(x), finish).volume;
}

static uint64_t digest(const tablet *t) {
    return stand_digest(t->volume, t->hashes, t->n).value;
}

/* Both digests, whether they are the same, and each section whose hashes differ. */
static void compare(const char *what, const tablet *a, const tablet *b) {
    printf("%s: %016" PRIx64 " and %016" PRIx64 ", %s\n", what, digest(a), digest(b),
           digest(a) == digest(b) ? "the same" : "different");
    for (size_t i = 0; i < a->n; i++) {
        uint64_t here = stand_chunk_hash(a->volume, a->hashes, a->n, i).value;
        uint64_t there = stand_chunk_hash(b->volume, b->hashes, b->n, i).value;
        if (here != there) printf("  section %zu: %016" PRIx64 " and %016" PRIx64 "\n", i, here, there);
    }
}

static void compare_forms(const tablet *a, const tablet *b) {
    uint8_t one[256], other[256];
    stand_number m = stand_store(a->volume, a->cells, a->n * 4096, one, sizeof one);
    stand_number n = stand_store(b->volume, b->cells, b->n * 4096, other, sizeof other);
    int same = m.value == n.value && memcmp(one, other, (size_t)m.value) == 0;
    printf("  their forms, %" PRIu64 " and %" PRIu64 " bytes: %s\n", m.value, n.value, same ? "the same" : "different");
}

int main(void) {
    static tablet a, b;
    open_row(&a, 17);
    open_row(&b, 17);
    a.volume = stand_fill(a.volume, STORAGE(&a), at(0), at(16), 3).volume;
    for (int32_t x = 16; x >= 0; x--) set(&b, x, 3);
    compare("filled, and set block by block", &a, &b);
    set(&b, 16, 0);
    compare("the last block gone on one", &a, &b);
    set(&b, 16, 4);
    compare("of another finish", &a, &b);
    set(&b, 16, 3);
    compare("put back", &a, &b);
    open_row(&a, 5);
    open_row(&b, 5);
    set(&a, 0, 6833);
    set(&a, 4, 4422);
    set(&b, 0, 8849);
    set(&b, 4, 55627);
    compare("two blocks off", &a, &b);
    compare_forms(&a, &b);
    set(&b, 4, 4422);
    compare("one of them mended", &a, &b);
    return 0;
}
