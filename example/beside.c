/* Boxes that a clerk drags past the edge: a fill changes only cells of the stand, and one beside it nothing at all. */
#include <inttypes.h>
#include <stdio.h>
#include <string.h>

#include "stand.h"

/* a stand of two cells lies in one section */
typedef struct {
    uint16_t cells[4096];
    uint64_t hashes[1], last[1];
    uint32_t versions[1], changes[1];
} storage;

static storage now, before;

static stand_edited fill(stand_volume volume, size_t cells, stand_cell from, stand_cell to, uint16_t finish) {
    before = now;
    return stand_fill(volume, now.cells, cells, now.hashes, 1, now.versions, 1, now.changes, 1, now.last, 1, from, to, finish);
}

static void show(const char *box, stand_edited done) {
    const char *lists = memcmp(&now, &before, sizeof now) == 0 ? "as they were" : "written";
    if (done.code == STAND_OK)
        printf("%s: %" PRIu64 " changed, generation %" PRIu64 ", lists %s\n", box, done.changed, done.volume.generation, lists);
    else
        printf("%s: refused %" PRIu32 ", lists %s\n", box, done.code, lists);
}

int main(void) {
    const stand_cell far = {9, 9, 9}, beyond = {5, 5, 5}, first = {0, 0, 0}, below = {-5, -5, -5};
    stand_volume v = stand_open(first, (stand_extent){2, 1, 1}, now.cells, 4096, now.hashes, 1, now.versions, 1,
                                now.changes, 1, now.last, 1).volume;
    show("beside the stand", fill(v, 4096, beyond, far, 3));
    show("beside it along y alone", fill(v, 4096, (stand_cell){0, 1, 0}, (stand_cell){1, 5, 0}, 3));
    stand_edited done = fill(v, 4096, below, first, 3);
    show("across its edge", done);
    show("around it", fill(done.volume, 4096, below, far, 3));
    v.generation = UINT64_MAX;
    show("beside it, at the last generation", fill(v, 4096, beyond, far, 3));
    show("one cell that has the finish, at the last generation", fill(v, 4096, first, below, 3));
    show("beside it, a cell too few", fill(v, 4095, beyond, far, 3));
    v.size.x = 0;
    show("beside it, a bad header", fill(v, 4096, beyond, far, 3));
    return 0;
}
