/* Opens a stand, builds a wall with a window, and prints the panels of its first section. */
#include <inttypes.h>
#include <stdio.h>
#include <stdlib.h>

#include "stand.h"

/* 20 by 5 by 2 cells are two sections along x. */
#define SECTIONS 2
#define CELLS (SECTIONS * 4096)
#define PANELS 64

static uint16_t cells[CELLS];
static uint64_t hashes[SECTIONS], last[SECTIONS];
static uint32_t versions[SECTIONS], changes[SECTIONS];
static uint16_t mask[256];
static int32_t list[PANELS * 8];

#define STORAGE cells, CELLS, hashes, SECTIONS, versions, SECTIONS, changes, SECTIONS, last, SECTIONS

static void accepted(const char *call, uint32_t code) {
    if (code == STAND_OK) return;
    fprintf(stderr, "%s: refused %" PRIu32 "\n", call, code);
    exit(1);
}

static stand_volume fill(stand_volume volume, stand_cell from, stand_cell to, uint16_t finish) {
    stand_edited done = stand_fill(volume, STORAGE, from, to, finish);
    accepted("stand_fill", done.code);
    printf("finish %" PRIu16 ": %" PRIu64 " cells changed\n", finish, done.changed);
    return done.volume;
}

static void print_panels(stand_volume volume, size_t section) {
    static const char *const sides[] = {"East", "West", "Top", "Bottom", "North", "South"};
    stand_number made =
        stand_chunk_faces(volume, cells, CELLS, section, STAND_OUTSIDE_SHOWS, mask, 256, list, PANELS * 8);
    accepted("stand_chunk_faces", made.code);
    printf("section %zu: %" PRIu64 " panels\n", section, made.value);
    for (size_t i = 0; i < made.value; i++) {
        const int32_t *p = list + i * 8;
        printf("%-6s finish %" PRId32 " at %" PRId32 " %" PRId32 " %" PRId32 ", %" PRId32 " by %" PRId32 " by %" PRId32 "\n",
               sides[p[3]], p[4], p[0], p[1], p[2], p[5], p[6], p[7]);
    }
}

static void print_changes(stand_volume volume, uint64_t mark) {
    stand_number start = stand_changed_since(volume, changes, SECTIONS, last, SECTIONS, mark);
    accepted("stand_changed_since", start.code);
    uint64_t next = start.value;
    for (;;) {
        stand_chunk_given step = stand_changed_step(volume, changes, SECTIONS, last, SECTIONS, next);
        accepted("stand_changed_step", step.code);
        if (!step.given) return;
        printf("changed since %" PRIu64 ": section %" PRIu64 "\n", mark, step.chunk);
        next = step.next;
    }
}

int main(void) {
    stand_cell origin = {0, 0, 0};
    stand_extent size = {20, 5, 2};
    stand_opened opened = stand_open(origin, size, STORAGE);
    accepted("stand_open", opened.code);
    stand_volume volume = opened.volume;

    volume = fill(volume, origin, (stand_cell){19, 4, 0}, 3);
    volume = fill(volume, (stand_cell){4, 2, 0}, (stand_cell){6, 3, 0}, 0);
    print_panels(volume, 0);

    uint64_t mark = volume.generation;
    stand_edited done = stand_set(volume, STORAGE, (stand_cell){18, 0, 1}, 7);
    accepted("stand_set", done.code);
    volume = done.volume;
    print_changes(volume, mark);

    /* the header where it is */
    accepted("stand_set_lent", stand_set_lent(&volume, STORAGE, (stand_cell){0, 0, 1}, 7).code);
    print_changes(volume, mark);

    stand_number digest = stand_digest(volume, hashes, SECTIONS);
    accepted("stand_digest", digest.code);
    printf("%" PRIu64 " cells, digest %016" PRIx64 "\n", volume.solid, digest.value);

    stand_number outside = stand_set_lent(&volume, STORAGE, (stand_cell){20, 0, 0}, 7);
    printf("a cell outside: refused %" PRIu32 "\n", outside.code);
    return 0;
}
