/* Times calls of the C interface, for differential/placements: each row is the best of the rounds named in argv[1], in ns for
   one call. Stand of 3 by 3 by 3 sections, outside empty, rates 100 to 300, cut 50. The last rows are of a stand of one section:
   what measuring it costs (open_sheet), beside meshing it with a list of no numbers (chunk_faces). */
#include <stdio.h>
#include <stdlib.h>
#include <time.h>
#include "stand.h"

enum { SECTIONS = 27, SECTION = 4096, CELLS = SECTIONS * SECTION, SLOTS = 2304, NUMBERS = 8 * 400000 };
enum pattern { EMPTY, SOLID, GROUND, WALL, CHECKERED, RANDOM, LAYERS };

static uint16_t cells[CELLS], mask[SLOTS];
static uint64_t hashes[SECTIONS], last[SECTIONS], sheet[SECTIONS * 3];
static uint32_t versions[SECTIONS], changes[SECTIONS];
static int32_t list[NUMBERS];
static const uint32_t rates[4] = {0, 100, 200, 300};
static stand_volume volume, one;

#define STORAGE cells, CELLS, hashes, SECTIONS, versions, SECTIONS, changes, SECTIONS, last, SECTIONS

static void want(uint32_t code) {
    if (code != 0) {
        printf("refused %u\n", (unsigned)code);
        exit(1);
    }
}

static uint32_t mixed(uint32_t x) {
    x += x << 10;
    x ^= x >> 6;
    x += x << 3;
    x ^= x >> 11;
    return x + (x << 15);
}

/* The finish of a cell, the same in each section but for RANDOM: a ground of six rows, a wall of one cell, one of two finishes
   and empty at random, full layers with gaps between them of two finishes that alternate (256 panels in a slice, the most). */
static uint32_t finish_at(enum pattern pattern, uint32_t i) {
    uint32_t x = i % 16, y = i / 16 % 16, z = i / 256 % 16, odd = (x + y + z) % 2;
    switch (pattern) {
    case SOLID: return 1;
    case GROUND: return y < 6;
    case WALL: return x == 8;
    case CHECKERED: return !odd;
    case RANDOM: return mixed(i) % 3;
    case LAYERS: return y % 2 == 0 ? 1 + odd : 0;
    default: return 0;
    }
}

static void paint(enum pattern pattern) {
    for (uint32_t i = 0; i < CELLS; i++) cells[i] = (uint16_t)finish_at(pattern, i);
}

static void fill_all(uint16_t finish) {
    stand_edited done = stand_fill(volume, STORAGE, (stand_cell){0, 0, 0}, (stand_cell){47, 47, 47}, finish);
    want(done.code);
    volume = done.volume;
}

static void fill_another(int turn) {
    (void)turn;
    fill_all((uint16_t)(1 + cells[0] % 2));
}

static void fill_same(int turn) {
    (void)turn;
    fill_all(cells[0]);
}

static void one_section(int turn) {
    (void)turn;
    want(stand_chunk_faces(volume, cells, CELLS, 13, 1, mask, SLOTS, list, NUMBERS).code);
}

static void each_section(int turn) {
    want(stand_chunk_faces(volume, cells, CELLS, (size_t)turn % SECTIONS, 1, mask, SLOTS, list, NUMBERS).code);
}

static void whole(int turn) {
    (void)turn;
    want(stand_faces(volume, cells, CELLS, 1, mask, SLOTS, list, NUMBERS).code);
}

static void edit_and_refresh(int turn) {
    (void)turn;
    uint64_t mark = volume.generation;
    stand_edited done = stand_set(volume, STORAGE, (stand_cell){8, 8, 8}, (uint16_t)(2 + mark % 2));
    want(done.code);
    volume = done.volume;
    want(stand_refresh(volume, mark, cells, CELLS, changes, SECTIONS, last, SECTIONS, rates, 4, 50, 1, mask, SLOTS, sheet,
                       SECTIONS * 3).code);
}

static void open_sheet(int turn) {
    (void)turn;
    want(stand_open_sheet(volume, 0, cells, CELLS, rates, 4, 50, 1, mask, SLOTS, sheet, SECTIONS * 3).code);
}

/* The first section's cells as a stand of their own, both passes over it. */
static void measure_one(int turn) {
    (void)turn;
    want(stand_open_sheet(one, 0, cells, SECTION, rates, 4, 50, 1, mask, SLOTS, sheet, 3).code);
}

/* The same section with a list of no numbers: its panels are counted, and refused by 11 where it has any. */
static void mesh_one(int turn) {
    (void)turn;
    uint32_t code = stand_chunk_faces(one, cells, SECTION, 0, 1, mask, SLOTS, list, 0).code;
    want(code == STAND_SHORT_LIST ? 0 : code);
}

static const struct {
    const char *name;
    enum pattern pattern;
    void (*call)(int);
    int calls;
} rows[] = {
    {"fill, all change", EMPTY, fill_another, 2},
    {"fill, none changes", EMPTY, fill_same, 10},
    {"chunk_faces, random, one section", RANDOM, one_section, 20},
    {"chunk_faces, random, 27 sections", RANDOM, each_section, 27},
    {"chunk_faces, checkered, one section", CHECKERED, one_section, 20},
    {"chunk_faces, checkered, 27 sections", CHECKERED, each_section, 27},
    {"chunk_faces, ground", GROUND, one_section, 100},
    {"faces, random", RANDOM, whole, 1},
    {"set and refresh, empty", EMPTY, edit_and_refresh, 5},
    {"set and refresh, ground", GROUND, edit_and_refresh, 5},
    {"open_sheet, empty", EMPTY, open_sheet, 1},
    {"open_sheet, checkered", CHECKERED, open_sheet, 1},
    {"one section, empty: open_sheet", EMPTY, measure_one, 20},
    {"one section, empty: chunk_faces", EMPTY, mesh_one, 50},
    {"one section, solid: open_sheet", SOLID, measure_one, 20},
    {"one section, solid: chunk_faces", SOLID, mesh_one, 50},
    {"one section, ground: open_sheet", GROUND, measure_one, 20},
    {"one section, ground: chunk_faces", GROUND, mesh_one, 50},
    {"one section, wall: open_sheet", WALL, measure_one, 20},
    {"one section, wall: chunk_faces", WALL, mesh_one, 50},
    {"one section, checkered: open_sheet", CHECKERED, measure_one, 10},
    {"one section, checkered: chunk_faces", CHECKERED, mesh_one, 20},
    {"one section, random: open_sheet", RANDOM, measure_one, 10},
    {"one section, random: chunk_faces", RANDOM, mesh_one, 20},
    {"one section, layers: open_sheet", LAYERS, measure_one, 10},
    {"one section, layers: chunk_faces", LAYERS, mesh_one, 20},
};

static double now(void) {
    struct timespec t;
    timespec_get(&t, TIME_UTC);
    return (double)t.tv_sec * 1e9 + (double)t.tv_nsec;
}

int main(int argc, char **argv) {
    int rounds = argc > 1 ? atoi(argv[1]) : 40;
    stand_opened opened = stand_open((stand_cell){0, 0, 0}, (stand_extent){48, 48, 48}, STORAGE);
    want(opened.code);
    volume = opened.volume;
    opened = stand_header((stand_cell){0, 0, 0}, (stand_extent){16, 16, 16});
    want(opened.code);
    one = opened.volume;
    for (size_t i = 0; i < sizeof rows / sizeof rows[0]; i++) {
        double best = 1e18;
        paint(rows[i].pattern);
        for (int round = 0; round < rounds; round++) {
            double start = now();
            for (int turn = 0; turn < rows[i].calls; turn++) rows[i].call(turn);
            double took = (now() - start) / rows[i].calls;
            if (took < best) best = took;
        }
        printf("%s|%.0f\n", rows[i].name, best);
    }
    return 0;
}
