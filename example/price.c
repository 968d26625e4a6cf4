/* Document 01's example of the price line: 17 cells in two sections, before and after an edit at the sections' edge. */
#include <inttypes.h>
#include <stdio.h>
#include <stdlib.h>

#include "stand.h"

#define SECTIONS 2
#define CELLS (SECTIONS * 4096)
#define FINISHES 4

static uint16_t cells[CELLS], mask[256];
static uint64_t hashes[SECTIONS], last[SECTIONS], sheet[SECTIONS * 3];
static uint32_t versions[SECTIONS], changes[SECTIONS];
static const uint32_t rates[FINISHES] = {0, 0, 0, 100};
static const uint32_t cut = 50;

#define STORAGE cells, CELLS, hashes, SECTIONS, versions, SECTIONS, changes, SECTIONS, last, SECTIONS

static void accepted(const char *call, uint32_t code) {
    if (code == STAND_OK) return;
    fprintf(stderr, "%s: refused %" PRIu32 "\n", call, code);
    exit(1);
}

static void print_line(stand_volume volume) {
    stand_sums sums = stand_totals(volume, sheet, SECTIONS * 3);
    accepted("stand_totals", sums.code);
    printf("%" PRIu64 " %" PRIu64 " %" PRIu64 " %" PRIu64 "\n", volume.generation, sums.panels, sums.faces, sums.cents);
}

int main(void) {
    const stand_cell origin = {0, 0, 0};
    const stand_extent size = {17, 1, 1};
    /* the header says how many sections to lend storage for */
    stand_opened opened = stand_header(origin, size);
    accepted("stand_header", opened.code);
    accepted("stand_chunk_count", stand_chunk_count(opened.volume).value == SECTIONS ? STAND_OK : 4);
    opened = stand_open(origin, size, STORAGE);
    accepted("stand_open", opened.code);
    stand_edited edit = stand_fill(opened.volume, STORAGE, origin, (stand_cell){16, 0, 0}, 3);
    accepted("stand_fill", edit.code);
    stand_marked marked = stand_open_sheet(edit.volume, 0, cells, CELLS, rates, FINISHES, cut, STAND_OUTSIDE_SHOWS,
                                           mask, 256, sheet, SECTIONS * 3);
    accepted("stand_open_sheet", marked.code);
    print_line(edit.volume);
    edit = stand_set(edit.volume, STORAGE, (stand_cell){16, 0, 0}, 0);
    accepted("stand_set", edit.code);
    marked = stand_refresh(edit.volume, marked.mark, cells, CELLS, changes, SECTIONS, last, SECTIONS, rates, FINISHES, cut,
                           STAND_OUTSIDE_SHOWS, mask, 256, sheet, SECTIONS * 3);
    accepted("stand_refresh", marked.code);
    print_line(edit.volume);
    return 0;
}
