/* What goes wrong where a sheet is not opened anew: include/stand.h, 'the price sheet'. A stand opened anew, or another rate,
   then a refresh with the old mark: code 0, and the old price. */
#include <inttypes.h>
#include <stdio.h>
#include <stdlib.h>

#include "stand.h"

#define SECTIONS 2
#define CELLS (SECTIONS * 4096)
#define FINISHES 5

static uint16_t cells[CELLS], mask[256];
static uint64_t hashes[SECTIONS], last[SECTIONS], sheet[SECTIONS * 3];
static uint32_t versions[SECTIONS], changes[SECTIONS];
static const uint32_t cut = 50;

#define STORAGE cells, CELLS, hashes, SECTIONS, versions, SECTIONS, changes, SECTIONS, last, SECTIONS
#define TERMS rates, FINISHES, cut, STAND_OUTSIDE_SHOWS, mask, 256, sheet, SECTIONS * 3

static void accepted(const char *call, uint32_t code) {
    if (code == STAND_OK) return;
    fprintf(stderr, "%s: refused %" PRIu32 "\n", call, code);
    exit(1);
}

/* A stand of 17 cells in a row, all of one finish. */
static stand_volume row_of(uint16_t finish) {
    const stand_cell from = {0, 0, 0}, to = {16, 0, 0};
    stand_opened opened = stand_open(from, (stand_extent){17, 1, 1}, STORAGE);
    accepted("stand_open", opened.code);
    stand_edited done = stand_fill(opened.volume, STORAGE, from, to, finish);
    accepted("stand_fill", done.code);
    return done.volume;
}

static uint64_t opened_sheet(stand_volume volume, const uint32_t *rates) {
    stand_marked marked = stand_open_sheet(volume, 0, cells, CELLS, TERMS);
    accepted("stand_open_sheet", marked.code);
    return marked.mark;
}

static uint64_t refreshed(stand_volume volume, uint64_t mark, const uint32_t *rates) {
    stand_marked marked = stand_refresh(volume, mark, cells, CELLS, changes, SECTIONS, last, SECTIONS, TERMS);
    accepted("stand_refresh", marked.code);
    return marked.mark;
}

static void print_line(const char *what, stand_volume volume, uint64_t mark) {
    stand_sums sums = stand_totals(volume, sheet, SECTIONS * 3);
    accepted("stand_totals", sums.code);
    printf("%s: mark %" PRIu64 ", %" PRIu64 " cents\n", what, mark, sums.cents);
}

int main(void) {
    const uint32_t rates[FINISHES] = {0, 0, 0, 100, 900};
    const uint32_t dearer[FINISHES] = {0, 0, 0, 900, 900};

    stand_volume volume = row_of(3);
    uint64_t mark = opened_sheet(volume, rates);
    print_line("finish at 100", volume, mark);
    volume = row_of(4);
    print_line("stand opened anew, finish at 900, refreshed", volume, refreshed(volume, mark, rates));
    print_line("sheet opened anew", volume, opened_sheet(volume, rates));

    volume = row_of(3);
    mark = opened_sheet(volume, rates);
    print_line("finish at 100", volume, mark);
    print_line("the same finish at 900, refreshed", volume, refreshed(volume, mark, dearer));
    print_line("sheet opened anew", volume, opened_sheet(volume, dearer));
    return 0;
}
