/* A stand kept in a file: document 01's row of 17 cells is stored, written, read back, loaded and priced, on lists as
   long as the form asks for; then what is refused, and that a refusal writes nothing. The file is keep.form in the
   current directory, or the one named on the command line; it is removed once it is read. */
#include <inttypes.h>
#include <stdio.h>
#include <stdlib.h>
#include <string.h>

#include "stand.h"

#define FINISHES 4

static const uint32_t rates[FINISHES] = {0, 0, 0, 100};
static const uint32_t cut = 50;
static const stand_cell first = {0, 0, 0}, last_cell = {16, 0, 0};
static uint16_t mask[256];

/* The lists of a stand of n sections, and its sheet. */
typedef struct {
    size_t n;
    uint16_t *cells;
    uint64_t *hashes, *last, *sheet;
    uint32_t *versions, *log;
} lists;

#define STORAGE(l, n) \
    (l).cells, (n) * 4096, (l).hashes, (n), (l).versions, (n), (l).log, (n), (l).last, (n)

static void fail(const char *what) {
    fprintf(stderr, "%s\n", what);
    exit(1);
}

static void accepted(const char *call, uint32_t code) {
    if (code == STAND_OK) return;
    fprintf(stderr, "%s: refused %" PRIu32 "\n", call, code);
    exit(1);
}

/* Memory of any contents: here each byte is 255. */
static void *memory(size_t size) {
    void *bytes = malloc(size);
    if (bytes == NULL) fail("no memory");
    return memset(bytes, 255, size);
}

static lists lists_for(stand_volume volume) {
    stand_number count = stand_chunk_count(volume);
    accepted("stand_chunk_count", count.code);
    lists l;
    l.n = (size_t)count.value;
    l.cells = memory(l.n * 4096 * sizeof *l.cells);
    l.hashes = memory(l.n * sizeof *l.hashes);
    l.versions = memory(l.n * sizeof *l.versions);
    l.log = memory(l.n * sizeof *l.log);
    l.last = memory(l.n * sizeof *l.last);
    l.sheet = memory(l.n * 3 * sizeof *l.sheet);
    return l;
}

static void give_back(lists l) {
    free(l.cells);
    free(l.hashes);
    free(l.versions);
    free(l.log);
    free(l.last);
    free(l.sheet);
}

static lists copy_of(stand_volume volume, lists from) {
    lists l = lists_for(volume);
    memcpy(l.cells, from.cells, l.n * 4096 * sizeof *l.cells);
    memcpy(l.hashes, from.hashes, l.n * sizeof *l.hashes);
    memcpy(l.versions, from.versions, l.n * sizeof *l.versions);
    memcpy(l.log, from.log, l.n * sizeof *l.log);
    memcpy(l.last, from.last, l.n * sizeof *l.last);
    return l;
}

static int same(lists a, lists b) {
    return a.n == b.n && memcmp(a.cells, b.cells, a.n * 4096 * sizeof *a.cells) == 0
        && memcmp(a.hashes, b.hashes, a.n * sizeof *a.hashes) == 0
        && memcmp(a.versions, b.versions, a.n * sizeof *a.versions) == 0
        && memcmp(a.log, b.log, a.n * sizeof *a.log) == 0 && memcmp(a.last, b.last, a.n * sizeof *a.last) == 0;
}

static void write_file(const char *name, const uint8_t *bytes, size_t count) {
    FILE *file = fopen(name, "wb");
    if (file == NULL || fwrite(bytes, 1, count, file) != count || fclose(file) != 0) fail("the file cannot be written");
}

static uint8_t *read_file(const char *name, size_t *count) {
    FILE *file = fopen(name, "rb");
    if (file == NULL || fseek(file, 0, SEEK_END) != 0) fail("the file cannot be read");
    long length = ftell(file);
    if (length < 0) fail("the file cannot be read");
    rewind(file);
    *count = (size_t)length;
    uint8_t *bytes = memory(*count + 1); /* not null, even for an empty file, which is refused by 14 */
    if (fread(bytes, 1, *count, file) != *count || fclose(file) != 0) fail("the file cannot be read");
    return bytes;
}

/* Stores a stand: its length is asked first. */
static uint8_t *stored(stand_volume volume, lists l, size_t *count) {
    stand_number length = stand_stored_length(volume, l.cells, l.n * 4096);
    accepted("stand_stored_length", length.code);
    *count = (size_t)length.value;
    uint8_t *form = memory(*count);
    accepted("stand_store", stand_store(volume, l.cells, l.n * 4096, form, *count).code);
    return form;
}

static uint64_t open_sheet(stand_volume volume, lists l) {
    stand_marked marked = stand_open_sheet(volume, 0, l.cells, l.n * 4096, rates, FINISHES, cut, STAND_OUTSIDE_SHOWS,
                                           mask, 256, l.sheet, l.n * 3);
    accepted("stand_open_sheet", marked.code);
    return marked.mark;
}

static void print_line(const char *what, stand_volume volume, lists l) {
    stand_sums sums = stand_totals(volume, l.sheet, l.n * 3);
    accepted("stand_totals", sums.code);
    printf("%s: %" PRIu64 " %" PRIu64 " %" PRIu64 " %" PRIu64 "\n", what, volume.generation, sums.panels, sums.faces,
           sums.cents);
}

static void print_digest(const char *what, stand_volume volume, lists l) {
    stand_number digest = stand_digest(volume, l.hashes, l.n);
    accepted("stand_digest", digest.code);
    printf("%s: digest %016" PRIx64 "\n", what, digest.value);
}

/* Builds the row of 17 cells, prices it, and writes its form to a file. */
static void keep(const char *name) {
    stand_opened opened = stand_header(first, (stand_extent){17, 1, 1});
    accepted("stand_header", opened.code);
    lists l = lists_for(opened.volume);
    opened = stand_open(first, (stand_extent){17, 1, 1}, STORAGE(l, l.n));
    accepted("stand_open", opened.code);
    stand_edited edit = stand_fill(opened.volume, STORAGE(l, l.n), first, last_cell, 3);
    accepted("stand_fill", edit.code);
    open_sheet(edit.volume, l);
    print_line("built", edit.volume, l);
    print_digest("built", edit.volume, l);

    size_t count;
    uint8_t *form = stored(edit.volume, l, &count);
    printf("stored: %zu bytes\n", count);
    write_file(name, form, count);

    /* one byte too short: the output keeps its bytes */
    uint8_t *output = memory(count);
    uint32_t code = stand_store(edit.volume, l.cells, l.n * 4096, output, count - 1).code;
    size_t kept = 0;
    while (kept < count && output[kept] == 255) kept++;
    printf("an output of %zu bytes: refused %" PRIu32 ", %s\n", count - 1, code, kept == count ? "unchanged" : "changed");
    free(output);
    free(form);
    give_back(l);
}

/* Loads a form on lists that hold a stand, or on fewer sections of them: what is refused changes none. */
static void try_load(const char *what, const uint8_t *form, size_t count, stand_volume volume, lists l, size_t sections) {
    lists before = copy_of(volume, l);
    uint32_t code = stand_load(form, count, STORAGE(l, sections)).code;
    printf("%s: refused %" PRIu32 ", lists %s\n", what, code, same(before, l) ? "unchanged" : "changed");
    give_back(before);
}

/* Reads the file back, and works on the stand that it holds. */
static void reopen(const char *name) {
    size_t count;
    uint8_t *form = read_file(name, &count);
    if (remove(name) != 0) fail("the file cannot be removed");
    /* the form says how many sections to lend storage for */
    stand_opened opened = stand_stored_header(form, count);
    accepted("stand_stored_header", opened.code);
    lists l = lists_for(opened.volume);
    printf("read: %zu bytes, %zu sections, %" PRIu64 " cells\n", count, l.n, opened.volume.solid);
    opened = stand_load(form, count, STORAGE(l, l.n));
    accepted("stand_load", opened.code);
    /* a load is an opening: the sheet is opened anew */
    uint64_t mark = open_sheet(opened.volume, l);
    print_line("loaded", opened.volume, l);
    print_digest("loaded", opened.volume, l);

    stand_edited edit = stand_set(opened.volume, STORAGE(l, l.n), last_cell, 0);
    accepted("stand_set", edit.code);
    stand_marked marked = stand_refresh(edit.volume, mark, l.cells, l.n * 4096, l.log, l.n, l.last, l.n, rates, FINISHES,
                                        cut, STAND_OUTSIDE_SHOWS, mask, 256, l.sheet, l.n * 3);
    accepted("stand_refresh", marked.code);
    print_line("edited", edit.volume, l);

    /* set back, the stand has the same form, at another generation */
    edit = stand_set(edit.volume, STORAGE(l, l.n), last_cell, 3);
    accepted("stand_set", edit.code);
    size_t again;
    uint8_t *bytes = stored(edit.volume, l, &again);
    printf("set back, generation %" PRIu64 ": %s\n", edit.volume.generation,
           again == count && memcmp(form, bytes, count) == 0 ? "the same bytes" : "other bytes");
    free(bytes);

    try_load("one section too few", form, count, edit.volume, l, l.n - 1);
    try_load("the last byte cut off", form, count - 1, edit.volume, l, l.n);
    form[30] ^= 1; /* the finish of the first cell */
    try_load("one byte damaged", form, count, edit.volume, l, l.n);
    printf("its header: refused %" PRIu32 "\n", stand_stored_header(form, count).code);
    free(form);
    give_back(l);
}

int main(int argc, char **argv) {
    const char *name = argc > 1 ? argv[1] : "keep.form";
    keep(name);
    reopen(name);
    return 0;
}
