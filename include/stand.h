/*
 * The stand in C: a store of coated cubes, its edits, its changes, its panels, their price, and the form in which
 * a file keeps it.
 *
 * Link with libexports.a, which `example/archive` writes (x86-64 Linux).
 *
 * Terms. A cell is a cube at whole coordinates x, y, z; it holds a finish, 1 to 65,535, or 0 for empty.
 * A section is 16 by 16 by 16 cells, the last one along an axis cut short by the stand's size; sections are
 * numbered from 0, x fastest, then y, then z. A panel is a rectangle of visible faces of one side and one
 * finish. The generation counts the changes of a stand since its opening; a load is an opening.
 *
 * Lists. The caller owns all memory. Each list is a pointer followed by a count of entries. Nothing is kept
 * after a call, and nothing is allocated. A pointer must be aligned for its type and not null, even where
 * the count is 0. Two lists of one call may overlap only if both are const. During a call no other thread may
 * write a list of it, or read one that is not const: such a list may be written; the comments below say how.
 * A stand of n sections (stand_chunk_count) has these lists, and each must have exactly this many entries,
 * for a section cut short too:
 *
 *     cells      n * 4096   the finish of each cell
 *     hashes     n          the hash of each section
 *     versions   n          the version of each section; it goes from 4,294,967,295 to 0
 *     log        n          the sections of the latest changes
 *     last       n          the generation of each section's last change
 *     sheet      n * 3      the price sheet's rows: panels, faces, cents of each section
 *
 * Masks, panel lists, rates, forms and outputs may have any length; each call says what it needs.
 *
 * The header. stand_volume goes by value. A call that edits answers the header after it, which the next
 * call must be given: an older header does not fit the lists any more. stand_set_lent alters the caller's
 * header where it is instead.
 *
 * Answers. Each has a code: 0 for accepted, or the lowest number under which the call is refused. A refused
 * call writes nothing, and all else in its answer is 0, but for what STAND_SHORT_LIST says, and but for the
 * header in stand_edited and the mark in stand_marked, which are then those given.
 */
#ifndef STAND_H
#define STAND_H

#include <stddef.h>
#include <stdint.h>

#ifdef __cplusplus
extern "C" {
#endif

/* ---- codes ---- */

enum {
    STAND_OK = 0,
    STAND_TOO_MANY_CHUNKS = 1,  /* opening, or loading the size that a form has: more than 65,536 sections */
    STAND_PAST_I32 = 2,         /* opening, or loading: the last cell is past 2,147,483,647 on an axis */
    STAND_BAD_HEADER = 3,       /* a header whose sizes, sections and last cell opening would not give */
    STAND_BAD_LENGTH = 4,       /* storage or sheet of another length than the stand needs; in loading, than the
                                   stand of the form's size needs */
    STAND_OUTSIDE = 5,          /* the cell is outside the stand */
    STAND_LAST_GENERATION = 6,  /* a set that would change at generation 2^64 - 1, or a fill whose box has more
                                   cells in the stand, changed or not, than generations remain */
    STAND_BAD_CHUNK = 7,        /* the section's number is too high */
    STAND_MARK_AHEAD = 8,       /* the mark is above the generation */
    STAND_MARK_TOO_OLD = 9,     /* more changes since the mark than there are sections */
    STAND_SHORT_MASK = 10,      /* the mask has fewer slots than the largest side of what is meshed */
    STAND_SHORT_LIST = 11,      /* the panel list is too short: value is the panels needed, the list holds
                                   the first that fit, and the mask is left as by an accepted call */
    STAND_BAD_RATE = 12,        /* the cut is above 1,000,000; or a visible face in a section to be measured has
                                   a finish off the list, or one whose rate is above 1,000,000 */
    STAND_BAD_PANEL = 13,       /* a panel's extents not all positive, or their product past i32; a row to be
                                   totalled above 24,576 panels, 24,576 faces or 49,152,000,000 cents */
    STAND_BAD_FORM = 14,        /* a form cut short, out of order, with an unknown kind, a size below 1, an empty
                                   finish, a repeated cell, an index within above 4,095, a cell beyond the size,
                                   bytes after the digest, or a digest that differs */
    STAND_SHORT_OUTPUT = 15,    /* the output is shorter than the form; no byte of it is written */
    STAND_BAD_ARGUMENT = 100    /* a rule other than 0 and 1, or a side above 5; before all others */
};

/* What lies outside the stand, for meshing. */
enum {
    STAND_OUTSIDE_HIDES = 0,  /* a face towards the outside is not visible */
    STAND_OUTSIDE_SHOWS = 1   /* it is visible */
};

/* Sides, with the first and second axis of their plane. */
enum {
    STAND_EAST = 0,    /* towards +x; y, z */
    STAND_WEST = 1,    /* towards -x; y, z */
    STAND_TOP = 2,     /* towards +y; x, z */
    STAND_BOTTOM = 3,  /* towards -y; x, z */
    STAND_NORTH = 4,   /* towards +z; x, y */
    STAND_SOUTH = 5    /* towards -z; x, y */
};

/* ---- structs ---- */

/* A cell's place. */
typedef struct {
    int32_t x, y, z;
} stand_cell;

/* Three counts along the axes: of cells, or of sections. */
typedef struct {
    int32_t x, y, z;
} stand_extent;

/* The header. Opening or loading makes it; do not fill it in by hand. */
typedef struct {
    stand_cell origin;    /* the lowest cell */
    stand_extent chunks;  /* sections along each axis */
    stand_extent size;    /* cells along each axis */
    uint64_t generation;  /* changes since the opening */
    uint64_t solid;       /* occupied cells */
} stand_volume;

typedef struct {
    uint32_t code;
    stand_volume volume;  /* all 0 where the call is refused */
} stand_opened;

typedef struct {
    uint32_t code;
    uint64_t changed;     /* cells that took another finish */
    stand_volume volume;  /* the header after the edit; the one given where it is refused */
} stand_edited;

typedef struct {
    uint32_t code;
    uint64_t value;
} stand_number;

typedef struct {
    uint32_t code;
    stand_cell cell;
} stand_place;

typedef struct {
    uint32_t code;
    stand_extent extent;
} stand_span;

typedef struct {
    uint32_t code;
    uint32_t given;  /* 1: a section; 0: the walk is over, and all else is 0 */
    uint64_t chunk;
    uint64_t next;   /* for the next step */
} stand_chunk_given;

typedef struct {
    uint32_t code;
    uint32_t given;  /* 1: a cell; 0: the walk is over, and all else is 0 */
    stand_cell cell;
    uint32_t finish;
    uint64_t next;   /* for the next step */
} stand_solid_given;

/* A slice of a section: the slots of one side at one depth. Slot (u, v) is mask[v * width + u], where u
   counts along the side's first axis and v along its second. */
typedef struct {
    stand_cell cell;  /* the lowest cell */
    uint32_t side;
    uint64_t width;   /* slots along first */
    uint64_t height;  /* slots along second */
} stand_slice;

typedef struct {
    uint32_t code;
    stand_slice slice;
} stand_sliced;

typedef struct {
    uint32_t code;
    uint32_t given;       /* 1: a panel; 0: no face is left, and all else is 0 */
    stand_cell cell;      /* the panel's lowest cell */
    uint32_t side;
    uint32_t finish;
    stand_extent extent;  /* cells along each axis: 1 along the side's normal */
    uint64_t next;        /* for the next claim */
} stand_panel_given;

/* The mark after a call on the sheet; where it is refused, the mark given. */
typedef struct {
    uint32_t code;
    uint64_t mark;
} stand_marked;

/* The sums of a sheet's rows. */
typedef struct {
    uint32_t code;
    uint64_t panels;
    uint64_t faces;
    uint64_t cents;
} stand_sums;

/* ---- opening and editing: these write the five lists ---- */

/* The header that opening would give, before any list is lent: stand_chunk_count of it is the n above. It is
   the header of no stand until stand_open was called. Refused: 1, 2. */
stand_opened stand_header(stand_cell origin, stand_extent size);

/* Opens a stand of `size` cells from `origin` on, all empty. A size below 1 counts as 1. The lists may hold
   anything before; all entries are 0 after. Refused: 1, 2, 4. For each axis there are size / 16 sections,
   rounded up; n is their product. */
stand_opened stand_open(stand_cell origin, stand_extent size,
                        uint16_t *cells, size_t cells_count,
                        uint64_t *hashes, size_t hashes_count,
                        uint32_t *versions, size_t versions_count,
                        uint32_t *log, size_t log_count,
                        uint64_t *last, size_t last_count);

/* Gives a cell a finish, 0 to empty it. `changed` is 1, or 0 where the cell has that finish already, and
   then nothing is written. Refused: 3, 4, 5, 6. */
stand_edited stand_set(stand_volume volume,
                       uint16_t *cells, size_t cells_count,
                       uint64_t *hashes, size_t hashes_count,
                       uint32_t *versions, size_t versions_count,
                       uint32_t *log, size_t log_count,
                       uint64_t *last, size_t last_count,
                       stand_cell cell, uint16_t finish);

/* The same over a header that is lent and altered where it is; the value is `changed`. The pointer is as
   those of the lists, and must not overlap one. Refused: 3, 4, 5, 6, and then the header is as it was. */
stand_number stand_set_lent(stand_volume *volume,
                            uint16_t *cells, size_t cells_count,
                            uint64_t *hashes, size_t hashes_count,
                            uint32_t *versions, size_t versions_count,
                            uint32_t *log, size_t log_count,
                            uint64_t *last, size_t last_count,
                            stand_cell cell, uint16_t finish);

/* Gives every cell that lies both in a box and in the stand a finish. `from` and `to` are any two opposite
   corners, both included, inside the stand or not. A box beside the stand, along one axis or more, is accepted:
   it changes 0 cells, and nothing is written. `changed` counts the cells that had another finish. Refused: 3,
   4, 6. example/beside.c has boxes beside the stand, across its edge and around it. */
stand_edited stand_fill(stand_volume volume,
                        uint16_t *cells, size_t cells_count,
                        uint64_t *hashes, size_t hashes_count,
                        uint32_t *versions, size_t versions_count,
                        uint32_t *log, size_t log_count,
                        uint64_t *last, size_t last_count,
                        stand_cell from, stand_cell to, uint16_t finish);

/* ---- reading: these write nothing; each is refused by 3 for a bad header, by 4 for a list's length ---- */

/* The lowest cell. */
stand_place stand_origin(stand_volume volume);

/* The highest cell. */
stand_place stand_max(stand_volume volume);

/* The cell of the stand that is nearest to `cell`. */
stand_place stand_clamp(stand_volume volume, stand_cell cell);

/* The lowest cell of a section. Refused also: 7. */
stand_place stand_chunk_origin(stand_volume volume, size_t chunk);

/* Sections along each axis. */
stand_span stand_chunks(stand_volume volume);

/* Cells along each axis. */
stand_span stand_size(stand_volume volume);

/* How many sections there are. */
stand_number stand_chunk_count(stand_volume volume);

/* How many cells are occupied. */
stand_number stand_solid_count(stand_volume volume);

/* How many changes there were. */
stand_number stand_generation(stand_volume volume);

/* 1 for a cell inside the stand, 0 for one outside. */
stand_number stand_contains(stand_volume volume, stand_cell cell);

/* 1 for an occupied cell, 0 for an empty one and for one outside. */
stand_number stand_is_solid(stand_volume volume, const uint16_t *cells, size_t cells_count, stand_cell cell);

/* The finish of a cell, 0 for empty. Refused also: 5. */
stand_number stand_get(stand_volume volume, const uint16_t *cells, size_t cells_count, stand_cell cell);

/* The section of a cell. Refused also: 5. */
stand_number stand_chunk_of(stand_volume volume, stand_cell cell);

/* The hash of a section's cells. What it tells of two stands is said at stand_digest. Refused also: 7. */
stand_number stand_chunk_hash(stand_volume volume, const uint64_t *hashes, size_t hashes_count, size_t chunk);

/* The version of a section: its changes, modulo 2^32. Refused also: 7. */
stand_number stand_chunk_version(stand_volume volume, const uint32_t *versions, size_t versions_count,
                                 size_t chunk);

/* One number over origin, sections, size and all hashes, by which two tablets compare their stands. Promised of two
   stands of the same origin and the same size, however each was opened, loaded and edited:
   - with the same finish in each cell they have the same digest, and the same hash of each section;
   - with one cell off, of another finish, or empty on one and not on the other, they have different digests, and
     different hashes of that cell's section; the hashes of all other sections are the same.
   So a set that changes a cell changes the digest. Nothing is promised of stands that differ in two cells or more, in
   origin or in size: they may have the same digest. example/compare.c finds the section of a cell that is off, and has
   two stands of five cells with two cells off and one digest. Where that is not enough, compare what stand_store
   writes: equal forms mean equal stands. All this is said of header and hashes as the calls left them. */
stand_number stand_digest(stand_volume volume, const uint64_t *hashes, size_t hashes_count);

/* How many faces a panel of these extents has: their product. Refused: 13 alone. */
stand_number stand_merged(stand_extent extent);

/* ---- walks: these write nothing ---- */

/* Whether the sections changed since a mark can be told; a mark is a generation that the stand had. The
   value is `next` of the first step: the mark. Refused: 3, 4, 8, 9; after 9 take all sections as changed. */
stand_number stand_changed_since(stand_volume volume,
                                 const uint32_t *log, size_t log_count,
                                 const uint64_t *last, size_t last_count, uint64_t mark);

/* The next section changed since, each given once, in the order of their last changes. Start with `next` = the
   mark, go on with the answer's `next` until `given` is 0. A section edited after it was given is given again.
   Refused: 3, 4, 8, 9. */
stand_chunk_given stand_changed_step(stand_volume volume,
                                     const uint32_t *log, size_t log_count,
                                     const uint64_t *last, size_t last_count, uint64_t next);

/* The next occupied cell, section by section, in each x fastest, then y, then z. Start with `next` = 0, go on
   with the answer's `next` until `given` is 0. An occupied entry of `cells` beyond the stand's size, which no
   call makes, is given too. Refused: 3, 4. */
stand_solid_given stand_solid_step(stand_volume volume, const uint16_t *cells, size_t cells_count, size_t next);

/* ---- panels: these write the mask, and the list ---- */

/* The panels of the whole stand, merged across sections. The mask is work space of any contents. It needs
   as many slots as the largest side of the stand has cells; accepted or refused by 11, that many first
   slots are 0 after, and those past them stay as they were. Each panel is eight numbers in the list, from its
   start on:
       x, y, z of the lowest cell; side; finish; cells along x, y, z
   and the numbers after the last panel stay as they were. The value is the panels written.
   Refused: 100, 3, 4, 10, 11. */
stand_number stand_faces(stand_volume volume, const uint16_t *cells, size_t cells_count, uint32_t rule,
                         uint16_t *mask, size_t mask_count, int32_t *list, size_t list_count);

/* The panels of one section, in the same form: none reaches past it. The mask needs the slots that
   stand_chunk_slots answers; 256 are always enough, and a list of 196,608 numbers. The section's row of the price
   sheet, if measured under the same rule since the last edit, opening or load, says what list is enough: see 'What
   is in a row' below. Refused: 100, 3, 4, 7, 10, 11. */
stand_number stand_chunk_faces(stand_volume volume, const uint16_t *cells, size_t cells_count, size_t chunk,
                               uint32_t rule, uint16_t *mask, size_t mask_count,
                               int32_t *list, size_t list_count);

/* How many mask slots a section needs: the cells of its largest side, cut short by the size. Refused: 3, 7. */
stand_number stand_chunk_slots(stand_volume volume, size_t chunk);

/* Lays the visible finishes of one side of a section into the mask, 0 where no face is visible: those of the
   cells that lie `slice` above the section's lowest along the side's normal axis. The mask is of any contents and
   needs m slots, m being what stand_chunk_slots answers. After it the slice's slots come first, the others of the
   first m slots are 0, and slots from m on stay as they were. Past the section's depth the slice has no slots, and
   the first m are 0. Refused: 100, 3, 4, 7, 10. */
stand_sliced stand_chunk_slice(stand_volume volume, const uint16_t *cells, size_t cells_count, size_t chunk,
                               uint32_t side, size_t slice, uint32_t rule,
                               uint16_t *mask, size_t mask_count);

/* Takes the next panel of a slice out of a mask: its slots become 0, all others stay. Start with `from` = 0, go
   on with the answer's `next` until `given` is 0; the slice's slots are then 0. A slice with more slots than the
   mask gives none. Refused: 100. */
stand_panel_given stand_claim(stand_slice slice, uint16_t *mask, size_t mask_count, size_t from);

/* ---- the price sheet: these write the mask, and the sheet ---- */

/* The sheet has three numbers for each section: panels, faces, cents. `rates` has the rate of finish f at
   index f, in cents for a face; entry 0 is not used. The cut is added for each panel. No rate that a visible
   face needs, and no cut, may be above 1,000,000. The mask is work space of any contents. It needs as many slots
   as the largest side among the sections to be measured has cells; 256 are always enough. That many first slots
   are 0 after an accepted call, none where no section is measured, and those past them stay as they were.

   What is in a row. Where an accepted stand_open_sheet or stand_refresh measured section i, and the stand was not
   edited, opened or loaded since, row i is the sums over the panels that stand_chunk_faces lists of section i under
   the same rule: how many they are; the products of their extents; and for each panel its product * the rate of its
   finish + the cut, by that call's rates and cut. So the row's first number * 8 is the length of a list that is
   enough: with it, and a mask of the slots that stand_chunk_slots answers, stand_chunk_faces is accepted, whatever
   list and mask hold, and answers the row's first number. Just after a refresh the rows that it did not measure are
   so too, if the conditions below were kept. example/items.c lists an offer item by item, and sums it up.

   A REFRESH DOES NOT SEE THAT THE SHEET IS STALE. Open the sheet anew after each stand_open and stand_load, and
   whenever a rate, the cut or the rule is another one. A stand opened anew counts its changes from 0 again, so an
   old mark may well be one of its own generations; and a mark knows nothing of rates. A refresh with the old mark
   then answers code 0, and the OLD PRICE stays. Run by example/stale.c: 17 cells in a row of a finish at 100, cut
   50, are told at 7500, mark 17. Opened anew and filled with a finish at 900, the stand has generation 17 again: a
   refresh with mark 17 measures nothing, answers code 0, and stand_totals still says 7500. Measured anew it is
   63500. The same happens where the stand stays and the rate of its finish goes from 100 to 900. */

/* Opens a sheet: every section is measured, and the mark is the generation. Call it anew after each stand_open and
   stand_load, and whenever a rate, the cut or the rule is another one: without it stand_refresh may answer code 0
   and leave the old price (see above). `mark` is any number; it comes back where the call is refused.
   Refused: 100, 3, 4, 10, 12; then nothing is written. */
stand_marked stand_open_sheet(stand_volume volume, uint64_t mark,
                              const uint16_t *cells, size_t cells_count,
                              const uint32_t *rates, size_t rates_count, uint32_t cut, uint32_t rule,
                              uint16_t *mask, size_t mask_count, uint64_t *sheet, size_t sheet_count);

/* Brings the sheet up to the generation: the sections changed since the mark and those that share a face with one
   are measured anew, all of them after more changes than sections. Give the sheet and the mark as the last
   accepted stand_open_sheet or stand_refresh left them, and the same rates, cut and rule. With a stand opened or
   loaded since, or with another rate, cut or rule, it may answer code 0 all the same while rows keep the old price
   (see above): call stand_open_sheet instead. Refused: 100, 3, 4, 8, 10, 12; then nothing is written. */
stand_marked stand_refresh(stand_volume volume, uint64_t mark,
                           const uint16_t *cells, size_t cells_count,
                           const uint32_t *log, size_t log_count, const uint64_t *last, size_t last_count,
                           const uint32_t *rates, size_t rates_count, uint32_t cut, uint32_t rule,
                           uint16_t *mask, size_t mask_count, uint64_t *sheet, size_t sheet_count);

/* The sums of all rows as the sheet has them: the price line, if it was opened or refreshed after the last edit.
   It writes nothing and measures nothing. Refused: 3, 4, 13. */
stand_sums stand_totals(stand_volume volume, const uint64_t *sheet, size_t sheet_count);

/* ---- a stand kept in a file: storing writes the output, loading the five lists ---- */

/* The stored form is a list of bytes: records, each of one kind byte and a body of whole numbers, lowest byte
   first, int32_t in two's complement.

       record   kind   bytes   body                                        which
       head       1     25     origin x, y, z, size x, y, z: int32_t       one, first
       cell       2      7     section, index within, finish: uint16_t     one for each occupied cell inside the
                                                                           stand, ascending by section, then index
       end        0      9     digest: uint64_t                            one, last

   With k occupied cells inside the stand it has 34 + 7 * k bytes. Section and index within say where the cell is
   in `cells`: at section * 4096 + index within. The digest is what stand_digest answers for a fresh stand of this
   origin and size, filled with these cells. docs/FORMAT.md has the form worked out byte by byte.

   Two stands have equal forms if their origins, their sizes and the finishes of all cells inside are equal, and
   only then. The rest of a stand is not kept: generation, versions, log and last changes are 0 after a load, solid
   and hashes are made anew from the cells, and entries of `cells` beyond the size are 0. Sheet, rates, cut, rule
   and marks are no part of the form.

   A LOAD IS AN OPENING. The loaded stand counts its changes from 0 again: a mark of before the load means nothing
   after it, in stand_changed_since, stand_changed_step or stand_refresh. Open the sheet anew after each
   stand_load.

   The calls take bytes in memory; reading and writing files is the caller's. example/keep.c keeps a stand in a
   file, and shows refusals 4, 14 and 15. */

/* How many bytes the form of a stand has: what stand_store needs and then answers. Of the header, generation and
   solid do not matter. Refused: 3, 4. */
stand_number stand_stored_length(stand_volume volume, const uint16_t *cells, size_t cells_count);

/* Stores a stand: writes its form to `out`, from its start on. The value is the form's length; bytes after it stay
   as they were. An output of just that length is enough. Generation and solid of the header do not matter, nor
   entries of `cells` beyond the size. Refused: 3, 4, 15; then no byte is written. */
stand_number stand_store(stand_volume volume, const uint16_t *cells, size_t cells_count,
                         uint8_t *out, size_t out_count);

/* The header that stand_load gives for a form, before any list is lent: stand_chunk_count of it is the n above.
   The whole form is checked as stand_load checks it, so with lists of the lengths for n stand_load accepts it. It
   is the header of no stand until stand_load was called. Refused: 1, 2, 14. */
stand_opened stand_stored_header(const uint8_t *form, size_t form_count);

/* Opens the stand that a form holds. `form_count` is the form's length: bytes after the digest are refused. The
   lists may hold anything before; each must have exactly the entries for the n of the stored size. After it
   `cells` holds the form's finishes and 0 everywhere else, beyond the size too; hashes and solid are those of
   these cells; versions, log, last and the generation are 0. The whole form is checked, its digest too, before
   anything is written. Refused: 1, 2, 4, 14; then no list is written. 1, 2 and 4 go by the stored origin and size,
   and apply only where the form begins with a whole head whose sizes are 1 or more, whatever comes after it; a
   form that does not is refused by 14, whatever the lists' lengths. A size below 1 does not count as 1 here. Open
   the sheet anew after it. */
stand_opened stand_load(const uint8_t *form, size_t form_count,
                        uint16_t *cells, size_t cells_count,
                        uint64_t *hashes, size_t hashes_count,
                        uint32_t *versions, size_t versions_count,
                        uint32_t *log, size_t log_count,
                        uint64_t *last, size_t last_count);

#ifdef __cplusplus
}
#endif

#endif
