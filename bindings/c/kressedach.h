/* Kressedach: reads solid sheets and answers with their wall lists. The C side of the proved library.
 *
 * For Linux on x86-64 or Arm (aarch64). Where bindings/install has put the library: cc prog.c $(pkg-config --cflags --libs kressedach).
 * Else link libkressedach.a, which bindings/archive writes: cc prog.c libkressedach.a. It is position independent, keeps no state,
 * allocates nothing, calls nothing back, never unwinds, and may be called from any number of threads at once. Of the C library it needs
 * memcpy, memmove and memset at most. Its working memory is on the stack, which the proofs do not count: 256 kilobytes are enough.
 * docs/TRUST.md has what was measured, job by job and on both processors.
 *
 * Each function but kressedach_version writes its report, a struct, where its first argument says, and returns nothing: on every processor
 * alike.
 *
 * Each function but the crossing makers takes the sheets of a call: the customer's, `sheet`, alone where `fitted` is false; else beside a
 * fittings sheet, `fittings`, whose shapes are numbered first. Where `fitted` is false, `fittings` is not looked at, and may have no bytes;
 * where it is true, an empty fittings sheet is refused as any other that ends too soon.
 *
 * Where a report's `number` is 0, the job is done: `sheet` and `place` are 0 (but kressedach_name says in `sheet` which sheet holds the
 * name), and the rest is the answer. Else `number` and `place` are the refusal's, `sheet` says which sheet the place is in, and the rest is
 * 0 (but kressedach_cross_many says in `line` which line it is of). The page docs/SHEET.md says what a sheet is, byte by byte, and has all
 * refusals with their places, the order in which each job asks, and what the numbers of a tree's records mean. The crossing makers, which
 * take no sheet, report no `sheet`.
 *
 * A refusal writes nothing to any list. Entries of a list past the last one given stay as they were.
 *
 * What is proved is that each function answers so for every content and every length of the lists it is lent. What a caller keeps,
 * and nothing can check:
 *
 *  - A list is a pointer, then its number of entries (not of bytes). The entries are there for the whole call. Those of a list that is
 *    read are initialised; a list that is written may hold anything, and need not be cleared.
 *  - The pointer is aligned for its entry: uint16_t to 2, uint32_t and int32_t to 4, uint64_t, size_t and double to 8. Only with no
 *    entries may it be NULL.
 *  - A list that is written (it has no `const`) overlaps no other list of the call. Lists that are only read may overlap.
 *  - The report is there, aligned and not NULL, and overlaps no list of the call. What it holds before does not matter.
 *  - No other thread writes a list of the call, or reads one that is written, or the report, until the call is over.
 *  - A list holds at most PTRDIFF_MAX bytes, as every C object does.
 *  - The crossing makers count with doubles, to the bit: the processor rounds to nearest, halves to even, and keeps subnormal numbers, as
 *    it does when a program starts. Who has changed that (fesetround, flushing to zero, a part linked with -ffast-math) sets it back
 *    before a call.
 *
 * Of this gcc (from 10 on, with -Wall) and clang warn of what they can see when they compile: a report that is NULL, a list that is NULL and
 * has entries, and a list that is shorter than said.
 *
 * The compiler checks these declarations against nothing; bindings/rust/tests/declared.rs compares them with crates/kressedach/src/lib.rt.
 */
#ifndef KRESSEDACH_H
#define KRESSEDACH_H

#include <stdbool.h>
#include <stddef.h>
#include <stdint.h>

/* What a caller keeps, as far as a compiler can see it: of each list, where it and its length stand among the arguments, and its name. */
#ifdef __has_attribute
#if __has_attribute(nonnull)
#define KRESSEDACH_REPORTED __attribute__((nonnull(1)))
#endif
#if __has_attribute(access)
#define KRESSEDACH_READ(at, past, list) __attribute__((access(read_only, at, past)))
#define KRESSEDACH_WRITTEN(at, past, list) __attribute__((access(write_only, at, past)))
#elif __has_attribute(diagnose_if)
#define KRESSEDACH_READ(at, past, list)                                                                                                 \
    __attribute__((diagnose_if(!list && list##_length > 0, "the list '" #list "' is NULL and has entries", "warning")))                 \
    __attribute__((diagnose_if(list && __builtin_object_size(list, 0) / sizeof *list < list##_length,                                   \
                               "the list '" #list "' is shorter than said", "warning")))
#define KRESSEDACH_WRITTEN(at, past, list) KRESSEDACH_READ(at, past, list)
#endif
#endif
#ifndef KRESSEDACH_REPORTED
#define KRESSEDACH_REPORTED
#endif
#ifndef KRESSEDACH_READ
#define KRESSEDACH_READ(at, past, list)
#define KRESSEDACH_WRITTEN(at, past, list)
#endif

#ifdef __clang__
#pragma clang diagnostic push
#pragma clang diagnostic ignored "-Wgcc-compat"
#endif

#ifdef __cplusplus
extern "C" {
#endif

/* The version of this header: 1000000 for each of its first number, 1000 for each of its second, 1 for each of its third. */
#define KRESSEDACH_VERSION_TEXT "0.1.0"
#define KRESSEDACH_VERSION 1000

/* The version of the library that is linked, counted in the same way. The two are equal, unless a shared library was exchanged. */
uint32_t kressedach_version(void);

/* The numbers of the refusals, and what their places are. 0 is no refusal. */
enum kressedach_number {
    KRESSEDACH_GIVEN = 0,
    KRESSEDACH_ENDS_TOO_SOON = 1,    /* the sheet's length */
    KRESSEDACH_TAG_OUT_OF_PLACE = 2, /* the tag's offset, as for 3 to 6 */
    KRESSEDACH_HEADER_WRONG = 3,
    KRESSEDACH_NAME_WRONG = 4,
    KRESSEDACH_NAME_TAKEN = 5,
    KRESSEDACH_TOO_LARGE = 6,      /* more than 256 names, or a formula longer than 4094 bytes */
    KRESSEDACH_FORMULA_WRONG = 7,  /* the code's offset; the tag's for a wrong length or a wrong end */
    KRESSEDACH_TOO_HIGH = 8,       /* 0 */
    KRESSEDACH_LIST_TOO_SHORT = 9, /* the length needed */
    KRESSEDACH_NO_SUCH_SHAPE = 10, /* the index in the list */
    KRESSEDACH_FALLS = 11,         /* the index */
    KRESSEDACH_ODD = 12,           /* given no more: a line may end in metal */
    KRESSEDACH_LENGTHS_DIFFER = 13, /* 0: lists that go together; of two foundries: the order does not mix their lists */
    KRESSEDACH_ROWS_WRONG = 14,    /* 0: start rows of a length that is no multiple of the names, a byte in them above 1, more than 4294967296 rows or lines */
    KRESSEDACH_ASTRAY = 15,        /* the index: a position at either end mark, or a line with no start row */
    KRESSEDACH_SHAPE_WRONG = 16,   /* 256 for more than 256 shapes, 65535 for the line, else the first shape at fault */
    KRESSEDACH_FITTINGS_NAME = 17, /* a customer's name equal to a fitting's: the tag's offset */
    KRESSEDACH_BALL_WRONG = 18,    /* 256 for more than 256 balls, else the first ball with a number out of its range */
    KRESSEDACH_OUT_OF_USE = 19,    /* the offset in the customer's sheet of its first exclusive union, 0xFFF3: it does not move to edition 2 */
    KRESSEDACH_EDIT_WRONG = 20     /* the index: a node that is no operation, a code that is none, a moment that falls or exceeds the toggles */
};

/* What a number means: the words of the column 'given when' of the table in docs/SHEET.md. */
static inline const char *kressedach_meaning(uint8_t number) {
    switch (number) {
    case KRESSEDACH_GIVEN: return "given";
    case KRESSEDACH_ENDS_TOO_SOON: return "the sheet ends too soon";
    case KRESSEDACH_TAG_OUT_OF_PLACE: return "a tag that is unknown or out of place";
    case KRESSEDACH_HEADER_WRONG: return "the header's length or edition is wrong";
    case KRESSEDACH_NAME_WRONG: return "a name has a wrong length, or a byte that is not 0x21 to 0x7E";
    case KRESSEDACH_NAME_TAKEN: return "a name that is taken already";
    case KRESSEDACH_TOO_LARGE: return "more than 256 names, or a formula longer than 4094 bytes";
    case KRESSEDACH_FORMULA_WRONG: return "the formula is wrong";
    case KRESSEDACH_TOO_HIGH: return "the contracted tree is higher than 57: proved never to come";
    case KRESSEDACH_LIST_TOO_SHORT: return "an answer list is too short";
    case KRESSEDACH_NO_SUCH_SHAPE: return "a shape number that no name has";
    case KRESSEDACH_FALLS: return "a line number falls, or a position falls within its line";
    case KRESSEDACH_ODD: return "given no more: a shape crossed an odd number of times on a line";
    case KRESSEDACH_LENGTHS_DIFFER:
        return "lists that go together differ in length (crossings, another's walls, edits), or an order does not mix the lists of "
               "two foundries";
    case KRESSEDACH_ROWS_WRONG:
        return "the start rows' length is no multiple of the number of names, they are more than 4294967296, or a byte is neither 0 "
               "nor 1; of lines to cross: they are more than 4294967296";
    case KRESSEDACH_ASTRAY: return "a position at an end mark, -2147483648 or 2147483647, or a line with no start row";
    case KRESSEDACH_SHAPE_WRONG:
        return "half-spaces and boxes: more than 256, the line (a number that is not finite, or a direction all zero), or a shape "
               "(an axis above 2, a number that is not finite, a low not below its high, a position that is not finite or outside "
               "-2147483647 to 2147483646)";
    case KRESSEDACH_FITTINGS_NAME: return "a customer's name that a fitting has";
    case KRESSEDACH_BALL_WRONG: return "balls: more than 256, or an offset, a radius or a centre out of its range";
    case KRESSEDACH_OUT_OF_USE: return "a move to edition 2 of a sheet with an exclusive union";
    case KRESSEDACH_EDIT_WRONG:
        return "an edit of a node that is no operation, to a code that is none, or at a moment that falls or exceeds the toggles";
    default: return "unknown";
    }
}

/* Which sheet the place of a refusal is in. */
enum kressedach_sheet {
    KRESSEDACH_NO_SHEET = 0,       /* given, or refused for no sheet; also 19, always of the customer's */
    KRESSEDACH_FITTINGS_SHEET = 1, /* 1 to 6, in the fittings sheet */
    KRESSEDACH_CUSTOMERS_SHEET = 2 /* 1 to 7 and 17, in the customer's sheet, also where it is alone */
};

/* No contracted tree has more nodes: room for so many entries is enough for any sheet. */
#define KRESSEDACH_MOST_NODES 3069

/* No sheets have more names, both together: room for so many entries is enough for any. */
#define KRESSEDACH_MOST_NAMES 256

/* The place of 16 where the line is at fault. */
#define KRESSEDACH_THE_LINE 65535

/* A box in a list of kinds; 0, 1 and 2 are half-spaces on that axis. */
#define KRESSEDACH_BOX 255

/* What stands in a node's record where there is no number. */
#define KRESSEDACH_NONE 65535

/* The end marks of a line: an open wall starts at the one or ends at the other, and no crossing stands there. */
#define KRESSEDACH_OPEN_START INT32_MIN
#define KRESSEDACH_OPEN_END INT32_MAX

/* The shape at an open end. */
#define KRESSEDACH_OPEN_SHAPE 65535

struct kressedach_read_report {
    uint8_t number;
    uint8_t sheet;
    size_t place;
    size_t names;  /* how many names, of both sheets; shapes are numbered from 0 */
    size_t leaves; /* how many leaves the formula has */
    size_t first;  /* the offset of the formula's first byte */
    size_t past;   /* the offset past its last */
};

/* Reads the sheets. Refusals: 1 to 7 and 17.
 *
 * The caller keeps: fittings_length bytes at fittings, sheet_length bytes at sheet. Nothing is written.
 */
void kressedach_read(struct kressedach_read_report *report,
                     bool fitted,
                     const uint8_t *fittings, size_t fittings_length,
                     const uint8_t *sheet, size_t sheet_length)
    KRESSEDACH_REPORTED KRESSEDACH_READ(3, 4, fittings) KRESSEDACH_READ(5, 6, sheet);

struct kressedach_name_report {
    uint8_t number;
    uint8_t sheet; /* given: the sheet that holds the name, 1 or 2 */
    size_t place;
    size_t first; /* the offset of the name's first byte in that sheet */
    size_t past;  /* the offset past its last */
};

/* Asks where the name of a shape stands, as it is in whichever of the two sheets holds it. Refusals: 1 to 7 and 17, then 10 at place 0
 * for a number past the joined names.
 *
 * The caller keeps: fittings_length bytes at fittings, sheet_length bytes at sheet. Nothing is written.
 */
void kressedach_name(struct kressedach_name_report *report,
                     bool fitted,
                     const uint8_t *fittings, size_t fittings_length,
                     const uint8_t *sheet, size_t sheet_length,
                     size_t shape)
    KRESSEDACH_REPORTED KRESSEDACH_READ(3, 4, fittings) KRESSEDACH_READ(5, 6, sheet);

struct kressedach_names_report {
    uint8_t number;
    uint8_t sheet;
    size_t place;
    size_t names; /* how many entries were given in each list */
};

/* Asks where the name of every shape stands, in the order of their numbers, the sheets read once: for each the sheet that holds it, 1 or
 * 2, the offset of its first byte in that sheet, and the offset past its last. Refusals: 1 to 7 and 17, then 9 for sheets, firsts, pasts
 * in this order.
 *
 * The caller keeps: fittings_length bytes at fittings, sheet_length bytes at sheet; sheets_length, firsts_length and pasts_length entries
 * at sheets, firsts and pasts. The last three are written: none of them overlaps another list. Each needs an entry a name.
 */
void kressedach_names(struct kressedach_names_report *report,
                      bool fitted,
                      const uint8_t *fittings, size_t fittings_length,
                      const uint8_t *sheet, size_t sheet_length,
                      uint8_t *sheets, size_t sheets_length,
                      size_t *firsts, size_t firsts_length,
                      size_t *pasts, size_t pasts_length)
    KRESSEDACH_REPORTED KRESSEDACH_READ(3, 4, fittings) KRESSEDACH_READ(5, 6, sheet) KRESSEDACH_WRITTEN(7, 8, sheets)
    KRESSEDACH_WRITTEN(9, 10, firsts) KRESSEDACH_WRITTEN(11, 12, pasts);

struct kressedach_move_report {
    uint8_t number;
    uint8_t sheet;
    size_t place;
    size_t length; /* how many bytes were given: as many as the sheet has */
};

/* Gives the customer's sheet in the edition that it has not: the header's edition, the formula's tag and the order of its codes change,
 * and no other byte. A sheet without exclusive unions, 0xFFF3, moved again, is the same bytes as before; one with them moves to edition 1
 * alone. Refusals: 1 to 7 and 17; 19 for a sheet of edition 1 with 0xFFF3, at the first one; then 9, place the sheet's length.
 *
 * The caller keeps: fittings_length bytes at fittings, sheet_length bytes at sheet, moved_length bytes at moved. The last is written: it
 * overlaps no other list. It needs as many bytes as the sheet has.
 */
void kressedach_move(struct kressedach_move_report *report,
                     bool fitted,
                     const uint8_t *fittings, size_t fittings_length,
                     const uint8_t *sheet, size_t sheet_length,
                     uint8_t *moved, size_t moved_length)
    KRESSEDACH_REPORTED KRESSEDACH_READ(3, 4, fittings) KRESSEDACH_READ(5, 6, sheet) KRESSEDACH_WRITTEN(7, 8, moved);

struct kressedach_build_report {
    uint8_t number;
    uint8_t sheet;
    size_t place;
    size_t leaves; /* the leaves are the first nodes, from left to right */
    size_t nodes;  /* how many entries were given in each list */
    size_t rounds;
    size_t height;
};

/* Builds the contracted ("dwarf") tree: a record of kind, first, second for each node, the root last. Refusals: 1 to 7 and 17, 8, then
 * 9 for kinds, firsts, seconds in this order.
 *
 * The caller keeps: fittings_length bytes at fittings, sheet_length bytes at sheet; kinds_length, firsts_length and seconds_length
 * entries at kinds, firsts and seconds. The last three are written: none of them overlaps another list. Each needs an entry a node.
 */
void kressedach_build(struct kressedach_build_report *report,
                      bool fitted,
                      const uint8_t *fittings, size_t fittings_length,
                      const uint8_t *sheet, size_t sheet_length,
                      uint16_t *kinds, size_t kinds_length,
                      uint16_t *firsts, size_t firsts_length,
                      uint16_t *seconds, size_t seconds_length)
    KRESSEDACH_REPORTED KRESSEDACH_READ(3, 4, fittings) KRESSEDACH_READ(5, 6, sheet) KRESSEDACH_WRITTEN(7, 8, kinds)
    KRESSEDACH_WRITTEN(9, 10, firsts) KRESSEDACH_WRITTEN(11, 12, seconds);

struct kressedach_run_report {
    uint8_t number;
    uint8_t sheet;
    size_t place;
    size_t nodes; /* how many labels were given; roots and counts have an entry a toggle */
};

/* Runs toggles, which are shape numbers, with every shape outside at first: a root bit and a count of reworked labels for each toggle,
 * and each node's label after the last. Refusals: 1 to 7 and 17, 8, 10, then 9 for roots, counts, labels in this order.
 *
 * The caller keeps: fittings_length bytes at fittings, sheet_length bytes at sheet, toggles_length entries at toggles; roots_length,
 * counts_length and labels_length entries at roots, counts and labels. The last three are written: none of them overlaps another list.
 * Roots and counts need an entry a toggle, labels one a node.
 */
void kressedach_run(struct kressedach_run_report *report,
                    bool fitted,
                    const uint8_t *fittings, size_t fittings_length,
                    const uint8_t *sheet, size_t sheet_length,
                    const uint16_t *toggles, size_t toggles_length,
                    uint8_t *roots, size_t roots_length,
                    uint32_t *counts, size_t counts_length,
                    uint8_t *labels, size_t labels_length)
    KRESSEDACH_REPORTED KRESSEDACH_READ(3, 4, fittings) KRESSEDACH_READ(5, 6, sheet) KRESSEDACH_READ(7, 8, toggles)
    KRESSEDACH_WRITTEN(9, 10, roots) KRESSEDACH_WRITTEN(11, 12, counts) KRESSEDACH_WRITTEN(13, 14, labels);

struct kressedach_both_report {
    struct kressedach_run_report first;
    struct kressedach_run_report second;
};

/* Runs the toggles of two foundries, `first` and `second`, on one tree: each gets what kressedach_run gives for its list alone. The order
 * mixes the lists: a byte a turn, 0 for the first foundry and 1 for the second, as many turns for each as its list is long. Refusals to
 * both: 1 to 7 and 17, 8, then 13 at place 0. To one foundry alone, which leaves only its lists as they were: 10, then 9 for its roots,
 * counts, labels in this order.
 *
 * The caller keeps: fittings_length bytes at fittings, sheet_length bytes at sheet, order_length bytes at order, first_length entries at
 * first and second_length at second; first_roots_length, first_counts_length and first_labels_length entries at first_roots, first_counts
 * and first_labels, and second_roots_length, second_counts_length and second_labels_length at second_roots, second_counts and
 * second_labels. The last six are written: none of them overlaps another list. A foundry's roots and counts need an entry a toggle of its
 * own, its labels one a node.
 */
void kressedach_run_both(struct kressedach_both_report *report,
                         bool fitted,
                         const uint8_t *fittings, size_t fittings_length,
                         const uint8_t *sheet, size_t sheet_length,
                         const uint8_t *order, size_t order_length,
                         const uint16_t *first, size_t first_length,
                         const uint16_t *second, size_t second_length,
                         uint8_t *first_roots, size_t first_roots_length,
                         uint32_t *first_counts, size_t first_counts_length,
                         uint8_t *first_labels, size_t first_labels_length,
                         uint8_t *second_roots, size_t second_roots_length,
                         uint32_t *second_counts, size_t second_counts_length,
                         uint8_t *second_labels, size_t second_labels_length)
    KRESSEDACH_REPORTED KRESSEDACH_READ(3, 4, fittings) KRESSEDACH_READ(5, 6, sheet) KRESSEDACH_READ(7, 8, order)
    KRESSEDACH_READ(9, 10, first) KRESSEDACH_READ(11, 12, second) KRESSEDACH_WRITTEN(13, 14, first_roots)
    KRESSEDACH_WRITTEN(15, 16, first_counts) KRESSEDACH_WRITTEN(17, 18, first_labels) KRESSEDACH_WRITTEN(19, 20, second_roots)
    KRESSEDACH_WRITTEN(21, 22, second_counts) KRESSEDACH_WRITTEN(23, 24, second_labels);

/* Runs toggles as kressedach_run does, while operations of the formula become others, without a new build. An edit stands at one index of
 * three lists: after how many toggles (moments), which operation by its postfix position from 0 (positions, under either edition), and the
 * new operation's code. Edits with equal moments act in list order, after the root of the toggle before them is given. Each root and label
 * is that of a build of the sheet as edited by then, with the same shapes inside; the labels are those at the end, after the last toggle and
 * the last edit. An edit's count is the number of labels that it reworks, its own node's included.
 *
 * Refusals: 1 to 7 and 17, 8, 13 for moments, positions and codes of unequal length, 10, 20 edit by edit, then 9 for roots, counts, labels,
 * edit_counts in this order.
 *
 * The caller keeps: fittings_length bytes at fittings, sheet_length bytes at sheet, toggles_length entries at toggles; moments_length,
 * positions_length and codes_length entries at moments, positions and codes; roots_length, counts_length, labels_length and
 * edit_counts_length entries at roots, counts, labels and edit_counts. The last four are written: none of them overlaps another list.
 * Roots and counts need an entry a toggle, labels one a node, edit_counts one an edit.
 */
void kressedach_run_edited(struct kressedach_run_report *report,
                           bool fitted,
                           const uint8_t *fittings, size_t fittings_length,
                           const uint8_t *sheet, size_t sheet_length,
                           const uint16_t *toggles, size_t toggles_length,
                           const uint64_t *moments, size_t moments_length,
                           const uint16_t *positions, size_t positions_length,
                           const uint16_t *codes, size_t codes_length,
                           uint8_t *roots, size_t roots_length,
                           uint32_t *counts, size_t counts_length,
                           uint8_t *labels, size_t labels_length,
                           uint32_t *edit_counts, size_t edit_counts_length)
    KRESSEDACH_REPORTED KRESSEDACH_READ(3, 4, fittings) KRESSEDACH_READ(5, 6, sheet) KRESSEDACH_READ(7, 8, toggles)
    KRESSEDACH_READ(9, 10, moments) KRESSEDACH_READ(11, 12, positions) KRESSEDACH_READ(13, 14, codes) KRESSEDACH_WRITTEN(15, 16, roots)
    KRESSEDACH_WRITTEN(17, 18, counts) KRESSEDACH_WRITTEN(19, 20, labels) KRESSEDACH_WRITTEN(21, 22, edit_counts);

struct kressedach_classify_report {
    uint8_t number;
    uint8_t sheet;
    size_t place;
    size_t walls; /* how many entries were given in each list */
};

/* Finds the walls of lines. `rows` has one row a line, from line 0 on, and in each row one byte a shape: 1 where the line starts inside
 * it, else 0; a line in air has a row of zeros. A crossing is a line number below the number of rows, a position in micrometres between
 * KRESSEDACH_OPEN_START and KRESSEDACH_OPEN_END, and a shape number, at one index of three lists; line numbers never fall, and positions
 * never fall within a line. A line may have no crossing.
 *
 * A wall is a longest stretch of positive length inside; the shape at its start and the one at its end is the lowest number whose state
 * differs before and after that position. Where a line starts in metal, its first wall starts at KRESSEDACH_OPEN_START, and where metal
 * goes on past its last crossing, its last wall ends at KRESSEDACH_OPEN_END; the shape there is KRESSEDACH_OPEN_SHAPE. A wall's length,
 * its end less its start, may be above INT32_MAX, so subtract in 64 bits: (int64_t)ends[k] - starts[k].
 *
 * Refusals: 1 to 7 and 17, 8, 13, 14, then 10, 15 and 11 crossing by crossing, then 9 for wall_lines, starts, ends, start_shapes,
 * end_shapes in this order.
 *
 * The caller keeps: fittings_length bytes at fittings, sheet_length bytes at sheet, rows_length bytes at rows; lines_length,
 * positions_length and shapes_length entries at lines, positions and shapes; wall_lines_length, starts_length, ends_length, start_shapes_length
 * and end_shapes_length entries at wall_lines, starts, ends, start_shapes and end_shapes. The last five are written: none of them
 * overlaps another list. Each needs half as many entries as there are crossings, rounded down, and one more for each row.
 */
void kressedach_classify(struct kressedach_classify_report *report,
                         bool fitted,
                         const uint8_t *fittings, size_t fittings_length,
                         const uint8_t *sheet, size_t sheet_length,
                         const uint8_t *rows, size_t rows_length,
                         const uint32_t *lines, size_t lines_length,
                         const int32_t *positions, size_t positions_length,
                         const uint16_t *shapes, size_t shapes_length,
                         uint32_t *wall_lines, size_t wall_lines_length,
                         int32_t *starts, size_t starts_length,
                         int32_t *ends, size_t ends_length,
                         uint16_t *start_shapes, size_t start_shapes_length,
                         uint16_t *end_shapes, size_t end_shapes_length)
    KRESSEDACH_REPORTED KRESSEDACH_READ(3, 4, fittings) KRESSEDACH_READ(5, 6, sheet) KRESSEDACH_READ(7, 8, rows)
    KRESSEDACH_READ(9, 10, lines) KRESSEDACH_READ(11, 12, positions) KRESSEDACH_READ(13, 14, shapes)
    KRESSEDACH_WRITTEN(15, 16, wall_lines) KRESSEDACH_WRITTEN(17, 18, starts) KRESSEDACH_WRITTEN(19, 20, ends)
    KRESSEDACH_WRITTEN(21, 22, start_shapes) KRESSEDACH_WRITTEN(23, 24, end_shapes);

struct kressedach_judge_report {
    uint8_t number;
    uint8_t sheet;
    bool right; /* whether their list is right */
    size_t place;
    size_t index; /* their list's length where it is right or only lacks entries, else the index of the first wrong entry */
};

/* Judges another ray caster's wall list: line, start and end at one index of their three lists. Start rows and crossings are those of
 * kressedach_classify. Their list is right exactly if lines never fall, each start is below its end, no entry begins before the one before
 * it on that line has ended, and joining entries that touch gives the walls of kressedach_classify. Otherwise `index` is that of the first
 * entry after which no right list could begin that way, or the list's length if it only lacks entries.
 *
 * Refusals: 1 to 7 and 17, 8, 13 for the crossings' lists or theirs, 14, then 10, 15 and 11 crossing by crossing. There is no 9.
 *
 * The caller keeps: fittings_length bytes at fittings, sheet_length bytes at sheet, rows_length bytes at rows; lines_length,
 * positions_length and shapes_length entries at lines, positions and shapes; their_lines_length, their_starts_length and their_ends_length
 * entries at their_lines, their_starts and their_ends. Nothing is written.
 */
void kressedach_judge(struct kressedach_judge_report *report,
                      bool fitted,
                      const uint8_t *fittings, size_t fittings_length,
                      const uint8_t *sheet, size_t sheet_length,
                      const uint8_t *rows, size_t rows_length,
                      const uint32_t *lines, size_t lines_length,
                      const int32_t *positions, size_t positions_length,
                      const uint16_t *shapes, size_t shapes_length,
                      const uint32_t *their_lines, size_t their_lines_length,
                      const int32_t *their_starts, size_t their_starts_length,
                      const int32_t *their_ends, size_t their_ends_length)
    KRESSEDACH_REPORTED KRESSEDACH_READ(3, 4, fittings) KRESSEDACH_READ(5, 6, sheet) KRESSEDACH_READ(7, 8, rows)
    KRESSEDACH_READ(9, 10, lines) KRESSEDACH_READ(11, 12, positions) KRESSEDACH_READ(13, 14, shapes) KRESSEDACH_READ(15, 16, their_lines)
    KRESSEDACH_READ(17, 18, their_starts) KRESSEDACH_READ(19, 20, their_ends);

struct kressedach_cross_report {
    uint8_t number;
    size_t place;
    size_t shapes;    /* how many entries were given in starts */
    size_t crossings; /* how many entries were given in each of positions and shapes */
};

/* Crosses half-spaces and boxes with one line, from the drawing's own numbers: the line's start row, a byte a shape, 1 for inside, and its
 * crossings by rising position, then rising shape number. All lengths are in millimetres, positions in micrometres for a direction of
 * length 1. The line has the origin ox, oy, oz and the direction dx, dy, dz.
 *
 * A shape is a byte of kinds and six of numbers: 0, 1 or 2 is a half-space on that axis, solid below its face, which is the first of the
 * six; KRESSEDACH_BOX is a box, three lows and then three highs. There are as many shapes as kinds. A number that the list lacks is not
 * finite; numbers past the last shape are not looked at. Refusals: 16 for more than 256 shapes, for the line, for the first shape at
 * fault; then 9 for starts, positions, shapes in this order.
 *
 * The caller keeps: kinds_length bytes at kinds, numbers_length entries at numbers; starts_length, positions_length and shapes_length
 * entries at starts, positions and shapes. The last three are written: none of them overlaps another list. Starts needs an entry a shape,
 * positions and shapes one a crossing, of which a shape has two at most.
 */
void kressedach_cross(struct kressedach_cross_report *report,
                      double ox, double oy, double oz,
                      double dx, double dy, double dz,
                      const uint8_t *kinds, size_t kinds_length,
                      const double *numbers, size_t numbers_length,
                      uint8_t *starts, size_t starts_length,
                      int32_t *positions, size_t positions_length,
                      uint16_t *shapes, size_t shapes_length)
    KRESSEDACH_REPORTED KRESSEDACH_READ(8, 9, kinds) KRESSEDACH_READ(10, 11, numbers) KRESSEDACH_WRITTEN(12, 13, starts)
    KRESSEDACH_WRITTEN(14, 15, positions) KRESSEDACH_WRITTEN(16, 17, shapes);

struct kressedach_cross_many_report {
    uint8_t number;
    size_t place;
    size_t line;      /* refused 16 for a line, or for a shape on it: the line's number; else 0 */
    size_t lines;     /* how many lines, each with a row of an entry a shape in rows */
    size_t crossings; /* how many entries were given in each of line_numbers, positions and shapes */
};

/* Crosses half-spaces and boxes with many lines: what kressedach_cross gives for each, one after another, in the lists that
 * kressedach_classify takes, as they are. A line is six of lines: its origin, its direction. A line begun counts, and a number that it
 * lacks is not finite. The shapes are those of kressedach_cross. Lines are numbered from 0: row k of rows is line k's start row, and
 * line_numbers has each crossing's line.
 *
 * Refusals: 16 for more than 256 shapes, also with no line; 14 at place 0 for more than 4294967296 lines; then line by line 16, for the
 * line, else for the first shape at fault; then 9 for rows, line_numbers, positions, shapes in this order. With no lines no shape is looked
 * at, and nothing is written; with no shapes the lines are judged, and there are no rows and no crossings.
 *
 * The caller keeps: kinds_length bytes at kinds, numbers_length entries at numbers, lines_length entries at lines; rows_length,
 * line_numbers_length, positions_length and shapes_length entries at rows, line_numbers, positions and shapes. The last four are written:
 * none of them overlaps another list. Rows needs an entry a line and shape, the others one a crossing, of which a shape has two at most on
 * each line. With room for two a shape and line the call goes through the lines once to judge them and once to write; with less room it
 * counts their crossings before, once more through all lines.
 */
void kressedach_cross_many(struct kressedach_cross_many_report *report,
                           const uint8_t *kinds, size_t kinds_length,
                           const double *numbers, size_t numbers_length,
                           const double *lines, size_t lines_length,
                           uint8_t *rows, size_t rows_length,
                           uint32_t *line_numbers, size_t line_numbers_length,
                           int32_t *positions, size_t positions_length,
                           uint16_t *shapes, size_t shapes_length)
    KRESSEDACH_REPORTED KRESSEDACH_READ(2, 3, kinds) KRESSEDACH_READ(4, 5, numbers) KRESSEDACH_READ(6, 7, lines)
    KRESSEDACH_WRITTEN(8, 9, rows) KRESSEDACH_WRITTEN(10, 11, line_numbers) KRESSEDACH_WRITTEN(12, 13, positions)
    KRESSEDACH_WRITTEN(14, 15, shapes);

/* Crosses balls with one line that is parallel to an axis, in whole micrometres. A ball is four numbers: both offsets of the line from the
 * centre (-1000000 to 1000000), the radius (1 to 1000000), the centre along the line (-1000000000 to 1000000000). A ball begun counts, and
 * a number that it lacks is out of range. The answer is as for kressedach_cross; every ball starts outside. Refusals: 18 for more than 256
 * balls, for the first ball out of range; then 9 for starts, positions, shapes in this order.
 *
 * The caller keeps: numbers_length entries at numbers; starts_length, positions_length and shapes_length entries at starts, positions and
 * shapes. The last three are written: none of them overlaps another list. Starts needs an entry a ball, positions and shapes one a
 * crossing, of which a ball has two at most.
 */
void kressedach_cross_balls(struct kressedach_cross_report *report,
                            const int32_t *numbers, size_t numbers_length,
                            uint8_t *starts, size_t starts_length,
                            int32_t *positions, size_t positions_length,
                            uint16_t *shapes, size_t shapes_length)
    KRESSEDACH_REPORTED KRESSEDACH_READ(2, 3, numbers) KRESSEDACH_WRITTEN(4, 5, starts) KRESSEDACH_WRITTEN(6, 7, positions)
    KRESSEDACH_WRITTEN(8, 9, shapes);

#ifdef __cplusplus
}
#endif

#ifdef __clang__
#pragma clang diagnostic pop
#endif

#undef KRESSEDACH_REPORTED
#undef KRESSEDACH_READ
#undef KRESSEDACH_WRITTEN

#endif
