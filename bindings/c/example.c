/* All jobs on a bored block: Block less Bore. Prints what each answers, and ends with status 0 if all is as it should be. It is C and C++. */
#include "kressedach.h"
#include <stdio.h>
#include <string.h>

/* An array as the two arguments that a list is: a pointer and the number of entries. */
#define LENGTH(array) (sizeof(array) / sizeof *(array))
#define LIST(array) (array), LENGTH(array)

/* A customer's sheet alone, and one beside a fittings sheet, as the arguments that a call begins with. */
#define ALONE(sheet) false, NULL, 0, LIST(sheet)
#define BESIDE(fittings, sheet) true, LIST(fittings), LIST(sheet)

static const uint8_t sheet[] = {
    1, 0, 2, 0, 1,                    /* edition 1 */
    2, 0, 5, 'B', 'l', 'o', 'c', 'k', /* shape 0 */
    2, 0, 4, 'B', 'o', 'r', 'e',      /* shape 1 */
    3, 0, 6, 0, 0, 0, 1, 0xFF, 0xF2,  /* Block Bore difference */
};

/* A fittings sheet, and a sheet beside it: Plate or Lug. */
static const uint8_t fittings[] = {1, 0, 2, 0, 1, 2, 0, 3, 'L', 'u', 'g'};
static const uint8_t plate[] = {1, 0, 2, 0, 1, 2, 0, 5, 'P', 'l', 'a', 't', 'e', 3, 0, 6, 0, 1, 0, 0, 0xFF, 0xF0};

static int failures;

static void expect(int holds, const char *what) {
    if (!holds) {
        printf("not as it should be: %s\n", what);
        failures++;
    }
}

static void ask_version(void) {
    printf("version: %lu\n", (unsigned long)kressedach_version());
    expect(kressedach_version() == KRESSEDACH_VERSION, "the library is the header's");
}

static void read_sheet(void) {
    struct kressedach_read_report r;
    kressedach_read(&r, ALONE(sheet));
    printf("read: %zu names, %zu leaves, formula at %zu to %zu\n", r.names, r.leaves, r.first, r.past);
    expect(r.number == KRESSEDACH_GIVEN && r.place == 0, "the sheet is read");
    expect(r.names == 2 && r.leaves == 2 && r.first == 23 && r.past == 29, "what it holds");

    kressedach_read(&r, false, NULL, 0, sheet, sizeof sheet - 1);
    printf("without its last byte: refused %u at %zu: %s\n", r.number, r.place, kressedach_meaning(r.number));
    expect(r.number == KRESSEDACH_ENDS_TOO_SOON && r.place == 28 && r.names == 0, "a sheet that ends too soon");

    kressedach_read(&r, false, NULL, 0, NULL, 0);
    expect(r.number == KRESSEDACH_ENDS_TOO_SOON && r.place == 0, "no bytes at all");
}

static void build_tree(void) {
    uint16_t kinds[KRESSEDACH_MOST_NODES], firsts[KRESSEDACH_MOST_NODES], seconds[KRESSEDACH_MOST_NODES];
    kinds[3] = 9;
    struct kressedach_build_report r;
    kressedach_build(&r, ALONE(sheet), LIST(kinds), LIST(firsts), LIST(seconds));
    printf("build: %zu leaves, %zu nodes, %zu rounds, height %zu\n", r.leaves, r.nodes, r.rounds, r.height);
    for (size_t k = 0; k < r.nodes; k++) {
        printf("  %u %u %u\n", kinds[k], firsts[k], seconds[k]);
    }
    expect(r.number == KRESSEDACH_GIVEN && r.leaves == 2 && r.nodes == 3 && r.rounds == 1 && r.height == 1, "the tree is built");
    expect(kinds[2] == 3 && firsts[2] == 0 && seconds[2] == 1 && seconds[1] == KRESSEDACH_NONE, "the root is a difference");
    expect(kinds[3] == 9, "entries past the last one stay");

    kressedach_build(&r, ALONE(sheet), kinds, 3, firsts, 2, seconds, 3);
    printf("with a short list: refused %u, %zu entries are needed\n", r.number, r.place);
    expect(r.number == KRESSEDACH_LIST_TOO_SHORT && r.place == 3 && r.nodes == 0, "a list that is too short");
}

static void run_toggles(void) {
    static const uint16_t toggles[] = {0, 1, 1, 0};
    uint8_t roots[LENGTH(toggles)], labels[KRESSEDACH_MOST_NODES];
    uint32_t counts[LENGTH(toggles)];
    struct kressedach_run_report r;
    kressedach_run(&r, ALONE(sheet), LIST(toggles), LIST(roots), LIST(counts), LIST(labels));
    printf("run: roots %u %u %u %u\n", roots[0], roots[1], roots[2], roots[3]);
    expect(r.number == KRESSEDACH_GIVEN && r.nodes == 3, "the toggles are run");
    expect(roots[0] == 1 && roots[1] == 0 && roots[2] == 1 && roots[3] == 0, "in the block, in the bore, back, out");
    expect(counts[0] == 1 && counts[3] == 1 && labels[0] == 0 && labels[2] == 0, "counts and labels");
}

static void run_for_two(void) {
    static const uint8_t order[] = {0, 1, 0};
    static const uint16_t first[] = {0, 1}, second[] = {1}, strange[] = {2};
    uint8_t first_roots[LENGTH(first)], first_labels[KRESSEDACH_MOST_NODES];
    uint8_t second_roots[LENGTH(second)] = {9}, second_labels[KRESSEDACH_MOST_NODES];
    uint32_t first_counts[LENGTH(first)], second_counts[LENGTH(second)];
    struct kressedach_both_report r;
    kressedach_run_both(&r, ALONE(sheet), LIST(order), LIST(first), LIST(strange), LIST(first_roots), LIST(first_counts),
                        LIST(first_labels), LIST(second_roots), LIST(second_counts), LIST(second_labels));
    printf("for two foundries: roots %u %u, and refused %u at %zu\n", first_roots[0], first_roots[1], r.second.number, r.second.place);
    expect(r.first.number == KRESSEDACH_GIVEN && r.first.nodes == 3 && first_roots[0] == 1 && first_roots[1] == 0, "the first is served");
    expect(r.second.number == KRESSEDACH_NO_SUCH_SHAPE && r.second.place == 0 && second_roots[0] == 9, "the second alone is refused");

    kressedach_run_both(&r, ALONE(sheet), LIST(order), LIST(first), LIST(second), LIST(first_roots), LIST(first_counts),
                        LIST(first_labels), LIST(second_roots), LIST(second_counts), LIST(second_labels));
    expect(r.second.number == KRESSEDACH_GIVEN && second_roots[0] == 0 && second_labels[1] == 1, "both are served");

    kressedach_run_both(&r, ALONE(sheet), order, 2, LIST(first), LIST(second), LIST(first_roots), LIST(first_counts), LIST(first_labels),
                        LIST(second_roots), LIST(second_counts), LIST(second_labels));
    expect(r.first.number == KRESSEDACH_LENGTHS_DIFFER && r.second.number == KRESSEDACH_LENGTHS_DIFFER, "a turn is missing");
}

static void run_with_edits(void) {
    static const uint16_t toggles[] = {0, 1, 1}, positions[] = {2, 2}, codes[] = {0xFFF0, 0xFFF1};
    static const uint64_t moments[] = {2, 3};
    uint8_t roots[LENGTH(toggles)], labels[KRESSEDACH_MOST_NODES];
    uint32_t counts[LENGTH(toggles)], edit_counts[LENGTH(moments)] = {9, 9};
    struct kressedach_run_report r;
    kressedach_run_edited(&r, ALONE(sheet), LIST(toggles), LIST(moments), LIST(positions), LIST(codes), LIST(roots), LIST(counts),
                          LIST(labels), LIST(edit_counts));
    printf("run with edits: roots %u %u %u, then %u\n", roots[0], roots[1], roots[2], labels[2]);
    expect(r.number == KRESSEDACH_GIVEN && r.nodes == 3 && edit_counts[0] == 1 && edit_counts[1] == 1, "the edits are made");
    expect(roots[0] == 1 && roots[1] == 0 && roots[2] == 1, "in the block, in the bore, and out of it when that is metal too");
    expect(labels[0] == 1 && labels[1] == 0 && labels[2] == 0, "an intersection after the last toggle");

    edit_counts[0] = 9;
    kressedach_run_edited(&r, ALONE(sheet), LIST(toggles), LIST(moments), LIST(codes), LIST(codes), LIST(roots), LIST(counts),
                          LIST(labels), LIST(edit_counts));
    expect(r.number == KRESSEDACH_EDIT_WRONG && r.place == 0 && r.nodes == 0 && edit_counts[0] == 9, "no such position");
    kressedach_run_edited(&r, ALONE(sheet), LIST(toggles), moments, 1, LIST(positions), LIST(codes), LIST(roots), LIST(counts),
                          LIST(labels), LIST(edit_counts));
    expect(r.number == KRESSEDACH_LENGTHS_DIFFER && r.place == 0, "a moment is missing");
    kressedach_run_edited(&r, ALONE(sheet), LIST(toggles), LIST(moments), LIST(positions), LIST(codes), LIST(roots), LIST(counts),
                          LIST(labels), edit_counts, 1);
    expect(r.number == KRESSEDACH_LIST_TOO_SHORT && r.place == 2, "room for the counts of both");
}

/* Room for the walls of two lines with four crossings. */
enum { ROOM = 4 / 2 + 2 };
static uint32_t wall_lines[ROOM];
static int32_t starts[ROOM], ends[ROOM];
static uint16_t start_shapes[ROOM], end_shapes[ROOM];
#define WALLS LIST(wall_lines), LIST(starts), LIST(ends), LIST(start_shapes), LIST(end_shapes)

static void print_walls(size_t walls) {
    for (size_t k = 0; k < walls; k++) {
        printf("wall: line %lu, %ld at shape %u to %ld at shape %u\n", (unsigned long)wall_lines[k], (long)starts[k], start_shapes[k],
               (long)ends[k], end_shapes[k]);
    }
}

static const uint32_t lines[] = {1, 1, 1, 1};
static const int32_t positions[] = {0, 40, 60, 100};
static const uint16_t shapes[] = {0, 1, 1, 0};

static void classify_lines(void) {
    static const uint8_t in_air[2 * 2] = {0}; /* two lines, two shapes */
    struct kressedach_classify_report r;
    kressedach_classify(&r, ALONE(sheet), LIST(in_air), LIST(lines), LIST(positions), LIST(shapes), WALLS);
    print_walls(r.walls);
    expect(r.number == KRESSEDACH_GIVEN && r.walls == 2 && wall_lines[0] == 1 && wall_lines[1] == 1, "two walls");
    expect(starts[0] == 0 && ends[0] == 40 && starts[1] == 60 && ends[1] == 100, "beside the bore, on both sides");
    expect(start_shapes[0] == 0 && end_shapes[0] == 1 && start_shapes[1] == 1 && end_shapes[1] == 0, "from block to bore, from bore to block");

    kressedach_classify(&r, ALONE(sheet), in_air, 3, LIST(lines), LIST(positions), LIST(shapes), WALLS);
    printf("with half a row: refused %u at %zu\n", r.number, r.place);
    expect(r.number == KRESSEDACH_ROWS_WRONG && r.place == 0 && r.walls == 0, "a row that is not whole");
    kressedach_classify(&r, ALONE(sheet), in_air, 2, LIST(lines), LIST(positions), LIST(shapes), WALLS);
    expect(r.number == KRESSEDACH_ASTRAY && r.place == 0, "line 1 has no row");
    kressedach_classify(&r, ALONE(sheet), LIST(in_air), LIST(lines), LIST(positions), LIST(shapes), LIST(wall_lines), starts, 3,
                        LIST(ends), LIST(start_shapes), LIST(end_shapes));
    expect(r.number == KRESSEDACH_LIST_TOO_SHORT && r.place == ROOM, "room for half the crossings and the rows");

    kressedach_classify(&r, ALONE(sheet), NULL, 0, NULL, 0, NULL, 0, NULL, 0, NULL, 0, NULL, 0, NULL, 0, NULL, 0, NULL, 0);
    expect(r.number == KRESSEDACH_GIVEN && r.walls == 0, "no lines, no walls");
}

/* A block that is cut: line 0 starts in it and has no crossing, line 1 starts in it and leaves it at the last crossing. */
static void classify_cut(void) {
    static const uint8_t in_block[] = {1, 0, 1, 0};
    struct kressedach_classify_report r;
    kressedach_classify(&r, ALONE(sheet), LIST(in_block), lines + 1, 3, positions + 1, 3, shapes + 1, 3, WALLS);
    print_walls(r.walls);
    expect(r.number == KRESSEDACH_GIVEN && r.walls == 3 && wall_lines[0] == 0 && wall_lines[2] == 1, "three walls");
    expect(starts[0] == KRESSEDACH_OPEN_START && ends[0] == KRESSEDACH_OPEN_END, "metal from end to end");
    expect(start_shapes[0] == KRESSEDACH_OPEN_SHAPE && end_shapes[0] == KRESSEDACH_OPEN_SHAPE, "with no shape at either end");
    expect((int64_t)ends[0] - starts[0] == 4294967295, "a length that 32 bits with a sign do not hold");
    expect(starts[1] == KRESSEDACH_OPEN_START && ends[1] == 40 && end_shapes[1] == 1, "open before the bore");
    expect(starts[2] == 60 && ends[2] == 100 && end_shapes[2] == 0, "out of the block");
}

/* Lists that are cut before line 1, each part asked by itself, as on another thread or another machine: the rows are cut there too, and the
 * later lines' numbers are lowered by the lines before the cut. One part's walls after the other's, their lines raised again, are those of
 * the whole. Where a part is refused, the whole is asked, and says the number and the place. */
static void classify_in_parts(void) {
    static const uint8_t rows[] = {0, 0, /* line 0 */ 1, 0, /* line 1, which starts in the block */ 0, 0 /* line 2 */};
    static const uint32_t on[] = {0, 0, 1, 2, 2}, falling[] = {0, 0, 1, 0, 2};
    static const int32_t at[] = {0, 100, 30, 10, 20};
    static const uint16_t of[LENGTH(on)] = {0};
    enum { CUT = 1, BEFORE = 2, AFTER = 3, PARTS_ROOM = 5 }; /* lines and crossings before the cut, and crossings after it */
    uint32_t whole_lines[PARTS_ROOM], part_lines[PARTS_ROOM], lowered[AFTER];
    int32_t whole_starts[PARTS_ROOM], whole_ends[PARTS_ROOM], part_starts[PARTS_ROOM], part_ends[PARTS_ROOM];
    uint16_t whole_first[PARTS_ROOM], whole_last[PARTS_ROOM], part_first[PARTS_ROOM], part_last[PARTS_ROOM];
    struct kressedach_classify_report whole, first, second;
    kressedach_classify(&whole, ALONE(sheet), LIST(rows), LIST(on), LIST(at), LIST(of), LIST(whole_lines), LIST(whole_starts),
                        LIST(whole_ends), LIST(whole_first), LIST(whole_last));

    kressedach_classify(&first, ALONE(sheet), rows, 2 * CUT, on, BEFORE, at, BEFORE, of, BEFORE, LIST(part_lines), LIST(part_starts),
                        LIST(part_ends), LIST(part_first), LIST(part_last));
    for (size_t k = 0; k < AFTER; k++) {
        lowered[k] = on[BEFORE + k] - CUT;
    }
    /* what is left of the same lists is room enough for the second part */
    size_t w = first.walls, left = PARTS_ROOM - w;
    kressedach_classify(&second, ALONE(sheet), rows + 2 * CUT, sizeof rows - 2 * CUT, LIST(lowered), at + BEFORE, AFTER, of + BEFORE, AFTER,
                        part_lines + w, left, part_starts + w, left, part_ends + w, left, part_first + w, left, part_last + w, left);
    for (size_t k = 0; k < second.walls; k++) {
        part_lines[w + k] += CUT;
    }
    printf("in two parts: %zu and %zu walls, in one call %zu\n", first.walls, second.walls, whole.walls);
    expect(whole.number == KRESSEDACH_GIVEN && whole.walls == 3 && first.walls == 1 && second.walls == 2, "all are given");
    expect(memcmp(part_lines, whole_lines, 3 * sizeof *whole_lines) == 0, "the lines are those of the whole");
    expect(memcmp(part_starts, whole_starts, 3 * sizeof *whole_starts) == 0, "the starts are");
    expect(memcmp(part_ends, whole_ends, 3 * sizeof *whole_ends) == 0, "the ends are");
    expect(memcmp(part_first, whole_first, 3 * sizeof *whole_first) == 0, "the shapes there are");
    expect(memcmp(part_last, whole_last, 3 * sizeof *whole_last) == 0, "and these");

    for (size_t k = 0; k < AFTER; k++) {
        lowered[k] = falling[BEFORE + k] - CUT;
    }
    kressedach_classify(&second, ALONE(sheet), rows + 2 * CUT, sizeof rows - 2 * CUT, LIST(lowered), at + BEFORE, AFTER, of + BEFORE, AFTER,
                        LIST(part_lines), LIST(part_starts), LIST(part_ends), LIST(part_first), LIST(part_last));
    expect(second.number == KRESSEDACH_ASTRAY && second.place == 1, "a line before the cut has no row in the part");
    kressedach_classify(&whole, ALONE(sheet), LIST(rows), LIST(falling), LIST(at), LIST(of), LIST(whole_lines), LIST(whole_starts),
                        LIST(whole_ends), LIST(whole_first), LIST(whole_last));
    expect(whole.number == KRESSEDACH_FALLS && whole.place == 3, "the whole says that its number falls, and where");
}

/* The block and the bore as two boxes of a drawing, and a line through both. */
static const double drawing[] = {
    0, 0, 0, 100, 40, 40,     /* Block */
    40, 10, -1, 60, 30, 41,   /* Bore */
};
static const uint8_t kinds[] = {KRESSEDACH_BOX, KRESSEDACH_BOX};

static void cross_drawing(void) {
    uint8_t starts_row[2];
    int32_t crossed[4];
    uint16_t crossed_shapes[4];
    struct kressedach_cross_report r;
    kressedach_cross(&r, -10, 20, 20, 1, 0, 0, LIST(kinds), LIST(drawing), LIST(starts_row), LIST(crossed), LIST(crossed_shapes));
    printf("cross: %zu crossings of %zu shapes\n", r.crossings, r.shapes);
    expect(r.number == KRESSEDACH_GIVEN && r.shapes == 2 && r.crossings == 4, "the line is crossed");
    expect(starts_row[0] == 0 && starts_row[1] == 0, "it starts in air");
    expect(crossed[0] == 10000 && crossed[1] == 50000 && crossed[2] == 70000 && crossed[3] == 110000, "where");
    expect(crossed_shapes[0] == 0 && crossed_shapes[1] == 1 && crossed_shapes[2] == 1 && crossed_shapes[3] == 0, "in and out");

    /* what is made here goes to classify as it is: its start row, and its crossings with the line's number beside each */
    static const uint32_t line[] = {0, 0, 0, 0};
    struct kressedach_classify_report w;
    kressedach_classify(&w, ALONE(sheet), starts_row, r.shapes, line, r.crossings, crossed, r.crossings, crossed_shapes, r.crossings,
                        WALLS);
    expect(w.number == KRESSEDACH_GIVEN && w.walls == 2 && ends[0] == 50000 && starts[1] == 70000, "walls beside the bore");

    kressedach_cross(&r, 0, 0, 0, 0, 0, 0, LIST(kinds), LIST(drawing), LIST(starts_row), LIST(crossed), LIST(crossed_shapes));
    printf("without a direction: refused %u at %zu\n", r.number, r.place);
    expect(r.number == KRESSEDACH_SHAPE_WRONG && r.place == KRESSEDACH_THE_LINE && r.crossings == 0, "no direction");
    kressedach_cross(&r, -10, 20, 20, 1, 0, 0, LIST(kinds), drawing, 11, LIST(starts_row), LIST(crossed), LIST(crossed_shapes));
    expect(r.number == KRESSEDACH_SHAPE_WRONG && r.place == 1, "a number that the second shape lacks");
    kressedach_cross(&r, -10, 20, 20, 1, 0, 0, LIST(kinds), LIST(drawing), LIST(starts_row), crossed, 3, LIST(crossed_shapes));
    expect(r.number == KRESSEDACH_LIST_TOO_SHORT && r.place == 4, "room for three positions");
}

/* Two lines: one past the block, one through both. */
static const double probes[] = {
    -10, 50, 20, 1, 0, 0,
    -10, 20, 20, 1, 0, 0,
};

static void cross_lines(void) {
    uint8_t rows[2 * 2];
    uint32_t line_numbers[4];
    int32_t crossed[4];
    uint16_t crossed_shapes[4];
#define CROSSED LIST(rows), LIST(line_numbers), LIST(crossed), LIST(crossed_shapes)
    struct kressedach_cross_many_report r;
    kressedach_cross_many(&r, LIST(kinds), LIST(drawing), LIST(probes), CROSSED);
    printf("cross many: %zu crossings of %zu lines\n", r.crossings, r.lines);
    expect(r.number == KRESSEDACH_GIVEN && r.place == 0 && r.line == 0 && r.lines == 2 && r.crossings == 4, "the lines are crossed");
    expect(line_numbers[0] == 1 && line_numbers[3] == 1 && crossed[0] == 10000 && crossed[3] == 110000, "the second alone");

    /* what is made here goes to classify as it is */
    struct kressedach_classify_report w;
    kressedach_classify(&w, ALONE(sheet), LIST(rows), LIST(line_numbers), LIST(crossed), LIST(crossed_shapes), WALLS);
    print_walls(w.walls);
    expect(w.number == KRESSEDACH_GIVEN && w.walls == 2 && wall_lines[0] == 1 && ends[0] == 50000 && starts[1] == 70000, "two walls");

    kressedach_cross_many(&r, LIST(kinds), LIST(drawing), probes, 11, CROSSED);
    printf("a line begun: refused %u at %zu, line %zu\n", r.number, r.place, r.line);
    expect(r.number == KRESSEDACH_SHAPE_WRONG && r.place == KRESSEDACH_THE_LINE && r.line == 1 && r.lines == 0, "a line begun counts");
    kressedach_cross_many(&r, LIST(kinds), drawing, 11, LIST(probes), CROSSED);
    expect(r.number == KRESSEDACH_SHAPE_WRONG && r.place == 1 && r.line == 0, "a shape is at fault on the first line");
    kressedach_cross_many(&r, LIST(kinds), LIST(drawing), LIST(probes), LIST(rows), LIST(line_numbers), crossed, 3, LIST(crossed_shapes));
    expect(r.number == KRESSEDACH_LIST_TOO_SHORT && r.place == 4 && r.line == 0 && r.crossings == 0, "room for three positions");
    kressedach_cross_many(&r, LIST(kinds), LIST(drawing), NULL, 0, NULL, 0, NULL, 0, NULL, 0, NULL, 0);
    expect(r.number == KRESSEDACH_GIVEN && r.lines == 0 && r.crossings == 0, "no lines, no crossings");
}

static void cross_vent(void) {
    static const int32_t vent[] = {300, -400, 1300, 50000};
    uint8_t row[1];
    int32_t crossed[2];
    uint16_t balls[2];
    struct kressedach_cross_report r;
    kressedach_cross_balls(&r, LIST(vent), LIST(row), LIST(crossed), LIST(balls));
    printf("ball: %ld to %ld\n", (long)crossed[0], (long)crossed[1]);
    expect(r.number == KRESSEDACH_GIVEN && r.shapes == 1 && r.crossings == 2 && row[0] == 0, "the ball is crossed");
    expect(crossed[0] == 48800 && crossed[1] == 51200 && balls[0] == 0 && balls[1] == 0, "a half chord of 1200");
    kressedach_cross_balls(&r, vent, 3, LIST(row), LIST(crossed), LIST(balls));
    expect(r.number == KRESSEDACH_BALL_WRONG && r.place == 0, "a ball begun");
}

static void move(void) {
    uint8_t there[sizeof sheet], back[sizeof sheet + 1];
    back[sizeof sheet] = 9;
    struct kressedach_move_report r;
    kressedach_move(&r, ALONE(sheet), LIST(there));
    printf("moved: edition %u, %zu bytes\n", there[4], r.length);
    expect(r.number == KRESSEDACH_GIVEN && r.length == sizeof sheet && there[4] == 2, "the sheet in edition 2");
    kressedach_move(&r, ALONE(there), LIST(back));
    expect(r.number == KRESSEDACH_GIVEN && memcmp(back, sheet, sizeof sheet) == 0 && back[sizeof sheet] == 9, "there and back");
    kressedach_move(&r, ALONE(sheet), there, sizeof sheet - 1);
    expect(r.number == KRESSEDACH_LIST_TOO_SHORT && r.place == sizeof sheet && r.length == 0, "room for the whole sheet");
    uint8_t exclusive[sizeof sheet];
    memcpy(exclusive, sheet, sizeof sheet);
    exclusive[sizeof sheet - 1] = 0xF3;
    kressedach_move(&r, ALONE(exclusive), LIST(there));
    expect(r.number == KRESSEDACH_OUT_OF_USE && r.sheet == KRESSEDACH_NO_SHEET && r.place == sizeof sheet - 2, "no move of an exclusive union");
}

static void read_pair(void) {
    struct kressedach_read_report r;
    kressedach_read(&r, BESIDE(fittings, plate));
    printf("beside a fittings sheet: %zu names\n", r.names);
    expect(r.number == KRESSEDACH_GIVEN && r.sheet == KRESSEDACH_NO_SHEET && r.names == 2 && r.leaves == 2, "the pair is read");

    struct kressedach_name_report n;
    kressedach_name(&n, BESIDE(fittings, plate), 1);
    printf("shape 1: bytes %zu to %zu of sheet %u\n", n.first, n.past, n.sheet);
    expect(n.number == KRESSEDACH_GIVEN && n.sheet == KRESSEDACH_CUSTOMERS_SHEET && n.first == 8 && n.past == 13, "the plate's name");

    uint8_t sheets[3] = {9, 9, 9};
    size_t firsts[3] = {9, 9, 9}, pasts[3] = {9, 9, 9};
    struct kressedach_names_report all;
    kressedach_names(&all, BESIDE(fittings, plate), LIST(sheets), LIST(firsts), LIST(pasts));
    expect(all.number == KRESSEDACH_GIVEN && all.names == 2 && sheets[0] == 1 && sheets[1] == 2 && sheets[2] == 9, "both names");
    expect(firsts[1] == n.first && pasts[1] == n.past && firsts[2] == 9 && pasts[2] == 9, "the second stands where it stood alone");
    kressedach_names(&all, BESIDE(fittings, plate), LIST(sheets), firsts, 1, LIST(pasts));
    expect(all.number == KRESSEDACH_LIST_TOO_SHORT && all.sheet == KRESSEDACH_NO_SHEET && all.place == 2, "no room for the second");
    kressedach_name(&n, BESIDE(fittings, plate), 2);
    expect(n.number == KRESSEDACH_NO_SUCH_SHAPE && n.sheet == KRESSEDACH_NO_SHEET && n.place == 0, "no third name");

    kressedach_read(&r, BESIDE(plate, plate));
    printf("a sheet with a formula as fittings: refused %u at %zu of sheet %u\n", r.number, r.place, r.sheet);
    expect(r.number == KRESSEDACH_TAG_OUT_OF_PLACE && r.sheet == KRESSEDACH_FITTINGS_SHEET && r.place == 13, "fittings have no formula");

    kressedach_read(&r, BESIDE(fittings, fittings));
    expect(r.number == KRESSEDACH_FITTINGS_NAME && r.sheet == KRESSEDACH_CUSTOMERS_SHEET && r.place == 5, "a name that a fitting has");

    kressedach_read(&r, true, NULL, 0, LIST(plate));
    expect(r.number == KRESSEDACH_ENDS_TOO_SOON && r.sheet == KRESSEDACH_FITTINGS_SHEET, "an empty fittings sheet is an input");
}

/* Their lists of the lines that are classified above: three entries are right, and the fourth is one too many. */
static void judge_theirs(void) {
    static const uint8_t in_air[2 * 2] = {0};
    static const uint32_t their_lines[] = {1, 1, 1, 1};
    static const int32_t their_starts[] = {0, 25, 60, 120}, their_ends[] = {25, 40, 100, 130}, through[] = {25, 100, 100, 130};
    struct kressedach_judge_report r;
    kressedach_judge(&r, ALONE(sheet), LIST(in_air), LIST(lines), LIST(positions), LIST(shapes), their_lines, 3, their_starts, 3,
                     their_ends, 3);
    expect(r.number == KRESSEDACH_GIVEN && r.right && r.index == 3, "the first wall in two parts that touch");
    kressedach_judge(&r, ALONE(sheet), LIST(in_air), LIST(lines), LIST(positions), LIST(shapes), LIST(their_lines), LIST(their_starts),
                     LIST(through));
    printf("their list: wrong at %zu\n", r.index);
    expect(r.number == KRESSEDACH_GIVEN && !r.right && r.index == 1, "metal where the bore is");
    kressedach_judge(&r, ALONE(sheet), LIST(in_air), LIST(lines), LIST(positions), LIST(shapes), LIST(their_lines), LIST(their_starts),
                     LIST(their_ends));
    expect(r.number == KRESSEDACH_GIVEN && !r.right && r.index == 3, "one too many");
    kressedach_judge(&r, ALONE(sheet), LIST(in_air), LIST(lines), LIST(positions), LIST(shapes), their_lines, 2, their_starts, 2,
                     their_ends, 2);
    expect(r.number == KRESSEDACH_GIVEN && !r.right && r.index == 2, "the second wall is lacking");
    kressedach_judge(&r, ALONE(sheet), LIST(in_air), LIST(lines), LIST(positions), LIST(shapes), LIST(their_lines), LIST(their_starts),
                     their_ends, 3);
    expect(r.number == KRESSEDACH_LENGTHS_DIFFER && r.place == 0 && !r.right && r.index == 0, "an end is missing");
}

int main(void) {
    ask_version();
    read_sheet();
    move();
    read_pair();
    build_tree();
    run_toggles();
    run_for_two();
    run_with_edits();
    classify_lines();
    classify_cut();
    classify_in_parts();
    judge_theirs();
    cross_drawing();
    cross_lines();
    cross_vent();
    return failures == 0 ? 0 : 1;
}
