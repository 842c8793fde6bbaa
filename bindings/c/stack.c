/* How much stack each job takes. Every call runs on a stack of its own that was painted before, and what is no longer painted after it was
 * used. Prints the table of a page, docs/TRUST.md, with what was measured in the column of a processor, and ends with status 1 where a
 * figure is above the page's, a row is missing, or one is above what the header says is enough.
 *
 *     stack PAGE PROCESSOR
 */
#define _POSIX_C_SOURCE 200809L
#include "kressedach.h"
#include <pthread.h>
#include <stdio.h>
#include <stdlib.h>
#include <string.h>

#define STACK (1024 * 1024)
#define ENOUGH (256 * 1024)

#define LENGTH(array) (sizeof(array) / sizeof *(array))
#define LIST(array) (array), LENGTH(array)

static void stop(const char *why) {
    fprintf(stderr, "stack: %s\n", why);
    exit(2);
}

static uint32_t thrown = 1;

/* The next of numbers that look thrown, below n. */
static size_t dice(size_t n) {
    thrown = thrown * 1664525 + 1013904223;
    return (thrown >> 8) % n;
}

/* ---- The sheets */

#define NAMES 256
#define LEAVES 1024
#define CODES (2 * LEAVES - 1)

static uint16_t codes[CODES], turned[CODES];
static size_t laid;

static void lay(uint16_t code) { codes[laid++] = code; }

/* Half of the shapes stand at one leaf each, the others at seven. */
static void lay_leaf(size_t k) { lay((uint16_t)(k < NAMES / 2 ? k : NAMES / 2 + k % (NAMES / 2))); }

/* Unions and differences turn about, so that there is metal and air; exclusive unions would not move to edition 2. */
static void lay_operation(size_t k) { lay(k % 2 ? 0xFFF2 : 0xFFF0); }

static void left_chain(void) {
    lay_leaf(0);
    for (size_t k = 1; k < LEAVES; k++) {
        lay_leaf(k);
        lay_operation(k);
    }
}

static void right_chain(void) {
    for (size_t k = 0; k < LEAVES; k++) lay_leaf(k);
    for (size_t k = 1; k < LEAVES; k++) lay_operation(k);
}

/* Pairs of leaves to the right: half of the leaves' results wait at once. */
static void pairs(void) {
    for (size_t k = 0; k < LEAVES; k += 2) {
        lay_leaf(k);
        lay_leaf(k + 1);
        lay_operation(k / 2);
    }
    for (size_t k = 2; k < LEAVES; k += 2) lay_operation(k / 2);
}

static void balanced_part(size_t first, size_t count, size_t level) {
    if (count == 1) {
        lay_leaf(first);
        return;
    }
    balanced_part(first, count / 2, level + 1);
    balanced_part(first + count / 2, count - count / 2, level + 1);
    lay_operation(level);
}

static void balanced(void) { balanced_part(0, LEAVES, 0); }

/* Puts the formula that ends before code `past` in front of `end`, operation first, and gives where it begins among both. */
static size_t turn(size_t past, size_t *end) {
    uint16_t code = codes[--past];
    if (code >= 0xFFF0) past = turn(turn(past, end), end);
    turned[--*end] = code;
    return past;
}

struct sheet {
    uint8_t bytes[16384];
    size_t length;
};

static void put(struct sheet *s, uint8_t byte) { s->bytes[s->length++] = byte; }

static void put_two(struct sheet *s, size_t number) {
    put(s, (uint8_t)(number >> 8));
    put(s, (uint8_t)number);
}

static void put_names(struct sheet *s, int edition, size_t from, size_t to) {
    s->length = 0;
    put(s, 1);
    put_two(s, 2);
    put_two(s, (size_t)edition);
    for (size_t k = from; k < to; k++) {
        put(s, 2);
        put_two(s, 2);
        put(s, (uint8_t)('A' + k / 16));
        put(s, (uint8_t)('A' + k % 16));
    }
}

static void put_formula(struct sheet *s, int edition, const uint16_t *all) {
    put(s, (uint8_t)(edition + 2));
    put_two(s, 2 * CODES);
    for (size_t k = 0; k < CODES; k++) put_two(s, all[k]);
}

/* The sheets of a call: all names in the customer's, or half of them in a fittings sheet. */
static struct sheet fittings, sheet;
static bool fitted;

static void make_sheets(int edition, const uint16_t *all) {
    put_names(&fittings, 1, 0, NAMES / 2);
    put_names(&sheet, edition, fitted ? NAMES / 2 : 0, NAMES);
    put_formula(&sheet, edition, all);
}

/* ---- The lists of a call */

#define TOGGLES 1500
#define EDITS 300
#define LINES 60
#define CROSSINGS 6000
#define WALLS (CROSSINGS / 2 + LINES)

static uint16_t toggles[TOGGLES], toggles_too[TOGGLES], positions_edited[EDITS], new_codes[EDITS];
static uint64_t moments[EDITS];
static uint8_t order[2 * TOGGLES], rows[LINES * NAMES];
static uint32_t line_numbers[CROSSINGS];
static int32_t positions[CROSSINGS];
static uint16_t crossed[CROSSINGS];

/* Some lines in air and some that start in few or many shapes, with no crossing or hundreds; now and then several stand at one position. */
static void make_lists(void) {
    for (size_t k = 0; k < TOGGLES; k++) {
        toggles[k] = (uint16_t)(k < NAMES ? k : dice(NAMES));
        toggles_too[k] = (uint16_t)dice(NAMES);
        order[2 * k] = (uint8_t)(k % 2);
        order[2 * k + 1] = (uint8_t)(1 - k % 2);
    }
    for (size_t k = 0; k < LINES; k++) {
        for (size_t j = 0; j < NAMES; j++) rows[k * NAMES + j] = k % 3 != 0 && dice(k % 3 == 1 ? 60 : 2) == 0;
    }
    uint32_t line = 0;
    int32_t at = -1000000;
    for (size_t k = 0; k < CROSSINGS; k++) {
        if (line + 1 < LINES && dice(line < 40 ? 40 : 700) == 0) {
            line += 1 + (uint32_t)(line + 2 < LINES && dice(4) == 0);
            at = -1000000;
        }
        at += (int32_t)(dice(5) == 0 ? 0 : 1 + dice(90));
        line_numbers[k] = line;
        positions[k] = at;
        crossed[k] = (uint16_t)dice(NAMES);
    }
}

static void make_edits(void) {
    for (size_t k = 0; k < EDITS; k++) {
        size_t at = dice(CODES);
        while (codes[at] < 0xFFF0) at = (at + 1) % CODES;
        moments[k] = k * TOGGLES / (EDITS - 1);
        positions_edited[k] = (uint16_t)at;
        new_codes[k] = (uint16_t)(0xFFF0 + dice(4));
    }
}

/* ---- The jobs. Each gives its refusal's number. */

#define SHEETS fitted, fittings.bytes, fittings.length, sheet.bytes, sheet.length

static uint8_t roots[TOGGLES], roots_too[TOGGLES], labels[KRESSEDACH_MOST_NODES], labels_too[KRESSEDACH_MOST_NODES];
static uint32_t counts[TOGGLES], counts_too[TOGGLES], edit_counts[EDITS], wall_lines[WALLS];
static int32_t starts[WALLS], ends[WALLS];
static uint16_t kinds[KRESSEDACH_MOST_NODES], firsts[KRESSEDACH_MOST_NODES], seconds[KRESSEDACH_MOST_NODES], start_shapes[WALLS], end_shapes[WALLS];
static size_t walls;

static uint8_t job_read(void) {
    struct kressedach_read_report r;
    kressedach_read(&r, SHEETS);
    return r.number;
}

static uint8_t job_name(void) {
    struct kressedach_name_report r;
    kressedach_name(&r, SHEETS, NAMES - 1);
    return r.number;
}

static uint8_t job_names(void) {
    static uint8_t which[NAMES];
    static size_t first[NAMES], past[NAMES];
    struct kressedach_names_report r;
    kressedach_names(&r, SHEETS, LIST(which), LIST(first), LIST(past));
    return r.number;
}

static uint8_t job_move(void) {
    static uint8_t moved[sizeof sheet.bytes];
    struct kressedach_move_report r;
    kressedach_move(&r, SHEETS, LIST(moved));
    return r.number;
}

static uint8_t job_build(void) {
    struct kressedach_build_report r;
    kressedach_build(&r, SHEETS, LIST(kinds), LIST(firsts), LIST(seconds));
    return r.number;
}

static uint8_t job_run(void) {
    struct kressedach_run_report r;
    kressedach_run(&r, SHEETS, LIST(toggles), LIST(roots), LIST(counts), LIST(labels));
    return r.number;
}

static uint8_t job_both(void) {
    struct kressedach_both_report r;
    kressedach_run_both(&r, SHEETS, LIST(order), LIST(toggles), LIST(toggles_too), LIST(roots), LIST(counts), LIST(labels),
                        LIST(roots_too), LIST(counts_too), LIST(labels_too));
    return r.first.number | r.second.number;
}

static uint8_t job_edited(void) {
    struct kressedach_run_report r;
    kressedach_run_edited(&r, SHEETS, LIST(toggles), LIST(moments), LIST(positions_edited), LIST(new_codes), LIST(roots), LIST(counts),
                          LIST(labels), LIST(edit_counts));
    return r.number;
}

static uint8_t job_classify(void) {
    struct kressedach_classify_report r;
    kressedach_classify(&r, SHEETS, LIST(rows), LIST(line_numbers), LIST(positions), LIST(crossed), LIST(wall_lines), LIST(starts), LIST(ends),
                        LIST(start_shapes), LIST(end_shapes));
    walls = r.walls;
    return r.number;
}

/* The walls that classifying gave before, which are right. */
static uint8_t job_judge(void) {
    struct kressedach_judge_report r;
    kressedach_judge(&r, SHEETS, LIST(rows), LIST(line_numbers), LIST(positions), LIST(crossed), wall_lines, walls, starts, walls, ends, walls);
    if (r.number == 0 && (!r.right || walls == 0)) stop("the walls that were given are not judged right");
    return r.number;
}

static uint8_t given_starts[NAMES];
static int32_t given_positions[2 * NAMES];
static uint16_t given_shapes[2 * NAMES];

static uint8_t shape_kinds[NAMES];
static double shape_numbers[6 * NAMES];

static void make_drawing(void) {
    for (size_t k = 0; k < NAMES; k++) {
        shape_kinds[k] = k % 4 == 0 ? (uint8_t)(k % 3) : KRESSEDACH_BOX;
        for (size_t j = 0; j < 6; j++) shape_numbers[6 * k + j] = (j < 3 ? -60.0 : 1.0) + (double)dice(500) / 10.0;
    }
}

static uint8_t job_cross(void) {
    make_drawing();
    struct kressedach_cross_report r;
    kressedach_cross(&r, 0.5, 0.25, -2.0, 0.5, 0.25, 0.75, LIST(shape_kinds), LIST(shape_numbers), LIST(given_starts), LIST(given_positions), LIST(given_shapes));
    return r.number;
}

#define PROBES 64

/* Lines along an axis and aslant, of which some share numbers with the one before. */
static uint8_t job_many(void) {
    static double probes[6 * PROBES];
    static uint8_t many_rows[PROBES * NAMES];
    static uint32_t many_lines[2 * PROBES * NAMES];
    static int32_t many_positions[2 * PROBES * NAMES];
    static uint16_t many_shapes[2 * PROBES * NAMES];
    make_drawing();
    for (size_t k = 0; k < PROBES; k++) {
        for (size_t j = 0; j < 3; j++) {
            probes[6 * k + j] = (double)(k / (j + 1)) / 4.0;
            probes[6 * k + 3 + j] = k % 3 == j || k % 2 ? 0.25 * (double)(j + 1) : 0.0;
        }
    }
    struct kressedach_cross_many_report r;
    kressedach_cross_many(&r, LIST(shape_kinds), LIST(shape_numbers), LIST(probes), LIST(many_rows), LIST(many_lines), LIST(many_positions),
                          LIST(many_shapes));
    return r.number;
}

static uint8_t job_balls(void) {
    static int32_t numbers[4 * NAMES];
    for (size_t k = 0; k < NAMES; k++) {
        numbers[4 * k] = (int32_t)dice(200000) - 100000;
        numbers[4 * k + 1] = (int32_t)dice(200000) - 100000;
        numbers[4 * k + 2] = 150000 + (int32_t)dice(800000);
        numbers[4 * k + 3] = (int32_t)dice(2000000) - 1000000;
    }
    struct kressedach_cross_report r;
    kressedach_cross_balls(&r, LIST(numbers), LIST(given_starts), LIST(given_positions), LIST(given_shapes));
    return r.number;
}

/* ---- A call on a painted stack */

static unsigned char *ground;
static uintptr_t top;
static uint8_t number;
static uint8_t (*job)(void);

static unsigned char paint(size_t k, unsigned coat) { return (unsigned char)((k * 31 >> 3) + 7 * coat + 1); }

static void *call(void *nothing) {
    unsigned char here;
    top = (uintptr_t)&here;
    number = job();
    return nothing;
}

/* The bytes that a call uses below its caller's. Two coats, since a byte may be written as it was painted. */
static size_t used(uint8_t due) {
    size_t most = 0;
    for (unsigned coat = 0; coat < 2; coat++) {
        pthread_attr_t attributes;
        pthread_t thread;
        size_t k = 0;
        for (size_t j = 0; j < STACK; j++) ground[j] = paint(j, coat);
        if (pthread_attr_init(&attributes) || pthread_attr_setstack(&attributes, ground, STACK)) stop("no stack for a thread");
        if (pthread_create(&thread, &attributes, call, NULL) || pthread_join(thread, NULL)) stop("no thread");
        pthread_attr_destroy(&attributes);
        if (number != due) stop("a call is refused that is not, or is not that is");
        while (k < STACK && ground[k] == paint(k, coat)) k++;
        if (k == 0) stop("a call used the whole stack");
        size_t depth = (size_t)(top - (uintptr_t)(ground + k));
        if (depth > most) most = depth;
    }
    return most;
}

/* ---- The table */

struct row {
    const char *job, *sheets;
    uint8_t (*call)(void);
    size_t most;
    bool found;
};

#define OF_LEAVES "1024 leaves, edition 1"
#define OF_LEAVES_FIRST "1024 leaves, edition 2"
#define OF_OPERATIONS "2047 operations, edition 2"

static struct row table[] = {
#define ROWS(job, call) {job, OF_LEAVES, call, 0, false}, {job, OF_LEAVES_FIRST, call, 0, false}, {job, OF_OPERATIONS, call, 0, false}
    ROWS("read", job_read),
    ROWS("ask for a name", job_name),
    ROWS("ask for all names", job_names),
    ROWS("move", job_move),
    ROWS("build", job_build),
    ROWS("run", job_run),
    ROWS("run for two foundries", job_both),
    ROWS("run with edits", job_edited),
    ROWS("classify", job_classify),
    ROWS("judge", job_judge),
    {"cross half-spaces and boxes", "none", job_cross, 0, false},
    {"cross them with many lines", "none", job_many, 0, false},
    {"cross balls", "none", job_balls, 0, false},
};

/* Measures the rows of these sheets. The first call of each, on this stack, is for what the machine links when it is first called. */
static void measure(const char *sheets, uint8_t due) {
    for (size_t k = 0; k < LENGTH(table); k++) {
        if (strcmp(table[k].sheets, sheets) != 0) continue;
        job = table[k].call;
        job();
        size_t bytes = used(due);
        if (bytes > table[k].most) table[k].most = bytes;
    }
}

static void measure_all(void) {
    void (*const forms[])(void) = {left_chain, right_chain, pairs, balanced};
    for (int round = 0; round < 2; round++) {
        fitted = round == 1;
        for (size_t k = 0; k < LENGTH(forms); k++) {
            size_t end = CODES;
            laid = 0;
            forms[k]();
            turn(CODES, &end);
            make_edits();
            make_sheets(1, codes);
            measure(OF_LEAVES, 0);
            make_sheets(2, turned);
            measure(OF_LEAVES_FIRST, 0);
        }
        for (size_t k = 0; k < CODES; k++) turned[k] = 0xFFF0;
        make_sheets(2, turned);
        measure(OF_OPERATIONS, KRESSEDACH_FORMULA_WRONG);
    }
    measure("none", 0);
}

/* ---- The page */

#define CELLS 8

/* The cells of a row of a table, without the blanks around them; how many. */
static size_t cells_of(char *line, char *cells[CELLS]) {
    size_t count = 0;
    if (*line != '|') return 0;
    for (char *cell = strtok(line, "|\n"); cell && count < CELLS; cell = strtok(NULL, "|\n")) {
        size_t end = strlen(cell);
        while (end > 0 && cell[end - 1] == ' ') cell[--end] = 0;
        while (*cell == ' ') cell++;
        cells[count++] = cell;
    }
    return count;
}

static struct row *row_of(const char *name, const char *sheets) {
    for (size_t k = 0; k < LENGTH(table); k++) {
        if (strcmp(table[k].job, name) == 0 && strcmp(table[k].sheets, sheets) == 0) return &table[k];
    }
    return NULL;
}

static int wrong;

/* A row of the page's table, printed with the figure that was measured, in kilobytes of 1024 bytes, rounded up. */
static void compare(struct row *row, char *cells[CELLS], size_t count, size_t column) {
    char figure[32];
    size_t measured = (row->most + 1023) / 1024;
    sprintf(figure, "%zu", measured);
    row->found = true;
    for (size_t k = 0; k < count; k++) printf("| %s ", k == column ? figure : cells[k]);
    printf("|\n");
    if (column < count && measured > (size_t)atol(cells[column])) {
        fprintf(stderr, "stack: %s, %s: %zu KB are above the page's %s\n", row->job, row->sheets, measured, cells[column]);
        wrong = 1;
    }
}

static void compare_all(FILE *page, const char *processor) {
    char line[65536], *cells[CELLS];
    size_t column = CELLS;
    while (fgets(line, sizeof line, page)) {
        size_t count = cells_of(line, cells);
        if (count < 3) continue;
        if (strcmp(cells[0], "job") == 0 && strcmp(cells[1], "sheet") == 0) {
            for (size_t k = 2; k < count; k++) {
                if (strcmp(cells[k], processor) == 0) column = k;
            }
        }
        struct row *row = row_of(cells[0], cells[1]);
        if (row) compare(row, cells, count, column);
    }
    if (column == CELLS) stop("the page has no table with a column for that processor");
    for (size_t k = 0; k < LENGTH(table); k++) {
        if (!table[k].found || table[k].most > ENOUGH - 16384) {
            fprintf(stderr, "stack: %s, %s: %zu bytes, %s\n", table[k].job, table[k].sheets, table[k].most,
                    table[k].found ? "above what the header says is enough" : "which the page has no row for");
            wrong = 1;
        }
    }
}

int main(int count, char **words) {
    void *memory;
    FILE *page = count == 3 ? fopen(words[1], "r") : NULL;
    if (!page) stop("usage: stack PAGE PROCESSOR, and the page is there");
    if (posix_memalign(&memory, 65536, STACK)) stop("no memory");
    ground = memory;
    make_lists();
    measure_all();
    compare_all(page, words[2]);
    return wrong;
}
