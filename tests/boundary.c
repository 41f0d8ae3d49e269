/*
 * What include/higlaupth.h says, held against the header's own numbers and texts and against the
 * compiled functions: boundary VERSION FILE MAP, where FILE is the sheet of five points and MAP its
 * map. C99 and C++11. Prints each check that fails; the exit status is 0 only if none does. File,
 * buffer, record and root of each call lie in heap blocks that end where they do, for valgrind.
 */
#define _DEFAULT_SOURCE /* mmap in C99 */
#include <higlaupth.h>

#include <math.h>
#include <stdio.h>
#include <stdlib.h>
#include <string.h>
#include <sys/mman.h>

enum { PAINT = 0xA5, MOST_RECORDS = 65535 / 20, LINE_SIZE = 6 + 1 + HIGLAUPTH_MAP_COLUMNS + 1 + 1 };
/* The height of the sheets that are written here: no list of points is then too wide for a map. */
enum { HEIGHT = 48 };
/* The record of a run as an array: how many numbers, old sums and new ones, and where those after
   the old sums stand. */
enum { NUMBERS = 12, OLD_SUMS = 5, SHEETS = 5, NEW_SUMS = 6, SUMS = 6 };
/* Every refusal of higlaupth_keep and higlaupth_fills, in the order in which they look for them. */
static const unsigned refusals[] = {1, 12, 2, 3, 4, 5, 6, 7, 13, 8, 9, 14};
enum { REFUSALS = sizeof refusals / sizeof *refusals, LAST_REFUSAL = 17 };

/* The sizes are constants for the preprocessor too, each one operand. */
#if HIGLAUPTH_ROWS_SIZE / HIGLAUPTH_ROWS_SIZE != 1 || HIGLAUPTH_FILE_SIZE - HIGLAUPTH_FILE_SIZE != 0
#error "HIGLAUPTH_ROWS_SIZE or HIGLAUPTH_FILE_SIZE"
#endif
#if HIGLAUPTH_FILLS_SIZE / HIGLAUPTH_FILLS_SIZE != 1
#error "HIGLAUPTH_FILLS_SIZE"
#endif
#if HIGLAUPTH_READ_SIZE - HIGLAUPTH_READ_SIZE != 0 || HIGLAUPTH_READ_SIZE <= HIGLAUPTH_FILE_SIZE
#error "HIGLAUPTH_READ_SIZE"
#endif

typedef struct {
    int u, v;
    unsigned index;
    float x, y;
} point;

static int failed;
static uint8_t file[HIGLAUPTH_READ_SIZE + 5000];
static uint8_t after[HIGLAUPTH_ROWS_SIZE + 100];

static void check(int holds, int line, const char *what) {
    if (holds) return;
    printf("line %d: %s\n", line, what);
    failed = 1;
}
#define CHECK(what) check((what) != 0, __LINE__, #what)

/* A function on the first bytes of `file` with a painted buffer, which is then in `after`. */
static uint64_t call(uint64_t (*function)(const uint8_t *, size_t, uint8_t *, size_t),
                     size_t file_len, size_t buffer_len) {
    uint8_t *bytes = (uint8_t *)malloc(file_len), *buffer = (uint8_t *)malloc(buffer_len);
    if (!bytes || !buffer) abort();
    memcpy(bytes, file, file_len);
    memset(buffer, PAINT, buffer_len);
    uint64_t returned = function(bytes, file_len, buffer, buffer_len);
    CHECK(memcmp(bytes, file, file_len) == 0);
    memcpy(after, buffer, buffer_len);
    free(bytes);
    free(buffer);
    return returned;
}

static uint64_t keep(size_t file_len, size_t rows_len) {
    return call(higlaupth_keep, file_len, rows_len);
}

static uint64_t fills(size_t file_len, size_t fills_len) {
    return call(higlaupth_fills, file_len, fills_len);
}

static uint64_t map(size_t file_len, size_t text_len) {
    return call(higlaupth_map, file_len, text_len);
}

/* The record that a call is lent, with a painted number before it, so that its place is a multiple
   of 4 and not of 8, as a uint32_t's may be. */
static higlaupth_run *lent;

static void lend(const uint32_t *numbers) {
    uint32_t *block = (uint32_t *)malloc((1 + NUMBERS) * sizeof *block);
    if (!block) abort();
    block[0] = PAINT;
    memcpy(block + 1, numbers, sizeof *lent);
    lent = (higlaupth_run *)(block + 1);
}

static void take_back(uint32_t *numbers) {
    uint32_t *block = (uint32_t *)lent - 1;
    CHECK(block[0] == PAINT);
    memcpy(numbers, lent, sizeof *lent);
    free(block);
}

static uint64_t keep_in_lent(const uint8_t *bytes, size_t length, uint8_t *rows, size_t room) {
    return higlaupth_keep_in_run(bytes, length, rows, room, lent);
}

/* The numbers are the record before the call, and then the one after it. */
static uint64_t keep_in_run(size_t file_len, size_t rows_len, uint32_t *numbers) {
    lend(numbers);
    uint64_t returned = call(keep_in_lent, file_len, rows_len);
    take_back(numbers);
    return returned;
}

/* Whether the bytes of `after` from one place to another still have their paint. */
static int painted(size_t from, size_t to) {
    for (; from < to; from++)
        if (after[from] != PAINT) return 0;
    return 1;
}

static uint32_t bits(float number) {
    uint32_t word;
    memcpy(&word, &number, sizeof word);
    return word;
}

static float number_with(uint32_t word) {
    float number;
    memcpy(&number, &word, sizeof number);
    return number;
}

static uint8_t *write_number(uint8_t *at, uint32_t number, int size) {
    for (int k = 0; k < size; k++) at[k] = (uint8_t)(number >> 8 * k);
    return at + size;
}

static uint8_t *write_point(uint8_t *at, point p) {
    at = write_number(at, (uint32_t)p.u, 4);
    at = write_number(at, (uint32_t)p.v, 4);
    at = write_number(at, p.index, 4);
    at = write_number(at, bits(p.x), 4);
    return write_number(at, bits(p.y), 4);
}

/* Writes into `file` tag 1 of length 21 with cell size 100, a line minimum and the largest-patch
   switch. Returns where it ends. */
static uint8_t *write_settings(unsigned line_minimum, unsigned largest_patch) {
    uint8_t *at = write_number(file, 1, 1);
    at = write_number(at, 21, 2);
    at = write_number(at, bits(100), 4);
    at = write_number(at, bits(0.15f), 4);
    at = write_number(at, line_minimum, 2);
    at = write_number(at, bits(0.2f), 4);
    at = write_number(at, 0, 1);
    at = write_number(at, bits(0), 4);
    at = write_number(at, 1, 1);
    return write_number(at, largest_patch, 1);
}

/* Writes at a place of `file` tag 3 with these points. Returns the length of all. */
static size_t write_list(uint8_t *at, const point *points, unsigned count) {
    at = write_number(at, 3, 1);
    at = write_number(at, 20 * count, 2);
    for (unsigned k = 0; k < count; k++) at = write_point(at, points[k]);
    return (size_t)(at - file);
}

/* Writes into `file` tag 1 of length 21, tag 2 with the original's values, and tag 3 with so many
   points in columns of HEIGHT; of more than MOST_RECORDS its length is cut to two bytes. Returns the
   length of all. */
static size_t write_sheet(unsigned points) {
    uint8_t *at = write_settings(3, 1);
    at = write_number(at, 2, 1);
    at = write_number(at, 17, 2);
    at = write_number(at, HIGLAUPTH_GATE_MINIMUM_DEGREE, 1);
    at = write_number(at, bits(HIGLAUPTH_GATE_CONTINUATION_COSINE), 4);
    at = write_number(at, bits(HIGLAUPTH_GATE_CONTINUATION_RATIO), 4);
    at = write_number(at, bits(HIGLAUPTH_GATE_CELL_COSINE), 4);
    at = write_number(at, bits(HIGLAUPTH_GATE_CELL_RATIO), 4);
    at = write_number(at, 3, 1);
    at = write_number(at, 20 * points, 2);
    for (unsigned k = 0; k < points; k++) {
        int u = (int)k / HEIGHT, v = (int)k % HEIGHT;
        point p = {u, v, k, (float)(100 * u), (float)(100 * v)};
        at = write_point(at, p);
    }
    return (size_t)(at - file);
}

/* Writes after the first bytes of `file` a tag 4 of so many bytes: a fraction and strengths, if there
   is room for all, and zeros. Returns the length of all. */
static size_t write_strengths(size_t file_len, unsigned size, float fraction,
                              const float *strengths, unsigned count) {
    uint8_t *at = write_number(file + file_len, 4, 1);
    at = write_number(at, size, 2);
    memset(at, 0, size);
    if (size >= 4 + 4 * count) {
        uint8_t *number = write_number(at, bits(fraction), 4);
        for (unsigned k = 0; k < count; k++) number = write_number(number, bits(strengths[k]), 4);
    }
    return (size_t)(at + size - file);
}

/* The sheet of write_sheet with a tag 4 of its length, all strengths 0, so that nothing is weak. */
static size_t write_weighed(unsigned points) {
    return write_strengths(write_sheet(points), 4 + 4 * points, 0, NULL, 0);
}

/* The longest well-framed file: as many points as a field holds and a tag 4 of as many bytes. */
static size_t write_longest(void) {
    return write_strengths(write_sheet(MOST_RECORDS), 65535, 0, NULL, 0);
}

/* Writes into `file` tag 1 with the cell size alone, and tag 3 with these points. Returns the
   length. */
static size_t write_points(float cell_size, const point *points, unsigned count) {
    uint8_t *at = write_number(file, 1, 1);
    at = write_number(at, 4, 2);
    return write_list(write_number(at, bits(cell_size), 4), points, count);
}

/* Writes into `file` a sheet of two points, at cell (0, 0) and at the one that is given. Returns the
   length. */
static size_t write_two(int u, int v) {
    const point points[] = {{0, 0, 0, 0, 0}, {u, v, 1, 500, 0}};
    return write_points(100, points, 2);
}

/* Writes into `file` a sheet that is refused with this number; with 3, if the buffer is shorter than
   two rows or fills. Returns the length. */
static size_t write_refused(unsigned number) {
    const point two_positions[] = {{0, 0, 7, 0, 0}, {1, 0, 7, 100, 0}};
    const point two_cells[] = {{0, 0, 7, 0, 0}, {1, 0, 7, 0, 0}};
    const float zeros[] = {0.0f, -0.0f}, large[] = {1, 16384.002f};
    size_t length = write_two(1, 0);
    switch (number) {
    case HIGLAUPTH_STRENGTHS_LENGTH:
        return write_strengths(length, 11, 1, NULL, 0);
    case HIGLAUPTH_BAD_STRENGTH:
        return write_strengths(length, 12, 1, large, 2);
    case HIGLAUPTH_TWO_STRENGTHS:
        return write_strengths(write_points(100, two_cells, 2), 12, 1, zeros, 2);
    case HIGLAUPTH_MISFRAMED:
        return length - 1;
    case HIGLAUPTH_TOO_MANY_POINTS:
        return write_sheet(HIGLAUPTH_MOST_POINTS + 1);
    case HIGLAUPTH_BAD_SWITCH:
        length = write_sheet(2);
        file[3 + 14] = 2; /* the step flag */
        return length;
    case HIGLAUPTH_BAD_SETTING:
        write_number(file + 3, 0x7FC00000, 4); /* the cell size */
        return length;
    case HIGLAUPTH_BAD_CELL:
        return write_two(8001, 0);
    case HIGLAUPTH_BAD_POSITION:
        write_number(file + length - 4, 0x7F800000, 4); /* the last y */
        return length;
    case HIGLAUPTH_REPEATED_CELL:
        return write_two(0, 0);
    case HIGLAUPTH_TWO_POSITIONS:
        return write_points(100, two_positions, 2);
    default:
        return length;
    }
}

static void check_numbers(const char *version) {
    char numbers[40];
    sprintf(numbers, "%d.%d.%d", HIGLAUPTH_VERSION_MAJOR, HIGLAUPTH_VERSION_MINOR,
            HIGLAUPTH_VERSION_PATCH);
    CHECK(strcmp(HIGLAUPTH_VERSION, version) == 0);
    CHECK(strcmp(numbers, version) == 0);
    CHECK(HIGLAUPTH_MOST_POINTS == 2304 && HIGLAUPTH_ROWS_SIZE == 64512);
    CHECK(HIGLAUPTH_FILL_SIZE == 20 && HIGLAUPTH_FILLS_SIZE == 46080);
    CHECK(HIGLAUPTH_FILL_U == 0 && HIGLAUPTH_FILL_V == 4 && HIGLAUPTH_FILL_PAIRS == 8);
    CHECK(HIGLAUPTH_FILL_X == 12 && HIGLAUPTH_FILL_Y == 16);
    CHECK(HIGLAUPTH_FILE_SIZE == 24 + 20 + 3 + 20 * 2304 + 3 + 4 + 4 * 2304);
    CHECK(HIGLAUPTH_READ_SIZE == 131105 + 1);
    CHECK((uint64_t)HIGLAUPTH_MOST_SHEETS * HIGLAUPTH_MOST_POINTS < HIGLAUPTH_SUM_LIMIT);
    CHECK(HIGLAUPTH_MAP_SIZE == LINE_SIZE * HIGLAUPTH_MAP_LINES && LINE_SIZE == 80 + 1);
    CHECK(HIGLAUPTH_NO_ROOM > HIGLAUPTH_MAP_SIZE && HIGLAUPTH_NO_ROOM + 1 == 0);
    CHECK(HIGLAUPTH_MOST_SHEETS == 65535 && HIGLAUPTH_SUM_LIMIT == (uint64_t)1 << 31);
    CHECK(HIGLAUPTH_GATE_MINIMUM_DEGREE == 2);
    CHECK(bits(HIGLAUPTH_GATE_CONTINUATION_COSINE) == 0x3F7D8236);
    CHECK(bits(HIGLAUPTH_GATE_CONTINUATION_RATIO) == 0x3F970A3D);
    CHECK(bits(HIGLAUPTH_GATE_CELL_COSINE) == 0x3F7D8236);
    CHECK(bits(HIGLAUPTH_GATE_CELL_RATIO) == 0x3F8CCCCD);
    CHECK(HIGLAUPTH_GATE_CELL_COSINE == 16613942.0f / 16777216.0f);
}

/* Texts of the numbers first to last: one line each, no two the same, none that of another number. */
static void check_texts(const char *(*text)(unsigned), unsigned first, unsigned last) {
    const char *none = text(last + 1);
    for (unsigned k = first; k <= last; k++) {
        CHECK(strlen(text(k)) > 0 && strchr(text(k), '\n') == NULL);
        CHECK(strcmp(text(k), none) != 0);
        for (unsigned n = first; n < k; n++) CHECK(strcmp(text(k), text(n)) != 0);
    }
    CHECK(strncmp(none, "no such ", 8) == 0);
    CHECK(strcmp(text(256 + last), none) == 0 && strcmp(text(0xFFFFFFFF), none) == 0);
}

/* The filters have one bit each, no two the same, and after the last is none. */
static void check_filters(void) {
    unsigned seen = 0;
    for (unsigned place = 0; place < HIGLAUPTH_FILTERS; place++) {
        unsigned mark = higlaupth_filter_at(place).mark;
        CHECK(mark > 0 && mark < 256 && (mark & (mark - 1)) == 0 && (mark & seen) == 0);
        seen |= mark;
    }
    CHECK(seen == (HIGLAUPTH_MARK_VALIDATE | HIGLAUPTH_MARK_ORIENTATION | HIGLAUPTH_MARK_WRONG_LABEL |
                   HIGLAUPTH_MARK_LEAF | HIGLAUPTH_MARK_COMPONENT));
    CHECK(HIGLAUPTH_MARK_LEAF == 1 << 4 && higlaupth_filter_at(3).mark == HIGLAUPTH_MARK_LEAF);
    CHECK(higlaupth_filter_at(HIGLAUPTH_FILTERS).mark == 0);
    CHECK(higlaupth_filter_at(0xFFFFFFFF).mark == 0);
}

/* Reads the file at a path into `file`. Returns its length. */
static size_t read_into(const char *path) {
    FILE *from = fopen(path, "rb");
    size_t length = from ? fread(file, 1, sizeof file, from) : 0;
    if (from) fclose(from);
    return length;
}

/* The sheet of five points: two patches; the last row alone is marked, by the component filter. */
static void check_five_points(const char *path) {
    const size_t rows = 5 * HIGLAUPTH_ROW_SIZE;
    uint8_t expected[5 * HIGLAUPTH_ROW_SIZE] = {0};
    expected[4 * HIGLAUPTH_ROW_SIZE + HIGLAUPTH_MARKS] = HIGLAUPTH_MARK_COMPONENT;
    size_t length = read_into(path);
    CHECK(length == 110);
    const size_t room[] = {rows, rows + 1, HIGLAUPTH_ROWS_SIZE, sizeof after};
    for (int k = 0; k < 4; k++) {
        uint64_t returned = keep(length, room[k]);
        CHECK(returned == ((uint64_t)1 << 32) + (5 << 16) + 2);
        CHECK(!higlaupth_refused(returned));
        CHECK(higlaupth_points(returned) == 5 && higlaupth_components(returned) == 2);
        CHECK(higlaupth_rounds(returned) == 0);
        CHECK(memcmp(after, expected, rows) == 0 && painted(rows, room[k]));
    }
    CHECK(keep(length, rows - 1) == HIGLAUPTH_SHORT_BUFFER && painted(0, rows - 1));
    CHECK(keep(length, 0) == HIGLAUPTH_SHORT_BUFFER);
    for (size_t cut = 0; cut < length; cut++)
        CHECK(keep(cut, rows) == HIGLAUPTH_MISFRAMED && painted(0, rows));
}

/* The note at HIGLAUPTH_READ_SIZE. */
static void check_lengths(void) {
    CHECK(higlaupth_keep(NULL, 0, NULL, 0) == HIGLAUPTH_MISFRAMED);
    CHECK(higlaupth_refused(HIGLAUPTH_TWO_POSITIONS));
    CHECK(higlaupth_refused(HIGLAUPTH_TWO_STRENGTHS));

    CHECK(write_weighed(HIGLAUPTH_MOST_POINTS) == HIGLAUPTH_FILE_SIZE);
    uint64_t returned = keep(HIGLAUPTH_FILE_SIZE, HIGLAUPTH_ROWS_SIZE);
    CHECK(!higlaupth_refused(returned) && higlaupth_points(returned) == HIGLAUPTH_MOST_POINTS);
    CHECK(keep(HIGLAUPTH_FILE_SIZE + 1, HIGLAUPTH_ROWS_SIZE) == HIGLAUPTH_MISFRAMED);
    CHECK(keep(HIGLAUPTH_FILE_SIZE - 1, HIGLAUPTH_ROWS_SIZE) == HIGLAUPTH_MISFRAMED);
    CHECK(keep(HIGLAUPTH_FILE_SIZE, HIGLAUPTH_ROWS_SIZE - 1) == HIGLAUPTH_SHORT_BUFFER);

    const size_t more = write_sheet(HIGLAUPTH_MOST_POINTS + 1), one_row = HIGLAUPTH_ROW_SIZE;
    CHECK(keep(more, HIGLAUPTH_ROWS_SIZE + one_row) == HIGLAUPTH_TOO_MANY_POINTS);
    const size_t weighed = write_weighed(HIGLAUPTH_MOST_POINTS + 1);
    CHECK(keep(weighed, HIGLAUPTH_ROWS_SIZE) == HIGLAUPTH_TOO_MANY_POINTS);
    CHECK(keep(write_sheet(MOST_RECORDS), HIGLAUPTH_ROWS_SIZE) == HIGLAUPTH_TOO_MANY_POINTS);
    CHECK(keep(write_weighed(MOST_RECORDS), HIGLAUPTH_ROWS_SIZE) == HIGLAUPTH_TOO_MANY_POINTS);
    CHECK(keep(write_sheet(MOST_RECORDS + 1), HIGLAUPTH_ROWS_SIZE) == HIGLAUPTH_MISFRAMED);
    CHECK(write_longest() == HIGLAUPTH_READ_SIZE - 1);
    CHECK(keep(HIGLAUPTH_READ_SIZE - 1, HIGLAUPTH_ROWS_SIZE) == HIGLAUPTH_STRENGTHS_LENGTH);
    CHECK(keep(HIGLAUPTH_READ_SIZE, HIGLAUPTH_ROWS_SIZE) == HIGLAUPTH_MISFRAMED);
    CHECK(keep(sizeof file, HIGLAUPTH_ROWS_SIZE) == HIGLAUPTH_MISFRAMED);
    CHECK(painted(0, HIGLAUPTH_ROWS_SIZE));
}

/* What the header's functions make of a number that higlaupth_fills returned and of the bytes of
   fills, at every alignment. */
static void check_fill_functions(void) {
    const uint64_t one = (uint64_t)1 << 32, all = one + ((uint64_t)2304 << 16) + 2304;
    CHECK(higlaupth_fill_count(one) == 0 && higlaupth_points(one) == 0);
    CHECK(higlaupth_fill_count(one + (5 << 16) + 1) == 1);
    CHECK(higlaupth_points(one + (5 << 16) + 1) == 5);
    CHECK(higlaupth_fill_count(all) == 2304 && higlaupth_points(all) == 2304);
    CHECK(!higlaupth_refused(one) && !higlaupth_refused(all));

    const uint32_t words[][5] = {
        {(uint32_t)-8000, 8000, 2, 0x01020304, 0xF5F6F7F8},
        {0x11121314, 0x91929394, 0xA1A2A3A4, 0x80000000, 0x42C80000},
        {0, (uint32_t)-1, 1, 0x00000001, 0x46800000},
    };
    for (int shift = 0; shift < 8; shift++) {
        uint8_t *block = (uint8_t *)malloc((size_t)shift + sizeof words);
        if (!block) abort();
        uint8_t *at = block + shift;
        for (int n = 0; n < 3; n++)
            for (int k = 0; k < 5; k++) at = write_number(at, words[n][k], 4);
        for (unsigned n = 0; n < 3; n++) {
            const higlaupth_fill fill = higlaupth_fill_at(block + shift, n);
            CHECK((uint32_t)fill.u == words[n][0] && (uint32_t)fill.v == words[n][1]);
            CHECK(fill.pairs == words[n][2]);
            CHECK(bits(fill.x) == words[n][3] && bits(fill.y) == words[n][4]);
        }
        free(block);
    }
    uint8_t bytes[HIGLAUPTH_FILL_SIZE];
    for (unsigned k = 0; k < sizeof bytes; k++) bytes[k] = (uint8_t)(k + 1);
    CHECK(higlaupth_fill_at(bytes, 0).u == 0x04030201);
    CHECK(higlaupth_fill_at(bytes, 0).pairs == 0x0C0B0A09);
}

/* How many fills had no pair, one and two. */
static unsigned with_pairs[3];

/* The fill of a point by the other points and their rows: its number of pairs and its position. */
static higlaupth_fill fill_of(const point *at, const point *points, const uint8_t *rows,
                              unsigned count) {
    const int steps[2][2] = {{1, 0}, {0, 1}};
    higlaupth_fill fill = {at->u, at->v, 0, 0, 0};
    for (int k = 0; k < 2; k++) {
        const point *forward = NULL, *backward = NULL;
        for (unsigned n = 0; n < count; n++) {
            const int u = points[n].u - at->u, v = points[n].v - at->v;
            if (rows[n * HIGLAUPTH_ROW_SIZE + HIGLAUPTH_MARKS] != 0) continue;
            if (u == steps[k][0] && v == steps[k][1]) forward = &points[n];
            if (u == -steps[k][0] && v == -steps[k][1]) backward = &points[n];
        }
        if (!forward || !backward) continue;
        fill.x += 0.5f * (forward->x + backward->x);
        fill.y += 0.5f * (forward->y + backward->y);
        fill.pairs++;
    }
    if (fill.pairs == 0) return fill;
    fill.x /= (float)fill.pairs;
    fill.y /= (float)fill.pairs;
    return fill;
}

static uint8_t *write_fill(uint8_t *at, higlaupth_fill fill) {
    at = write_number(at, (uint32_t)fill.u, 4);
    at = write_number(at, (uint32_t)fill.v, 4);
    at = write_number(at, fill.pairs, 4);
    at = write_number(at, bits(fill.x), 4);
    return write_number(at, bits(fill.y), 4);
}

/* The fills of the accepted sheet in the first bytes of `file`, whose points are these in cell
   order, are those that follow from its rows: in buffers that just suffice and longer ones, of
   which nothing else is touched. A byte less is refused. The fills are then in `after`. Returns how
   many. */
static unsigned check_fills(size_t file_len, const point *points, unsigned count) {
    static uint8_t rows[HIGLAUPTH_ROWS_SIZE], expected[HIGLAUPTH_FILLS_SIZE];
    const size_t least = (size_t)HIGLAUPTH_FILL_SIZE * count;
    const size_t room[] = {least, least + 1, least + 27, sizeof after};
    const uint64_t kept = keep(file_len, HIGLAUPTH_ROWS_SIZE);
    CHECK(!higlaupth_refused(kept) && higlaupth_points(kept) == count);
    memcpy(rows, after, sizeof rows);
    unsigned dropped = 0;
    for (unsigned k = 0; k < count; k++) {
        if (rows[k * HIGLAUPTH_ROW_SIZE + HIGLAUPTH_MARKS] == 0) continue;
        const higlaupth_fill fill = fill_of(&points[k], points, rows, count);
        write_fill(expected + dropped * HIGLAUPTH_FILL_SIZE, fill);
        with_pairs[fill.pairs]++;
        dropped++;
    }
    const size_t size = (size_t)HIGLAUPTH_FILL_SIZE * dropped;
    if (least > 0) {
        CHECK(fills(file_len, least - 1) == HIGLAUPTH_SHORT_BUFFER && painted(0, least - 1));
        CHECK(fills(file_len, 0) == HIGLAUPTH_SHORT_BUFFER);
    }
    for (int k = 0; k < 4; k++) {
        const uint64_t returned = fills(file_len, room[k]);
        CHECK(returned == ((uint64_t)1 << 32) + (count << 16) + dropped);
        CHECK(higlaupth_points(returned) == count && higlaupth_fill_count(returned) == dropped);
        CHECK(memcmp(after, expected, size) == 0 && painted(size, room[k]));
    }
    return dropped;
}

/* The sheet of five points: one fill, without a pair. Its 100 bytes are too few for rows. */
static void check_fills_of_five_points(const char *path) {
    const uint8_t expected[HIGLAUPTH_FILL_SIZE] = {5, 0, 0, 0, 5};
    const size_t length = read_into(path), least = 5 * HIGLAUPTH_FILL_SIZE;
    const size_t room[] = {least, least + 1, HIGLAUPTH_FILLS_SIZE, sizeof after};
    for (int k = 0; k < 4; k++) {
        CHECK(fills(length, room[k]) == ((uint64_t)1 << 32) + (5 << 16) + 1);
        CHECK(memcmp(after, expected, sizeof expected) == 0);
        CHECK(painted(sizeof expected, room[k]));
    }
    CHECK(keep(length, least) == HIGLAUPTH_SHORT_BUFFER);
    for (size_t less = 0; less < least; less++)
        CHECK(fills(length, less) == HIGLAUPTH_SHORT_BUFFER && painted(0, less));
    for (size_t cut = 0; cut < length; cut++)
        CHECK(fills(cut, least) == HIGLAUPTH_MISFRAMED && painted(0, least));
}

/* A point and its four neighbours, each of which is missing, kept or dropped, in every way, and
   listed in either order. Points less than 20 pixels apart are dropped: the middle one and one far
   off, and with them the neighbours that are to be. No line has as many points as the minimum, and
   the largest-patch filter is off. */
static void check_cross(void) {
    const int steps[4][2] = {{-1, 0}, {0, -1}, {0, 1}, {1, 0}};
    const float places[4][2] = {
        {-16384, 0.1f}, {33.3f, -1e-40f}, {1e-3f, 16383.999f}, {16383.998f, 777.7f}};
    for (int way = 0; way < 81; way++) {
        point points[6];
        unsigned count = 0, dropped = 2, pairs = 0, digit = 1;
        int kept[4];
        for (int k = 0; k < 5; k++) {
            const int n = k < 2 ? k : k - 1; /* the middle is the third in cell order */
            point p = {-7000, 6000, 100 + (unsigned)k, 9000, 9000};
            if (k != 2) {
                const int is = way / (int)digit % 3;
                digit *= 3;
                kept[n] = is == 1;
                if (is == 0) continue;
                p.u += steps[n][0];
                p.v += steps[n][1];
                if (is == 1) {
                    p.x = places[n][0];
                    p.y = places[n][1];
                }
                dropped += is == 2;
            }
            points[count++] = p;
        }
        point twin = {8000, -8000, 7, 9000, 9019};
        points[count++] = twin;
        pairs = (unsigned)((kept[0] && kept[3]) + (kept[1] && kept[2]));
        point listed[2][6];
        for (unsigned k = 0; k < count; k++) {
            listed[0][k] = points[k];
            listed[1][count - 1 - k] = points[k];
        }
        for (int n = 0; n < 2; n++) {
            const unsigned before = with_pairs[pairs];
            const size_t length = write_list(write_settings(65535, 0), listed[n], count);
            CHECK(check_fills(length, points, count) == dropped);
            CHECK(with_pairs[pairs] > before);
            CHECK(higlaupth_fill_at(after, dropped - 1).u == 8000);
            CHECK(higlaupth_fill_at(after, dropped - 1).v == -8000);
        }
    }
    CHECK(with_pairs[0] > 0 && with_pairs[1] == 2 * 16 && with_pairs[2] == 2);
}

/* Positions where a rounding or the sign of a zero shows: the x and y of the neighbours at v - 1,
   v + 1, u - 1 and u + 1, and the bits of the fill of the middle where they are worked out. */
static void check_rounding(void) {
    const float tiny = 1.40129846e-45f; /* the least positive f32 */
    const struct {
        float x[4], y[4];
        int worked_out;
        uint32_t x_bits, y_bits;
    } cases[] = {
        /* Negative zeros: the sums begin at +0. */
        {{-0.0f, -0.0f, -0.0f, -0.0f}, {-300, 300, -100, 100}, 1, 0, 0},
        {{-300, 300, -100, 100}, {-0.0f, -0.0f, -0.0f, -0.0f}, 1, 0, 0},
        /* Half of the least negative f32 is -0, half of its double is not. */
        {{-100, 100, -tiny, -tiny}, {-2 * tiny, -2 * tiny, -100, 100}, 1, 0x80000000, 0x80000001},
        /* Each half is rounded by itself: half of the least f32 is 0, and so is the mean of 0 and
           it; a quarter of its triple would not be. */
        {{tiny, tiny, 0, tiny}, {-300, 300, -100, 100}, 1, 0, 0},
        /* As large as positions can be; then sums that are rounded. */
        {{16384, 16384, 16300, 16300}, {16384, 16300, 16384, 16300}, 1, 0x467F5800, 0x467F5800},
        {{-100, 8388.6085f, 0.1f, 0.3f}, {1e-3f, 2e-3f, -16384, 16383.999f}, 0, 0, 0},
        {{0.1f, 0.7f, 1234.5678f, 8765.4321f}, {5e3f, 9e3f, 0.3f, 777.7777f}, 0, 0, 0},
    };
    const int steps[4][2] = {{0, -1}, {0, 1}, {-1, 0}, {1, 0}};
    const int order[4] = {2, 0, 1, 3};
    for (unsigned n = 0; n < sizeof cases / sizeof *cases; n++) {
        point points[6];
        unsigned count = 0;
        for (int k = 0; k < 4; k++) {
            const int at = order[k];
            point p = {steps[at][0], steps[at][1], (unsigned)k, cases[n].x[at], cases[n].y[at]};
            if (k == 2) {
                point middle = {0, 0, 10, 9000, 9000};
                points[count++] = middle;
            }
            points[count++] = p;
        }
        point twin = {50, 50, 11, 9000, 9000};
        points[count++] = twin;
        const size_t length = write_list(write_settings(65535, 0), points, count);
        CHECK(check_fills(length, points, count) == 2);
        const higlaupth_fill fill = higlaupth_fill_at(after, 0);
        CHECK(fill.u == 0 && fill.v == 0 && fill.pairs == 2);
        if (cases[n].worked_out)
            CHECK(bits(fill.x) == cases[n].x_bits && bits(fill.y) == cases[n].y_bits);
    }
}

/* The fills of the most points: a board with points off in many places, one whose points are all
   dropped, and one of which none is. */
static void check_most_fills(void) {
    static point points[HIGLAUPTH_MOST_POINTS];
    const unsigned most = HIGLAUPTH_MOST_POINTS;
    for (int off = 0; off < 2; off++) {
        for (unsigned k = 0; k < most; k++) {
            const int u = (int)k / HEIGHT, v = (int)k % HEIGHT;
            const float by = off && (u + 2 * v) % 5 == 0 ? (u % 2 ? 30.0f : -30.0f) : 0;
            point p = {u, v, k, 100.0f * (float)u + by, 100.0f * (float)v + by};
            points[k] = p;
        }
        memset(with_pairs, 0, sizeof with_pairs);
        const unsigned dropped = check_fills(write_points(100, points, most), points, most);
        if (off)
            CHECK(dropped > 400 && with_pairs[1] > 0 && with_pairs[2] > 300);
        else
            CHECK(dropped == 0);
    }
    for (unsigned k = 0; k < most; k++) points[k].x = points[k].y = 0;
    CHECK(check_fills(write_points(100, points, most), points, most) == most);
}

/* An index at two cells, which is dropped: each has a fill of its own, one with a pair. */
static void check_repeated_index(void) {
    const point points[] = {
        {-1, 0, 1, -100, 0}, {0, 0, 7, 3, 4}, {1, 0, 2, 110, 7}, {10, 10, 7, 3, 4}};
    CHECK(check_fills(write_list(write_settings(65535, 0), points, 4), points, 4) == 2);
    const higlaupth_fill middle = higlaupth_fill_at(after, 0), other = higlaupth_fill_at(after, 1);
    CHECK(middle.u == 0 && middle.v == 0 && middle.pairs == 1);
    CHECK(middle.x == 5 && middle.y == 3.5f);
    CHECK(other.u == 10 && other.v == 10 && other.pairs == 0);
    CHECK(bits(other.x) == 0 && bits(other.y) == 0);
}

/* Each refusal with a buffer that suffices, and with one that does not: 1, 12 and 2 are looked for
   before 3, the others after it. A refusal writes nothing. And the note at HIGLAUPTH_READ_SIZE. */
static void check_refused_fills(void) {
    for (unsigned k = 0; k < REFUSALS; k++) {
        const unsigned number = refusals[k];
        const size_t length = write_refused(number), less = 2 * HIGLAUPTH_FILL_SIZE - 1;
        const uint64_t short_of = k < 3 ? number : (unsigned)HIGLAUPTH_SHORT_BUFFER;
        if (number != HIGLAUPTH_SHORT_BUFFER) {
            CHECK(fills(length, HIGLAUPTH_FILLS_SIZE) == number);
            CHECK(painted(0, HIGLAUPTH_FILLS_SIZE));
            CHECK(fills(length, HIGLAUPTH_FILLS_SIZE) == keep(length, HIGLAUPTH_ROWS_SIZE));
        }
        CHECK(fills(length, less) == short_of && painted(0, less));
        CHECK(fills(length, 0) == short_of);
    }
    CHECK(higlaupth_fills(NULL, 0, NULL, 0) == HIGLAUPTH_MISFRAMED);
    CHECK(higlaupth_fills(NULL, 0, after, 10) == HIGLAUPTH_MISFRAMED);
    CHECK(higlaupth_fills(file, write_sheet(0), NULL, 0) == (uint64_t)1 << 32);
    CHECK(check_fills(write_sheet(0), NULL, 0) == 0);

    const size_t room = HIGLAUPTH_FILLS_SIZE, more = room + HIGLAUPTH_FILL_SIZE;
    CHECK(write_weighed(HIGLAUPTH_MOST_POINTS) == HIGLAUPTH_FILE_SIZE);
    const uint64_t returned = fills(HIGLAUPTH_FILE_SIZE, room);
    CHECK(!higlaupth_refused(returned) && higlaupth_points(returned) == HIGLAUPTH_MOST_POINTS);
    CHECK(fills(HIGLAUPTH_FILE_SIZE + 1, room) == HIGLAUPTH_MISFRAMED);
    CHECK(fills(HIGLAUPTH_FILE_SIZE - 1, room) == HIGLAUPTH_MISFRAMED);
    CHECK(fills(HIGLAUPTH_FILE_SIZE, room - 1) == HIGLAUPTH_SHORT_BUFFER);
    CHECK(fills(write_sheet(HIGLAUPTH_MOST_POINTS + 1), more) == HIGLAUPTH_TOO_MANY_POINTS);
    CHECK(fills(write_sheet(MOST_RECORDS), room) == HIGLAUPTH_TOO_MANY_POINTS);
    CHECK(fills(write_sheet(MOST_RECORDS + 1), room) == HIGLAUPTH_MISFRAMED);
    CHECK(write_longest() == HIGLAUPTH_READ_SIZE - 1);
    CHECK(fills(HIGLAUPTH_READ_SIZE - 1, room) == HIGLAUPTH_STRENGTHS_LENGTH);
    CHECK(fills(HIGLAUPTH_READ_SIZE, room) == HIGLAUPTH_MISFRAMED);
    CHECK(fills(sizeof file, room) == HIGLAUPTH_MISFRAMED && painted(0, room));
}

/* The map of the first bytes of `file` is this text, in buffers of its length and longer ones, and
   as much of it as a shorter one holds. */
static void check_map(size_t file_len, const char *text, size_t size) {
    for (size_t room = 0; room <= size + 1; room++) {
        uint64_t returned = map(file_len, room);
        CHECK(returned == (room < size ? HIGLAUPTH_NO_ROOM : size));
        CHECK(memcmp(after, text, room < size ? room : size) == 0);
        CHECK(room <= size || painted(size, room));
    }
    CHECK(map(file_len, sizeof after) == size);
    CHECK(memcmp(after, text, size) == 0 && painted(size, sizeof after));
}

/* The map of the first bytes of `file` is refused with this number; 0 if it is drawn. */
static void check_refusal(size_t file_len, unsigned number) {
    CHECK(higlaupth_map_refusal(after, map(file_len, HIGLAUPTH_MAP_SIZE)) == number);
    CHECK(higlaupth_map_refusal(after, map(file_len, 0)) == 0);
}

/* The map is drawn, and is this text. */
static void check_drawn(size_t file_len, const char *text, size_t size) {
    check_map(file_len, text, size);
    check_refusal(file_len, 0);
}

/* The map is refused with this number. */
static void check_refused(size_t file_len, unsigned number) {
    char text[20];
    check_map(file_len, text, (size_t)sprintf(text, "refused %u\n", number));
    check_refusal(file_len, number);
    CHECK(higlaupth_map_refusal(after, map(file_len, 9)) == 0);
}

/* Whether the number that higlaupth_map_refusal finds in a text is this. */
static int finds(const char *text, unsigned number) {
    return higlaupth_map_refusal((const uint8_t *)text, strlen(text)) == number;
}

/* higlaupth_map_refusal on each refusal, with a byte less or more, and on other texts. */
static void check_refusal_texts(void) {
    char text[20];
    for (unsigned number = 1; number <= LAST_REFUSAL; number++) {
        size_t size = (size_t)sprintf(text, "refused %u\n.", number) - 1;
        CHECK(higlaupth_map_refusal((uint8_t *)text, size) == number);
        CHECK(higlaupth_map_refusal((uint8_t *)text, HIGLAUPTH_NO_ROOM) == 0);
        for (size_t other = 0; other <= size + 1; other++)
            CHECK(other == size || higlaupth_map_refusal((uint8_t *)text, other) == 0);
        for (size_t k = 0; k < size; k++) {
            text[k] ^= 0x40;
            CHECK(higlaupth_map_refusal((uint8_t *)text, size) == 0);
            text[k] ^= 0x40;
        }
    }
    CHECK(higlaupth_map_refusal(NULL, 0) == 0);
    CHECK(higlaupth_map_refusal(NULL, HIGLAUPTH_NO_ROOM) == 0);
    CHECK(finds("refused 0\n", 0) && finds("refused 01\n", 0) && finds("refused :\n", 0));
    CHECK(finds("refused  1\n", 0) && finds("refused /\n", 0) && finds("refused 1.\n", 0));
    CHECK(finds("refused 100\n", 0) && finds("Refused 1\n", 0) && finds("refused 10", 0));
}

/* The map and higlaupth_keep refuse with the same number. */
static void check_both_refused(size_t file_len) {
    uint64_t returned = keep(file_len, HIGLAUPTH_ROWS_SIZE);
    CHECK(higlaupth_refused(returned) && returned != HIGLAUPTH_SHORT_BUFFER);
    check_refused(file_len, (unsigned)returned);
}

/* The map of the sheet of five points, and of what is left of it if it is cut. */
static void check_map_of_five_points(const char *path, const char *map_path) {
    static char text[HIGLAUPTH_MAP_SIZE];
    size_t size = read_into(map_path);
    CHECK(size == 6 * LINE_SIZE);
    memcpy(text, file, size);
    size_t length = read_into(path);
    check_drawn(length, text, size);
    for (size_t cut = 0; cut < length; cut++) check_both_refused(cut);
}

/* A map as large as the page, maps that are too wide or too long for it, no map, and the files of
   the other lengths. */
static void check_page(void) {
    static char text[HIGLAUPTH_MAP_SIZE + 1];
    for (int v = 0; v < HIGLAUPTH_MAP_LINES; v++) {
        char *line = text + v * LINE_SIZE;
        sprintf(line, "%6d ", v);
        memset(line + 7, '.', HIGLAUPTH_MAP_COLUMNS);
        memcpy(line + 7 + HIGLAUPTH_MAP_COLUMNS, " \n", 3);
    }
    text[7] = '#';
    text[HIGLAUPTH_MAP_SIZE - 3] = 'C';
    const int last_u = HIGLAUPTH_MAP_COLUMNS - 1, last_v = HIGLAUPTH_MAP_LINES - 1;
    check_drawn(write_two(last_u, last_v), text, HIGLAUPTH_MAP_SIZE);
    check_refused(write_two(last_u + 1, 0), HIGLAUPTH_MAP_TOO_WIDE);
    check_refused(write_two(0, last_v + 1), HIGLAUPTH_MAP_TOO_WIDE);
    CHECK(!higlaupth_refused(keep(write_two(0, last_v + 1), HIGLAUPTH_ROWS_SIZE)));
    check_both_refused(write_two(8001, 0));
    check_both_refused(write_two(0, 0));

    check_drawn(write_sheet(0), "", 0);
    CHECK(higlaupth_map(file, write_sheet(0), NULL, 0) == 0);
    CHECK(higlaupth_map(NULL, 0, NULL, 0) == HIGLAUPTH_NO_ROOM);
    CHECK(higlaupth_map(NULL, 0, after, 10) == 10 && memcmp(after, "refused 1\n", 10) == 0);

    CHECK(write_weighed(HIGLAUPTH_MOST_POINTS) == HIGLAUPTH_FILE_SIZE);
    CHECK(map(HIGLAUPTH_FILE_SIZE, HIGLAUPTH_MAP_SIZE) == HEIGHT * LINE_SIZE);
    check_both_refused(HIGLAUPTH_FILE_SIZE + 1);
    check_both_refused(write_sheet(HIGLAUPTH_MOST_POINTS + 1));
    check_both_refused(write_sheet(MOST_RECORDS + 1));
    CHECK(write_longest() == HIGLAUPTH_READ_SIZE - 1);
    check_both_refused(HIGLAUPTH_READ_SIZE - 1);
    check_both_refused(HIGLAUPTH_READ_SIZE);
    check_both_refused(sizeof file);
    check_both_refused(write_refused(HIGLAUPTH_STRENGTHS_LENGTH));
    check_both_refused(write_refused(HIGLAUPTH_BAD_STRENGTH));
    check_both_refused(write_refused(HIGLAUPTH_TWO_STRENGTHS));
}

/* Tag 4 after a sheet of two points: any length but 12 is refused with 12, a cut or doubled one with
   1, a number beyond its limit with 13. */
static void check_strengths(void) {
    const float values[] = {16384, -16384, 16384.002f, -16384.002f};
    float strengths[] = {1, 1};
    const size_t length = write_two(1, 0), room = HIGLAUPTH_ROWS_SIZE;
    for (unsigned size = 0; size <= 60; size++) {
        const size_t all = write_strengths(length, size, 1, NULL, 0);
        CHECK(all == length + 3 + size);
        if (size == 12)
            CHECK(!higlaupth_refused(keep(all, room)));
        else
            CHECK(keep(all, room) == HIGLAUPTH_STRENGTHS_LENGTH);
        for (size_t cut = length + 1; cut < all; cut++)
            CHECK(keep(cut, room) == HIGLAUPTH_MISFRAMED);
    }
    for (int k = 0; k < 4; k++) {
        /* The second strength, and then the fraction. */
        strengths[1] = values[k];
        const uint64_t one = keep(write_strengths(length, 12, 1, strengths, 2), room);
        strengths[1] = 1;
        const uint64_t other = keep(write_strengths(length, 12, values[k], strengths, 2), room);
        if (k < 2)
            CHECK(!higlaupth_refused(one) && !higlaupth_refused(other));
        else
            CHECK(one == HIGLAUPTH_BAD_STRENGTH && other == HIGLAUPTH_BAD_STRENGTH);
    }
    const size_t once = write_strengths(length, 12, 1, strengths, 2);
    CHECK(keep(write_strengths(once, 12, 1, strengths, 2), room) == HIGLAUPTH_MISFRAMED);
}

/* A chain of five that loses one point a round but for the last: the number, the rows, the map, and
   the same of the most points. */
static void check_weak_ends(void) {
    static float strengths[HIGLAUPTH_MOST_POINTS];
    static point points[HIGLAUPTH_MOST_POINTS];
    const unsigned counts[] = {1, 5, HIGLAUPTH_MOST_POINTS};
    for (int n = 0; n < 3; n++) {
        const unsigned count = counts[n];
        for (unsigned k = 0; k < count; k++) {
            point p = {(int)k, 0, k, 7.0f * (float)k, 0};
            points[k] = p;
            strengths[k] = k + 1 < count ? 1 : 2;
        }
        size_t length = write_points(7, points, count);
        length = write_strengths(length, 4 + 4 * count, 2, strengths, count);
        /* The one point alone is weak too: its strength is the median. */
        const unsigned rounds = count == 1 ? 1 : count - 1, left = count == 1 ? 0 : 1;
        uint64_t returned = keep(length, HIGLAUPTH_ROWS_SIZE);
        CHECK(returned == ((uint64_t)rounds << 48) + ((uint64_t)1 << 32) + (count << 16) + left);
        CHECK(!higlaupth_refused(returned) && higlaupth_rounds(returned) == rounds);
        CHECK(higlaupth_points(returned) == count && higlaupth_components(returned) == left);
        for (unsigned k = 0; k < count; k++) {
            const unsigned marks = after[k * HIGLAUPTH_ROW_SIZE + HIGLAUPTH_MARKS];
            CHECK(marks == (k < rounds ? HIGLAUPTH_MARK_LEAF : 0));
        }
        CHECK(check_fills(length, points, count) == rounds);
        if (count == 5) {
            char text[LINE_SIZE + 1] = "     0 LLLL#";
            memset(text + 12, '.', LINE_SIZE - 14);
            memcpy(text + LINE_SIZE - 2, " \n", 3);
            check_drawn(length, text, LINE_SIZE);
        } else if (count > HIGLAUPTH_MAP_COLUMNS) {
            check_refused(length, HIGLAUPTH_MAP_TOO_WIDE);
        }
        uint32_t numbers[NUMBERS] = {0}, expected[NUMBERS] = {0};
        expected[SHEETS] = 1;
        expected[NEW_SUMS] = left;
        expected[NEW_SUMS + 4] = rounds;
        CHECK(keep_in_run(length, HIGLAUPTH_ROWS_SIZE, numbers) == returned);
        CHECK(memcmp(numbers, expected, sizeof expected) == 0);
    }
}

/* The record is twelve u32s in their order; the sums stand in the order of the tally, the old ones
   without `leaf`. */
static void check_record(void) {
    typedef struct {
        char before;
        higlaupth_run run;
    } later;
#define OLD(name) offsetof(higlaupth_old_sums, name)
#define NEW(name) {#name, offsetof(higlaupth_new_sums, name)}
    const size_t old_sums[] = {OLD(kept), OLD(validate), OLD(orientation), OLD(wrong),
                               OLD(component)};
    const struct {
        const char *name;
        size_t at;
    } new_sums[] = {NEW(kept),  NEW(validate), NEW(orientation),
                    NEW(wrong), NEW(leaf),     NEW(component)};
    CHECK(sizeof old_sums / sizeof *old_sums == OLD_SUMS);
    CHECK(sizeof new_sums / sizeof *new_sums == SUMS && HIGLAUPTH_FILTERS + 1 == SUMS);
    for (unsigned k = 0; k < OLD_SUMS; k++) CHECK(old_sums[k] == 4 * k);
    for (unsigned k = 0; k < SUMS; k++) {
        CHECK(new_sums[k].at == 4 * k);
        CHECK(k == 0 || strcmp(new_sums[k].name, higlaupth_filter_at(k - 1).word) == 0);
    }
#undef OLD
#undef NEW
    CHECK(sizeof(higlaupth_old_sums) == 4 * OLD_SUMS && sizeof(higlaupth_new_sums) == 4 * SUMS);
    CHECK(offsetof(higlaupth_run, old_sums) == 0);
    CHECK(offsetof(higlaupth_run, sheets) == 4 * SHEETS);
    CHECK(offsetof(higlaupth_run, new_sums) == 4 * NEW_SUMS);
    CHECK(sizeof(higlaupth_run) == 4 * NUMBERS && 4 * NUMBERS == 48);
    CHECK(offsetof(later, run) == sizeof(uint32_t));
}

/* Both functions that start a record write all of it, whatever was there. */
static void check_started(void) {
    const uint32_t handed_in[][OLD_SUMS] = {
        {0, 0, 0, 0, 0},
        {812, 40, 3, 25, 120},
        {0x7FFFFFFF, 0x80000000, 65535, 65536, 1},
        {0xFFFFFFFF, 0xFFFFFFFF, 0xFFFFFFFF, 0xFFFFFFFF, 0xFFFFFFFF},
    };
    uint32_t before[NUMBERS], numbers[NUMBERS];
    memset(before, PAINT, sizeof before);
    lend(before);
    higlaupth_run_new(lent);
    take_back(numbers);
    for (int k = 0; k < NUMBERS; k++) CHECK(numbers[k] == 0);

    for (size_t n = 0; n < sizeof handed_in / sizeof *handed_in; n++) {
        higlaupth_old_sums *old_sums = (higlaupth_old_sums *)malloc(sizeof *old_sums);
        if (!old_sums) abort();
        memcpy(old_sums, handed_in[n], sizeof *old_sums);
        lend(before);
        higlaupth_run_from_old_sums(old_sums, lent);
        CHECK(memcmp(old_sums, handed_in[n], sizeof *old_sums) == 0);
        free(old_sums);
        take_back(numbers);
        for (int k = 0; k < NUMBERS; k++) CHECK(numbers[k] == (k < SHEETS ? handed_in[n][k] : 0));
    }
}

/* The sheet in the first bytes of `file` is added to the run: number and rows are those of
   higlaupth_keep, one sheet more is counted, the new sums grow by this tally, and the old sums
   stand. The numbers are then the record after it. */
static void check_added(size_t file_len, size_t rows_len, uint32_t *numbers,
                        const uint32_t *tally) {
    static uint8_t rows[sizeof after];
    uint32_t expected[NUMBERS];
    memcpy(expected, numbers, sizeof expected);
    expected[SHEETS]++;
    for (int k = 0; k < SUMS; k++) expected[NEW_SUMS + k] += tally[k];
    uint64_t returned = keep(file_len, rows_len);
    memcpy(rows, after, rows_len);
    CHECK(!higlaupth_refused(returned));
    CHECK(keep_in_run(file_len, rows_len, numbers) == returned);
    CHECK(memcmp(after, rows, rows_len) == 0);
    CHECK(memcmp(numbers, expected, sizeof expected) == 0);
}

/* It is refused with this number, and neither rows nor record change. */
static void check_not_added(size_t file_len, size_t rows_len, const uint32_t *numbers,
                            unsigned number) {
    uint32_t then[NUMBERS];
    memcpy(then, numbers, sizeof then);
    CHECK(keep_in_run(file_len, rows_len, then) == number);
    CHECK(painted(0, rows_len));
    CHECK(memcmp(then, numbers, sizeof then) == 0);
}

/* A sheet without repeated indices with a different number under each word of the tally, by lines of
   three. The last six points are weak and have no neighbours. */
static const point twenty_one[] = {
    {0, 1, 1, 0, 100},        {0, 2, 2, 0, 200},        {1, 0, 3, 100, 0},
    {1, 1, 4, 0, 0},          {1, 2, 5, 100, 200},      {2, 0, 6, 230, -30},
    {2, 2, 7, 200, 200},      {3, 0, 8, 300, 0},        {3, 1, 9, 300, 100},
    {3, 2, 10, 330, 170},     {4, 0, 11, 400, 0},       {4, 2, 12, 400, 200},
    {10, 10, 13, 1000, 1000}, {12, 13, 14, 1250, 1000}, {14, 16, 15, 1500, 1000},
    {20, 20, 16, 2000, 2000}, {22, 23, 17, 2200, 2300}, {24, 26, 18, 2400, 2600},
    {26, 29, 19, 2600, 2900}, {28, 32, 20, 2800, 3200}, {30, 35, 21, 3000, 3500},
};
static const float strengths_of_21[] = {4, 4, 4, 4, 4, 4, 4, 4, 4, 4, 4, 4, 4, 4, 4,
                                        1, 1, 1, 1, 1, 1};
static const uint32_t tally_of_21[SUMS] = {2, 5, 3, 1, 6, 4};

static size_t write_21(void) {
    const size_t length = write_list(write_settings(3, 1), twenty_one, 21);
    return write_strengths(length, 4 + 4 * 21, 0.5f, strengths_of_21, 21);
}

/* The tally of an accepted sheet without repeated indices, from the rows in `after`. */
static void count_rows(unsigned points, uint32_t *tally) {
    memset(tally, 0, SUMS * sizeof *tally);
    for (unsigned k = 0; k < points; k++) {
        unsigned marks = after[k * HIGLAUPTH_ROW_SIZE + HIGLAUPTH_MARKS], place = 0;
        while (place < HIGLAUPTH_FILTERS && !(marks & higlaupth_filter_at(place).mark)) place++;
        tally[place < HIGLAUPTH_FILTERS ? 1 + place : 0]++;
    }
}

/* A run of accepted sheets: without points, with different numbers, in a buffer that just suffices,
   as large as may be. An index at several cells is counted once, wherever it is counted. */
static void check_accepted(void) {
    const point wrong[] = {{0, 0, 7, 0, 0}, {1, 0, 7, 0, 0}, {0, 1, 8, 0, 100}};
    const point kept[] = {{0, 0, 7, 0, 0}, {1, 0, 7, 0, 0}};
    const point component[] = {{0, 0, 7, 0, 0}, {5, 5, 7, 0, 0}};
    const point leaf[] = {{0, 0, 7, 0, 0}, {5, 5, 7, 0, 0}, {1, 0, 8, 0, 0}, {0, 1, 9, 0, 0}};
    const float of_leaf[] = {1, 1, 4, 4};
    const uint32_t none[SUMS] = {0}, one_kept[SUMS] = {1}, one_wrong[SUMS] = {1, 0, 0, 1, 0, 0};
    const uint32_t one_component[SUMS] = {0, 0, 0, 0, 0, 1}, one_leaf[SUMS] = {1, 0, 0, 0, 1, 1};
    uint32_t numbers[NUMBERS] = {1, 0xFFFFFFFF, 0x80000000, 65535, 0}, tally[SUMS];
    check_added(write_sheet(0), 0, numbers, none);
    check_added(write_21(), 21 * HIGLAUPTH_ROW_SIZE, numbers, tally_of_21);
    check_added(write_21(), sizeof after, numbers, tally_of_21);
    count_rows(21, tally);
    CHECK(memcmp(tally, tally_of_21, sizeof tally) == 0);
    CHECK(check_fills(write_21(), twenty_one, 21) == 21 - tally_of_21[0]);

    check_added(write_points(100, wrong, 3), HIGLAUPTH_ROWS_SIZE, numbers, one_wrong);
    check_added(write_points(0, kept, 2), HIGLAUPTH_ROWS_SIZE, numbers, one_kept);
    check_added(write_points(0, component, 2), HIGLAUPTH_ROWS_SIZE, numbers, one_component);
    /* Index 7 joins two others at one cell and is a weak end at the other: it goes at both, and of
       the two that are left, apart, the first is kept. */
    const size_t length = write_strengths(write_points(0, leaf, 4), 20, 0.5f, of_leaf, 4);
    check_added(length, HIGLAUPTH_ROWS_SIZE, numbers, one_leaf);

    keep(write_weighed(HIGLAUPTH_MOST_POINTS), HIGLAUPTH_ROWS_SIZE);
    count_rows(HIGLAUPTH_MOST_POINTS, tally);
    check_added(HIGLAUPTH_FILE_SIZE, HIGLAUPTH_ROWS_SIZE, numbers, tally);
    CHECK(numbers[SHEETS] == 8);
}

/* The sheet of 21 points is added to a run with this record, or refused with 11. */
static void check_21(uint32_t *numbers, int added) {
    const size_t length = write_21();
    if (added)
        check_added(length, HIGLAUPTH_ROWS_SIZE, numbers, tally_of_21);
    else
        check_not_added(length, HIGLAUPTH_ROWS_SIZE, numbers, HIGLAUPTH_RUN_FULL);
}

/* Each number of a record at and beside the limits, of which old sums have none; all at once; and
   the last sheets of a run. */
static void check_limits(void) {
    const uint32_t values[] = {1,          65533,      65534,      65535,     65536,
                               0x7FFFFFFE, 0x7FFFFFFF, 0x80000000, 0xFFFFFFFF};
    uint32_t numbers[NUMBERS];
    for (int place = 0; place < NUMBERS; place++) {
        const uint32_t limit = place == SHEETS ? HIGLAUPTH_MOST_SHEETS : HIGLAUPTH_SUM_LIMIT;
        for (size_t k = 0; k < sizeof values / sizeof *values; k++) {
            memset(numbers, 0, sizeof numbers);
            numbers[place] = values[k];
            check_21(numbers, place < SHEETS || values[k] < limit);
        }
    }
    for (int place = 0; place < NUMBERS; place++)
        numbers[place] = place < SHEETS ? 0xFFFFFFFF : place == SHEETS ? 65534 : 0x7FFFFFFF;
    check_21(numbers, 1);
    check_21(numbers, 0);

    memset(numbers, 0, sizeof numbers);
    numbers[SHEETS] = 65530;
    for (int k = 0; k < 5; k++) check_21(numbers, 1);
    check_21(numbers, 0);
}

/* Each refusal of higlaupth_keep, and 11 before it if the record takes no more. */
static void check_refusals_in_run(void) {
    uint32_t numbers[NUMBERS] = {1, 2, 3, 4, 5, 6, 7, 8, 9, 10, 11, 12}, full[NUMBERS] = {0};
    full[SHEETS] = HIGLAUPTH_MOST_SHEETS;
    for (unsigned k = 0; k < REFUSALS; k++) {
        const unsigned number = refusals[k];
        size_t length = write_refused(number);
        size_t room = HIGLAUPTH_ROWS_SIZE;
        if (number == HIGLAUPTH_SHORT_BUFFER) room = 2 * HIGLAUPTH_ROW_SIZE - 1;
        CHECK(keep(length, room) == number);
        check_not_added(length, room, numbers, number);
        check_not_added(length, room, full, HIGLAUPTH_RUN_FULL);
        check_not_added(length, 0, full, HIGLAUPTH_RUN_FULL);
    }
    CHECK(higlaupth_refused(HIGLAUPTH_RUN_FULL));

    higlaupth_run run;
    memcpy(&run, numbers, sizeof run);
    CHECK(higlaupth_keep_in_run(NULL, 0, NULL, 0, &run) == HIGLAUPTH_MISFRAMED);
    CHECK(memcmp(&run, numbers, sizeof run) == 0);
    CHECK(higlaupth_keep_in_run(file, write_sheet(0), NULL, 0, &run) == (uint64_t)1 << 32);
    CHECK(run.sheets == numbers[SHEETS] + 1);
    memcpy(&run, full, sizeof run);
    CHECK(higlaupth_keep_in_run(NULL, 0, NULL, 0, &run) == HIGLAUPTH_RUN_FULL);
    CHECK(memcmp(&run, full, sizeof run) == 0);
}

/* 11 is found before the file is read: file and buffer may then be memory that nobody may touch. */
static void check_untouched(void) {
    enum { CLOSED = 4096 };
    void *memory = mmap(NULL, CLOSED, PROT_NONE, MAP_PRIVATE | MAP_ANONYMOUS, -1, 0);
    if (memory == MAP_FAILED) abort();
    uint8_t *closed = (uint8_t *)memory;
    higlaupth_run run;
    higlaupth_run_new(&run);
    run.sheets = HIGLAUPTH_MOST_SHEETS;
    CHECK(higlaupth_keep_in_run(closed, CLOSED / 2, closed + CLOSED / 2, CLOSED / 2, &run) ==
          HIGLAUPTH_RUN_FULL);
    munmap(memory, CLOSED);
}

/* A root is three int32s in their order. */
static void check_root_numbers(void) {
    typedef struct {
        char before;
        higlaupth_whole_root whole;
    } later;
    CHECK(sizeof(higlaupth_whole_root) == 12 && offsetof(later, whole) == sizeof(int32_t));
    CHECK(offsetof(higlaupth_whole_root, root) == 0);
    CHECK(offsetof(higlaupth_whole_root, power) == 4);
    CHECK(offsetof(higlaupth_whole_root, remainder) == 8);
    CHECK(higlaupth_float_bits(2) == 0x40000000 && higlaupth_float_bits(-0.0f) == 0x80000000);
}

/* What the memory of the root holds after a call. */
static higlaupth_whole_root found;

/* The call on these bits, with painted memory whose place is a multiple of 4 and not of 8, as an
   int32_t's may be: first it ends where its heap block does, then painted bytes stand after it. */
static int32_t find_root(uint32_t word) {
    enum { BESIDE = sizeof(int32_t), END = BESIDE + sizeof found };
    int32_t returned[2];
    for (int after_it = 0; after_it < 2; after_it++) {
        const size_t size = END + (after_it ? BESIDE : 0);
        uint8_t *block = (uint8_t *)malloc(size);
        if (!block) abort();
        memset(block, PAINT, size);
        returned[after_it] = higlaupth_root(word, (higlaupth_whole_root *)(block + BESIDE));
        for (size_t k = 0; k < size; k++)
            if (k < BESIDE || k >= END) CHECK(block[k] == PAINT);
        CHECK(!after_it || memcmp(block + BESIDE, &found, sizeof found) == 0);
        memcpy(&found, block + BESIDE, sizeof found);
        free(block);
    }
    CHECK(returned[0] == returned[1]);
    return returned[0];
}

static void check_found(uint32_t word, int32_t root, int32_t power, int32_t remainder) {
    CHECK(find_root(word) == 1);
    CHECK(found.root == root && found.power == power && found.remainder == remainder);
}

/* There is neither root nor remainder, and nothing is written. */
static void check_neither(uint32_t word) {
    uint8_t paint[sizeof found];
    memset(paint, PAINT, sizeof paint);
    CHECK(find_root(word) == 0);
    CHECK(memcmp(&found, paint, sizeof paint) == 0);
}

/* Roots that were worked out, and numbers that have none: the first and the last of each kind, and
   NaNs of either sign with each bit. */
static void check_given_roots(void) {
    const struct {
        uint32_t word;
        int32_t root, power, remainder;
    } given[] = {
        {0, 0, 0, 0},
        {0x80000000, 0, 0, 0},
        {0x00000001, 11863283, 196, 4817239},
        {0x00000002, 8388608, 194, 0},
        {0x00000003, 10273905, 194, -7682529},
        {0x007FFFFF, 16777215, 174, -1},
        {0x00800000, 8388608, 172, 0},
        {0x3F800000, 8388608, 46, 0},
        {0x3F800001, 8388608, 46, 8388608},
        {0x3F800002, 8388609, 46, -1},
        {0x3FFC114A, 11771814, 46, -11771812},
        {0x40000000, 11863283, 46, 4817239},
        {0x40A00000, 9378749, 44, -2582921},
        {0x41100000, 12582912, 44, 0},
        {0x41C80000, 10485760, 42, 0},
        {0x7F7FFFFF, 16777215, -80, 16777215},
    };
    const uint32_t neither[] = {0xBF800000, 0x80000001, 0x807FFFFF, 0x80800000, 0xFF7FFFFF,
                                0x7F800000, 0xFF800000, 0x7FFFFFFF, 0xFFFFFFFF};
    for (size_t k = 0; k < sizeof given / sizeof *given; k++)
        check_found(given[k].word, given[k].root, given[k].power, given[k].remainder);
    for (size_t k = 0; k < sizeof neither / sizeof *neither; k++) check_neither(neither[k]);
    for (int k = 0; k < 23; k++) {
        check_neither(0x7F800000 | (uint32_t)1 << k);
        check_neither(0xFF800000 | (uint32_t)1 << k);
    }
}

/* Whatever the bits: whether there is a root, and what is said of it, in whole numbers and by the
   machine's own root. */
static void check_root(uint32_t word) {
    const uint32_t exponent = word >> 23 & 0xFF, fraction = word & 0x7FFFFF;
    if (exponent == 0 && fraction == 0) {
        check_found(word, 0, 0, 0);
        return;
    }
    if (word >> 31 || exponent == 0xFF) {
        check_neither(word);
        return;
    }
    CHECK(find_root(word) == 1);
    /* The number is whole * 2^(least - 150), and R is whole * 2^moved. */
    const uint64_t whole = exponent > 0 ? 0x800000 + fraction : fraction;
    const int least = exponent > 0 ? (int)exponent : 1, moved = least - 150 + found.power;
    CHECK(found.power % 2 == 0 && found.power >= -80 && found.power <= 196);
    CHECK(moved >= 0 && moved < 48);
    if (moved < 0 || moved >= 48) return;
    const uint64_t scaled = whole << moved;
    CHECK(scaled >> moved == whole && scaled >> 46 > 0 && scaled >> 48 == 0);
    const int64_t s = found.root, remainder = found.remainder;
    CHECK(s >= 1 << 23 && s < 1 << 24);
    CHECK((int64_t)scaled == s * s + remainder);
    CHECK(1 - s <= remainder && remainder <= s);

    const float number = number_with(word), root = sqrtf(number);
    const uint32_t unit = (uint32_t)(127 - found.power / 2); /* the exponent of 2^-(power / 2) */
    CHECK(higlaupth_float_bits(number) == word);
    CHECK(bits(root) == bits((float)found.root * number_with(unit << 23)));
    CHECK((remainder == 0) == ((double)root * (double)root == (double)number));
}

/* Every 4,093rd pattern of bits, those about each exponent of either sign, and the squares of whole
   numbers, times a power of four, with those beside them. */
static void check_roots(void) {
    for (uint32_t word = 0; word < 0xFFFFFFFF - 4093; word += 4093) check_root(word);
    for (uint32_t k = 0; k < 512; k++)
        for (uint32_t n = 0; n < 130; n++) check_root((k << 23) + n - 65);
    for (int k = 1; k < 4096; k++)
        for (int fours = -60; fours <= 52; fours += 16) {
            const uint32_t word = bits(ldexpf((float)(k * k), 2 * fours));
            check_root(word);
            CHECK(found.remainder == 0);
            check_root(word - 1);
            check_root(word + 1);
        }
}

/* A cross of five points whose middle is off its lines of three. The cell size alone stands for the
   line minimum 4: no point is marked, as with 4 spelled out. With 3 spelled out the middle is. */
static void check_short_settings(void) {
    const point cross[] = {
        {0, 1, 1, 0, 100}, {1, 0, 2, 100, 0}, {1, 1, 3, 130, 130}, {1, 2, 4, 100, 200}, {2, 1, 5, 200, 100}};
    static uint8_t rows[sizeof after];
    const size_t size = 5 * HIGLAUPTH_ROW_SIZE;
    uint64_t returned = keep(write_points(100, cross, 5), size);
    CHECK(!higlaupth_refused(returned) && higlaupth_components(returned) == 1);
    for (int k = 0; k < 5; k++) CHECK(after[k * HIGLAUPTH_ROW_SIZE + HIGLAUPTH_MARKS] == 0);
    memcpy(rows, after, size);

    CHECK(keep(write_list(write_settings(4, 1), cross, 5), size) == returned);
    CHECK(memcmp(after, rows, size) == 0);

    returned = keep(write_list(write_settings(3, 1), cross, 5), size);
    CHECK(higlaupth_components(returned) == 4);
    for (int k = 0; k < 5; k++)
        CHECK((after[k * HIGLAUPTH_ROW_SIZE + HIGLAUPTH_MARKS] & HIGLAUPTH_MARK_VALIDATE) == (k == 2));
}

/* What is added to the cells and to the positions of the right half. */
typedef struct {
    int32_t du, dv;
    float dx, dy;
} move;

/* A half of a sheet as a list: its points, with their strengths or NULL. */
typedef struct {
    const point *points;
    unsigned count;
    const float *strengths;
} half;

/* The two files of a join, and their lengths. */
enum { LEFT, RIGHT };
static uint8_t halves[2][sizeof file];
static size_t half_lens[2];

/* The first bytes of `file` are that half. */
static void set_half(int side, size_t length) {
    memcpy(halves[side], file, length);
    half_lens[side] = length;
}

/* higlaupth_join on the halves with a painted buffer, which is then in `after`. */
static uint64_t join(move by, size_t rows_len) {
    uint8_t *bytes[2], *rows = (uint8_t *)malloc(rows_len);
    for (int side = 0; side < 2; side++) {
        bytes[side] = (uint8_t *)malloc(half_lens[side]);
        if (!bytes[side] || !rows) abort();
        memcpy(bytes[side], halves[side], half_lens[side]);
    }
    memset(rows, PAINT, rows_len);
    const uint64_t returned =
        higlaupth_join(bytes[LEFT], half_lens[LEFT], bytes[RIGHT], half_lens[RIGHT], by.du, by.dv,
                       by.dx, by.dy, rows, rows_len);
    for (int side = 0; side < 2; side++) {
        CHECK(memcmp(bytes[side], halves[side], half_lens[side]) == 0);
        free(bytes[side]);
    }
    memcpy(after, rows, rows_len);
    free(rows);
    return returned;
}

static const move stay = {0, 0, 0, 0};

/* The halves are refused with this number, and nothing is written. */
static void check_unjoined(move by, size_t rows_len, unsigned number) {
    CHECK(join(by, rows_len) == number && painted(0, rows_len));
}

/* The halves are accepted: so many points, patches and rounds. */
static void check_joined(move by, size_t rows_len, unsigned points, unsigned components,
                         unsigned rounds) {
    const uint64_t returned = join(by, rows_len);
    CHECK(returned == ((uint64_t)rounds << 48) + ((uint64_t)1 << 32) + (points << 16) + components);
    CHECK(!higlaupth_refused(returned) && higlaupth_points(returned) == points);
    CHECK(higlaupth_components(returned) == components && higlaupth_rounds(returned) == rounds);
    CHECK(painted(points * HIGLAUPTH_ROW_SIZE, rows_len));
}

/* The refusal number that the halves are refused with, or 0. */
static unsigned join_refusal(move by) {
    const uint64_t returned = join(by, HIGLAUPTH_ROWS_SIZE);
    CHECK(!higlaupth_refused(returned) || painted(0, HIGLAUPTH_ROWS_SIZE));
    return higlaupth_refused(returned) ? (unsigned)returned : 0;
}

/* Writes a list with its tag 4, if it has one, at a place of `file`. Returns the length of all. */
static size_t write_half(uint8_t *at, half list, float fraction) {
    const size_t length = write_list(at, list.points, list.count);
    if (!list.strengths) return length;
    return write_strengths(length, 4 + 4 * list.count, fraction, list.strengths, list.count);
}

/* The joined list by the rules, with its strengths. Returns how many. */
static unsigned join_lists(half left, half right, move by, point *points, float *strengths) {
    unsigned count = left.count;
    for (unsigned k = 0; k < left.count; k++) {
        points[k] = left.points[k];
        if (left.strengths) strengths[k] = left.strengths[k];
    }
    for (unsigned k = 0; k < right.count; k++) {
        point p = right.points[k];
        int taken = 0;
        p.u += by.du;
        p.v += by.dv;
        p.index += 0x80000000;
        p.x += by.dx;
        p.y += by.dy;
        for (unsigned n = 0; n < left.count; n++)
            taken |= left.points[n].u == p.u && left.points[n].v == p.v;
        if (taken) continue;
        if (right.strengths) strengths[count] = right.strengths[k];
        points[count++] = p;
    }
    return count;
}

/* Writes into `file` settings with lines of three and the original's gate. Returns where they
   end. */
static uint8_t *write_gated(void) {
    write_sheet(0);
    return file + 24 + 20;
}

/* Number and rows of two halves are those of higlaupth_keep on the file of the joined list, with the
   left settings and fraction; each half is listed in either order, the right one with other
   settings. Buffers that just suffice for the three lists and longer ones; a byte less is refused.
   Returns the number. */
static uint64_t check_as_list(half left, half right, move by) {
    static point points[HIGLAUPTH_MOST_POINTS];
    static float strengths[HIGLAUPTH_MOST_POINTS];
    static uint8_t rows[HIGLAUPTH_ROWS_SIZE];
    const half list = {points, join_lists(left, right, by, points, strengths),
                       left.strengths ? strengths : NULL};
    const uint64_t expected = keep(write_half(write_gated(), list, 0.5f), HIGLAUPTH_ROWS_SIZE);
    const size_t size = (size_t)HIGLAUPTH_ROW_SIZE * list.count;
    const unsigned most = left.count > right.count ? left.count : right.count;
    const size_t least = HIGLAUPTH_ROW_SIZE * (size_t)(most > list.count ? most : list.count);
    const size_t room[] = {least, least + 1, HIGLAUPTH_ROWS_SIZE, sizeof after};
    CHECK(!higlaupth_refused(expected) && higlaupth_points(expected) == list.count);
    memcpy(rows, after, sizeof rows);
    set_half(LEFT, write_half(write_gated(), left, 0.5f));
    set_half(RIGHT, write_half(write_settings(65535, 0), right, 16384));
    for (int k = 0; k < 4; k++) {
        CHECK(join(by, room[k]) == expected);
        CHECK(memcmp(after, rows, size) == 0 && painted(size, room[k]));
    }
    if (least > 0) check_unjoined(by, least - 1, HIGLAUPTH_SHORT_BUFFER);
    return expected;
}

/* The same halves with the points in the other order. */
static void check_turned(half left, half right, move by) {
    point points[2][16];
    float strengths[2][16];
    half turned[2] = {left, right};
    for (int side = 0; side < 2; side++) {
        const half given = turned[side];
        for (unsigned k = 0; k < given.count; k++) {
            points[side][k] = given.points[given.count - 1 - k];
            if (given.strengths) strengths[side][k] = given.strengths[given.count - 1 - k];
        }
        turned[side].points = points[side];
        if (given.strengths) turned[side].strengths = strengths[side];
    }
    const uint64_t returned = check_as_list(left, right, by);
    CHECK(check_as_list(turned[LEFT], turned[RIGHT], by) == returned);
}

/* A board of 3 by 3 that two cameras see: the left one its columns 0 and 1, the right one 1 and 2 as
   its own -4 and -3, two lines lower and 500 pixels away, with another index for each point. The
   second column of the right half is 30 pixels off at two points, and so is the first at one, which
   the left half has too; the strengths of the left half are small. */
static const point left_columns[] = {{0, 0, 1, 0, 0},   {0, 1, 2, 0, 100},   {0, 2, 3, 0, 200},
                                     {1, 0, 4, 100, 0}, {1, 1, 5, 100, 100}, {1, 2, 6, 100, 200}};
static const point right_columns[] = {
    {-4, -2, 1, 600, 0}, {-4, -1, 2, 630, 100}, {-4, 0, 3, 600, 200},
    {-3, -2, 9, 700, 0}, {-3, -1, 8, 730, 100}, {-3, 0, 7, 700, 230}};
static const float left_strengths[] = {1, 1, 1, 1, 1, 1}, right_strengths[] = {4, 4, 4, 9, 9, 9};
static const move onto = {5, 2, -500, 0};

/* The board, joined: with and without strengths; at every offset that has the halves near one
   another, so that none, some and all points of the right half are gone. */
static void check_board(void) {
    const half lefts[] = {{left_columns, 6, NULL}, {left_columns, 6, left_strengths}};
    const half rights[] = {{right_columns, 6, NULL}, {right_columns, 6, right_strengths}};
    for (int k = 0; k < 2; k++) {
        CHECK(higlaupth_points(check_as_list(lefts[k], rights[k], onto)) == 9);
        for (int32_t du = onto.du - 4; du <= onto.du + 4; du++)
            for (int32_t dv = onto.dv - 4; dv <= onto.dv + 4; dv++) {
                const move by = {du, dv, -600 + 100.0f * (float)(du - 4), 100.0f * (float)(dv - 2)};
                check_turned(lefts[k], rights[k], by);
            }
        const half none = {NULL, 0, k ? left_strengths : NULL};
        CHECK(higlaupth_points(check_as_list(lefts[k], none, onto)) == 6);
        CHECK(higlaupth_points(check_as_list(none, rights[k], onto)) == 6);
        CHECK(higlaupth_points(check_as_list(none, none, onto)) == 0);
    }
}

/* Rows that were worked out. A row of seven points, of which the left half has three with the
   strengths 3, 4, 4 and the right one five, the first of them at the left half's last cell: the
   median of 3, 4, 4, 8, 8, 8, 8 is 8, so that by the fraction 0.5 the first point is weak; by that of
   the left half, 4, it would not be. Then the same with a gap: the median of 1, 3, 4, 4, 8, 8, 8, 8
   is 8, both first points are weak, and of two patches the left one, which is smaller, goes. */
static void check_worked_out(void) {
    const point lefts[] = {{0, 0, 1, 0, 0}, {1, 0, 2, 100, 0}, {2, 0, 3, 200, 0}};
    const point rights[] = {{10, 7, 1, 0, 50},
                            {11, 7, 2, 100, 50},
                            {12, 7, 3, 200, 50},
                            {13, 7, 4, 300, 50},
                            {14, 7, 5, 400, 50}};
    const float weak[] = {3, 4, 4}, strong[] = {1, 8, 8, 8, 8};
    const move beside = {-8, -7, 200, -50}, apart = {-6, -7, 400, -50};
    const size_t seven = 7 * HIGLAUPTH_ROW_SIZE, eight = 8 * HIGLAUPTH_ROW_SIZE;
    uint8_t expected[8 * HIGLAUPTH_ROW_SIZE] = {0};
    set_half(LEFT, write_strengths(write_points(100, lefts, 3), 16, 0.5f, weak, 3));
    set_half(RIGHT, write_strengths(write_points(7, rights, 5), 24, 16384, strong, 5));
    expected[0] = HIGLAUPTH_MARK_LEAF;
    check_joined(beside, seven, 7, 1, 1);
    CHECK(memcmp(after, expected, seven) == 0);
    check_joined(beside, sizeof after, 7, 1, 1);
    CHECK(memcmp(after, expected, seven) == 0);

    expected[1 * HIGLAUPTH_ROW_SIZE] = HIGLAUPTH_MARK_COMPONENT;
    expected[2 * HIGLAUPTH_ROW_SIZE] = HIGLAUPTH_MARK_COMPONENT;
    expected[3 * HIGLAUPTH_ROW_SIZE] = HIGLAUPTH_MARK_LEAF;
    check_joined(apart, eight, 8, 2, 1);
    CHECK(memcmp(after, expected, eight) == 0);
}

/* A point at x = -0 right of one at x = 0, round a corner: moved by 0 it is at 0, and the cosine is
   0; moved by -0 it stays, and the cosine is -0. */
static void check_zero(void) {
    const point lefts[] = {{0, 0, 1, -100, 0}, {1, 0, 2, 0, 0}};
    const point rights[] = {{2, 0, 1, -0.0f, -100}};
    const half left = {lefts, 2, NULL}, right = {rights, 1, NULL};
    const float zeros[] = {0.0f, -0.0f};
    for (int k = 0; k < 2; k++) {
        const move by = {0, 0, zeros[k], zeros[k]};
        const uint8_t *row = after + HIGLAUPTH_ROW_SIZE;
        uint8_t cosine[4];
        check_as_list(left, right, by);
        CHECK(!higlaupth_refused(join(by, sizeof after)));
        CHECK(row[HIGLAUPTH_PRESENT] & HIGLAUPTH_HAS_CONTINUATION_COSINE);
        write_number(cosine, k ? 0x80000000 : 0, 4);
        CHECK(memcmp(row + HIGLAUPTH_CONTINUATION_COSINE, cosine, 4) == 0);
    }
}

/* One index at two cells of the right half stays one index; where one of its cells is taken by the
   left half, it stands at the other. The left half's own index 7 is another. */
static void check_joined_index(void) {
    const point lefts[] = {{0, 0, 7, 0, 0}}, rights[] = {{0, 0, 7, 300, 0}, {3, 0, 7, 300, 0}};
    const half left = {lefts, 1, NULL}, right = {rights, 2, NULL};
    const move by = {1, 0, 100, 0};
    CHECK(higlaupth_points(check_as_list(left, right, stay)) == 2);
    CHECK(higlaupth_points(check_as_list(left, right, by)) == 3);
}

/* The first bytes of `file`, whose points are one or more, with this index at the first. */
static void write_index(size_t list, uint32_t index) { write_number(file + list + 8, index, 4); }

/* Where the points of write_points stand. */
enum { POINTS = 3 + 4 + 3 };

/* A file of one point with this index, with or without a tag 4. */
static size_t write_one(uint32_t index, int weighed) {
    const point one = {0, 0, index, 0, 0};
    const float strength = 1;
    const size_t length = write_points(100, &one, 1);
    return weighed ? write_strengths(length, 8, 1, &strength, 1) : length;
}

/* Each number of the left file before any of the right one, and each of the right one before 15, 16
   and 17, whatever else is wrong. */
static void check_own_numbers(void) {
    const move bad = {16001, -16001, 0, number_with(0x7FC00000)};
    const size_t less = 2 * HIGLAUPTH_ROW_SIZE - 1;
    for (unsigned k = 0; k < REFUSALS; k++) {
        const unsigned number = refusals[k];
        const size_t room = number == HIGLAUPTH_SHORT_BUFFER ? less : HIGLAUPTH_ROWS_SIZE;
        for (unsigned n = 0; n < REFUSALS; n++) {
            set_half(LEFT, write_refused(number));
            set_half(RIGHT, write_refused(refusals[n]));
            check_unjoined(stay, room, number);
        }
        for (int weighed = 0; weighed < 2; weighed++) {
            set_half(LEFT, write_one(0x80000000, weighed));
            set_half(RIGHT, write_refused(number));
            check_unjoined(bad, room, number);
            set_half(RIGHT, write_one(0x80000000, weighed));
            set_half(LEFT, write_refused(number));
            check_unjoined(bad, room, number);
        }
    }
}

/* 15: an index of 2^31 or more in either file, first or last of its points, before 16 and 17. */
static void check_high_index(void) {
    const move bad = {16001, 0, 0, 0};
    const uint32_t high[] = {0x80000000, 0x80000001, 0xFFFFFFFF};
    for (int side = 0; side < 2; side++)
        for (int last = 0; last < 2; last++) {
            set_half(!side, write_two(5, 5));
            for (int k = 0; k < 3; k++) {
                const size_t length = write_two(1, 0);
                write_index(POINTS + 20 * (size_t)last, high[k]);
                CHECK(!higlaupth_refused(keep(length, HIGLAUPTH_ROWS_SIZE)));
                set_half(side, length);
                check_unjoined(stay, HIGLAUPTH_ROWS_SIZE, HIGLAUPTH_HIGH_INDEX);
                check_unjoined(bad, HIGLAUPTH_ROWS_SIZE, HIGLAUPTH_HIGH_INDEX);
                set_half(side, write_strengths(length, 12, 0, NULL, 0));
                check_unjoined(stay, HIGLAUPTH_ROWS_SIZE, HIGLAUPTH_HIGH_INDEX);
                check_unjoined(bad, HIGLAUPTH_ROWS_SIZE, HIGLAUPTH_HIGH_INDEX);
            }
            const size_t length = write_two(1, 0);
            write_index(POINTS + 20 * (size_t)last, 0x7FFFFFFF);
            set_half(side, length);
            CHECK(join_refusal(stay) == 0);
        }
}

/* 16: each of the four numbers just inside and outside, and floats that are not finite; before 17,
   and on halves without points too. */
static void check_moves(void) {
    const int32_t wholes[] = {-16000, 16000, -16001, 16001, INT32_MIN, INT32_MAX};
    const uint32_t floats[] = {0x46800000, 0xC6800000, 0x80000000, 0x00000001,
                               0x46800001, 0xC6800001, 0x7F800000, 0xFF800000,
                               0x7FC00000, 0xFFC00000, 0x7F800001, 0x7F7FFFFF};
    for (int unlike = 0; unlike < 2; unlike++) {
        const unsigned inside = unlike ? (unsigned)HIGLAUPTH_UNLIKE_HALVES : 0;
        for (int points = 0; points < 2; points++) {
            set_half(LEFT, points ? write_one(1, unlike) : write_sheet(0));
            if (!points && unlike) set_half(LEFT, write_strengths(half_lens[LEFT], 4, 0, NULL, 0));
            set_half(RIGHT, write_points(100, NULL, 0));
            for (int k = 0; k < 6; k++) {
                const move du = {wholes[k], 0, 0, 0}, dv = {0, wholes[k], 0, 0};
                const unsigned number = k < 2 ? inside : (unsigned)HIGLAUPTH_BAD_MOVE;
                CHECK(join_refusal(du) == number && join_refusal(dv) == number);
            }
            for (int k = 0; k < 12; k++) {
                const float number = number_with(floats[k]);
                const move dx = {0, 0, number, 0}, dy = {0, 0, 0, number};
                const unsigned wanted = k < 4 ? inside : (unsigned)HIGLAUPTH_BAD_MOVE;
                CHECK(join_refusal(dx) == wanted && join_refusal(dy) == wanted);
            }
        }
    }
}

/* 17: a tag 4 in one file alone, on either side, with and without points; before 2. */
static void check_unlike(void) {
    for (int side = 0; side < 2; side++) {
        for (int points = 0; points < 2; points++) {
            const size_t length = points ? write_one(1, 0) : write_points(100, NULL, 0);
            set_half(!side, length);
            set_half(side, length);
            CHECK(join_refusal(stay) == 0);
            set_half(side, write_strengths(length, points ? 8 : 4, 0, NULL, 0));
            CHECK(join_refusal(stay) == HIGLAUPTH_UNLIKE_HALVES);
            set_half(!side, half_lens[side]);
            CHECK(join_refusal(stay) == 0);
        }
        const move away = {100, 0, 0, 0};
        set_half(!side, write_sheet(HIGLAUPTH_MOST_POINTS));
        set_half(side, write_weighed(HIGLAUPTH_MOST_POINTS));
        CHECK(join_refusal(away) == HIGLAUPTH_UNLIKE_HALVES);
    }
}

/* Halves of so many points in columns of HEIGHT, the right one so many columns away: the number of
   points of the joined list, or 2. */
static void check_most(unsigned left, unsigned right, int32_t du, unsigned points) {
    const move by = {du, 0, 100.0f * (float)du, 0};
    set_half(LEFT, write_sheet(left));
    set_half(RIGHT, write_sheet(right));
    const uint64_t returned = join(by, HIGLAUPTH_ROWS_SIZE);
    if (points <= HIGLAUPTH_MOST_POINTS)
        CHECK(!higlaupth_refused(returned) && higlaupth_points(returned) == points);
    else
        CHECK(returned == HIGLAUPTH_TOO_MANY_POINTS && painted(0, HIGLAUPTH_ROWS_SIZE));
}

/* 2: more points than a sheet can have, whatever a tag 3 can hold; where some are gone, by what is
   left; before 3, 6 and 7. */
static void check_most_joined(void) {
    const move out = {16000, 0, 16384, 16384};
    const unsigned most = HIGLAUPTH_MOST_POINTS;
    check_most(1152, 1152, 24, 2304);
    check_most(1153, 1152, 25, 2305);
    check_most(1152, 1153, 24, 2305);
    check_most(1153, 1152, 24, 2304);
    check_most(most, 1, 48, 2305);
    check_most(most, 1, 47, 2304);
    check_most(1, most, 1, 2305);
    check_most(1, most, 0, 2304);
    check_most(most, most, 0, 2304);
    check_most(most, most, 1, 2304 + 48);
    check_most(most, most, 48, 4608);
    check_most(most, most, -48, 4608);
    check_unjoined(out, HIGLAUPTH_ROWS_SIZE, HIGLAUPTH_TOO_MANY_POINTS);
    check_most(most, 0, 0, 2304);
    check_most(0, most, 0, 2304);
}

/* The left half has a point at (0, 0), the right one this point. */
static void set_points(int u, int v, float x, float y) {
    const point one = {0, 0, 1, 0, 0}, other = {u, v, 1, x, y};
    set_half(LEFT, write_points(100, &one, 1));
    set_half(RIGHT, write_points(100, &other, 1));
}

/* 6: a moved point just inside and outside the range, and as far as it can be; after 3 and before
   7. */
static void check_moved_cells(void) {
    const struct {
        int from, by;
        unsigned number;
    } cases[] = {{8000, 0, 0},      {8000, 1, 6},      {-8000, 0, 0},       {-8000, -1, 6},
                 {7999, 1, 0},      {-7999, -1, 0},    {-8000, 16000, 0},   {8000, -16000, 0},
                 {-7999, 16000, 6}, {7999, -16000, 6}, {8000, 16000, 6},    {-8000, -16000, 6}};
    for (size_t k = 0; k < sizeof cases / sizeof *cases; k++) {
        const move du = {cases[k].by, 0, 0, 0}, dv = {0, cases[k].by, 0, 0};
        const move du_far = {cases[k].by, 0, 16384, 0}, dv_far = {0, cases[k].by, 0, 16384};
        const unsigned or_7 = cases[k].number ? cases[k].number : (unsigned)HIGLAUPTH_BAD_POSITION;
        const size_t room = 2 * HIGLAUPTH_ROW_SIZE;
        set_points(cases[k].from, 3, 1, 1);
        CHECK(join_refusal(du) == cases[k].number && join_refusal(du_far) == or_7);
        CHECK(higlaupth_refused(join(du_far, room)));
        check_unjoined(du_far, room - 1, HIGLAUPTH_SHORT_BUFFER);
        set_points(3, cases[k].from, 1, 1);
        CHECK(join_refusal(dv) == cases[k].number && join_refusal(dv_far) == or_7);
    }
}

/* 7: by the sum that is rounded once; not of a point that is gone. */
static void check_moved_positions(void) {
    const struct {
        float from, by;
        unsigned number;
    } cases[] = {{16384, 0, 0},         {16384, -16384, 0},         {16384, 16384, 7},
                 {16384, 0.0009f, 0},   {16384, 0.001f, 7},         {-16384, -0.0009f, 0},
                 {-16384, -0.001f, 7},  {0.0009f, 16384, 0},        {0.001f, 16384, 7},
                 {16383.999f, 1e-3f, 0}, {-16384, 16384, 0},        {-16384, -16384, 7}};
    for (size_t k = 0; k < sizeof cases / sizeof *cases; k++) {
        const move dx = {0, 0, cases[k].by, 0}, dy = {0, 0, 0, cases[k].by};
        const move dx_onto = {-1, 0, cases[k].by, 0}, dy_onto = {-1, 0, 0, cases[k].by};
        set_points(1, 0, cases[k].from, 0);
        CHECK(join_refusal(dx) == cases[k].number);
        check_joined(dx_onto, HIGLAUPTH_ROW_SIZE, 1, 1, 0);
        set_points(1, 0, 0, cases[k].from);
        CHECK(join_refusal(dy) == cases[k].number);
        check_joined(dy_onto, HIGLAUPTH_ROW_SIZE, 1, 1, 0);
    }
}

/* Null pointers of length 0. */
static void check_null_halves(void) {
    const uint64_t none = (uint64_t)1 << 32;
    const size_t length = write_points(100, NULL, 0);
    CHECK(higlaupth_join(NULL, 0, NULL, 0, 0, 0, 0, 0, NULL, 0) == HIGLAUPTH_MISFRAMED);
    CHECK(higlaupth_join(file, length, NULL, 0, 0, 0, 0, 0, NULL, 0) == HIGLAUPTH_MISFRAMED);
    CHECK(higlaupth_join(NULL, 0, file, length, 0, 0, 0, 0, NULL, 0) == HIGLAUPTH_MISFRAMED);
    memset(after, PAINT, sizeof after);
    CHECK(higlaupth_join(file, length, NULL, 0, 0, 0, 0, 0, after, 10) == HIGLAUPTH_MISFRAMED);
    CHECK(painted(0, 10));
    CHECK(higlaupth_join(file, length, file, length, 0, 0, 0, 0, NULL, 0) == none);
}

/* Halves in one block: the same bytes, and a right file that is the end of the left one, namely the
   last ten bytes of its last point. */
static void check_shared_halves(void) {
    const point last[] = {{0, 0, 1, 0, 0}, {3, 3, 0x04010203, 32, number_with(0x00000341)}};
    const size_t rows_len = 4 * HIGLAUPTH_ROW_SIZE, length = write_points(100, last, 2), end = 10;
    uint8_t *bytes = (uint8_t *)malloc(length), *rows = (uint8_t *)malloc(rows_len);
    if (!bytes || !rows) abort();
    memcpy(bytes, file, length);
    for (int shared = 0; shared < 2; shared++) {
        const size_t from = shared ? length - end : 0;
        const move by = {2, 0, 200, 0};
        set_half(LEFT, length);
        memcpy(halves[RIGHT], file + from, length - from);
        half_lens[RIGHT] = length - from;
        memset(rows, PAINT, rows_len);
        const uint64_t returned =
            higlaupth_join(bytes, length, bytes + from, length - from, by.du, by.dv, by.dx, by.dy,
                           rows, rows_len);
        CHECK(!higlaupth_refused(returned) && higlaupth_points(returned) == (shared ? 2u : 4u));
        CHECK(join(by, rows_len) == returned);
        CHECK(memcmp(after, rows, rows_len) == 0 && memcmp(bytes, file, length) == 0);
    }
    free(bytes);
    free(rows);
}

static void check_join(void) {
    CHECK(HIGLAUPTH_HIGH_INDEX == 15 && HIGLAUPTH_BAD_MOVE == 16 && HIGLAUPTH_UNLIKE_HALVES == 17);
    CHECK(higlaupth_refused(HIGLAUPTH_UNLIKE_HALVES));
    check_board();
    check_worked_out();
    check_zero();
    check_joined_index();
    check_own_numbers();
    check_high_index();
    check_moves();
    check_unlike();
    check_most_joined();
    check_moved_cells();
    check_moved_positions();
    check_null_halves();
    check_shared_halves();
}

int main(int argc, char **argv) {
    if (argc != 4) return 2;
    check_numbers(argv[1]);
    check_texts(higlaupth_refusal_text, 1, LAST_REFUSAL);
    CHECK(strcmp(higlaupth_refusal_text(0), "no such refusal") == 0);
    check_texts(higlaupth_reason_text, 0, 3);
    check_filters();
    check_five_points(argv[2]);
    check_lengths();
    check_short_settings();
    check_fill_functions();
    check_fills_of_five_points(argv[2]);
    check_cross();
    check_rounding();
    check_repeated_index();
    check_most_fills();
    check_refused_fills();
    check_refusal_texts();
    check_map_of_five_points(argv[2], argv[3]);
    check_page();
    check_strengths();
    check_weak_ends();
    check_record();
    check_started();
    check_accepted();
    check_limits();
    check_refusals_in_run();
    check_untouched();
    check_root_numbers();
    check_given_roots();
    check_roots();
    check_join();
    return failed;
}
