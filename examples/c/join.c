/*
 * Prints what the library finds for each point of two halves of a sheet, joined.
 *
 *   ./install PREFIX
 *   gcc -std=c99 -O2 -IPREFIX/include examples/c/join.c -LPREFIX/lib -lhiglaupth -o join
 *   ./join [LEFT RIGHT DU DV DX DY]
 *
 * LEFT and RIGHT are sheet files, DU and DV whole numbers, DX and DY decimal ones: what is added to
 * the cells and to the positions of the right file. Without arguments it joins two halves of six
 * points. Exit status: 0 if the joined list is accepted, 1 if there is a refusal, 2 if the arguments
 * are wrong, a file cannot be read or the answer cannot be written.
 */
#include "rows.h"

#include <ctype.h>
#include <errno.h>

/* Three rows of a board whose cells are 100 pixels wide, as two cameras see them. The left one sees
   two columns. Its lines have three points, so all 21 bytes of the settings are spelled out, with
   the line minimum 3. */
static const uint8_t left_half[] = {
    1, 21, 0,  0, 0, 200, 66,          /* tag 1, length 21: cell size 100, */
    154, 153, 25, 62,  3, 0,           /* line tolerance 0.15, line minimum 3, */
    205, 204, 76, 62,  0, 0, 0, 0, 0,  /* local tolerance 0.2, step flag 0, step threshold 0, */
    1, 1,                              /* both switches 1 */
    3, 120, 0,
    0, 0, 0, 0,  0, 0, 0, 0,  10, 0, 0, 0,  0, 0, 0, 0,     0, 0, 0, 0,
    1, 0, 0, 0,  0, 0, 0, 0,  11, 0, 0, 0,  0, 0, 200, 66,  0, 0, 0, 0,
    0, 0, 0, 0,  1, 0, 0, 0,  12, 0, 0, 0,  0, 0, 0, 0,     0, 0, 200, 66,
    1, 0, 0, 0,  1, 0, 0, 0,  13, 0, 0, 0,  0, 0, 200, 66,  0, 0, 200, 66,
    0, 0, 0, 0,  2, 0, 0, 0,  14, 0, 0, 0,  0, 0, 0, 0,     0, 0, 72, 67,
    1, 0, 0, 0,  2, 0, 0, 0,  15, 0, 0, 0,  0, 0, 200, 66,  0, 0, 72, 67,
};
/* The right one sees the second column too, as its own first one, and a third. It has the middle
   point of both 30 pixels off; the first of them is in the left half. */
static const uint8_t right_half[] = {
    1, 4, 0,   0, 0, 200, 66,
    3, 120, 0,
    0, 0, 0, 0,  0, 0, 0, 0,  10, 0, 0, 0,  0, 0, 0, 0,     0, 0, 0, 0,
    1, 0, 0, 0,  0, 0, 0, 0,  11, 0, 0, 0,  0, 0, 200, 66,  0, 0, 0, 0,
    0, 0, 0, 0,  1, 0, 0, 0,  12, 0, 0, 0,  0, 0, 240, 65,  0, 0, 200, 66, /* at 30, 100 */
    1, 0, 0, 0,  1, 0, 0, 0,  13, 0, 0, 0,  0, 0, 2, 67,    0, 0, 200, 66, /* at 130, 100 */
    0, 0, 0, 0,  2, 0, 0, 0,  14, 0, 0, 0,  0, 0, 0, 0,     0, 0, 72, 67,
    1, 0, 0, 0,  2, 0, 0, 0,  15, 0, 0, 0,  0, 0, 200, 66,  0, 0, 72, 67,
};

static void refuse_argument(const char *text, const char *wanted) {
    fprintf(stderr, "%s: %s is asked for\n", text, wanted);
    exit(2);
}

/* Whether a text, which is read up to `end`, is a number and nothing else. */
static int is_read(const char *text, const char *end) {
    return end != text && *end == 0 && !isspace((unsigned char)*text);
}

static int32_t read_whole(const char *text) {
    char *end;
    errno = 0;
    const long long number = strtoll(text, &end, 10);
    if (!is_read(text, end) || errno != 0 || number < INT32_MIN || number > INT32_MAX)
        refuse_argument(text, "a whole number of 32 bits");
    return (int32_t)number;
}

static float read_decimal(const char *text) {
    char *end;
    const float number = strtof(text, &end);
    if (!is_read(text, end)) refuse_argument(text, "a decimal number");
    return number;
}

/* The joined list, in the order of the rows: the points of the left file, and those of the right one
   that are in no cell of a left point when they are moved. Returns how many. */
static unsigned join_points(const uint8_t *left, const uint8_t *right, int32_t du, int32_t dv,
                            point *joined) {
    static point rights[HIGLAUPTH_MOST_POINTS];
    const unsigned lefts = read_points(left, joined), count = read_points(right, rights);
    unsigned end = lefts;
    sort_points(joined, lefts);
    for (unsigned k = 0; k < count; k++) {
        const point moved = {rights[k].u + du, rights[k].v + dv, rights[k].index + 0x80000000u};
        if (!bsearch(&moved, joined, lefts, sizeof moved, by_cell)) joined[end++] = moved;
    }
    sort_points(joined, end);
    return end;
}

int main(int argc, char **argv) {
    static uint8_t left[HIGLAUPTH_READ_SIZE], right[HIGLAUPTH_READ_SIZE];
    static uint8_t rows[HIGLAUPTH_ROWS_SIZE];
    static point points[HIGLAUPTH_MOST_POINTS];
    size_t left_len = sizeof left_half, right_len = sizeof right_half;
    int32_t du = 1, dv = 0;
    float dx = 100, dy = 0;
    if (argc == 7) {
        du = read_whole(argv[3]);
        dv = read_whole(argv[4]);
        dx = read_decimal(argv[5]);
        dy = read_decimal(argv[6]);
        left_len = read_file(fopen(argv[1], "rb"), argv[1], left);
        right_len = read_file(fopen(argv[2], "rb"), argv[2], right);
    } else if (argc > 1) {
        fprintf(stderr, "two files and four numbers are asked for, or nothing\n");
        return 2;
    } else {
        memcpy(left, left_half, left_len);
        memcpy(right, right_half, right_len);
    }

    uint64_t returned =
        higlaupth_join(left, left_len, right, right_len, du, dv, dx, dy, rows, sizeof rows);
    if (higlaupth_refused(returned)) {
        unsigned number = (unsigned)returned;
        printf("refused %u: %s\n", number, higlaupth_refusal_text(number));
        return ended(1);
    }
    unsigned count = join_points(left, right, du, dv, points);
    printf("points %u components %u rounds %u\n", count, higlaupth_components(returned),
           higlaupth_rounds(returned));
    for (unsigned k = 0; k < count; k++) print_row(&points[k], rows + k * HIGLAUPTH_ROW_SIZE);
    return ended(0);
}
