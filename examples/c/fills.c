/*
 * Prints the positions that the library finds for the dropped points of a sheet file: a line for
 * each, with its cell, the number of pairs and the position, or the words `no pair`.
 *
 *   ./install PREFIX
 *   gcc -std=c99 -O2 -IPREFIX/include examples/c/fills.c -LPREFIX/lib -lhiglaupth -o fills
 *   ./fills [FILE]
 *
 * Without FILE it takes a sheet of ten points. Exit status: 0 if the sheet is accepted, whether or
 * not points are dropped, 1 if it is refused, 2 if the file cannot be read or the answer cannot be
 * written.
 */
#include "shared.h"

#include <string.h>

/* Nine points of a board whose cells are 100 pixels wide, the middle one 30 pixels off, and one
   point apart from them. Its lines have three points, so all 21 bytes of the settings are spelled
   out, with the line minimum 3. */
static const uint8_t ten_points[] = {
    1, 21, 0,  0, 0, 200, 66,          /* tag 1, length 21: cell size 100, */
    154, 153, 25, 62,  3, 0,           /* line tolerance 0.15, line minimum 3, */
    205, 204, 76, 62,  0, 0, 0, 0, 0,  /* local tolerance 0.2, step flag 0, step threshold 0, */
    1, 1,                              /* both switches 1 */
    3, 200, 0,
    0, 0, 0, 0,  0, 0, 0, 0,  10, 0, 0, 0,  0, 0, 0, 0,     0, 0, 0, 0,
    1, 0, 0, 0,  0, 0, 0, 0,  11, 0, 0, 0,  0, 0, 200, 66,  0, 0, 0, 0,
    2, 0, 0, 0,  0, 0, 0, 0,  12, 0, 0, 0,  0, 0, 72, 67,   0, 0, 0, 0,
    0, 0, 0, 0,  1, 0, 0, 0,  13, 0, 0, 0,  0, 0, 0, 0,     0, 0, 200, 66,
    1, 0, 0, 0,  1, 0, 0, 0,  14, 0, 0, 0,  0, 0, 2, 67,    0, 0, 200, 66, /* at 130, 100 */
    2, 0, 0, 0,  1, 0, 0, 0,  15, 0, 0, 0,  0, 0, 72, 67,   0, 0, 200, 66,
    0, 0, 0, 0,  2, 0, 0, 0,  16, 0, 0, 0,  0, 0, 0, 0,     0, 0, 72, 67,
    1, 0, 0, 0,  2, 0, 0, 0,  17, 0, 0, 0,  0, 0, 200, 66,  0, 0, 72, 67,
    2, 0, 0, 0,  2, 0, 0, 0,  18, 0, 0, 0,  0, 0, 72, 67,   0, 0, 72, 67,
    5, 0, 0, 0,  5, 0, 0, 0,  19, 0, 0, 0,  0, 0, 250, 67,  0, 0, 250, 67,
};

/* Nine digits tell any two f32 numbers apart. */
static void print_fill(higlaupth_fill fill) {
    printf("%d %d ", (int)fill.u, (int)fill.v);
    if (fill.pairs > 0)
        printf("%u %.9g %.9g\n", (unsigned)fill.pairs, (double)fill.x, (double)fill.y);
    else
        printf("no pair\n");
}

int main(int argc, char **argv) {
    static uint8_t file[HIGLAUPTH_READ_SIZE], fills[HIGLAUPTH_FILLS_SIZE];
    size_t length = sizeof ten_points;
    if (argc > 1)
        length = read_file(fopen(argv[1], "rb"), argv[1], file);
    else
        memcpy(file, ten_points, length);

    uint64_t returned = higlaupth_fills(file, length, fills, sizeof fills);
    if (higlaupth_refused(returned)) {
        unsigned number = (unsigned)returned;
        printf("refused %u: %s\n", number, higlaupth_refusal_text(number));
        return ended(1);
    }
    unsigned count = higlaupth_fill_count(returned);
    printf("points %u fills %u\n", higlaupth_points(returned), count);
    for (unsigned k = 0; k < count; k++) print_fill(higlaupth_fill_at(fills, k));
    return ended(0);
}
