/*
 * Prints what the library finds for each point of a sheet file.
 *
 *   ./install PREFIX
 *   gcc -std=c99 -O2 -IPREFIX/include examples/c/keep.c -LPREFIX/lib -lhiglaupth -o keep
 *   ./keep [FILE]
 *
 * Without FILE it judges a sheet of five points. Exit status: 0 if the sheet is accepted, 1 if it
 * is refused, 2 if the file cannot be read or the answer cannot be written.
 */
#include "rows.h"

int main(int argc, char **argv) {
    static uint8_t file[HIGLAUPTH_READ_SIZE], rows[HIGLAUPTH_ROWS_SIZE];
    static point points[HIGLAUPTH_MOST_POINTS];
    size_t length = sizeof five_points;
    if (argc > 1)
        length = read_file(fopen(argv[1], "rb"), argv[1], file);
    else
        memcpy(file, five_points, length);

    uint64_t returned = higlaupth_keep(file, length, rows, sizeof rows);
    if (higlaupth_refused(returned)) {
        unsigned number = (unsigned)returned;
        printf("refused %u: %s\n", number, higlaupth_refusal_text(number));
        return ended(1);
    }
    unsigned count = higlaupth_points(returned);
    read_points(file, points);
    sort_points(points, count);
    printf("points %u components %u rounds %u\n", count, higlaupth_components(returned),
           higlaupth_rounds(returned));
    for (unsigned k = 0; k < count; k++) print_row(&points[k], rows + k * HIGLAUPTH_ROW_SIZE);
    return ended(0);
}
