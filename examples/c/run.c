/*
 * Keeps a run of sheet files: prints a line for each sheet, then the record of the run.
 *
 *   ./install PREFIX
 *   gcc -std=c99 -O2 -IPREFIX/include examples/c/run.c -LPREFIX/lib -lhiglaupth -o run
 *   ./run [FILE..]
 *
 * With FILEs the run starts now. Without, it started under the old count and goes on with four
 * sheets, of which the last is refused. Exit status: 0 if the record is printed, whether or not
 * sheets were refused, since they add nothing to it and their lines say so; 2 if a file cannot be
 * read or the output cannot be written.
 */
#include "shared.h"

/* One index at two cells and one position, and another index: three points, two indices. */
static const uint8_t two_cells[] = {
    1, 4, 0,  0, 0, 200, 66, /* as in five_points */
    3, 60, 0,
    0, 0, 0, 0,  0, 0, 0, 0,  7, 0, 0, 0,  0, 0, 0, 0,  0, 0, 0, 0,
    1, 0, 0, 0,  0, 0, 0, 0,  7, 0, 0, 0,  0, 0, 0, 0,  0, 0, 0, 0,
    0, 0, 0, 0,  1, 0, 0, 0,  8, 0, 0, 0,  0, 0, 0, 0,  0, 0, 200, 66,
};

/* A row of three points with strengths 1, 4 and 4, and half their median is asked for: the first is
   a weak end. */
static const uint8_t weak_end[] = {
    1, 4, 0,  0, 0, 200, 66,
    3, 60, 0,
    0, 0, 0, 0,  0, 0, 0, 0,  1, 0, 0, 0,  0, 0, 0, 0,     0, 0, 0, 0,
    1, 0, 0, 0,  0, 0, 0, 0,  2, 0, 0, 0,  0, 0, 200, 66,  0, 0, 0, 0,
    2, 0, 0, 0,  0, 0, 0, 0,  3, 0, 0, 0,  0, 0, 72, 67,   0, 0, 0, 0,
    4, 16, 0,  0, 0, 0, 63, /* tag 4, length 16: the fraction 0.5, and three strengths */
    0, 0, 128, 63,  0, 0, 128, 64,  0, 0, 128, 64,
};

/* One index at two positions, which is refused. */
static const uint8_t two_positions[] = {
    1, 4, 0,  0, 0, 200, 66,
    3, 40, 0,
    0, 0, 0, 0,  0, 0, 0, 0,  7, 0, 0, 0,  0, 0, 0, 0,     0, 0, 0, 0,
    1, 0, 0, 0,  0, 0, 0, 0,  7, 0, 0, 0,  0, 0, 200, 66,  0, 0, 0, 0,
};

static const struct {
    const char *name;
    const uint8_t *file;
    size_t length;
} sheets[] = {
    {"five points", five_points, sizeof five_points},
    {"an index at two cells", two_cells, sizeof two_cells},
    {"a weak end", weak_end, sizeof weak_end},
    {"an index at two positions", two_positions, sizeof two_positions},
};

/* Adds a sheet to the run, and prints a line for it. */
static void add(higlaupth_run *run, const char *name, const uint8_t *file, size_t length) {
    static uint8_t rows[HIGLAUPTH_ROWS_SIZE];
    uint64_t returned = higlaupth_keep_in_run(file, length, rows, sizeof rows, run);
    if (higlaupth_refused(returned)) {
        unsigned number = (unsigned)returned;
        printf("%s: refused %u: %s\n", name, number, higlaupth_refusal_text(number));
    } else {
        printf("%s: points %u components %u rounds %u\n", name, higlaupth_points(returned),
               higlaupth_components(returned), higlaupth_rounds(returned));
    }
}

static void print_record(const higlaupth_run *run) {
    const higlaupth_old_sums *old_sums = &run->old_sums;
    const higlaupth_new_sums *new_sums = &run->new_sums;
    printf("old sums: kept %u validate %u orientation %u wrong %u component %u\n", old_sums->kept,
           old_sums->validate, old_sums->orientation, old_sums->wrong, old_sums->component);
    printf("sheets %u\n", run->sheets);
    printf("new sums: kept %u validate %u orientation %u wrong %u leaf %u component %u\n",
           new_sums->kept, new_sums->validate, new_sums->orientation, new_sums->wrong,
           new_sums->leaf, new_sums->component);
}

int main(int argc, char **argv) {
    static uint8_t file[HIGLAUPTH_READ_SIZE];
    higlaupth_run run;
    if (argc > 1) {
        higlaupth_run_new(&run);
        for (int k = 1; k < argc; k++) {
            size_t length = read_file(fopen(argv[k], "rb"), argv[k], file);
            add(&run, argv[k], file, length);
        }
    } else {
        const higlaupth_old_sums old_sums = {812, 40, 3, 25, 120};
        higlaupth_run_from_old_sums(&old_sums, &run);
        for (size_t k = 0; k < sizeof sheets / sizeof *sheets; k++)
            add(&run, sheets[k].name, sheets[k].file, sheets[k].length);
    }
    print_record(&run);
    return ended(0);
}
