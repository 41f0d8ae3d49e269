/*
 * What the examples share: a sheet, the reading of a file, and the exit status.
 */
#ifndef SHARED_H
#define SHARED_H

#include <higlaupth.h>

#include <stdio.h>
#include <stdlib.h>

/* The specification's sheet of five points, the first of them apart from the others. */
static const uint8_t five_points[] = {
    1, 4, 0,   0, 0, 200, 66, /* tag 1, length 4: cell size 100 */
    3, 100, 0,                /* tag 3, length 100: five points, each u, v, index, x, y */
    5, 0, 0, 0,  5, 0, 0, 0,  14, 0, 0, 0,  0, 0, 250, 67,  0, 0, 250, 67,
    0, 0, 0, 0,  0, 0, 0, 0,  10, 0, 0, 0,  0, 0, 0, 0,     0, 0, 0, 0,
    1, 0, 0, 0,  0, 0, 0, 0,  11, 0, 0, 0,  0, 0, 200, 66,  0, 0, 0, 0,
    0, 0, 0, 0,  1, 0, 0, 0,  12, 0, 0, 0,  0, 0, 0, 0,     0, 0, 200, 66,
    1, 0, 0, 0,  1, 0, 0, 0,  13, 0, 0, 0,  0, 0, 200, 66,  0, 0, 200, 66,
};

/* Reads a file, no further than its answer needs, into HIGLAUPTH_READ_SIZE bytes. Returns its
   length. If it cannot be read, the program ends with status 2. */
static inline size_t read_file(FILE *from, const char *name, uint8_t *file) {
    size_t length = from ? fread(file, 1, HIGLAUPTH_READ_SIZE, from) : 0;
    if (!from || ferror(from)) {
        perror(name);
        exit(2);
    }
    fclose(from);
    return length;
}

/* The exit status: 2 if standard output has not taken everything. */
static int ended(int status) {
    if (fflush(stdout) == 0 && !ferror(stdout)) return status;
    perror("standard output");
    return 2;
}

#endif
