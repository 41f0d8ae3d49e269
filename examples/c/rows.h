/*
 * What the examples of rows share: the points of an accepted file, their order, and the line for a
 * point and its row.
 */
#ifndef ROWS_H
#define ROWS_H

#include "shared.h"

#include <string.h>

typedef struct {
    int32_t u, v;
    uint32_t index;
} point;

static const struct {
    const char *name;
    int bit, offset;
} figures[] = {
    {"residual", HIGLAUPTH_HAS_RESIDUAL, HIGLAUPTH_RESIDUAL},
    {"continuation cosine", HIGLAUPTH_HAS_CONTINUATION_COSINE, HIGLAUPTH_CONTINUATION_COSINE},
    {"continuation ratio", HIGLAUPTH_HAS_CONTINUATION_RATIO, HIGLAUPTH_CONTINUATION_RATIO},
    {"cell cosine", HIGLAUPTH_HAS_CELL_COSINE, HIGLAUPTH_CELL_COSINE},
    {"cell ratio", HIGLAUPTH_HAS_CELL_RATIO, HIGLAUPTH_CELL_RATIO},
};

static uint32_t read_u32(const uint8_t *at) {
    return (uint32_t)at[0] | (uint32_t)at[1] << 8 | (uint32_t)at[2] << 16 | (uint32_t)at[3] << 24;
}

static float read_f32(const uint8_t *at) {
    uint32_t bits = read_u32(at);
    float number;
    memcpy(&number, &bits, sizeof number);
    return number;
}

static int by_cell(const void *a, const void *b) {
    const point *p = a, *q = b;
    if (p->u != q->u) return p->u < q->u ? -1 : 1;
    return (p->v > q->v) - (p->v < q->v);
}

/* Reads the points of an accepted file in its order: those of tag 3, which stands after tag 1 and
   perhaps tag 2. Returns how many. */
static unsigned read_points(const uint8_t *file, point *points) {
    const uint8_t *at = file;
    while (at[0] != 3) at += 3 + (at[1] | at[2] << 8);
    const unsigned count = (unsigned)(at[1] | at[2] << 8) / 20;
    at += 3;
    for (unsigned k = 0; k < count; k++, at += 20) {
        points[k].u = (int32_t)read_u32(at);
        points[k].v = (int32_t)read_u32(at + 4);
        points[k].index = read_u32(at + 8);
    }
    return count;
}

/* Puts points into the order of the rows. */
static void sort_points(point *points, unsigned count) {
    qsort(points, count, sizeof *points, by_cell);
}

/* Prints a line for a point and its row. */
static void print_row(const point *p, const uint8_t *row) {
    unsigned marks = row[HIGLAUPTH_MARKS];
    printf("cell %d %d, index %u:", (int)p->u, (int)p->v, (unsigned)p->index);
    if (marks == 0) printf(" kept");
    for (unsigned place = 0; place < HIGLAUPTH_FILTERS; place++)
        if (marks & higlaupth_filter_at(place).mark) printf(" %s", higlaupth_filter_at(place).word);
    if (row[HIGLAUPTH_REASON] != HIGLAUPTH_REASON_NONE)
        printf(", %s", higlaupth_reason_text(row[HIGLAUPTH_REASON]));
    if (row[HIGLAUPTH_DEGREE] > 0)
        printf(", degree %d, %s, %d of %d cells valid", row[HIGLAUPTH_DEGREE],
               row[HIGLAUPTH_BOUNDARY] ? "on the boundary" : "inside", row[HIGLAUPTH_VALID_CELLS],
               row[HIGLAUPTH_ADJACENT_CELLS]);
    for (size_t k = 0; k < sizeof figures / sizeof *figures; k++)
        if (row[HIGLAUPTH_PRESENT] & figures[k].bit)
            printf(", %s %.6f", figures[k].name, (double)read_f32(row + figures[k].offset));
    printf("\n");
}

#endif
