/*
 * higlaupth: kept corners of a calibration sheet.
 *
 * Four functions take the bytes of a sheet file and a buffer for the result. higlaupth_keep either
 * refuses the file with a number of 1 to 9 or 12 to 14 or writes one row of 28 bytes for each
 * point: which filters mark the point, why, its residual and its edge figures. higlaupth_fills
 * either refuses the file with such a number or writes one fill of 20 bytes for each point that a
 * filter marks: the position that the kept points beside its cell give, or that they give none.
 * higlaupth_map writes text: a map of the sheet with one character for each cell, or `refused` and
 * such a number or 10. higlaupth_keep_in_run is the second form of higlaupth_keep: it also adds an
 * accepted sheet to the record of a run, or refuses with 11. A fifth function takes two sheet files
 * and a buffer: higlaupth_join moves the points of the right one, joins them to those of the left
 * one, and writes the rows of the joined list, or refuses with a number of 1 to 9 or 12 to 17. Two
 * functions start the record of a run: higlaupth_run_new and higlaupth_run_from_old_sums. One
 * function takes the bits of a number: higlaupth_root writes its root in whole numbers with the
 * exact remainder, for whoever checks a residual by hand.
 *
 * The functions are proved: for any bytes, any buffer, any offset and any floats, any record and
 * any bits of a number, what is returned, every byte of the buffer and every number of the record
 * or the root are what docs/SPECIFICATION.md says. The rules for callers below are what the proof
 * takes for granted; README.md says what else is assumed.
 * Link with libhiglaupth.a (x86-64; `./install PREFIX` builds and installs it). Of the C library
 * it needs the copying, filling and comparing of memory alone (memcpy, memset and their like).
 * C99, and C++ from C++11 on. keep.c, join.c, fills.c, map.c, run.c and root.c in examples/c are
 * whole programs.
 *
 * The sheet file, little-endian, nothing before, between or after its fields; a field is a
 * one-byte tag, a two-byte length and its data:
 *
 *   tag 1, length 4 or 21: cell size f32; with length 21 also line tolerance f32, line minimum
 *     u16, local tolerance f32, step flag u8, step threshold f32, wrong-label switch u8,
 *     largest-patch switch u8. With length 4 these are 0.15, 4, 0.2, 0, 0, 1, 1
 *     (before version 6.0.0 the line minimum of length 4 was 3).
 *   tag 2, optional, length 17: minimum degree u8, least continuation cosine f32, largest
 *     continuation ratio f32, least cell cosine f32, largest cell ratio f32. Without it there is
 *     no edge-shape gate.
 *   tag 3, length 20 times the number of points: for each point u i32, v i32, index u32, x f32,
 *     y f32. Zero points is allowed, and so is any order of the points.
 *   tag 4, optional, length 4 plus 4 times the number of points: fraction f32, then one strength
 *     f32 for each point, in the order of tag 3. Without it no weak ends are looked for.
 */
#ifndef HIGLAUPTH_H
#define HIGLAUPTH_H

#include <stddef.h>
#include <stdint.h>
#include <string.h>

#ifdef __cplusplus
extern "C" {
#endif

/* The version of this header and of the library that is installed with it. A change that breaks a
   caller raises the first number, an addition the second, anything else the third. */
#define HIGLAUPTH_VERSION_MAJOR 6
#define HIGLAUPTH_VERSION_MINOR 1
#define HIGLAUPTH_VERSION_PATCH 1
#define HIGLAUPTH_VERSION "6.1.1"

/* Sizes, in bytes but for the first three. */
#define HIGLAUPTH_MOST_POINTS 2304  /* a sheet with more is refused */
#define HIGLAUPTH_MAP_COLUMNS 72    /* values of u that a map has room for */
#define HIGLAUPTH_MAP_LINES 60      /* values of v that a map has room for */
#define HIGLAUPTH_ROW_SIZE 28       /* a row */
#define HIGLAUPTH_FILL_SIZE 20      /* a fill */
#define HIGLAUPTH_MAP_SIZE 4860     /* 60 lines of a map: a buffer of this size always suffices */
#define HIGLAUPTH_STACK_SIZE 757760 /* stack to have free; the note at the functions */

/* The rows of the most points, and as many fills: buffers of these sizes always suffice. */
#define HIGLAUPTH_ROWS_SIZE (HIGLAUPTH_ROW_SIZE * HIGLAUPTH_MOST_POINTS)
#define HIGLAUPTH_FILLS_SIZE (HIGLAUPTH_FILL_SIZE * HIGLAUPTH_MOST_POINTS)
/* The longest file that can be accepted: tags 1 and 2, and tags 3 and 4 with the most points. */
#define HIGLAUPTH_FILE_SIZE                                                                        \
    (3 + 21 + 3 + 17 + 3 + 20 * HIGLAUPTH_MOST_POINTS + 3 + 4 + 4 * HIGLAUPTH_MOST_POINTS)
/* Read so much of a file whose length is not known. */
#define HIGLAUPTH_READ_SIZE (3 + 21 + 3 + 17 + 3 + 20 * (65535 / 20) + 3 + 65535 + 1)

/* Limits of a run: a record that has reached one, or is over it, takes no more sheets. */
#define HIGLAUPTH_MOST_SHEETS 65535     /* accepted sheets that it counts */
#define HIGLAUPTH_SUM_LIMIT 2147483648u /* each of its new sums; 2^31 */

/*
 * HIGLAUPTH_READ_SIZE is one byte more than the longest well-framed file has: 3 + 21 bytes of
 * settings, 3 + 17 of the gate, 3 + 65,520 of points, 3,276 of them, and 3 + 65,535 of a tag 4,
 * which is well framed at any length. A longer file is refused with 1, and so are its first
 * HIGLAUPTH_READ_SIZE bytes: a reader that stops there gets the whole file's answer. One that stops
 * at HIGLAUPTH_FILE_SIZE may cut a file into one that is accepted though the whole is refused: an
 * accepted file of that size and a byte after it.
 */

/*
 * The original's values for tag 2, for a file that asks for the gate as the original sets it:
 * those of its EdgeShapeParams::default, the one set that it has. (Its ValidationParams::default
 * has no gate.) The original's 8 degrees are the cosine 16,613,942 / 2^24 here.
 */
#define HIGLAUPTH_GATE_MINIMUM_DEGREE 2
#define HIGLAUPTH_GATE_CONTINUATION_COSINE 0.99026811122894287109375f /* bits 0x3F7D8236 */
#define HIGLAUPTH_GATE_CONTINUATION_RATIO 1.18f                       /* bits 0x3F970A3D */
#define HIGLAUPTH_GATE_CELL_COSINE 0.99026811122894287109375f         /* bits 0x3F7D8236 */
#define HIGLAUPTH_GATE_CELL_RATIO 1.10f                               /* bits 0x3F8CCCCD */

/* Refusals. A call gives the first number whose condition holds. higlaupth_keep and higlaupth_fills
   look for 1 to 9 and 12 to 14 in the order in which they stand here, higlaupth_map for 10 after
   them, higlaupth_keep_in_run for 11 before them. higlaupth_join looks for 1 to 9 and 12 to 14 of
   the left file, then of the right file; then for 15, 16 and 17, before anything is moved, so that
   the sums of indices and of cells cannot overflow; then for 2, 3, 6 and 7 of the joined list. */
enum higlaupth_refusal {
    HIGLAUPTH_MISFRAMED = 1,         /* The fields, their order, their lengths or the end of the
                                        file differ from the list above. A tag 4 may have any
                                        length here. */
    HIGLAUPTH_STRENGTHS_LENGTH = 12, /* Tag 4 is not 4 bytes plus 4 per point. */
    HIGLAUPTH_TOO_MANY_POINTS = 2,   /* There are more than 2,304 points. */
    HIGLAUPTH_SHORT_BUFFER = 3,      /* The result buffer is shorter than 28 bytes per point for
                                        rows, or 20 for fills; per point of the sheet, dropped or
                                        kept; of a join, of the left file, the right file and the
                                        joined list each. */
    HIGLAUPTH_BAD_SWITCH = 4,        /* The step flag or a switch is neither 0 nor 1. */
    HIGLAUPTH_BAD_SETTING = 5,       /* A float of tag 1 or 2 is not finite or exceeds 16,384 in
                                        magnitude. */
    HIGLAUPTH_BAD_CELL = 6,          /* A u or v lies outside -8,000 to 8,000. */
    HIGLAUPTH_BAD_POSITION = 7,      /* A position is not finite or exceeds 16,384 in
                                        magnitude. */
    HIGLAUPTH_BAD_STRENGTH = 13,     /* A number of tag 4, the fraction or a strength, is not
                                        finite or exceeds 16,384 in magnitude. */
    HIGLAUPTH_REPEATED_CELL = 8,     /* Two points have the same cell. */
    HIGLAUPTH_TWO_POSITIONS = 9,     /* One index stands at positions with different bits. */
    HIGLAUPTH_TWO_STRENGTHS = 14,    /* One index has strengths with different bits: 0 and -0
                                        differ. */
    HIGLAUPTH_MAP_TOO_WIDE = 10,     /* The points span more than 72 values of u or 60 of v, from
                                        the smallest to the largest. higlaupth_map alone looks for
                                        this. */
    HIGLAUPTH_RUN_FULL = 11,         /* The run counts 65,535 or more accepted sheets or has a new
                                        sum of 2^31 or more. higlaupth_keep_in_run alone looks for
                                        this, before it reads the file. */
    HIGLAUPTH_HIGH_INDEX = 15,       /* An index of the left or the right file is 2^31 or more.
                                        higlaupth_join alone looks for this, 16 and 17. */
    HIGLAUPTH_BAD_MOVE = 16,         /* du or dv lies outside -16,000 to 16,000, or dx or dy is not
                                        finite or exceeds 16,384 in magnitude. */
    HIGLAUPTH_UNLIKE_HALVES = 17     /* Only one of the two files has a tag 4. */
};

/*
 * Rows come in cell order: by u, then v, whatever the order in the file or the files. A row is
 *
 *   byte   0      marks, one bit for each filter
 *   byte   1      reason of the edge-shape gate
 *   byte   2      which of the five floats are present, one bit each
 *   byte   3      degree
 *   byte   4      box boundary, 0 or 1
 *   byte   5      adjacent cells
 *   byte   6      valid cells
 *   byte   7      zero
 *   bytes  8..11  residual, f32
 *   bytes 12..15  least continuation cosine, f32
 *   bytes 16..19  largest continuation ratio, f32
 *   bytes 20..23  least cell cosine, f32
 *   bytes 24..27  largest cell ratio, f32
 *
 * Floats are little-endian. An absent one is zero; NaN is 0x7FC00000. Without tag 2, of a join that
 * of the left file, bytes 1, 3 to 7 and the four edge floats are zero. A point whose byte 0 is zero
 * is kept.
 */
enum higlaupth_offset {
    HIGLAUPTH_MARKS = 0,
    HIGLAUPTH_REASON = 1,
    HIGLAUPTH_PRESENT = 2,
    HIGLAUPTH_DEGREE = 3,
    HIGLAUPTH_BOUNDARY = 4,
    HIGLAUPTH_ADJACENT_CELLS = 5,
    HIGLAUPTH_VALID_CELLS = 6,
    HIGLAUPTH_ZERO = 7,
    HIGLAUPTH_RESIDUAL = 8,
    HIGLAUPTH_CONTINUATION_COSINE = 12,
    HIGLAUPTH_CONTINUATION_RATIO = 16,
    HIGLAUPTH_CELL_COSINE = 20,
    HIGLAUPTH_CELL_RATIO = 24
};

/* Bits of byte 0. higlaupth_filter_at has letter and word of each. */
enum higlaupth_mark {
    HIGLAUPTH_MARK_VALIDATE = 1,
    HIGLAUPTH_MARK_ORIENTATION = 2,
    HIGLAUPTH_MARK_WRONG_LABEL = 4,
    HIGLAUPTH_MARK_COMPONENT = 8,
    HIGLAUPTH_MARK_LEAF = 16 /* A weak end of a patch; only with tag 4, whatever the switches. */
};

/* Values of byte 1: the first reason that holds. */
enum higlaupth_reason {
    HIGLAUPTH_REASON_NONE = 0,
    HIGLAUPTH_REASON_LOW_CARDINAL_DEGREE = 1,   /* The degree is under the minimum. */
    HIGLAUPTH_REASON_BAD_CONTINUATION = 2,      /* A continuation cosine is under the least, or a
                                                   continuation ratio over the largest where
                                                   degree is at most 3 or valid cells at most 2. */
    HIGLAUPTH_REASON_NO_VALID_ADJACENT_CELL = 3 /* Adjacent cells, none valid. */
};

/* Bits of byte 2. */
enum higlaupth_present {
    HIGLAUPTH_HAS_RESIDUAL = 1,
    HIGLAUPTH_HAS_CONTINUATION_COSINE = 2,
    HIGLAUPTH_HAS_CONTINUATION_RATIO = 4,
    HIGLAUPTH_HAS_CELL_COSINE = 8,
    HIGLAUPTH_HAS_CELL_RATIO = 16
};

/*
 * Fills come in cell order too, one for each dropped point: a point that a filter marks, so that
 * byte 0 of its row is not zero. Two kept points at opposite neighbours of its cell, those at u - 1
 * and u + 1 or those at v - 1 and v + 1, are a pair; the position of a fill is the mean of the
 * middles of its pairs. A fill is
 *
 *   bytes  0..3   u of the dropped point, i32
 *   bytes  4..7   v, i32
 *   bytes  8..11  number of pairs, u32: 0, 1 or 2
 *   bytes 12..15  x, f32
 *   bytes 16..19  y, f32
 *
 * All are little-endian. Without a pair there is no position, and x and y are zero bytes; with one,
 * x and y are finite. higlaupth_fill_at reads a fill.
 */
enum higlaupth_fill_offset {
    HIGLAUPTH_FILL_U = 0,
    HIGLAUPTH_FILL_V = 4,
    HIGLAUPTH_FILL_PAIRS = 8,
    HIGLAUPTH_FILL_X = 12,
    HIGLAUPTH_FILL_Y = 16
};

/*
 * The functions. Four read the sheet file of file_len bytes at `file` and write to a buffer:
 * higlaupth_keep and higlaupth_keep_in_run to rows_len bytes at `rows`, higlaupth_fills to
 * fills_len bytes at `fills`, higlaupth_map to text_len bytes at `text`. higlaupth_join reads the
 * sheet files of left_len bytes at `left` and of right_len bytes at `right`, and writes to rows_len
 * bytes at `rows`. Three write the record at `run`: higlaupth_keep_in_run, which reads it too, and
 * higlaupth_run_new and higlaupth_run_from_old_sums, for which its memory may hold anything before.
 * higlaupth_root alone writes the root at `into`, whose memory may hold anything before too.
 *
 * What holds of every call, whatever the bytes, the lengths, the offset and the floats of a join,
 * the numbers of a record and the bits:
 * - It ends.
 * - It writes what is said at the function, in a buffer from its start on, and touches nothing
 *   beyond that. The files, and of each only the bytes that its length says, and `old_sums` are
 *   only read.
 * - It is reentrant: it keeps nothing between calls, allocates nothing, and does no input or
 *   output. Any number of threads may call at once, each with its own buffer, record and root;
 *   they may share files and old sums.
 *
 * What a caller owes:
 * - `file`, `left` and `right` point to as many readable bytes as their lengths say, the buffer to
 *   as many writable ones. Each of these pointers may be null if its length is 0. No alignment is
 *   asked for.
 * - `run` points to the 48 bytes of a record, readable and writable, `old_sums` to its 20 readable
 *   bytes. Neither is null; both are aligned for uint32_t, as any variable of their types is.
 * - `into` points to the 12 writable bytes of a root. It is not null and is aligned for int32_t, as
 *   any variable of its type is.
 * - No two of these overlap, except that `left` and `right` may: they may be the same bytes. During
 *   the call nobody else writes a file or `old_sums` or touches the buffer, the record or the root.
 * - The floating-point mode is the default one: the SSE control register (MXCSR) rounds to
 *   nearest, keeps subnormals (neither flush-to-zero nor denormals-are-zero) and masks
 *   exceptions. The call neither reads nor changes that register's modes; like any arithmetic it
 *   may set its sticky exception bits. It uses no x87 and no instruction beyond SSE2.
 * - HIGLAUPTH_STACK_SIZE bytes of the calling thread's stack are free. No proof bounds the
 *   stack: this is the deepest use that was measured of version 5.0.0, rounded up to a page; later
 *   versions use less (docs/TESTING.md). The usual 8 MiB of a main thread and the 2 MiB of a Rust
 *   thread suffice. The code touches its stack page by page, so that a stack too small ends in a
 *   fault at its guard page.
 */

/*
 * Judges a sheet file and writes its rows: 28 bytes for each point, or nothing if it is refused.
 * Returns a refusal number, 1 to 9 or 12 to 14, or 2^48 * rounds + 2^32 + 2^16 * points +
 * components; higlaupth_refused, higlaupth_points, higlaupth_components and higlaupth_rounds take
 * this number apart, and those of higlaupth_join and higlaupth_keep_in_run. The first two of these
 * take that of higlaupth_fills too, the other two do not, and none takes that of higlaupth_map.
 * Example, of the bytes file[0] to file[file_len - 1]; those below go on from it:
 *
 *     uint8_t rows[HIGLAUPTH_ROWS_SIZE];
 *     uint64_t returned = higlaupth_keep(file, file_len, rows, sizeof rows);
 */
uint64_t higlaupth_keep(const uint8_t *file, size_t file_len, uint8_t *rows, size_t rows_len);

/*
 * Whether a number that higlaupth_keep, higlaupth_join, higlaupth_keep_in_run or higlaupth_fills
 * returned is a refusal; if so, it is the refusal number.
 * Example:
 *
 *     if (higlaupth_refused(returned)) printf("refused %u\n", (unsigned)returned);
 */
static inline int higlaupth_refused(uint64_t returned) { return (returned >> 32) == 0; }

/*
 * What a refusal number, of any of the functions, says in one line of text.
 * Example:
 *
 *     if (higlaupth_refused(returned)) {
 *         printf("%s\n", higlaupth_refusal_text((unsigned)returned));
 *         return 1;
 *     }
 */
static inline const char *higlaupth_refusal_text(unsigned number) {
    switch (number) {
    case HIGLAUPTH_MISFRAMED:
        return "the fields, their order, their lengths or the end of the file are wrong";
    case HIGLAUPTH_TOO_MANY_POINTS:
        return "there are more than 2,304 points";
    case HIGLAUPTH_SHORT_BUFFER:
        return "the result buffer is shorter than 28 bytes per point for rows, 20 for fills";
    case HIGLAUPTH_BAD_SWITCH:
        return "the step flag or a switch is neither 0 nor 1";
    case HIGLAUPTH_BAD_SETTING:
        return "a float of tag 1 or 2 is not finite or exceeds 16,384 in magnitude";
    case HIGLAUPTH_BAD_CELL:
        return "a u or v lies outside -8,000 to 8,000";
    case HIGLAUPTH_BAD_POSITION:
        return "a position is not finite or exceeds 16,384 in magnitude";
    case HIGLAUPTH_REPEATED_CELL:
        return "two points have the same cell";
    case HIGLAUPTH_TWO_POSITIONS:
        return "one index stands at positions with different bits";
    case HIGLAUPTH_MAP_TOO_WIDE:
        return "the points span more than 72 values of u or 60 of v";
    case HIGLAUPTH_RUN_FULL:
        return "the run counts 65,535 or more accepted sheets or has a new sum of 2^31 or more";
    case HIGLAUPTH_STRENGTHS_LENGTH:
        return "tag 4 is not 4 bytes plus 4 per point";
    case HIGLAUPTH_BAD_STRENGTH:
        return "a number of tag 4 is not finite or exceeds 16,384 in magnitude";
    case HIGLAUPTH_TWO_STRENGTHS:
        return "one index has strengths with different bits";
    case HIGLAUPTH_HIGH_INDEX:
        return "an index of one of the two files is 2^31 or more";
    case HIGLAUPTH_BAD_MOVE:
        return "du or dv exceeds 16,000 in magnitude, or dx or dy is not finite or exceeds 16,384";
    case HIGLAUPTH_UNLIKE_HALVES:
        return "only one of the two files has a tag 4";
    default:
        return "no such refusal";
    }
}

/*
 * Of a number that higlaupth_keep, higlaupth_join, higlaupth_keep_in_run or higlaupth_fills
 * returned and that is no refusal: how many points the sheet has, or the joined list, hence how
 * many rows; 0 to HIGLAUPTH_MOST_POINTS.
 * Example:
 *
 *     for (unsigned k = 0; k < higlaupth_points(returned); k++) {
 *         const uint8_t *row = rows + k * HIGLAUPTH_ROW_SIZE;
 *         if (row[HIGLAUPTH_MARKS] == 0) printf("row %u is kept\n", k);
 *     }
 */
static inline unsigned higlaupth_points(uint64_t returned) {
    return (unsigned)((returned >> 16) & 0xFFFF);
}

/*
 * Of a number that higlaupth_keep, higlaupth_join or higlaupth_keep_in_run returned and that is no
 * refusal: how many patches the largest-patch filter saw; 0 with its switch off.
 * Example:
 *
 *     printf("%u patches\n", higlaupth_components(returned));
 */
static inline unsigned higlaupth_components(uint64_t returned) {
    return (unsigned)(returned & 0xFFFF);
}

/*
 * Of a number that higlaupth_keep, higlaupth_join or higlaupth_keep_in_run returned and that is no
 * refusal: how many rounds removed weak ends; 0 without tag 4, and never more than there are
 * points.
 * Example:
 *
 *     printf("%u rounds\n", higlaupth_rounds(returned));
 */
static inline unsigned higlaupth_rounds(uint64_t returned) { return (unsigned)(returned >> 48); }

/*
 * What a reason, byte 1 of a row, says, in one line of text.
 * Example:
 *
 *     for (unsigned k = 0; k < higlaupth_points(returned); k++) {
 *         const uint8_t *row = rows + k * HIGLAUPTH_ROW_SIZE;
 *         printf("row %u: %s\n", k, higlaupth_reason_text(row[HIGLAUPTH_REASON]));
 *     }
 */
static inline const char *higlaupth_reason_text(unsigned reason) {
    switch (reason) {
    case HIGLAUPTH_REASON_NONE:
        return "none";
    case HIGLAUPTH_REASON_LOW_CARDINAL_DEGREE:
        return "fewer neighbours than the minimum degree";
    case HIGLAUPTH_REASON_BAD_CONTINUATION:
        return "a row or column bends or stretches at the point";
    case HIGLAUPTH_REASON_NO_VALID_ADJACENT_CELL:
        return "no cell at the point is valid";
    default:
        return "no such reason";
    }
}

/* A filter. */
typedef struct {
    unsigned mark;    /* its bit of byte 0 */
    char letter;      /* in the lines of a listing and on a map */
    const char *word; /* in the tally of a listing */
} higlaupth_filter;

#define HIGLAUPTH_FILTERS 5 /* how many there are */

/*
 * The filter at a place from 0 to HIGLAUPTH_FILTERS - 1, in the order in which they run and in
 * which an index is counted: under the first of them that marks it. At any other place there is
 * none, and its mark is 0.
 * Example:
 *
 *     for (unsigned k = 0; k < higlaupth_points(returned); k++) {
 *         const uint8_t *row = rows + k * HIGLAUPTH_ROW_SIZE;
 *         for (unsigned place = 0; place < HIGLAUPTH_FILTERS; place++) {
 *             higlaupth_filter filter = higlaupth_filter_at(place);
 *             if (row[HIGLAUPTH_MARKS] & filter.mark)
 *                 printf("row %u: %c, %s\n", k, filter.letter, filter.word);
 *         }
 *     }
 */
static inline higlaupth_filter higlaupth_filter_at(unsigned place) {
    static const higlaupth_filter filters[HIGLAUPTH_FILTERS + 1] = {
        {HIGLAUPTH_MARK_VALIDATE, 'V', "validate"},
        {HIGLAUPTH_MARK_ORIENTATION, 'O', "orientation"},
        {HIGLAUPTH_MARK_WRONG_LABEL, 'W', "wrong"},
        {HIGLAUPTH_MARK_LEAF, 'L', "leaf"},
        {HIGLAUPTH_MARK_COMPONENT, 'C', "component"},
        {0, '-', "no such filter"},
    };
    return filters[place < HIGLAUPTH_FILTERS ? place : HIGLAUPTH_FILTERS];
}

/*
 * Judges two halves of one sheet as one: joins the points of the left and of the right file and
 * writes the rows of the joined list, or nothing if it refuses. The arguments are the left file,
 * the right file, the offset of the right cells, the shift of the right positions and the buffer.
 *
 * The joined list has the points of the left file as they are, and those of the right file moved:
 * du is added to u and dv to v, dx to x and dy to y, and 2^31, which is 2147483648, to the index,
 * so that no index stands in both; the strength stays. dx and dy are added in f32, one addition
 * each, also where they are 0: -0 and 0 make 0, which the sign of a cosine can show. Where a left
 * point and a moved right one have the same cell, the left point is taken and the right one is
 * gone: it has no row and needs no room, and its new position is not looked at.
 *
 * Tags 1 and 2 and the fraction of tag 4 are the left file's. Those of the right file must be such
 * that it is accepted, and are otherwise unused. The median of the strengths is that of the joined
 * list. The list is then judged as that of a sheet file is: the row at a place belongs to the point
 * at this place of the joined list in cell order.
 *
 * Returns a refusal number, 1 to 9 or 12 to 17, or the number that higlaupth_keep returns of an
 * accepted sheet: points, components and rounds are here those of the joined list. It refuses with
 * the first of these numbers that there is:
 * - the one with which higlaupth_keep refuses the left file, with this buffer;
 * - the one with which higlaupth_keep refuses the right file, with this buffer;
 * - 15, 16 or 17;
 * - 2, 3, 6 or 7, by the joined list. Two full halves have 4,608 points: with 2 it refuses a joined
 *   list that has more than HIGLAUPTH_MOST_POINTS. No other number can arise of that list.
 *
 * So the buffer must have room for the rows of the left file, for those of the right file, and for
 * those of the joined list: for whichever are most. HIGLAUPTH_ROWS_SIZE always suffices.
 * Example, of a file and the same once more, two cells and 200 pixels to the right:
 *
 *     uint64_t joined = higlaupth_join(file, file_len, file, file_len, 2, 0, 200.0f, 0.0f,
 *                                      rows, sizeof rows);
 *     if (higlaupth_refused(joined)) return 1;
 *     printf("joined: %u points, %u patches\n", higlaupth_points(joined),
 *            higlaupth_components(joined));
 */
uint64_t higlaupth_join(const uint8_t *left, size_t left_len, const uint8_t *right,
                        size_t right_len, int32_t du, int32_t dv, float dx, float dy,
                        uint8_t *rows, size_t rows_len);

/*
 * Judges a sheet file and writes its fills: 20 bytes for each dropped point, or nothing if it is
 * refused. The buffer must have 20 bytes for each point of the sheet, though kept points take none.
 * Returns a refusal number as higlaupth_keep does, or 2^32 + 2^16 * points + fills;
 * higlaupth_refused, higlaupth_points and higlaupth_fill_count take this number apart. The dropped
 * points are those that the rows of higlaupth_keep say: the first fill is that of the first row
 * with marks, and so on.
 *
 * A fill goes by the cell of the point: one index at several cells has a fill at each of them. It
 * lies between kept points and never beyond them: where no two of them face each other across the
 * cell, as at a corner of the sheet, there is no pair. Cells without a point have no fill.
 * Example:
 *
 *     uint8_t fills[HIGLAUPTH_FILLS_SIZE];
 *     uint64_t filled = higlaupth_fills(file, file_len, fills, sizeof fills);
 *     if (higlaupth_refused(filled)) return 1;
 */
uint64_t higlaupth_fills(const uint8_t *file, size_t file_len, uint8_t *fills, size_t fills_len);

/*
 * Of a number that higlaupth_fills returned and that is no refusal: how many fills, hence how many
 * points are dropped; 0 to higlaupth_points.
 * Example:
 *
 *     printf("%u of %u dropped\n", higlaupth_fill_count(filled), higlaupth_points(filled));
 */
static inline unsigned higlaupth_fill_count(uint64_t returned) {
    return (unsigned)(returned & 0xFFFF);
}

/* A fill as numbers. */
typedef struct {
    int32_t u, v;   /* the cell of the dropped point */
    uint32_t pairs; /* 0, 1 or 2 */
    float x, y;     /* the position; 0 and 0 without a pair, where there is none */
} higlaupth_fill;

/*
 * The fill at a place from 0 to higlaupth_fill_count - 1 of the fills that higlaupth_fills wrote.
 * It reads 20 bytes, from 20 * place on, whatever their alignment and the machine's byte order.
 * Example:
 *
 *     for (unsigned k = 0; k < higlaupth_fill_count(filled); k++) {
 *         higlaupth_fill fill = higlaupth_fill_at(fills, k);
 *         printf("cell %d %d: ", (int)fill.u, (int)fill.v);
 *         if (fill.pairs > 0)
 *             printf("%.9g %.9g\n", (double)fill.x, (double)fill.y);
 *         else
 *             printf("no pair\n");
 *     }
 */
static inline higlaupth_fill higlaupth_fill_at(const uint8_t *fills, unsigned place) {
    const uint8_t *bytes = fills + (size_t)place * HIGLAUPTH_FILL_SIZE;
    uint32_t words[HIGLAUPTH_FILL_SIZE / 4] = {0};
    higlaupth_fill fill;
    for (unsigned k = 0; k < HIGLAUPTH_FILL_SIZE; k++)
        words[k / 4] |= (uint32_t)bytes[k] << 8 * (k % 4);
    memcpy(&fill.u, &words[HIGLAUPTH_FILL_U / 4], sizeof fill.u);
    memcpy(&fill.v, &words[HIGLAUPTH_FILL_V / 4], sizeof fill.v);
    memcpy(&fill.pairs, &words[HIGLAUPTH_FILL_PAIRS / 4], sizeof fill.pairs);
    memcpy(&fill.x, &words[HIGLAUPTH_FILL_X / 4], sizeof fill.x);
    memcpy(&fill.y, &words[HIGLAUPTH_FILL_Y / 4], sizeof fill.y);
    return fill;
}

/* What higlaupth_map returns if the buffer is too short. */
#define HIGLAUPTH_NO_ROOM UINT64_MAX

/*
 * Draws the map of a sheet file and writes it to the buffer, in ASCII, without a null at its end.
 * Returns the number of its bytes: 0 for a sheet without points, at most HIGLAUPTH_MAP_SIZE. If
 * the buffer is shorter it returns HIGLAUPTH_NO_ROOM, and the buffer holds the first text_len of
 * those bytes.
 *
 * A map has a line for each v from the smallest to the largest: v right-aligned in 6 characters, a
 * space, 72 cells from the smallest u on, a space and a newline. A cell is a full stop without a
 * point, # with one that is kept, else the letter of the first filter that marks the point.
 *
 * Of a sheet that is refused the text is `refused`, a space, the number and a newline; no map
 * begins with an `r`, and higlaupth_map_refusal finds the number. It is the one that
 * higlaupth_keep returns with a buffer for all rows, so never 3; or HIGLAUPTH_MAP_TOO_WIDE, of a
 * sheet that higlaupth_keep accepts.
 * Example:
 *
 *     uint8_t text[HIGLAUPTH_MAP_SIZE];
 *     uint64_t text_size = higlaupth_map(file, file_len, text, sizeof text);
 *     fwrite(text, 1, (size_t)text_size, stdout);
 */
uint64_t higlaupth_map(const uint8_t *file, size_t file_len, uint8_t *text, size_t text_len);

/*
 * The refusal number in a text that higlaupth_map wrote, `size` being what it returned; 0 if the
 * text is a map, or empty, or if the buffer was too short (HIGLAUPTH_NO_ROOM).
 * Example:
 *
 *     unsigned number = higlaupth_map_refusal(text, text_size);
 *     if (number != 0) printf("no map: %s\n", higlaupth_refusal_text(number));
 */
static inline unsigned higlaupth_map_refusal(const uint8_t *text, uint64_t size) {
    const char *word = "refused ";
    unsigned number = 0; /* of one digit or two */
    if (size < 10 || size > 11 || text[8] == '0' || text[size - 1] != '\n') return 0;
    for (unsigned k = 0; k < 8; k++)
        if (text[k] != (uint8_t)word[k]) return 0;
    for (unsigned k = 8; k < size - 1; k++) {
        if (text[k] < '0' || text[k] > '9') return 0;
        number = 10 * number + (unsigned)(text[k] - '0');
    }
    return number;
}

/*
 * A run is a number of sheets, one after the other, with sums of their tallies. The tally of an
 * accepted sheet, the line of its listing after those of the points, counts each index once,
 * however many cells it stands at: as kept, or under the first filter that marks it. (Its cells
 * share their marks.) Up to version 1.1.0 the tally counted cells: that is the old count.
 */

/* The old sums: those of the sheets that a run had under the old count, as they were handed in when
   its record was started; zeros if it had none. No call changes or tests them: they stand in the
   record for ever, whatever numbers they are. */
typedef struct {
    uint32_t kept, validate, orientation, wrong, component;
} higlaupth_old_sums;

/* The new sums: those of the tallies, which count indices, of the accepted sheets that the record
   counts. The old sums are no part of them, and there are one fewer of these, for ever. */
typedef struct {
    uint32_t kept, validate, orientation, wrong, leaf, component;
} higlaupth_new_sums;

/* The record of a run: 12 u32s, 48 bytes, in this order. It can be copied, stored and handed in
   again. One that version 2 stored has 11 u32s: `leaf`, which is then 0, is missing before the
   last. */
typedef struct {
    higlaupth_old_sums old_sums;
    uint32_t sheets; /* how many accepted sheets were added to the new sums */
    higlaupth_new_sums new_sums;
} higlaupth_run;

/*
 * Starts the record of a run that starts now: zeros throughout.
 * Example:
 *
 *     higlaupth_run run;
 *     higlaupth_run_new(&run);
 */
void higlaupth_run_new(higlaupth_run *run);

/*
 * Starts the record of a run that started under the old count: these old sums; sheets and new sums
 * are 0. The old sums must not be those of the record itself.
 * Example:
 *
 *     higlaupth_old_sums old_sums = {812, 40, 3, 25, 120};
 *     higlaupth_run older_run;
 *     higlaupth_run_from_old_sums(&old_sums, &older_run);
 */
void higlaupth_run_from_old_sums(const higlaupth_old_sums *old_sums, higlaupth_run *run);

/*
 * The second form of higlaupth_keep: judges a sheet file as the next sheet of a run. First it looks
 * at the record: if that counts HIGLAUPTH_MOST_SHEETS or more sheets or has a new sum of
 * HIGLAUPTH_SUM_LIMIT or more, it returns HIGLAUPTH_RUN_FULL and does not read the file. Else it
 * returns what higlaupth_keep returns and writes the same rows; if the sheet is accepted, the
 * record then counts one sheet more, and each new sum has grown by its number of the sheet's tally.
 * A refusal leaves buffer and record as they were.
 *
 * Any record may be handed in, and no sum wraps. A run that one of the two functions above started
 * stays far below HIGLAUPTH_SUM_LIMIT: its new sums are at most HIGLAUPTH_MOST_SHEETS *
 * HIGLAUPTH_MOST_POINTS.
 * Example:
 *
 *     returned = higlaupth_keep_in_run(file, file_len, rows, sizeof rows, &older_run);
 *     if (higlaupth_refused(returned)) printf("not added: refused %u\n", (unsigned)returned);
 *     printf("sheets %u kept %u\n", older_run.sheets, older_run.new_sums.kept);
 */
uint64_t higlaupth_keep_in_run(const uint8_t *file, size_t file_len, uint8_t *rows, size_t rows_len,
                               higlaupth_run *run);

/*
 * The root of a number in whole numbers. R is the number times 2^power, where the power is even and
 * such that R's root lies from 2^23 up to below 2^24; so R is whole. S is the whole number nearest
 * to R's root: it is R's root exactly where the remainder is 0. S / 2^(power / 2) is the f32
 * nearest to the number's root. Of 0 and -0 all three numbers are 0.
 */
typedef struct {
    int32_t root;      /* S: from 2^23 up to below 2^24, or 0 */
    int32_t power;     /* from -80 to 196 */
    int32_t remainder; /* R - S * S, exactly: from 1 - S to S, or 0 */
} higlaupth_whole_root;

/*
 * The bits of a number, as higlaupth_root takes them.
 * Example:
 *
 *     float dx = 1.0f, dy = 2.0f;
 *     uint32_t square = higlaupth_float_bits(dx * dx + dy * dy);
 */
static inline uint32_t higlaupth_float_bits(float number) {
    uint32_t bits;
    memcpy(&bits, &number, sizeof bits);
    return bits;
}

/*
 * Writes the root of the number with these bits to `into` and returns 1. For a negative number, an
 * infinity and NaN there is neither root nor remainder: it returns 0 and writes nothing.
 *
 * A residual is the root of dx * dx + dy * dy, where dx and dy are how far the point lies from its
 * prediction, and each product and the sum is an f32. That sum is the number to hand in. (Where the
 * machine has an instruction for product and sum in one, -ffp-contract=off keeps them apart.)
 * Example:
 *
 *     higlaupth_whole_root whole;
 *     if (higlaupth_root(square, &whole))
 *         printf("S %d power %d remainder %d\n", whole.root, whole.power, whole.remainder);
 */
int32_t higlaupth_root(uint32_t bits, higlaupth_whole_root *into);

#ifdef __cplusplus
}
#endif

#endif
