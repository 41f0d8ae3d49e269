/*
 * Prints the map of a sheet file, and what its letters mean.
 *
 *   ./install PREFIX
 *   gcc -std=c99 -O2 -IPREFIX/include examples/c/map.c -LPREFIX/lib -lhiglaupth -o map
 *   ./map [FILE]
 *
 * Without FILE it reads standard input. Exit status: 0 if there is a map, which has no lines if the
 * sheet has no points, 1 if the sheet is refused, 2 if the file cannot be read or the map cannot be
 * written.
 */
#include "shared.h"

#include <string.h>

int main(int argc, char **argv) {
    static uint8_t file[HIGLAUPTH_READ_SIZE];
    static uint8_t text[HIGLAUPTH_MAP_SIZE];
    size_t length = argc > 1 ? read_file(fopen(argv[1], "rb"), argv[1], file)
                             : read_file(stdin, "standard input", file);

    /* Every text has room, so the number is that of its bytes. */
    size_t size = (size_t)higlaupth_map(file, length, text, sizeof text);
    unsigned number = higlaupth_map_refusal(text, size);
    if (number != 0) {
        printf("refused %u: %s\n", number, higlaupth_refusal_text(number));
        return ended(1);
    }
    fwrite(text, 1, size, stdout);
    for (unsigned place = 0; place < HIGLAUPTH_FILTERS; place++) {
        higlaupth_filter filter = higlaupth_filter_at(place);
        if (memchr(text, filter.letter, size)) printf("%c: %s\n", filter.letter, filter.word);
    }
    return ended(0);
}
