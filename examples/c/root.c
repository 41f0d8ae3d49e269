/*
 * Prints the root of a number in whole numbers, then R, which is the number times a power of two,
 * beside S * S and their difference, which is to be the remainder, then the root as f32.
 *
 *   ./install PREFIX
 *   gcc -std=c99 -O2 -IPREFIX/include examples/c/root.c -LPREFIX/lib -lhiglaupth -o root
 *   ./root [NUMBER | DX DY]
 *
 * Each argument is the eight hexadecimal digits of an f32, as a listing has them. DX and DY are how
 * far a point lies from its prediction: the number is the sum of their squares, and the root the
 * residual. Without arguments they are 1 and 2. Exit status: 0 if there is a root, 1 if there is
 * neither root nor remainder or the difference is another, 2 if the arguments are wrong or the
 * answer cannot be written.
 */
#include "shared.h"

#include <string.h>

static float read_number(const char *digits) {
    if (strlen(digits) != 8 || strspn(digits, "0123456789ABCDEFabcdef") != 8) {
        fprintf(stderr, "%s: eight hexadecimal digits are asked for\n", digits);
        exit(2);
    }
    const uint32_t bits = (uint32_t)strtoul(digits, NULL, 16);
    float number;
    memcpy(&number, &bits, sizeof number);
    return number;
}

/* A finite number times 2^power, without its sign. */
static int64_t times_power(uint32_t bits, int power) {
    const int exponent = bits >> 23 & 0xFF, fraction = bits & 0x7FFFFF;
    if (exponent == 0 && fraction == 0) return 0;
    if (exponent == 0) return (int64_t)fraction << (power - 149);
    return (int64_t)(0x800000 + fraction) << (exponent - 150 + power);
}

/* S / 2^(power / 2). */
static float as_float(higlaupth_whole_root whole) {
    float root = (float)whole.root;
    for (int power = whole.power; power > 0; power -= 2) root /= 2;
    for (int power = whole.power; power < 0; power += 2) root *= 2;
    return root;
}

int main(int argc, char **argv) {
    float dx = 1, dy = 2;
    if (argc == 3) {
        dx = read_number(argv[1]);
        dy = read_number(argv[2]);
    } else if (argc > 3) {
        fprintf(stderr, "%s: a third number\n", argv[3]);
        return 2;
    }
    const float number = argc == 2 ? read_number(argv[1]) : dx * dx + dy * dy;

    const uint32_t bits = higlaupth_float_bits(number);
    higlaupth_whole_root whole;
    printf("number %08X\n", (unsigned)bits);
    if (!higlaupth_root(bits, &whole)) {
        printf("neither root nor remainder\n");
        return ended(1);
    }
    const int64_t r = times_power(bits, whole.power), square = (int64_t)whole.root * whole.root;
    printf("S %d power %d remainder %d\n", (int)whole.root, (int)whole.power, (int)whole.remainder);
    printf("R %lld S*S %lld difference %lld\n", (long long)r, (long long)square,
           (long long)(r - square));
    printf("root %08X\n", (unsigned)higlaupth_float_bits(as_float(whole)));
    return ended(r - square == whole.remainder ? 0 : 1);
}
