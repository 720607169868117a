/* The shortest program over the library: `force MATRIX` prints the force of each row, in mN, if every row moves by
 * 1,000 micrometres.
 *
 *     gcc -O2 -Iinclude examples/force.c target/staticlib/libmazhoketh.a -o target/force
 *     target/force data/roof_45.mtx
 *
 * Files of movements, refusals in words and all the rest are in mzk/. */

#include <stdio.h>

#include "mazhoketh.h"

static uint8_t text[MZK_TEXT_BYTES + 1]; /* one byte more, so that a longer text is told from the longest */
static uint8_t starts[4 * MZK_ROW_STARTS], columns[4 * MZK_ENTRIES], values[4 * MZK_ENTRIES];
static uint8_t movements[4 * MZK_ROWS], forces[8 * MZK_ROWS];

/* Says what refused a call, if anything did. */
static int is_refused(const char *call, uint64_t word)
{
    if (MZK_NUMBER(word) != MZK_ACCEPTED)
        fprintf(stderr, "%s: refused with %u at %u\n", call, MZK_NUMBER(word), MZK_PLACE(word));
    return MZK_NUMBER(word) != MZK_ACCEPTED;
}

/* The number in so many bytes, low byte first. */
static uint64_t number_in(const uint8_t *bytes, int width)
{
    return width == 0 ? 0 : number_in(bytes + 1, width - 1) << 8 | bytes[0];
}

int main(int argc, char **argv)
{
    FILE *file = argc == 2 ? fopen(argv[1], "rb") : NULL;
    if (file == NULL) {
        fprintf(stderr, "usage: force MATRIX\n");
        return 2;
    }
    size_t length = fread(text, 1, sizeof text, file);
    fclose(file);
    uint64_t word = mzk_read(text, length, starts, sizeof starts, columns, sizeof columns, values, sizeof values);
    if (is_refused("read", word))
        return 2;
    uint32_t n = MZK_COUNT(word);
    for (uint32_t row = 0; row < n; row++) {
        movements[4 * row] = 1000 & 0xff; /* 1,000 in 32 bits, low byte first */
        movements[4 * row + 1] = 1000 >> 8;
    }
    word = mzk_product(n, starts, sizeof starts, columns, sizeof columns, values, sizeof values, movements, 4 * n,
                       forces, sizeof forces);
    if (is_refused("product", word))
        return 2;
    for (uint32_t row = 0; row < n; row++)
        printf("%lld\n", (long long)(int64_t)number_in(forces + 8 * row, 8));
    return fclose(stdout) == 0 ? 0 : 3;
}
