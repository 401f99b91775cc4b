/* A loader: reads a kit file, splits it, and starts its stages; on a refusal it starts nothing.
 * Build: cc -Iinclude examples/loader.c crates/hatchraisin/out/libhatchraisin.a -o loader */
#include <stdio.h>
#include "hatchraisin.h"

static uint8_t text[HATCH_TEXT + 1];
static uint16_t costs[HATCH_BLOCKS];
static uint16_t starts[HATCH_WIRES], ends[HATCH_WIRES], widths[HATCH_WIRES];
static uint16_t table[HATCH_BLOCKS], ladder[HATCH_ROWS * HATCH_BLOCKS];

/* One byte more than a kit text may have, so that a longer file is seen to be too long. */
static int read_file(const char *name, size_t *len)
{
    FILE *f = fopen(name, "rb");
    if (!f) {
        perror(name);
        return -1;
    }
    *len = fread(text, 1, sizeof text, f);
    int failed = ferror(f);
    fclose(f);
    if (failed)
        fprintf(stderr, "%s: read error\n", name);
    return failed ? -1 : 0;
}

static int refused(uint32_t number, size_t place)
{
    fprintf(stderr, "kit refused: number %u, place %zu; nothing is started\n", (unsigned)number, place);
    return 1;
}

static void start(size_t stage, size_t n)
{
    printf("start stage %zu:", stage);
    for (size_t b = 0; b < n; b++)
        if (table[b] == stage)
            printf(" %zu", b);
    printf("\n");
}

int main(int argc, char **argv)
{
    size_t len, kit[HATCH_READ_ANSWER], answer[HATCH_SPLIT_ANSWER];
    if (argc != 2) {
        fprintf(stderr, "usage: loader KITFILE\n");
        return 2;
    }
    if (read_file(argv[1], &len))
        return 2;

    uint32_t number = hatch_read(text, len, costs, HATCH_BLOCKS, starts, HATCH_WIRES,
                                 ends, HATCH_WIRES, widths, HATCH_WIRES, kit);
    if (number)
        return refused(number, kit[0]);

    size_t n = kit[0], m = kit[1], k = kit[2];
    number = hatch_split(costs, n, starts, m, ends, m, widths, m, k, (uint32_t)kit[3],
                         table, HATCH_BLOCKS, ladder, HATCH_ROWS * HATCH_BLOCKS, answer);
    if (number) /* the table still holds the previous song: do not start */
        return refused(number, answer[0]);

    /* No wire runs from a later stage to an earlier one, so the stages start in number order. */
    for (size_t s = 0; s < k; s++)
        start(s, n);
    return 0;
}
