/* An editor's side of the check: reads a kit file and draws its wires one by one. A wire that the check refuses is left out
 * and named, with how many wires the search for a repeated one tried.
 * Build: cc -Iinclude examples/editor.c crates/hatchraisin/out/libhatchraisin.a -o editor */
#include <stdio.h>
#include "hatchraisin.h"

static uint8_t text[HATCH_TEXT + 1];
static uint16_t costs[HATCH_BLOCKS];
static uint16_t starts[HATCH_WIRES], ends[HATCH_WIRES], widths[HATCH_WIRES];

/* One byte more than a kit text may have, so that a longer file is seen to be too long. */
static int read_file(const char *name, size_t *len)
{
    FILE *f = fopen(name, "rb");
    if (!f) {
        perror(name);
        return -1;
    }
    *len = fread(text, 1, sizeof text, f);
    int failed = ferror(f);
    fclose(f);
    if (failed)
        fprintf(stderr, "%s: read error\n", name);
    return failed ? -1 : 0;
}

static int refused(uint32_t number, size_t place)
{
    fprintf(stderr, "kit refused: number %u, place %zu; no wire can be drawn\n", (unsigned)number, place);
    return 1;
}

/* Draws the wire behind the `kept` ones, which lie at the front of the lists. Returns how many are kept then. */
static size_t draw(const size_t kit[HATCH_READ_ANSWER], size_t wire, size_t kept)
{
    size_t n = kit[0], m = kept + 1, answer[HATCH_CHECK_ANSWER];
    starts[kept] = starts[wire], ends[kept] = ends[wire], widths[kept] = widths[wire];
    uint32_t number = hatch_check(costs, n, starts, m, ends, m, widths, m, kit[2], (uint32_t)kit[3], answer);
    if (number == 0)
        return m;
    printf("wire %zu left out: number %u, place %zu, tried %zu\n", wire, (unsigned)number, answer[0], answer[1]);
    return kept;
}

int main(int argc, char **argv)
{
    size_t len, kept = 0, kit[HATCH_READ_ANSWER], answer[HATCH_CHECK_ANSWER];
    if (argc != 2) {
        fprintf(stderr, "usage: editor KITFILE\n");
        return 2;
    }
    if (read_file(argv[1], &len))
        return 2;

    uint32_t number = hatch_read(text, len, costs, HATCH_BLOCKS, starts, HATCH_WIRES,
                                 ends, HATCH_WIRES, widths, HATCH_WIRES, kit);
    if (number)
        return refused(number, kit[0]);

    /* blocks, stages and costs, before there is a wire: 1, 2 or 5 */
    number = hatch_check(costs, kit[0], NULL, 0, NULL, 0, NULL, 0, kit[2], (uint32_t)kit[3], answer);
    if (number)
        return refused(number, answer[0]);

    for (size_t wire = 0; wire < kit[1]; wire++)
        kept = draw(kit, wire, kept);
    printf("%zu of %zu wires kept\n", kept, kit[1]);
    return 0;
}
