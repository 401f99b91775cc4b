/* Links the archive and calls it from C: every refusal number, and guards past the named entries. */
#include <stdio.h>
#include <stdlib.h>
#include <string.h>
#include "hatchraisin.h"

enum { GUARD = 0xA5A5, PAD = 8 };

static uint16_t costs[HATCH_BLOCKS + 1 + PAD], starts[HATCH_WIRES + 1 + PAD], ends[HATCH_WIRES + 1 + PAD], widths[HATCH_WIRES + 1 + PAD];
static uint16_t table[HATCH_BLOCKS + PAD], ladder[HATCH_ROWS * HATCH_BLOCKS + PAD], order[HATCH_STAGES + PAD];
static size_t answer[4 + PAD];
static size_t n, m, k, failed, hit[17], check_hit[HATCH_LOOP + 1];
static uint32_t limit;

static void expect(int ok, const char *what, int line)
{
    if (ok)
        return;
    failed++;
    fprintf(stderr, "tests/c/test.c:%d: %s\n", line, what);
}
#define EXPECT(x) expect((x), #x, __LINE__)

static int guarded(const uint16_t *l, size_t from, size_t size)
{
    for (size_t i = from; i < size; i++)
        if (l[i] != GUARD)
            return 0;
    return 1;
}

static void fill(uint16_t *l, size_t size)
{
    for (size_t i = 0; i < size; i++)
        l[i] = GUARD;
}

static void fresh(void)
{
    fill(table, HATCH_BLOCKS + PAD);
    fill(ladder, HATCH_ROWS * HATCH_BLOCKS + PAD);
    fill(order, HATCH_STAGES + PAD);
    for (size_t i = 0; i < 4 + PAD; i++)
        answer[i] = GUARD;
}

static int answer_guarded(size_t from)
{
    for (size_t i = from; i < 4 + PAD; i++)
        if (answer[i] != GUARD)
            return 0;
    return 1;
}

/* a refusal in so many cells: the place, then 0; no other cell is written */
static int place_told(size_t place, size_t cells)
{
    for (size_t i = 1; i < cells; i++)
        if (answer[i] != 0)
            return 0;
    return answer[0] == place && answer_guarded(cells);
}

/* n blocks of cost 1 and no wires */
static void plain(size_t blocks, size_t stages, uint32_t bound)
{
    n = blocks, m = 0, k = stages, limit = bound;
    for (size_t i = 0; i < n; i++)
        costs[i] = 1;
}

static void wire(uint16_t a, uint16_t b, uint16_t w)
{
    starts[m] = a, ends[m] = b, widths[m] = w;
    m++;
}

static uint32_t split_with(size_t w, size_t t, size_t l)
{
    return hatch_split(n ? costs : NULL, n, m ? starts : NULL, m, m ? ends : NULL, m, w ? widths : NULL, w, k, limit, table, t, ladder, l, answer);
}

static uint32_t inspect_with(size_t t, size_t o)
{
    return hatch_inspect(n ? costs : NULL, n, m ? starts : NULL, m, m ? ends : NULL, m, m ? widths : NULL, m, k, limit, table, t, order, o, answer);
}

/* A kit is checked: the number, the place, and how many wires were tried as repeats. The lists stay as they are. */
static void checked(int line, size_t a, size_t b, size_t w, uint32_t number, size_t place, size_t tried)
{
    static uint16_t before[4][HATCH_WIRES + 1 + PAD];
    memcpy(before[0], costs, sizeof costs), memcpy(before[1], starts, sizeof starts);
    memcpy(before[2], ends, sizeof ends), memcpy(before[3], widths, sizeof widths);
    fresh();
    uint32_t got = hatch_check(n ? costs : NULL, n, a ? starts : NULL, a, b ? ends : NULL, b, w ? widths : NULL, w, k, limit, answer);
    check_hit[number]++;
    expect(got == number, "the check's number", line);
    expect(answer[0] == place && answer[1] == tried && answer_guarded(HATCH_CHECK_ANSWER), "the check's place and count, in two cells", line);
    expect(!memcmp(before[0], costs, sizeof costs) && !memcmp(before[1], starts, sizeof starts), "costs and starts are untouched", line);
    expect(!memcmp(before[2], ends, sizeof ends) && !memcmp(before[3], widths, sizeof widths), "ends and widths are untouched", line);
}
#define CHECKED(number, place, tried) checked(__LINE__, m, m, m, number, place, tried)

static void is_refused(int line, uint32_t got, uint32_t number, size_t place, size_t cells)
{
    if (number < 17)
        hit[number]++;
    expect(got == number, "the refusal's number", line);
    expect(place_told(place, cells), "the refusal's place, and 0 in the cells past it", line);
    expect(guarded(table, 0, HATCH_BLOCKS + PAD), "the table is untouched", line);
    if (number != 9)
        expect(guarded(ladder, 0, HATCH_ROWS * HATCH_BLOCKS + PAD), "the ladder is untouched", line);
}

/* split and inspection refuse the kit alike, and so does the check */
#define KIT_REFUSED(number, place)                                                        \
    do {                                                                                  \
        fresh();                                                                          \
        is_refused(__LINE__, split_with(m, n, 9 * n), number, place, 4);               \
        fresh();                                                                          \
        is_refused(__LINE__, inspect_with(n, k), number, place, 1);                    \
        EXPECT(guarded(order, 0, HATCH_STAGES + PAD));                                    \
        CHECKED(number, place, number < 7 ? 0 : number == 7 ? (place) + 1 : m);           \
    } while (0)

static void kits_refused(void)
{
    plain(0, 1, 1);
    KIT_REFUSED(1, 0);
    plain(513, 1, 9999);
    fresh();
    is_refused(__LINE__, split_with(m, HATCH_BLOCKS, HATCH_ROWS * HATCH_BLOCKS), 1, 0, 4);
    CHECKED(1, 0, 0);
    plain(4, 0, 9);
    KIT_REFUSED(2, 0);
    plain(4, 5, 9);
    KIT_REFUSED(2, 0);
    plain(17, 17, 9);
    fresh();
    is_refused(__LINE__, split_with(m, n, 9 * n), 2, 0, 4);

    plain(4, 2, 9);
    wire(0, 1, 1);
    fresh();
    is_refused(__LINE__, split_with(0, n, 9 * n), 3, 0, 4);
    plain(512, 2, 9999);
    for (uint16_t i = 0; m < 1025; i++)
        wire(i % 511, i % 511 + 1, 1);
    fresh();
    is_refused(__LINE__, split_with(m, n, 9 * n), 3, 0, 4);

    plain(4, 2, 9);
    fresh();
    is_refused(__LINE__, split_with(0, n - 1, 9 * n), 4, 0, 4);
    fresh();
    is_refused(__LINE__, split_with(0, n, 9 * n - 1), 4, 0, 4);
    fresh();
    is_refused(__LINE__, inspect_with(n - 1, k), 4, 0, 1);
    fresh();
    is_refused(__LINE__, inspect_with(n, k - 1), 4, 0, 1);

    plain(4, 2, 9);
    costs[2] = 0;
    KIT_REFUSED(5, 2);
    costs[2] = 10;
    KIT_REFUSED(5, 2);
    plain(1, 1, 0);
    KIT_REFUSED(5, 0);
    plain(4, 2, 9);
    wire(0, 1, 1), wire(1, 4, 1);
    KIT_REFUSED(6, 1);
    plain(1, 1, 1);
    wire(0, 0, 1);
    KIT_REFUSED(6, 0);
    plain(4, 2, 9);
    wire(0, 1, 0);
    KIT_REFUSED(6, 0);
    plain(4, 2, 9);
    wire(0, 1, 1), wire(1, 2, 1), wire(0, 1, 3);
    KIT_REFUSED(7, 2);
    plain(2, 1, 2);
    wire(0, 1, 1), wire(1, 0, 1);
    KIT_REFUSED(8, 0);
}

/* case 5 of the document: 9 leaves the table, and the ladder holds its rows */
static void uncut(void)
{
    plain(3, 2, 4);
    costs[0] = 2, costs[1] = 4, costs[2] = 2;
    fresh();
    is_refused(__LINE__, split_with(0, n, 9 * n), 9, 0, 4);
    EXPECT(ladder[0] == 0 && ladder[1] == 1 && ladder[2] == 2);
    EXPECT(guarded(ladder, 3, HATCH_ROWS * HATCH_BLOCKS + PAD));
    CHECKED(0, 0, 0);
}

/* a table, inspected */
static void inspected(int line, const uint16_t *parts, uint32_t number, size_t place)
{
    uint16_t before[HATCH_BLOCKS + PAD];
    fresh();
    memcpy(table, parts, n * sizeof *parts);
    memcpy(before, table, sizeof before);
    uint32_t got = inspect_with(n, k);
    if (number)
        hit[number]++;
    expect(got == number, "the verdict's number", line);
    expect(place_told(place, 1), "the verdict's place or cut", line);
    expect(!memcmp(before, table, sizeof before), "the inspected table is untouched", line);
    expect(guarded(order, number ? 0 : k, HATCH_STAGES + PAD), "the order past its entries is untouched", line);
}

static void tables(void)
{
    plain(6, 3, 3);
    wire(0, 1, 1), wire(2, 3, 1), wire(4, 5, 1);
    inspected(__LINE__, (uint16_t[]){0, 1, 1, 3, 2, 0}, 10, 3);
    inspected(__LINE__, (uint16_t[]){0, 0, 2, 2, 2, 0}, 11, 1);
    inspected(__LINE__, (uint16_t[]){0, 1, 2, 2, 2, 2}, 12, 2);
    inspected(__LINE__, (uint16_t[]){0, 1, 1, 2, 2, 0}, 13, 0);
    inspected(__LINE__, (uint16_t[]){2, 2, 1, 1, 0, 0}, 0, 0);
    EXPECT(order[0] == 0 && order[1] == 1 && order[2] == 2);
    inspected(__LINE__, (uint16_t[]){2, 1, 1, 0, 0, 0}, 0, 2);
    EXPECT(order[0] == 2 && order[1] == 1 && order[2] == 0);
}

/* case 1 of the document */
static void sound(void)
{
    const uint16_t stages[] = {0, 0, 1, 1, 1, 1}, groups[] = {0, 0, 1, 1, 2, 2};
    plain(6, 2, 4);
    wire(0, 1, 4), wire(1, 2, 1), wire(2, 3, 4), wire(3, 4, 1), wire(4, 5, 4);
    fresh();
    EXPECT(split_with(m, HATCH_BLOCKS, HATCH_ROWS * HATCH_BLOCKS) == 0);
    EXPECT(answer[0] == 1 && answer[1] == 1 && answer[2] == 1 && answer[3] == 0 && answer_guarded(4));
    EXPECT(!memcmp(table, stages, sizeof stages) && guarded(table, n, HATCH_BLOCKS + PAD));
    EXPECT(!memcmp(ladder + n, groups, sizeof groups) && guarded(ladder, 2 * n, HATCH_ROWS * HATCH_BLOCKS + PAD));
    CHECKED(0, 0, 5);
}

/* request a of document 02: stages are evened out, by moves that are not counted */
static void evened(void)
{
    const uint16_t stages[] = {1, 0, 1};
    plain(3, 2, 5);
    costs[1] = 3, costs[2] = 2;
    fresh();
    EXPECT(split_with(0, HATCH_BLOCKS, HATCH_ROWS * HATCH_BLOCKS) == 0);
    EXPECT(answer[0] == 0 && answer[1] == 0 && answer[2] == 0 && answer[3] == 0 && answer_guarded(4));
    EXPECT(!memcmp(table, stages, sizeof stages) && guarded(table, n, HATCH_BLOCKS + PAD));
}

/* 512 blocks without wires under a limit that never matters: the first cut is 15 single blocks and all the rest */
static void evened_largest(void)
{
    size_t sums[HATCH_STAGES] = {0};
    plain(512, 16, 512);
    fresh();
    EXPECT(split_with(0, n, 9 * n) == 0);
    EXPECT(answer[0] == 0 && answer[3] == 0 && guarded(table, n, HATCH_BLOCKS + PAD));
    for (size_t i = 0; i < n; i++)
        sums[table[i]]++;
    for (size_t s = 0; s < k; s++)
        EXPECT(sums[s] == 32);
}

/* 512 blocks, 1,024 wires, 16 stages: the largest kit, and the table past it */
static void largest(void)
{
    plain(512, 16, 64);
    for (uint16_t i = 0; i < 511; i++)
        wire(i, i + 1, 1 + i % 7);
    for (uint16_t i = 0; i < 510; i++)
        wire(i, i + 2, 1 + i % 5);
    wire(0, 3, 1), wire(1, 4, 1), wire(2, 5, 1);
    EXPECT(m == 1024);
    fresh();
    EXPECT(split_with(m, n, 9 * n) == 0);
    EXPECT(answer_guarded(4) && guarded(table, n, HATCH_BLOCKS + PAD) && guarded(ladder, (answer[1] + 1) * n, HATCH_ROWS * HATCH_BLOCKS + PAD));
    size_t cut = answer[0];
    EXPECT(inspect_with(n, k) == 0);
    EXPECT(answer[0] == cut && guarded(order, k, HATCH_STAGES + PAD));
    for (size_t s = 0; s < k; s++)
        EXPECT(order[s] == s);
    CHECKED(0, 0, 1024);
}

/* request b of document 02: how many wires are tried, to the first find */
static void tried(void)
{
    plain(3, 1, 1);
    CHECKED(0, 0, 0);
    wire(0, 1, 1), wire(1, 2, 1);
    CHECKED(0, 0, 2);
    wire(1, 2, 1), wire(0, 1, 1); /* wire 3 repeats a lower one than wire 2 does */
    CHECKED(7, 2, 3);
    plain(3, 1, 1);
    wire(0, 1, 1), wire(0, 1, 2), wire(1, 0, 1), wire(0, 1, 1);
    CHECKED(7, 1, 2);
    plain(3, 1, 1);
    wire(1, 2, 1), wire(0, 1, 1), wire(0, 2, 1), wire(1, 2, 1);
    CHECKED(7, 3, 4);
    wire(2, 2, 1); /* a fault with a lower number is looked for before, in all wires */
    CHECKED(6, 4, 0);
    costs[1] = 2;
    CHECKED(5, 1, 0);
    plain(3, 1, 1);
    wire(0, 1, 1), wire(2, 1, 1), wire(1, 2, 1);
    CHECKED(8, 1, 3);
}

/* wire lists of unequal length, one of them perhaps NULL; stage count and limit at their ends */
static void check_ends(void)
{
    plain(17, 16, UINT32_MAX);
    wire(0, 1, 1), wire(0, 1, 1);
    for (size_t l = 0; l < 4; l++)
        if (l != m) {
            checked(__LINE__, l, m, m, 3, 0, 0);
            checked(__LINE__, m, l, m, 3, 0, 0);
            checked(__LINE__, m, m, l, 3, 0, 0);
        }
    const size_t bad[] = {0, 17, (size_t)UINT32_MAX + 1, (size_t)UINT32_MAX + 2, SIZE_MAX};
    plain(17, 16, UINT32_MAX);
    wire(16, 0, 1);
    CHECKED(0, 0, 1);
    for (size_t i = 0; i < sizeof bad / sizeof *bad; i++) {
        k = bad[i];
        CHECKED(2, 0, 0);
    }
    k = 1, limit = 0;
    CHECKED(5, 0, 0);
    limit = 65534, costs[16] = 65535;
    CHECKED(5, 16, 0);
    limit = 65535;
    CHECKED(0, 0, 1);
}

/* two hubs of 511 wires each, one of them between the two, and three wires more: 512 blocks, 1,024 wires */
static void two_hubs(void)
{
    plain(512, 16, 1);
    for (uint16_t hub = 0; hub < 2; hub++)
        for (uint16_t i = hub + 1; i < 512; i++)
            wire(hub, i, 1);
    wire(2, 3, 1), wire(3, 4, 1), wire(4, 5, 1);
    CHECKED(0, 0, 1024);
    ends[1023] = 511, starts[1023] = 1;
    CHECKED(7, 1023, 1024);
    ends[1023] = 0, starts[1023] = 511;
    CHECKED(8, 0, 1024);
    wire(5, 6, 1);
    CHECKED(3, 0, 0);
}

#ifndef NO_READ
static uint32_t read_with(const char *text, size_t len, size_t c, size_t w)
{
    fresh();
    fill(costs, HATCH_BLOCKS + 1 + PAD);
    fill(starts, HATCH_WIRES + 1 + PAD);
    fill(ends, HATCH_WIRES + 1 + PAD);
    fill(widths, HATCH_WIRES + 1 + PAD);
    return hatch_read((const uint8_t *)text, len, costs, c, starts, w, ends, w, widths, w, answer);
}

static void read_refused(int line, const char *text, size_t len, size_t c, size_t w, uint32_t number, size_t place)
{
    uint32_t got = read_with(text, len, c, w);
    hit[number]++;
    expect(got == number && place_told(place, 4), "the refusal of a text", line);
    expect(guarded(costs, 0, HATCH_BLOCKS + PAD) && guarded(starts, 0, HATCH_WIRES + PAD) && guarded(ends, 0, HATCH_WIRES + PAD) && guarded(widths, 0, HATCH_WIRES + PAD), "the lists are untouched", line);
}

static void texts(void)
{
    static char big[HATCH_TEXT + 1];
    const char *kit = "(kit (blocks 2) (stages 1) (limit 9))\n(block (cost 1))\n(block (cost 3))\n(wire (from 0) (to 1) (width 5))\n";
    const char *few = "(kit (blocks 3) (stages 1) (limit 9))\n(block (cost 1))\n(block (cost 3))\n";
    read_refused(__LINE__, big, sizeof big, HATCH_BLOCKS, HATCH_WIRES, 14, 0);
    read_refused(__LINE__, NULL, 0, HATCH_BLOCKS, HATCH_WIRES, 15, 1);
    read_refused(__LINE__, kit, strlen(kit) - 1, HATCH_BLOCKS, HATCH_WIRES, 15, 4);
    read_refused(__LINE__, few, strlen(few), HATCH_BLOCKS, HATCH_WIRES, 16, 0);
    read_refused(__LINE__, kit, strlen(kit), 1, HATCH_WIRES, 4, 0);
    read_refused(__LINE__, kit, strlen(kit), 2, 0, 4, 0);
    EXPECT(read_with(kit, strlen(kit), 2, 1) == 0);
    EXPECT(answer[0] == 2 && answer[1] == 1 && answer[2] == 1 && answer[3] == 9 && answer_guarded(4));
    EXPECT(costs[0] == 1 && costs[1] == 3 && guarded(costs, 2, HATCH_BLOCKS + PAD));
    EXPECT(starts[0] == 0 && ends[0] == 1 && widths[0] == 5);
    EXPECT(guarded(starts, 1, HATCH_WIRES + PAD) && guarded(ends, 1, HATCH_WIRES + PAD) && guarded(widths, 1, HATCH_WIRES + PAD));
}
#endif

int main(void)
{
    size_t last = 13;
    kits_refused();
    uncut();
    tables();
    sound();
    evened();
    evened_largest();
    largest();
    tried();
    check_ends();
    two_hubs();
#ifndef NO_READ
    texts();
    last = 16;
#endif
    for (size_t i = 1; i <= last; i++)
        EXPECT(hit[i] > 0);
    for (size_t i = 0; i <= HATCH_LOOP; i++)
        EXPECT((check_hit[i] > 0) == (i != HATCH_TOO_SHORT));
    printf("tests/c: %s, refusals 1 to %zu hit, by the check all up to 8 but 4\n", failed ? "FAILED" : "passed", last);
    return failed != 0;
}
