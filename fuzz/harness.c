/* libFuzzer harness over the C interface.
 *
 * An input is a kit text as it stands, or a recipe: its bytes choose a sound kit, a fault to give it, and a table. A fault
 * has one answer, number and place, and the call has to give that one. Demanded besides: entries past those named keep
 * their guards; a refusal leaves the tables; a table that the split answers passes inspection with the same cut, and no
 * single move is left in it; inspection agrees with the one below; the check beside every split agrees with it, and tried
 * as many wires as the loop below; a text that is read is the printing of what was read. */
#include <stdarg.h>
#include <stdio.h>
#include <stdlib.h>
#include <string.h>
#include "hatchraisin.h"

enum { GUARD = 0xA5A5, PAD = 16, BLOCKS = HATCH_BLOCKS + 1, WIRES = HATCH_WIRES + 1 };

#define DEMAND(x)                                                                  \
    do {                                                                           \
        if (!(x)) {                                                                \
            fprintf(stderr, "%s:%d: %s\n", __FILE__, __LINE__, #x);                \
            abort();                                                               \
        }                                                                          \
    } while (0)

/* The kit at hand, and how much of each list is lent. */
static uint16_t costs[BLOCKS], wires[3][WIRES];
static size_t n, m, k, lent[3];
static uint32_t limit;

/* Lent tables, with guards past them. */
static uint16_t table[BLOCKS + PAD], ladder[HATCH_ROWS * BLOCKS + PAD], order[HATCH_STAGES + 1 + PAD];
static uint16_t lists[4][WIRES + PAD];
static size_t answer[4 + PAD], checked[HATCH_CHECK_ANSWER + PAD];

/* How often each number came; what came is coverage to libFuzzer, which does not see into the archive. */
enum { SPLIT, INSPECT, READ, CHECK, CALLS };
static unsigned long returned[CALLS][17];
__attribute__((section("__libfuzzer_extra_counters"))) static uint8_t seen[4096];

__attribute__((destructor)) static void report(void)
{
    const char *calls[CALLS] = {"split", "inspect", "read", "check"};
    unsigned long total[17] = {0};
    for (int c = 0; c < CALLS; c++)
        for (int i = 0; i < 17; i++) {
            total[i] += returned[c][i];
            if (returned[c][i])
                fprintf(stderr, "hatch_%s returned %d: %lu times\n", calls[c], i, returned[c][i]);
        }
    for (int i = 0; i < 17; i++)
        if (total[i] == 0)
            fprintf(stderr, "NEVER returned: %d\n", i);
}

static uint32_t tell(int call, uint32_t number)
{
    DEMAND(number <= 16);
    returned[call][number]++;
    seen[call * 17 + number] = 1;
    if (call == SPLIT && number == 0) /* rounds kept, rung cut, some moves */
        seen[128 + (answer[1] * 9 + answer[2]) * 8 + (answer[3] > 7 ? 7 : answer[3])] = 1;
    if (call == CHECK && number == 7) /* how far the search went, by powers of two */
        for (size_t tried = checked[1], at = 1024; tried; tried /= 2, at++)
            seen[at] = 1;
    return number;
}

/* ---- choices out of the input's bytes, and out of a generator once these are used up ---- */

static const uint8_t *bytes, *end;
static uint64_t state;

static size_t below(size_t b)
{
    size_t v = 0;
    if (end - bytes >= 2) {
        v = (size_t)(bytes[0] | bytes[1] << 8);
        bytes += 2;
        state = state * 31 + v;
    } else {
        state = state * 6364136223846793005u + 1442695040888963407u;
        v = state >> 33;
    }
    return b ? v % b : 0;
}

static int one_in(size_t b)
{
    return below(b) == 0;
}

/* ---- guards ---- */

static void fill(uint16_t *l, size_t size)
{
    while (size)
        l[--size] = GUARD;
}

static int guarded(const uint16_t *l, size_t from, size_t to)
{
    while (from < to && l[from] == GUARD)
        from++;
    return from >= to;
}

static void fresh(void)
{
    fill(table, BLOCKS + PAD);
    fill(ladder, HATCH_ROWS * BLOCKS + PAD);
    fill(order, HATCH_STAGES + 1 + PAD);
    for (size_t i = 0; i < 4; i++)
        fill(lists[i], WIRES + PAD);
    for (size_t i = 0; i < 4 + PAD; i++)
        answer[i] = GUARD;
}

/* the cells of an answer: of a refusal 0 past the place; no cell past them is written */
static void cells(uint32_t number, size_t count)
{
    for (size_t i = number ? 1 : count; i < 4 + PAD; i++)
        DEMAND(answer[i] == (i < count ? 0 : GUARD));
}

/* ---- sound kits ---- */

static int has_wire(size_t a, size_t b)
{
    for (size_t e = 0; e < m; e++)
        if (wires[0][e] == a && wires[1][e] == b)
            return 1;
    return 0;
}

/* wires along the places of `label`, none twice: a chain, a star, or any within a span */
static void draw_wires(const uint16_t *label, size_t most)
{
    size_t shape = below(4), span = 1 + below(n), highest = one_in(3) ? 65535 : 9;
    for (size_t tries = 0; m < most && tries < 2 * most && n > 1; tries++) {
        size_t a = shape == 0 ? tries % n : shape == 1 ? 0 : below(n), b = shape == 1 ? 1 + tries % (n - 1) : a + 1 + below(shape ? span : 1);
        if (b < n && !has_wire(label[a], label[b])) {
            wires[0][m] = label[a], wires[1][m] = label[b], wires[2][m] = (uint16_t)(1 + below(highest));
            m++;
        }
    }
}

static void sound(void)
{
    static uint16_t label[BLOCKS];
    static const size_t sizes[] = {4, 16, 64, HATCH_BLOCKS};
    size_t total = 0, largest = 1, highest = one_in(4) ? 65535 : 9;
    n = 1 + below(sizes[below(4)]);
    if (one_in(16))
        n = HATCH_BLOCKS;
    k = 1 + below(n < HATCH_STAGES ? n : HATCH_STAGES);
    m = 0;
    for (size_t v = 0; v < n; v++) {
        costs[v] = (uint16_t)(1 + below(highest));
        total += costs[v];
        largest = costs[v] > largest ? costs[v] : largest;
        label[v] = (uint16_t)v;
    }
    if (one_in(2))
        for (size_t v = 1; v < n; v++) {
            size_t w = below(v + 1);
            uint16_t l = label[v];
            label[v] = label[w], label[w] = l;
        }
    size_t few = one_in(4) ? 1 + n / 4 : 2 * n + 1; /* few wires: many moves that only even out stages */
    draw_wires(label, one_in(16) ? HATCH_WIRES : below(few) % (HATCH_WIRES + 1));
    size_t share = total / k, loose = below(4);
    limit = (uint32_t)(loose == 0 ? total : share + below(share + 1) * loose / 4 + below(largest + 1));
    if (limit < largest)
        limit = (uint32_t)largest;
    lent[0] = lent[1] = lent[2] = m;
}

/* ---- the calls ---- */

/* how many wires are tried as repeats of earlier ones, from the lowest up and to the first find; half a million pairs of them
 * at most, so nothing is watched here */
__attribute__((no_sanitize("address", "undefined", "coverage"))) static size_t tries(void)
{
    size_t tried = 0;
    for (int found = 0; tried < m && !found; tried++)
        for (size_t e = 0; e < tried; e++)
            found |= wires[0][e] == wires[0][tried] && wires[1][e] == wires[1][tried];
    return tried;
}

static uint32_t check(void)
{
    for (size_t i = 0; i < HATCH_CHECK_ANSWER + PAD; i++)
        checked[i] = GUARD;
    uint32_t number = hatch_check(n ? costs : NULL, n, lent[0] ? wires[0] : NULL, lent[0], lent[1] ? wires[1] : NULL, lent[1],
                                  lent[2] ? wires[2] : NULL, lent[2], k, limit, checked);
    DEMAND(number <= 8 && number != 4);
    DEMAND(number || checked[0] == 0);
    DEMAND(checked[1] == (number == 0 || number > 6 ? tries() : 0));
    for (size_t i = HATCH_CHECK_ANSWER; i < HATCH_CHECK_ANSWER + PAD; i++)
        DEMAND(checked[i] == GUARD);
    return tell(CHECK, number);
}

/* the check of a kit that was split: a 9 is sound, a 4 came past 1 to 3, and any other number and place is the same */
static void check_beside(uint32_t number)
{
    uint32_t own = check();
    if (number == 4)
        DEMAND(own == 0 || own > 4);
    else
        DEMAND(own == (number == 9 ? 0 : number) && (own == 0 || checked[0] == answer[0]));
}

static uint32_t split(size_t t, size_t l)
{
    fresh();
    uint32_t number = hatch_split(n ? costs : NULL, n, lent[0] ? wires[0] : NULL, lent[0], lent[1] ? wires[1] : NULL, lent[1],
                                  lent[2] ? wires[2] : NULL, lent[2], k, limit, table, t, ladder, l, answer);
    DEMAND(number <= 9);
    cells(number, HATCH_SPLIT_ANSWER);
    DEMAND(number || (answer[1] <= 8 && answer[2] <= answer[1]));
    size_t rows = number == 0 ? answer[1] + 1 : number == 9 ? HATCH_ROWS : 0;
    DEMAND(guarded(table, number ? 0 : n, BLOCKS + PAD));
    DEMAND(guarded(ladder, rows * n, HATCH_ROWS * BLOCKS + PAD));
    for (size_t v = 0; number == 0 && v < n; v++)
        DEMAND(table[v] < k && ladder[v] == v);
    check_beside(number);
    return tell(SPLIT, number);
}

static uint32_t inspect(size_t t, size_t o)
{
    static uint16_t before[BLOCKS + PAD];
    memcpy(before, table, sizeof before);
    fill(order, HATCH_STAGES + 1 + PAD);
    for (size_t i = 0; i < 4 + PAD; i++)
        answer[i] = GUARD;
    uint32_t number = hatch_inspect(n ? costs : NULL, n, lent[0] ? wires[0] : NULL, lent[0], lent[1] ? wires[1] : NULL, lent[1],
                                    lent[2] ? wires[2] : NULL, lent[2], k, limit, table, t, order, o, answer);
    DEMAND(number != 9 && number <= 13);
    cells(number, HATCH_INSPECT_ANSWER);
    DEMAND(guarded(order, number ? 0 : k, HATCH_STAGES + 1 + PAD) && !memcmp(before, table, sizeof before));
    return tell(INSPECT, number);
}

/* split, with the check beside it, and inspection refuse the kit with this number and place */
static void both(uint32_t number, size_t place)
{
    DEMAND(split(n, HATCH_ROWS * n) == number && answer[0] == place);
    DEMAND(inspect(n, k < HATCH_STAGES + 1 ? k : HATCH_STAGES + 1) == number && answer[0] == place);
}

/* ---- a sound kit's tables: checks 10 to 13, the cut and the start order, by another way ---- */

static size_t verdict(uint32_t *number, uint16_t *starts)
{
    uint64_t sums[HATCH_STAGES] = {0}, cut = 0;
    uint8_t reach[HATCH_STAGES][HATCH_STAGES] = {{0}}, gone[HATCH_STAGES] = {0};
    for (size_t v = 0; v < n; v++) {
        if (table[v] >= k)
            return *number = 10, v;
        sums[table[v]] += costs[v];
    }
    for (size_t c = 0; c < 2; c++)
        for (size_t s = 0; s < k; s++)
            if (c ? sums[s] > limit : sums[s] == 0)
                return *number = (uint32_t)(11 + c), s;
    for (size_t e = 0; e < m; e++)
        if (table[wires[0][e]] != table[wires[1][e]])
            reach[table[wires[0][e]]][table[wires[1][e]]] = 1, cut += wires[2][e];
    for (size_t b = 0; b < k; b++) /* all ways along wires between stages */
        for (size_t a = 0; a < k; a++)
            for (size_t c = 0; c < k; c++)
                reach[a][c] |= reach[a][b] & reach[b][c];
    for (size_t s = 0; s < k; s++)
        if (reach[s][s])
            return *number = 13, s;
    for (size_t i = 0; i < k; i++) { /* the lowest whose senders have all been taken */
        size_t s = 0, a = 0;
        for (; gone[s] || a < k; a++)
            if (a == k || gone[s] || (reach[a][s] && !gone[a]))
                s++, a = (size_t)-1;
        gone[s] = 1, starts[i] = (uint16_t)s;
    }
    return *number = 0, cut;
}

/* Nothing is left to move: no block has an allowed candidate of gain above 0, or of gain 0 by which the larger cost of the
 * two stages becomes smaller. The candidates are the stages from the highest of the senders to the lowest of the receivers. */
static void settled(void)
{
    static uint32_t width[BLOCKS][HATCH_STAGES];
    static size_t low[BLOCKS], high[BLOCKS];
    uint64_t sums[HATCH_STAGES] = {0};
    memset(width, 0, sizeof width);
    for (size_t v = 0; v < n; v++)
        sums[table[v]] += costs[v], low[v] = 0, high[v] = k - 1;
    for (size_t e = 0; e < m; e++) {
        size_t a = wires[0][e], b = wires[1][e];
        width[a][table[b]] += wires[2][e], width[b][table[a]] += wires[2][e];
        low[b] = table[a] > low[b] ? table[a] : low[b];
        high[a] = table[b] < high[a] ? table[b] : high[a];
    }
    for (size_t v = 0; v < n; v++)
        for (size_t own = table[v], t = low[v]; t <= high[v] && sums[own] > costs[v]; t++) {
            uint64_t after = sums[t] + costs[v];
            if (t == own || after > limit)
                continue;
            DEMAND(width[v][t] <= width[v][own]);
            DEMAND(width[v][t] < width[v][own] || after >= sums[own]);
        }
}

static void judged(void)
{
    uint16_t starts[HATCH_STAGES];
    uint32_t number;
    size_t place = verdict(&number, starts);
    DEMAND(inspect(n, k) == number && answer[0] == place);
    for (size_t i = 0; number == 0 && i < k; i++)
        DEMAND(order[i] == starts[i]);
}

/* the split's own table and changes to it */
static void tables(void)
{
    if (split(n, HATCH_ROWS * n) != 0) {
        DEMAND(answer[0] == 0); /* a sound kit: 9 */
        for (size_t v = 0; v < n; v++)
            table[v] = (uint16_t)below(k);
    } else {
        size_t cut = answer[0];
        DEMAND(inspect(n, k) == 0 && answer[0] == cut);
        for (size_t s = 0; s < k; s++)
            DEMAND(order[s] == s);
        settled();
    }
    size_t change = below(6), changes = 1 + below(4), a = below(k), b = below(k);
    if (change == 0) /* an entry of k or more */
        table[below(n)] = (uint16_t)(one_in(2) ? k : 65535 - below(9));
    for (size_t v = 0; v < n; v++)
        if (change == 1 && table[v] == a) /* a stage emptied, or all in one */
            table[v] = (uint16_t)b;
        else if (change == 2) /* renamed backwards */
            table[v] = (uint16_t)(k - 1 - table[v]);
    for (size_t i = 0; change > 2 && i < changes; i++)
        table[below(n)] = (uint16_t)below(k);
    judged();
}

/* ---- faults of lists, each with its one answer ---- */

static void wire_fault(size_t e)
{
    size_t fault = below(4);
    if (fault < 2)
        wires[fault][e] = (uint16_t)(n + below(65536 - n));
    else if (fault == 2)
        wires[1][e] = wires[0][e];
    else
        wires[2][e] = 0;
    both(6, e);
}

/* the wire e once more in any place behind it, and then perhaps a wire that is not above e at the end: the lower place counts */
static void repeat_fault(size_t e)
{
    size_t at = e + 1 + below(m - e), last = below(e + 1);
    for (size_t l = 0; l < 3; l++) {
        memmove(wires[l] + at + 1, wires[l] + at, (m - at) * sizeof **wires);
        wires[l][at] = wires[l][e], wires[l][m + 1] = wires[l][last];
    }
    wires[2][at] = (uint16_t)(1 + below(65535));
    m += m + 1 < HATCH_WIRES && one_in(2) ? 2 : 1;
    lent[0] = lent[1] = lent[2] = m;
    both(7, at);
}

/* the wire e turned round as one more: a loop, whose lowest block is looked for along all ways from it */
static void loop_fault(size_t e)
{
    static uint8_t from[BLOCKS], to[BLOCKS];
    memset(from, 0, sizeof from), memset(to, 0, sizeof to);
    wires[0][m] = wires[1][e], wires[1][m] = wires[0][e], wires[2][m] = 1;
    lent[0] = lent[1] = lent[2] = ++m;
    from[wires[0][e]] = to[wires[0][e]] = 1;
    for (size_t changed = 1; changed;) {
        changed = 0;
        for (size_t i = 0; i < m; i++) {
            uint16_t a = wires[0][i], b = wires[1][i];
            changed |= (from[a] && !from[b]) || (to[b] && !to[a]);
            from[b] |= from[a], to[a] |= to[b];
        }
    }
    size_t lowest = 0;
    while (!(from[lowest] && to[lowest]))
        lowest++;
    both(8, lowest);
}

static void short_lent(void)
{
    size_t which = below(4);
    if (which < 2)
        DEMAND(split(n - (which == 0), HATCH_ROWS * n - (which == 1)) == 4 && answer[0] == 0 && check() == 0);
    else
        DEMAND(inspect(n - (which == 2), k - (which == 3)) == 4 && answer[0] == 0);
}

static void lists_fault(void)
{
    size_t fault = below(8), v = below(n), e = below(m);
    if (fault == 0) {
        n = one_in(2) ? 0 : BLOCKS, costs[BLOCKS - 1] = 1;
        DEMAND(split(HATCH_BLOCKS, HATCH_ROWS * HATCH_BLOCKS) == 1 && answer[0] == 0);
        DEMAND(inspect(HATCH_BLOCKS, k) == 1 && answer[0] == 0);
    } else if (fault == 1) {
        k = one_in(3) ? 0 : one_in(4) ? k + UINT32_MAX + 1 : n < HATCH_STAGES ? n + 1 : HATCH_STAGES + 1;
        both(2, 0);
    } else if (fault == 2 && m) {
        lent[below(3)]--;
        both(3, 0);
    } else if (fault == 2) {
        lent[0] = lent[1] = lent[2] = WIRES;
        both(3, 0);
    } else if (fault == 3) {
        short_lent();
    } else if (fault == 4) {
        costs[v] = (uint16_t)(one_in(2) || limit >= 65535 ? 0 : limit + 1 + below(65535 - limit));
        both(5, v);
    } else if (fault == 5 && m) {
        wire_fault(e);
    } else if (fault == 6 && m && m < HATCH_WIRES) {
        repeat_fault(e);
    } else if (fault == 7 && m && m < HATCH_WIRES) {
        loop_fault(e);
    }
}

/* ---- texts ---- */

static uint8_t text[HATCH_TEXT + 4096];
static size_t length;

__attribute__((format(printf, 1, 2))) static void print(const char *form, ...)
{
    va_list args;
    va_start(args, form);
    int more = vsnprintf((char *)text + length, sizeof text - length, form, args);
    va_end(args);
    DEMAND(more >= 0 && (size_t)more < sizeof text - length);
    length += (size_t)more;
}

static void print_kit(size_t blocks)
{
    length = 0;
    print("(kit (blocks %zu) (stages %zu) (limit %u))\n", blocks, k, (unsigned)limit);
    for (size_t v = 0; v < n; v++)
        print("(block (cost %u))\n", costs[v]);
    for (size_t e = 0; e < m; e++)
        print("(wire (from %u) (to %u) (width %u))\n", wires[0][e], wires[1][e], wires[2][e]);
}

/* the number; lists past what was read, and all of them on a refusal, keep their guards */
static uint32_t read_text(const uint8_t *from, size_t size, const size_t room[4])
{
    fresh();
    uint32_t number = hatch_read(size ? from : NULL, size, lists[0], room[0], lists[1], room[1], lists[2], room[2], lists[3], room[3], answer);
    DEMAND(number == 0 || number == 4 || (number >= 14 && number <= 16));
    cells(number, HATCH_READ_ANSWER);
    for (size_t i = 0; i < 4; i++)
        DEMAND(guarded(lists[i], number ? 0 : answer[i ? 1 : 0], WIRES + PAD));
    return tell(READ, number);
}

static const size_t full[4] = {HATCH_BLOCKS, HATCH_WIRES, HATCH_WIRES, HATCH_WIRES};

/* what was read becomes the kit at hand; its printing is the text */
static void take(const uint8_t *from, size_t size)
{
    n = answer[0], m = answer[1], k = answer[2], limit = (uint32_t)answer[3];
    memcpy(costs, lists[0], n * sizeof *costs);
    for (size_t i = 0; i < 3; i++)
        memcpy(wires[i], lists[i + 1], m * sizeof *costs), lent[i] = m;
    print_kit(n);
    DEMAND(length == size && !memcmp(text, from, size));
}

static void any_text(const uint8_t *data, size_t size)
{
    if (read_text(data, size, full))
        return;
    take(data, size);
    split(HATCH_BLOCKS, HATCH_ROWS * HATCH_BLOCKS);
    memset(table, 0, n * sizeof *table);
    inspect(HATCH_BLOCKS, HATCH_STAGES);
}

/* where the line begins, counted from 1 */
static size_t line_at(size_t line)
{
    size_t at = 0;
    while (--line)
        while (text[at++] != '\n')
            ;
    return at;
}

static void refused_text(uint32_t number, size_t place)
{
    DEMAND(read_text(text, length, full) == number && answer[0] == place);
}

/* a line of the text spoilt: a byte that no form has, one taken out, or the byte 10 at the end of the text */
static void line_fault(void)
{
    size_t line = 1 + below(1 + n + m), at = line_at(line), to = at, fault = below(3);
    while (text[to] != '\n')
        to++;
    if (fault == 0)
        text[at + below(to - at)] = "xX\r\t \0\xff"[below(4)];
    else if (fault == 1) /* the first byte is a bracket, and no form begins with another */
        memmove(text + at, text + at + 1, length-- - at - 1);
    else
        length--, line = 1 + n + m;
    refused_text(15, line);
}

static void text_fault(void)
{
    size_t fault = below(6), room[4] = {n, m, m, m}, which = below(m ? 4 : 1);
    if (fault == 0) {
        while (length <= HATCH_TEXT)
            text[length++] = (uint8_t)below(256);
        refused_text(14, 0);
    } else if (fault == 1) {
        line_fault();
    } else if (fault == 2) { /* one block or wire line too many */
        n = HATCH_BLOCKS + (size_t)one_in(2), m = n > HATCH_BLOCKS ? below(4) : WIRES;
        for (size_t v = 0; v < n; v++)
            costs[v] = 1;
        for (size_t e = 0; e < m; e++)
            wires[0][e] = wires[1][e] = wires[2][e] = (uint16_t)below(9);
        print_kit(HATCH_BLOCKS);
        refused_text(15, n > HATCH_BLOCKS ? HATCH_BLOCKS + 2 : 1 + n + m);
    } else if (fault == 3) {
        print_kit(one_in(2) ? n + 1 + below(65535 - n) : n - 1);
        refused_text(16, 0);
    } else if (fault == 4) {
        room[which]--;
        DEMAND(read_text(text, length, room) == 4 && answer[0] == 0);
    } else {
        DEMAND(read_text(text, length, room) == 0 && answer[0] == n && answer[1] == m && answer[2] == k && answer[3] == limit);
        DEMAND(!memcmp(lists[0], costs, n * sizeof *costs));
        for (size_t i = 0; i < 3; i++)
            DEMAND(!memcmp(lists[i + 1], wires[i], m * sizeof *costs));
    }
}

int LLVMFuzzerTestOneInput(const uint8_t *data, size_t size)
{
    if (size == 0 || data[0] == '(' || data[0] % 8 == 0) {
        any_text(data, size);
        return 0;
    }
    bytes = data + 1, end = data + size, state = data[0];
    sound();
    if (data[0] % 8 < 3)
        tables();
    else if (data[0] % 8 < 6)
        lists_fault();
    else {
        print_kit(n);
        text_fault();
    }
    return 0;
}
