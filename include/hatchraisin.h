/* hatchraisin.h: the stage splitter's calls, for the player's loader, the editor and the
 * bench.
 *
 * Link with crates/hatchraisin/out/libhatchraisin.a (`rt lib` in crates/hatchraisin makes it), x86-64.
 *
 * A kit has n blocks, 1 to 512, each with a cost, and m wires, 0 to 1,024, each with a
 * start, an end and a width. It is to run as k stages, 1 to 16, none above the limit.
 *
 * What is lent
 *   Each list or table is a pointer and its length in entries. NULL is allowed with
 *   length 0, and only then. A pointer must be aligned for its type and readable (or
 *   writable) for its whole length. Two things lent to one call must not overlap if the
 *   call may write to one of them; lists that are only read may overlap.
 *   The calls keep no pointer and no state, allocate nothing and call nothing, so
 *   they may run on several threads at once on different tables. The split writes up
 *   to about 141,000 bytes of stack, the check up to about 54,000 (bench/run prints both).
 *
 * What is answered
 *   Each call returns 0, or the number of the refusal (below). `answer` is never NULL and
 *   has the number of cells that the call names; the call writes each of them, always:
 *     0        the values said at the call
 *     1 to 16  answer[0] is the place: a block, wire, stage or line as the table says;
 *              the other cells are 0, but for hatch_check's count
 *   Entries of any table past those named at a call are never written.
 *
 * A REFUSAL LEAVES THE PREVIOUS TABLE IN PLACE. The stage table then still holds what it
 * held before the call, perhaps the last song's stages. So a number other than 0 means:
 * do not start. Look at the returned number, never at the table, to see whether there is
 * something to start.
 */
#ifndef HATCHRAISIN_H
#define HATCHRAISIN_H

#include <stddef.h>
#include <stdint.h>

#ifdef __cplusplus
extern "C" {
#endif

enum {
    HATCH_BLOCKS = 512,     /* most blocks of a kit */
    HATCH_WIRES = 1024,     /* most wires of a kit */
    HATCH_STAGES = 16,      /* most stages */
    HATCH_ROWS = 9,         /* rows of the ladder, n entries each */
    HATCH_TEXT = 65536,     /* most bytes of a kit text */
    HATCH_SPLIT_ANSWER = 4, /* cells of `answer` */
    HATCH_INSPECT_ANSWER = 1,
    HATCH_CHECK_ANSWER = 2,
    HATCH_READ_ANSWER = 4
};

/* The refusals, checked in the order of their numbers (hatch_read: 14, 15, 16, then 4). */
enum {
    HATCH_OK = 0,
    HATCH_BAD_BLOCKS = 1,      /* n is 0 or above 512; place 0 */
    HATCH_BAD_STAGES = 2,      /* k is 0, above 16 or above n; place 0 */
    HATCH_BAD_WIRES = 3,       /* wire lists of unequal length, or above 1,024; place 0 */
    HATCH_TOO_SHORT = 4,       /* a lent table or list is too short; place 0 */
    HATCH_BAD_COST = 5,        /* cost 0 or above the limit; place: lowest block */
    HATCH_BAD_END = 6,         /* end not a block, start = end, or width 0; lowest wire */
    HATCH_REPEATED = 7,        /* repeats an earlier start and end; lowest such wire */
    HATCH_LOOP = 8,            /* wires form a loop; lowest block on a loop */
    HATCH_UNCUT = 9,           /* no rung can be cut; place 0 */
    HATCH_ENTRY = 10,          /* inspection: entry of k or more; lowest block */
    HATCH_EMPTY = 11,          /* inspection: stage without blocks; lowest stage */
    HATCH_OVER = 12,           /* inspection: stage over the limit; lowest stage */
    HATCH_STAGE_LOOP = 13,     /* inspection: stages form a loop; lowest stage on one */
    HATCH_TEXT_LONG = 14,      /* text above 65,536 bytes; place 0 */
    HATCH_TEXT_LINE = 15,      /* line not of the forms or out of order; line, from 1 */
    HATCH_TEXT_COUNT = 16      /* block lines differ from the kit line; place 0 */
};

/* Splits a kit into k stages.
 *
 * costs[n]; starts, ends, widths[m]: the kit. table: at least n entries.
 * ladder: at least 9 * n entries.
 *
 * 0: table[0 .. n-1] is each block's stage, 0 to k-1. ladder[r*n .. r*n + n-1] is each
 *    block's group on rung r, for r from 0 to the rounds kept; later rows are untouched.
 *    answer: the cut, the rounds kept, the rung that was cut, the number of moves that
 *    lowered the cut. Moves that only even out stages, at the same cut, are not counted.
 * 9: the table is untouched; the ladder holds its rows.
 * 1 to 8: table and ladder are untouched. */
uint32_t hatch_split(const uint16_t *costs, size_t costs_len,
                     const uint16_t *starts, size_t starts_len,
                     const uint16_t *ends, size_t ends_len,
                     const uint16_t *widths, size_t widths_len,
                     size_t k, uint32_t limit,
                     uint16_t *table, size_t table_len,
                     uint16_t *ladder, size_t ladder_len,
                     size_t answer[HATCH_SPLIT_ANSWER]);

/* Inspects a stage table, whichever program made it. It only reads the table.
 *
 * table: at least n entries. order: at least k entries.
 *
 * 0: order[0 .. k-1] lists the stages in the order in which to start them.
 *    answer: the cut.
 * 1 to 8, 10 to 13: order is untouched. 9 is never returned. */
uint32_t hatch_inspect(const uint16_t *costs, size_t costs_len,
                       const uint16_t *starts, size_t starts_len,
                       const uint16_t *ends, size_t ends_len,
                       const uint16_t *widths, size_t widths_len,
                       size_t k, uint32_t limit,
                       const uint16_t *table, size_t table_len,
                       uint16_t *order, size_t order_len,
                       size_t answer[HATCH_INSPECT_ANSWER]);

/* Checks a kit that is being drawn: for the editor, on each drawn wire. It writes to
 * nothing but `answer`.
 *
 * 0: the kit is sound. hatch_split then returns 0 or 9, given long enough tables.
 * 1, 2, 3, 5 to 8: the number and place that hatch_split returns, given such tables.
 *    4 and 9 are never returned.
 * answer[0]: the place, 0 with 0.
 * answer[1]: how many wires the search for a repeated wire tried, from wire 0 up and to
 *    the first find: the place and one more with 7, all m with 8 and with 0. With 1 to 6
 *    it was not come to, and this is 0. */
uint32_t hatch_check(const uint16_t *costs, size_t costs_len,
                     const uint16_t *starts, size_t starts_len,
                     const uint16_t *ends, size_t ends_len,
                     const uint16_t *widths, size_t widths_len,
                     size_t k, uint32_t limit,
                     size_t answer[HATCH_CHECK_ANSWER]);

/* Reads a kit text into four lists. Lists of 512 and 1,024 entries are long enough for
 * every text.
 *
 * 0: costs[0 .. n-1] and the first m entries of starts, ends and widths are the kit's.
 *    answer: n, m, the stage count, the limit. The kit is of the form; whether it is
 *    sound is for hatch_split, hatch_inspect or hatch_check to say.
 * 14, 15, 16, 4: the lists are untouched. */
uint32_t hatch_read(const uint8_t *text, size_t text_len,
                    uint16_t *costs, size_t costs_len,
                    uint16_t *starts, size_t starts_len,
                    uint16_t *ends, size_t ends_len,
                    uint16_t *widths, size_t widths_len,
                    size_t answer[HATCH_READ_ANSWER]);

#ifdef __cplusplus
}
#endif
#endif
