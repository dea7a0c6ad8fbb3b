/* SPDX-License-Identifier: MIT OR Apache-2.0 */
/* Daunsrevit: measures a partition of a graph into parts, refines one of two parts or of up to sixteen, and reads and writes plans,
 * the files that hold a graph, its labels and the ceilings. For x86-64 with the System V calling convention.
 *
 * THE GRAPH. n vertices with a weight and a label each, in rows: row u's arcs are those from starts[u] up to, not including,
 * starts[u + 1]; arc e goes to vertex neighbours[e] and weighs arc_weights[e]. n is the length of `labels`, a that of
 * `neighbours`. A list is passed as a pointer and a count of its elements. What is needed of each:
 *
 *     labels, weights             n elements; n at most DAUNSREVIT_MOST_VERTICES
 *     starts                      n + 1 elements: begin at 0, never fall, end at a
 *     neighbours, arc_weights     a elements; a at most DAUNSREVIT_MOST_ARCS
 *
 * Each row's neighbours rise strictly, are below n and are not the row itself. An arc from u to v needs one from v to u of
 * equal weight. The weights sum to at most DAUNSREVIT_MOST_WEIGHT, and so do the arc weights. A weight of 0 is legal everywhere.
 * Labels name parts and are below DAUNSREVIT_PARTS.
 *
 * WHAT IS WRITTEN. A pointer without const is to a lent list or record: the labels of a refiner, its working lists and row lists,
 * arc-swap's run record, and the targets of the reader and the writer. A lent list other than the labels may be longer than is
 * needed, and is unchanged past the needed length. After a refiner's done call the working lists hold zeros up to the needed length.
 *
 * WHAT IS PROMISED. Every function answers every input: where one of these rules is broken, the answer has its number (below)
 * and zeros, and nothing is written anywhere. Each promise is proved of the library's source, which states it in full.
 *
 * STACK. Nothing is on the heap. The most stack that a call takes below the caller's frame, in bytes, measured (docs/SPEED.md):
 *
 *     loads 464, edge cut 96, lambda cut 96, FM 1,232, KL 464, arc-swap 1,488, reading a plan 224, writing one 240,
 *     self-test 2,064
 *
 * What a call writes below the stack pointer is counted in: the calling convention leaves a function 128 bytes there, its red zone,
 * and an interrupt handler on the same stack must not touch them.
 *
 * TIME. Every call ends. The checks walk each list a fixed number of times and look for each arc's opposite by halving a row. Beyond
 * them:
 *
 *     FM           passes: at most settings.pass_limit, and at most the first cut + 1; moves in a pass: at most settings.move_limit,
 *                  and at most n; before each move, a look at every vertex
 *     KL           passes: at most settings.pass_limit; swaps in a pass: at most settings.swap_limit, and at most n / 2; for each swap,
 *                  walks of all rows
 *     arc-swap     passes: at most the first cut + 1; moves: at most the first cut, as each lowers the cut; attempts: at most n in each
 *                  pass, and for each move at most the length of the moved vertex's row
 *
 * The longest calls measured, at 4,096 vertices, in instructions (docs/SPEED.md has their graphs and settings); longer ones are
 * possible within the bounds above:
 *
 *     loads 63,586, edge cut 2,830,938, lambda cut 2,802,199, FM 531,582,288 with 36,864 moves, KL 78,689,971, arc-swap 18,706,640
 *
 * THREADS. The library keeps no state of its own, so it may be called from several threads at once, each with lent lists of its own.
 *
 * WHAT C MUST SEE TO. Nothing can prove this of the caller, and without it nothing is promised:
 *   - a pointer points to as many elements as its count says, properly aligned; it may be null only if the count is 0;
 *   - no two lists overlap;
 *   - nothing else writes the lists during the call, and nothing else reads the lent ones;
 *   - the program has memcpy and memset, as the C standard describes them: the archive has no other undefined symbol. What stack they
 *     take comes on top of the figures above;
 *   - where FM or arc-swap is called with DAUNSREVIT_IMBALANCE, the processor rounds to nearest, ties to even, and traps no inexact
 *     result, as every C program begins. The ceiling is worked out in double precision by the rounding that the caller has set: with
 *     rounding towards zero, the ceiling of total 5, two parts and e = 0.6 is 3 in place of 4. Denormals taken as zero do no harm, as e
 *     is judged by its bits. The self-test answers 11 where the processor rounds otherwise.
 */
#ifndef DAUNSREVIT_H
#define DAUNSREVIT_H

/* The two standard headers, or the same names where a compiler comes without them. */
#ifdef __has_include
#if !__has_include(<stdint.h>) || !__has_include(<stddef.h>)
#define DAUNSREVIT_OWN_TYPES
#endif
#endif
#ifdef DAUNSREVIT_OWN_TYPES
typedef __UINT8_TYPE__ uint8_t;
typedef __UINT32_TYPE__ uint32_t;
typedef __UINT64_TYPE__ uint64_t;
typedef __INT64_TYPE__ int64_t;
typedef __SIZE_TYPE__ size_t;
#else
#include <stddef.h>
#include <stdint.h>
#endif

/* Stands before each call: the answer has the number, so a compiler that can warns where an answer is dropped. */
#if (defined(__cplusplus) && __cplusplus >= 201703L) || (defined(__STDC_VERSION__) && __STDC_VERSION__ >= 202311L)
#define DAUNSREVIT_ANSWERS [[nodiscard]]
#elif defined(__GNUC__)
#define DAUNSREVIT_ANSWERS __attribute__((warn_unused_result))
#else
#define DAUNSREVIT_ANSWERS
#endif

#ifdef __cplusplus
extern "C" {
#endif

#define DAUNSREVIT_VERSION "0.1.0"
#define DAUNSREVIT_VERSION_MAJOR 0
#define DAUNSREVIT_VERSION_MINOR 1
#define DAUNSREVIT_VERSION_PATCH 0

#define DAUNSREVIT_MOST_VERTICES 4096
#define DAUNSREVIT_MOST_ARCS 65535
#define DAUNSREVIT_MOST_WEIGHT 2147483647
#define DAUNSREVIT_PARTS 16
#define DAUNSREVIT_MOST_PASSES 1024
#define DAUNSREVIT_MOST_IMBALANCE 64.0
#define DAUNSREVIT_BLOCK 512 /* bytes of a plan's block */

/* The number that a call gives back: the smallest that applies (the reader has 11 for its header's byte 1 ahead of 10, the writer an order
 * of its own), and 0 only if none does. */
#define DAUNSREVIT_DONE 0             /* done */
#define DAUNSREVIT_LENGTHS 1          /* weights not n, starts not n + 1, or neighbours and arc weights differ in count */
#define DAUNSREVIT_TOO_LARGE 2        /* n or a over its limit */
#define DAUNSREVIT_ROW_RULE 3         /* a row rule is broken: the starts, or a row's neighbours */
#define DAUNSREVIT_NO_OPPOSITE 4      /* an arc has no equal opposite */
#define DAUNSREVIT_TOO_HEAVY 5        /* a weight sum over its limit */
#define DAUNSREVIT_LABEL 6            /* a label above 15; FM: above 1; KL: also not exactly two different labels */
#define DAUNSREVIT_SETTING 7          /* FM, KL: pass limit above 1,024; FM, arc-swap: choice above 3, or 2 with e NaN, below 0 or above 64 */
#define DAUNSREVIT_SHORT_LIST 8       /* a lent working list or row list is too short; arc-swap's stack never is */
#define DAUNSREVIT_PLAN_LENGTH 9      /* plan length not a positive multiple of 512 */
#define DAUNSREVIT_BLOCK_CHECK 10     /* a block's check fails */
#define DAUNSREVIT_HEADER 11          /* header block laid out wrongly; ahead of 10: its byte 1 is above 1 */
#define DAUNSREVIT_HEADER_RANGE 12    /* a header number out of range */
#define DAUNSREVIT_LATER_BLOCK 13     /* a later block laid out wrongly, or block count wrong */
#define DAUNSREVIT_RECORDS 14         /* degrees do not sum to a, or a label is not below k */
#define DAUNSREVIT_SHORT_TARGET 15    /* a lent target is too short */

/* How to mend a refused call. It has written nothing, so the same lists may be passed again.
 *      1  pass n weights, n + 1 starts, and as many arc weights as neighbours
 *      2  pass fewer vertices or arcs: DAUNSREVIT_MOST_VERTICES and DAUNSREVIT_MOST_ARCS are the most
 *      3  let the starts begin at 0, never fall and end at a; in each row let the neighbours rise, stay below n and leave out the row itself
 *      4  for each arc from u to v add one from v to u, or give the two the same weight
 *      5  scale the weights, or the arc weights, down until they sum to at most DAUNSREVIT_MOST_WEIGHT
 *      6  name the parts by numbers below 16; for FM by 0 and 1; for KL by exactly two different numbers
 *      7  take a pass limit of at most DAUNSREVIT_MOST_PASSES, a choice from 0 to 3, and with choice 2 an e from 0.0 to 64.0
 *      8  lend lists of the lengths that the call needs: n, n / 2 or settings.pass_limit, as its comment says
 *      9  pass the whole file: a plan is one block of 512 bytes or more, and nothing after them
 *     10  fetch the file again: some of its bytes are not those that were written, or a block is missing, stands twice or has changed its
 *         place
 *     11  pass a plan from its first byte on: the first block is of kind 1 with 3 records, or 11 with choice 3, its byte 1 is 0 or 1, and
 *         its unused places are zero
 *     12  take 1 to 4,096 vertices, at most 65,535 arcs, 2 to 16 parts, a choice from 0 to 3 and a value that fits it
 *     13  lay the blocks out by kind, 63 records in each but the last of a kind, unused places zero, as many as n and a ask for, each with
 *         the header's byte 1
 *     14  let the lengths of the rows sum to a, and let every label be below k
 *     15  lend longer targets: DAUNSREVIT_PLAN_BYTES is the writer's, daunsrevit_plan_vertices and daunsrevit_plan_arcs tell the reader's */

/* How a run ended. */
#define DAUNSREVIT_PASS_LIMIT 0       /* the pass limit */
#define DAUNSREVIT_GAINLESS 1         /* a pass that did not lower the cut, also when it was the last allowed */
#define DAUNSREVIT_STACK_FULL 2       /* arc-swap: a push had no place on the stack */
#define DAUNSREVIT_EMPTY 3            /* no vertices */

/* The ceilings: no move brings a part's load above its own. There are four choices; what the choice does not use is not looked at. The
 * first three give all parts one ceiling. In the third, e is `imbalance`, from 0.0 to 64.0, both ends and -0.0 in, and i is the total
 * weight divided by the part count. */
#define DAUNSREVIT_CARRIED 0          /* the largest load at the start */
#define DAUNSREVIT_WHOLE 1            /* the number `whole` */
#define DAUNSREVIT_IMBALANCE 2        /* the whole number at or below i + e * i, rounded at each operation */
#define DAUNSREVIT_EACH 3             /* part t has the number each[t] */

/* What is asked of the ceilings: the choice, and the values of the last three choices. The refiners, the reader and the writer have this
 * one record, so that `settings.ceiling = read.ceiling` refines a plan under its own ceilings. With DAUNSREVIT_EACH all sixteen numbers
 * are part of a plan, whatever its k is; a refiner looks at those of the parts that it moves blocks to. */
struct daunsrevit_ceiling {
    uint32_t choice;
    uint32_t whole;
    double imbalance;
    uint32_t each[DAUNSREVIT_PARTS];
};

/* The load of each part: at[t] is the sum of the weights of the vertices that are labelled t. */
struct daunsrevit_loads {
    uint64_t at[DAUNSREVIT_PARTS];
};

struct daunsrevit_loads_answer {
    uint32_t number;
    struct daunsrevit_loads loads;
};

struct daunsrevit_cut_answer {
    uint32_t number;
    uint64_t cut;
};

/* The load of each part, of weights and labels alone. Done: number 0, and loads.at[t] is the sum of the weights of the vertices
 * labelled t, for t below 16. Else number is the smallest of 1 (weights not n), 2 (n), 5 (weights) and 6 that applies, and every
 * load is 0. */
DAUNSREVIT_ANSWERS struct daunsrevit_loads_answer daunsrevit_compute_parts_load(
    const uint32_t *weights, size_t weights_count,
    const uint32_t *labels, size_t labels_count);

/* The edge cut. Done: number 0, and cut is the sum of the weights of all pairs whose ends have different labels, each pair
 * counted once, by its higher vertex. Else number is the smallest of 1 (starts not n + 1, or neighbours and arc weights differ
 * in count), 2, 3, 4, 5 (arc weights) and 6 that applies, and cut is 0. */
DAUNSREVIT_ANSWERS struct daunsrevit_cut_answer daunsrevit_edge_cut(
    const uint32_t *starts, size_t starts_count,
    const uint32_t *neighbours, size_t neighbours_count,
    const uint32_t *arc_weights, size_t arc_weights_count,
    const uint32_t *labels, size_t labels_count);

/* The lambda cut. Done: number 0, and cut is the sum over all vertices of the vertex's weight times the number of different
 * parts among its neighbours, its own part not counted. An arc of weight 0 makes neighbours too. Else number is the smallest of
 * 1 to 6 that applies (5 for either weight sum), and cut is 0. */
DAUNSREVIT_ANSWERS struct daunsrevit_cut_answer daunsrevit_lambda_cut(
    const uint32_t *starts, size_t starts_count,
    const uint32_t *neighbours, size_t neighbours_count,
    const uint32_t *arc_weights, size_t arc_weights_count,
    const uint32_t *weights, size_t weights_count,
    const uint32_t *labels, size_t labels_count);

/* FM's record of a move: the vertex, and the part that it was in before. */
struct daunsrevit_move {
    uint32_t vertex;
    uint32_t part;
};

/* The most passes, moves in a pass, and moves of gain 0 or less in a row; then the ceilings. */
struct daunsrevit_fiduccia_mattheyses_settings {
    uint32_t pass_limit;
    uint32_t move_limit;
    uint32_t bad_limit;
    struct daunsrevit_ceiling ceiling;
};

/* The number; where it is 0 the run's end, its passes, the cut before and after, and the loads after. */
struct daunsrevit_fiduccia_mattheyses_report {
    uint32_t number;
    uint32_t end;
    uint32_t passes;
    uint64_t first;
    uint64_t last;
    struct daunsrevit_loads loads;
};

/* The most passes and swaps in a pass. A bad limit of 0 ends a pass at a pair whose gains sum to 0 or less; any other does not. */
struct daunsrevit_kernighan_lin_settings {
    uint32_t pass_limit;
    uint32_t swap_limit;
    uint32_t bad_limit;
};

/* The number; where it is 0 the run's end, its passes, and the cut before and after. */
struct daunsrevit_kernighan_lin_report {
    uint32_t number;
    uint32_t end;
    uint32_t passes;
    uint64_t first;
    uint64_t last;
};

/* The ceilings. */
struct daunsrevit_arc_swap_settings {
    struct daunsrevit_ceiling ceiling;
};

/* The number; where it is 0 the run's end, its passes, the cut before and after, and the loads after. */
struct daunsrevit_arc_swap_report {
    uint32_t number;
    uint32_t end;
    uint32_t passes;
    uint64_t first;
    uint64_t last;
    struct daunsrevit_loads loads;
};

/* Arc-swap's counts: attempts, and what came of them: moves, attempts without a gain, and attempts at a part that is too heavy. */
struct daunsrevit_run_record {
    uint64_t attempts;
    uint64_t moves;
    uint64_t no_gain;
    uint64_t bad_balance;
};

/* The number; where it is 0 the plan's header: its vertices, arcs and parts, and its ceilings. What the choice does not use is 0. */
struct daunsrevit_read_answer {
    uint32_t number;
    uint32_t n;
    uint32_t a;
    uint32_t k;
    struct daunsrevit_ceiling ceiling;
};

/* The number; where it is 0 how many bytes were written. */
struct daunsrevit_write_answer {
    uint32_t number;
    uint64_t length;
};

/* FM refines the labels of two parts, 0 and 1, by moves from part to part under the ceilings. What is needed of each lent list:
 *
 *     labels                      n elements
 *     gains, moves                n elements or more: working lists
 *     rows_made, rows_rewound     settings.pass_limit elements or more
 *
 * Done: number 0, and the labels are refined:
 *   - On a symmetric graph without loops, which number 0 says it is, with whole weights within the limits, the run leaves the labels of
 *     the least cut among its start and the states after each move made, the earliest of equals.
 *   - If it ended on a gainless pass and each pass was allowed at least one move, no single block can go to the other board within the
 *     target board's ceiling and lower the cut.
 *   - No board ends above the larger of its own ceiling and its starting load.
 * Pass i made rows_made[i] moves and took rows_rewound[i] of them back; rows after the last pass keep their values. Without vertices,
 * whatever the other lists and the settings: number 0, end 3, all else 0, and nothing is written. Else number is the smallest of 1 to 8
 * that applies (5 for either weight sum), and the report is otherwise 0. */
DAUNSREVIT_ANSWERS struct daunsrevit_fiduccia_mattheyses_report daunsrevit_fiduccia_mattheyses(
    const uint32_t *starts, size_t starts_count,
    const uint32_t *neighbours, size_t neighbours_count,
    const uint32_t *arc_weights, size_t arc_weights_count,
    const uint32_t *weights, size_t weights_count,
    uint32_t *labels, size_t labels_count,
    int64_t *gains, size_t gains_count,
    struct daunsrevit_move *moves, size_t moves_count,
    uint32_t *rows_made, size_t rows_made_count,
    uint32_t *rows_rewound, size_t rows_rewound_count,
    struct daunsrevit_fiduccia_mattheyses_settings settings);

/* KL refines the labels of two parts, named by any two numbers below 16, by swaps of a vertex of each. The weights are checked
 * and do not bear on the run. What is needed of each lent list:
 *
 *     labels                      n elements
 *     gains, locks                n elements or more: working lists
 *     swaps                       n / 2 elements, rounded down, or more: a working list
 *
 * Done: number 0, and the labels are those that the run leaves. A pass keeps its best state after at least one swap, so the last
 * cut may be above the first. Else number is the smallest of 1 to 8 that applies (5 for either weight sum), and the report is
 * otherwise 0; without vertices there are not two labels. */
DAUNSREVIT_ANSWERS struct daunsrevit_kernighan_lin_report daunsrevit_kernighan_lin(
    const uint32_t *starts, size_t starts_count,
    const uint32_t *neighbours, size_t neighbours_count,
    const uint32_t *arc_weights, size_t arc_weights_count,
    const uint32_t *weights, size_t weights_count,
    uint32_t *labels, size_t labels_count,
    int64_t *gains, size_t gains_count,
    uint8_t *locks, size_t locks_count,
    uint32_t *swaps, size_t swaps_count,
    struct daunsrevit_kernighan_lin_settings settings);

/* Arc-swap refines the labels of k parts, k being the largest label + 1 and at least 2, by moves under the ceilings, each of which
 * lowers the cut. What is needed of each lent list:
 *
 *     labels                      n elements
 *     stack                       any length: a working list, which a done call zeroes whole
 *     run                         one record, not null
 *
 * Done: number 0, the labels are refined, and the run record holds the counts. No part ends above the larger of its own ceiling and its
 * starting load. Where the vertices to be pushed have no place on the stack the run ends with 2, with the labels reached so far, by
 * moves that each lowered the cut. No length is proved to be enough, as the stack keeps repeats; 65,535 places were for every graph on
 * which the library was held to coupe. After end 2 it is safe
 *   - to start again, with a longer stack, from the labels as they were before the call, of which you have kept a copy; or
 *   - to go on from the labels reached, with a longer stack, if both calls have DAUNSREVIT_WHOLE and the same number, or DAUNSREVIT_EACH
 *     and the same numbers, or both have DAUNSREVIT_CARRIED: no load is above that ceiling after the first call, so that the second
 *     one's is the same or lower.
 * With DAUNSREVIT_IMBALANCE do not go on: k is taken anew from the labels, so that where the first call emptied the last parts the second
 * one divides by fewer, and a part can end above both the first ceiling and its first load (tests/c/arc_swap.c has such a case).
 * Without vertices, whatever the other lists and the settings: number 0, end 3, all else 0, and nothing is written but the run record,
 * which is zeroed. Else number is the smallest of 1 to 7 that applies (5 for either weight sum), and the report is otherwise 0. */
DAUNSREVIT_ANSWERS struct daunsrevit_arc_swap_report daunsrevit_arc_swap(
    const uint32_t *starts, size_t starts_count,
    const uint32_t *neighbours, size_t neighbours_count,
    const uint32_t *arc_weights, size_t arc_weights_count,
    const uint32_t *weights, size_t weights_count,
    uint32_t *labels, size_t labels_count,
    uint32_t *stack, size_t stack_count,
    struct daunsrevit_arc_swap_settings settings,
    struct daunsrevit_run_record *run);

/* A PLAN is a file of blocks of 512 bytes, little-endian: the kind, then byte 1, which is 1, the record count in 2 bytes, 63 places of 8
 * bytes, unused ones zero, and a word by which the block's 128 words sum, wrapping, to the block's position in the file, counted from 0.
 * Blocks stand by kind; all blocks of kind 2 and 3 hold 63 records but the last of the kind, which holds the rest.
 * A file of the old kind is read too: byte 1 of its blocks is 0, and each block's words sum to 0. In such a file two full blocks
 * of one kind that changed places are not told; read it and write it once, and what is written is of the new kind.
 *
 *     kind 1, once     n and a; k and the ceiling's choice; its value in 8 bytes: 0, `whole`, or the bits of `imbalance`; with
 *                      DAUNSREVIT_EACH the value is 0, and eight records more have the sixteen numbers, two in each
 *     kind 2           by vertex: its weight, its label in 2 bytes, the length of its row in 2 bytes
 *     kind 3           row by row, by arc: neighbour and weight; no block if a is 0
 *
 * n is 1 to DAUNSREVIT_MOST_VERTICES, a at most DAUNSREVIT_MOST_ARCS, k 2 to DAUNSREVIT_PARTS, and labels are below k. The row
 * rules, opposites and weight sums are no part of it. */

/* The bytes of a plan of n vertices and a arcs: a constant expression where n and a are. Each is evaluated once; for n and a of 32 bits
 * nothing overflows. */
#define DAUNSREVIT_PLAN_BYTES(n, a) ((size_t)DAUNSREVIT_BLOCK * (1 + ((size_t)(n) + 62) / 63 + ((size_t)(a) + 62) / 63))

/* What a plan's first block says of n (its bytes 4 to 7) and of a (8 to 11), for the caller who lends lists by it: the reader needs no
 * longer ones. It reads no more than bytes_count bytes, gives 0 where there is no whole block, and checks nothing, so what it gives may
 * be any number: one above DAUNSREVIT_MOST_VERTICES or DAUNSREVIT_MOST_ARCS is of a file that the reader refuses whatever it is lent.
 * Lists of DAUNSREVIT_MOST_VERTICES, one more, and DAUNSREVIT_MOST_ARCS elements are enough for every plan. The library has no part in
 * these two functions, which are C. */
static inline uint32_t daunsrevit_plan_vertices(const uint8_t *bytes, size_t bytes_count)
{
    return bytes_count < DAUNSREVIT_BLOCK ? 0
        : (uint32_t)bytes[4] | (uint32_t)bytes[5] << 8 | (uint32_t)bytes[6] << 16 | (uint32_t)bytes[7] << 24;
}

static inline uint32_t daunsrevit_plan_arcs(const uint8_t *bytes, size_t bytes_count)
{
    return bytes_count < DAUNSREVIT_BLOCK ? 0
        : (uint32_t)bytes[8] | (uint32_t)bytes[9] << 8 | (uint32_t)bytes[10] << 16 | (uint32_t)bytes[11] << 24;
}

/* Reads a plan from bytes. What is needed of each target:
 *
 *     labels, weights             n elements or more
 *     starts                      n + 1 elements or more
 *     neighbours, arc_weights     a elements or more
 *
 * Done: number 0, the header, and the plan's lists in the targets. Else number is the first that applies of 9, 11 for a header whose
 * byte 1 is above 1, and 10 to 15, and the answer is otherwise 0. 11 is also a record count other than 3, or than 11 with choice 3. 12 is
 * also a choice above 3, and a value that does not fit its choice: not 0 with choice 0 or 3, above 4,294,967,295 with choice 1, the bits
 * of no legal e with choice 2. */
DAUNSREVIT_ANSWERS struct daunsrevit_read_answer daunsrevit_read_plan(
    const uint8_t *bytes, size_t bytes_count,
    uint32_t *labels, size_t labels_count,
    uint32_t *weights, size_t weights_count,
    uint32_t *starts, size_t starts_count,
    uint32_t *neighbours, size_t neighbours_count,
    uint32_t *arc_weights, size_t arc_weights_count);

/* Writes a plan, in a file of the new kind, to the target, which needs 512 bytes for the header, for each 63 vertices or part of them,
 * and for each 63 arcs or part of them: DAUNSREVIT_PLAN_BYTES(n, a). Done: number 0, and length is how many bytes were written. Else
 * length is 0, and number is the first of these that applies, in this order:
 *
 *     12     n 0 or above DAUNSREVIT_MOST_VERTICES; a above DAUNSREVIT_MOST_ARCS; k below 2 or above DAUNSREVIT_PARTS; a choice above 3; or
 *            choice 2 with an imbalance that is NaN, below 0 or above 64. A row's length always fits, as a does
 *     1      weights not n, starts not n + 1, or neighbours and arc weights differ in count
 *     3      the starts do not begin at 0, fall, or do not end at a
 *     14     a label not below k
 *     15     the target too short */
DAUNSREVIT_ANSWERS struct daunsrevit_write_answer daunsrevit_write_plan(
    const uint32_t *labels, size_t labels_count,
    const uint32_t *weights, size_t weights_count,
    const uint32_t *starts, size_t starts_count,
    const uint32_t *neighbours, size_t neighbours_count,
    const uint32_t *arc_weights, size_t arc_weights_count,
    uint32_t k, struct daunsrevit_ceiling ceiling,
    uint8_t *target, size_t target_count);

/* The self-test: runs loads, cuts, gains, FM, KL and arc-swap on a grid of eight blocks and compares ten rows of known results; then
 * works out three ceilings that only the right rounding gives. Answers the number of the first row that differs, 11 where the rows
 * agree and a ceiling differs, else 0. It is proved to answer 0: 11 tells of a floating-point environment in which choice 2 must not be
 * used, any other answer of a machine or a build that does not run the proved code. */
DAUNSREVIT_ANSWERS uint32_t daunsrevit_self_test(void);

#ifdef __cplusplus
}
#endif

#endif
