/* A scan task that draws a board of a rack with one large board and three small ones. The blocks of the drawn board first go to the boards
 * that stay, each to the one with the most room; then the library is asked for a better split under a ceiling for each board. Whatever it
 * answers, the scan ends with every block on a board that stays: a refused call has written nothing, so the first placing stands.
 *
 * Twelve logic blocks of a lift group on boards 0 to 3: four cars, each with its drive, its doors and its call buttons. A car's three
 * blocks exchange much, and the drives of neighbouring cars exchange a little. */
#include "../include/daunsrevit.h"

/* The toolchain's own compiler comes without the C headers. */
#ifndef DAUNSREVIT_OWN_TYPES
#include <stdio.h>
#elif defined(__cplusplus)
extern "C" int printf(const char *, ...);
#else
int printf(const char *, ...);
#endif

enum { BOARDS = 4, BLOCKS = 12, ARCS = 30, STACK = 64 };

/* What each board can carry: board 0 is the large one. */
static const uint32_t capacity[BOARDS] = {30, 15, 15, 15};

/* Block 3c is car c's drive, 3c + 1 its doors, 3c + 2 its call buttons. */
static const uint32_t weights[BLOCKS] = {6, 3, 2, 6, 3, 2, 6, 3, 2, 6, 3, 2};
static const uint32_t starts[BLOCKS + 1] = {0, 3, 5, 7, 11, 13, 15, 19, 21, 23, 26, 28, 30};
static const uint32_t neighbours[ARCS] = {1, 2, 3, 0, 2, 0, 1, 0, 4, 5, 6, 3, 5, 3, 4, 3, 7, 8, 9, 6, 8, 6, 7, 6, 10, 11, 9, 11, 9, 10};
static const uint32_t arc_weights[ARCS] = {9, 4, 1, 9, 2, 4, 2, 1, 9, 4, 1, 9, 2, 4, 2, 1, 9, 4, 1, 9, 2, 4, 2, 1, 9, 4, 9, 2, 4, 2};

/* The split that the outputs follow, and the library's working memory. Nothing is on the heap. */
static uint32_t board_of[BLOCKS] = {0, 0, 0, 0, 1, 1, 1, 2, 2, 2, 3, 3};
static uint32_t stack[STACK];
static struct daunsrevit_run_record run;

/* The sixteen ceilings: each board of the rack has its capacity, and the drawn one has 0, as have the boards that the rack has not. So no
 * block that weighs anything goes to these. */
static struct daunsrevit_ceiling ceilings_without(uint32_t drawn)
{
    struct daunsrevit_ceiling ceiling = {DAUNSREVIT_EACH, 0, 0.0, {0}};
    for (uint32_t board = 0; board < BOARDS; board++)
        ceiling.each[board] = board == drawn ? 0 : capacity[board];
    return ceiling;
}

/* The board with the most room under its ceiling, of those that stay; room below 0 is what a board is too heavy by. */
static uint32_t roomiest(const uint32_t *split, uint32_t drawn)
{
    struct daunsrevit_loads loads = daunsrevit_compute_parts_load(weights, BLOCKS, split, BLOCKS).loads;
    uint32_t best = drawn == 0 ? 1 : 0;
    for (uint32_t board = 0; board < BOARDS; board++)
        if (board != drawn && (int64_t)capacity[board] - (int64_t)loads.at[board] > (int64_t)capacity[best] - (int64_t)loads.at[best])
            best = board;
    return best;
}

static struct daunsrevit_arc_swap_report draw_board(uint32_t drawn)
{
    const struct daunsrevit_arc_swap_settings settings = {ceilings_without(drawn)};
    uint32_t split[BLOCKS];
    for (int block = 0; block < BLOCKS; block++)
        split[block] = board_of[block];
    for (int block = 0; block < BLOCKS; block++)
        if (split[block] == drawn)
            split[block] = roomiest(split, drawn);
    struct daunsrevit_arc_swap_report report = daunsrevit_arc_swap(starts, BLOCKS + 1, neighbours, ARCS, arc_weights, ARCS,
        weights, BLOCKS, split, BLOCKS, stack, STACK, settings, &run);
    for (int block = 0; block < BLOCKS; block++)
        board_of[block] = split[block];
    return report;
}

int main(void)
{
    if (daunsrevit_self_test() != 0)
        return 1;
    struct daunsrevit_arc_swap_report report = draw_board(1);
    printf("number %u, end %u, cut %lu to %lu, %lu moves\nboards", report.number, report.end, (unsigned long)report.first,
        (unsigned long)report.last, (unsigned long)run.moves);
    for (int block = 0; block < BLOCKS; block++)
        printf(" %u", board_of[block]);
    printf("\n");
    return report.number != 0;
}
