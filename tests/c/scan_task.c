/* The example of a scan task: a board is drawn, and the split that it leaves is one to run. */
#include "check.h"
#define main scan_task
#include "../../examples/scan_task.c"
#undef main

int main(void)
{
    CHECK(scan_task() == 0);
    struct daunsrevit_loads_answer r = daunsrevit_compute_parts_load(weights, BLOCKS, board_of, BLOCKS);
    CHECK(r.number == DAUNSREVIT_DONE);
    CHECK(r.loads.at[1] == 0);
    for (int board = 0; board < BOARDS; board++)
        CHECK(r.loads.at[board] <= capacity[board]);
    /* Two cars are on the large board, where a small one has not the room, and one each on two small ones: each car's blocks are on one
     * board, and two pairs of drives are apart. */
    CHECK(r.loads.at[0] == 22);
    for (int car = 0; car < 4; car++)
        CHECK(board_of[3 * car] == board_of[3 * car + 1] && board_of[3 * car] == board_of[3 * car + 2]);
    CHECK(daunsrevit_edge_cut(starts, BLOCKS + 1, neighbours, ARCS, arc_weights, ARCS, board_of, BLOCKS).cut == 2);
    CHECK(run.attempts == run.moves + run.no_gain + run.bad_balance);
    return finish("scan_task");
}
