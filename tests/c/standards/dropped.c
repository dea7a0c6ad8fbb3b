/* Every call with its answer dropped: no compiler that can warn of it may let one of the nine pass. */
#include "../../../include/daunsrevit.h"

void dropped(struct daunsrevit_fiduccia_mattheyses_settings, struct daunsrevit_kernighan_lin_settings,
    struct daunsrevit_arc_swap_settings, struct daunsrevit_run_record *);
void dropped(struct daunsrevit_fiduccia_mattheyses_settings fm, struct daunsrevit_kernighan_lin_settings kl,
    struct daunsrevit_arc_swap_settings swap, struct daunsrevit_run_record *run)
{
    daunsrevit_compute_parts_load(0, 0, 0, 0);
    daunsrevit_edge_cut(0, 0, 0, 0, 0, 0, 0, 0);
    daunsrevit_lambda_cut(0, 0, 0, 0, 0, 0, 0, 0, 0, 0);
    daunsrevit_fiduccia_mattheyses(0, 0, 0, 0, 0, 0, 0, 0, 0, 0, 0, 0, 0, 0, 0, 0, 0, 0, fm);
    daunsrevit_kernighan_lin(0, 0, 0, 0, 0, 0, 0, 0, 0, 0, 0, 0, 0, 0, 0, 0, kl);
    daunsrevit_arc_swap(0, 0, 0, 0, 0, 0, 0, 0, 0, 0, 0, 0, swap, run);
    daunsrevit_read_plan(0, 0, 0, 0, 0, 0, 0, 0, 0, 0, 0, 0);
    daunsrevit_write_plan(0, 0, 0, 0, 0, 0, 0, 0, 0, 0, 2, swap.ceiling, 0, 0);
    daunsrevit_self_test();
}
