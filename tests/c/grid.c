/* The eight-block grid of document 01: labelling A has cut 6, lambda cut 6 and loads 4 and 4; B has cut 2 and lambda cut 4.
 * The self-test runs all ten rows. */
#include "check.h"

static const uint32_t a[8] = {0, 0, 1, 1, 0, 1, 0, 1}, b[8] = {0, 0, 1, 1, 0, 0, 1, 1};

static void check_grid(const uint32_t *labels, uint64_t cut, uint64_t lambda)
{
    static struct lists l;
    make_grid(&l, labels);
    struct daunsrevit_cut_answer c = edge_cut_of(&l), m = lambda_cut_of(&l);
    struct daunsrevit_loads_answer p = loads_of(&l);
    CHECK(c.number == DAUNSREVIT_DONE);
    CHECK(c.cut == cut);
    CHECK(m.number == DAUNSREVIT_DONE);
    CHECK(m.cut == lambda);
    CHECK(p.number == DAUNSREVIT_DONE);
    CHECK(p.loads.at[0] == 4);
    CHECK(p.loads.at[1] == 4);
    p.loads.at[0] = p.loads.at[1] = 0;
    CHECK(all_zero(p.loads));
}

int main(void)
{
    check_grid(a, 6, 6);
    check_grid(b, 2, 4);
    CHECK(daunsrevit_self_test() == 0);
    return finish("grid");
}
