/* No vertices, and null pointers where the count is 0. */
#include "check.h"

int main(void)
{
    const uint32_t zero[1] = {0}, five[1] = {5}, one[1] = {1};

    struct daunsrevit_loads_answer p = daunsrevit_compute_parts_load(0, 0, 0, 0);
    CHECK(p.number == DAUNSREVIT_DONE);
    CHECK(all_zero(p.loads));

    /* Starts are n + 1 elements, so one stands there even without vertices. */
    struct daunsrevit_cut_answer c = daunsrevit_edge_cut(0, 0, 0, 0, 0, 0, 0, 0);
    CHECK(c.number == DAUNSREVIT_LENGTHS);
    CHECK(c.cut == 0);
    c = daunsrevit_lambda_cut(0, 0, 0, 0, 0, 0, 0, 0, 0, 0);
    CHECK(c.number == DAUNSREVIT_LENGTHS);
    CHECK(c.cut == 0);

    c = daunsrevit_edge_cut(zero, 1, 0, 0, 0, 0, 0, 0);
    CHECK(c.number == DAUNSREVIT_DONE);
    CHECK(c.cut == 0);
    c = daunsrevit_lambda_cut(zero, 1, 0, 0, 0, 0, 0, 0, 0, 0);
    CHECK(c.number == DAUNSREVIT_DONE);
    CHECK(c.cut == 0);

    /* A start that is not 0, and arcs without a vertex, break the row rules. */
    CHECK(daunsrevit_edge_cut(five, 1, 0, 0, 0, 0, 0, 0).number == DAUNSREVIT_ROW_RULE);
    CHECK(daunsrevit_lambda_cut(five, 1, 0, 0, 0, 0, 0, 0, 0, 0).number == DAUNSREVIT_ROW_RULE);
    CHECK(daunsrevit_edge_cut(zero, 1, one, 1, one, 1, 0, 0).number == DAUNSREVIT_ROW_RULE);
    CHECK(daunsrevit_edge_cut(one, 1, zero, 1, one, 1, 0, 0).number == DAUNSREVIT_ROW_RULE);

    /* Vertices without arcs. */
    const uint32_t starts[3] = {0, 0, 0}, labels[2] = {0, 15}, weights[2] = {3, 4};
    c = daunsrevit_lambda_cut(starts, 3, 0, 0, 0, 0, weights, 2, labels, 2);
    CHECK(c.number == DAUNSREVIT_DONE);
    CHECK(c.cut == 0);
    p = daunsrevit_compute_parts_load(weights, 2, labels, 2);
    CHECK(p.loads.at[0] == 3);
    CHECK(p.loads.at[15] == 4);
    return finish("empty");
}
