/* At each limit, and one past it: vertices, arcs, and the weight sums. Arcs come in pairs, so a legal graph has at most 65,534. */
#include "check.h"

static struct lists l;

static void vertices(void)
{
    make_path(&l, 4096);
    CHECK_NUMBERS(&l, 0, 0, 0);
    CHECK(edge_cut_of(&l).cut == 4095);
    CHECK(lambda_cut_of(&l).cut == 4096);
    struct daunsrevit_loads_answer p = loads_of(&l);
    CHECK(p.loads.at[0] == 2048);
    CHECK(p.loads.at[1] == 2048);
    make_path(&l, 4097);
    CHECK_NUMBERS(&l, 2, 2, 2);
}

/* 4,096 vertices in a ring, each joined to the eight before and the eight after it: 65,536 arcs. `without` of them are left out,
 * the arc from 0 to 1 first, then that from 1 to 0. */
static void make_wide_ring(int without)
{
    const uint32_t n = 4096;
    size_t a = 0;
    paint(&l);
    for (uint32_t u = 0; u < n; u++) {
        l.starts[u] = (uint32_t)a;
        l.weights[u] = 1;
        l.labels[u] = u % 2;
        for (uint32_t v = 0; v < n; v++) {
            uint32_t apart = (v + n - u) % n;
            if (apart == 0 || (apart > 8 && apart < n - 8))
                continue;
            if ((without >= 1 && u == 0 && v == 1) || (without >= 2 && u == 1 && v == 0))
                continue;
            l.neighbours[a] = v;
            l.arc_weights[a++] = 1;
        }
    }
    l.starts[n] = (uint32_t)a;
    set_counts(&l, n, a);
}

static void arcs(void)
{
    make_wide_ring(2);
    CHECK(l.neighbours_count == 65534);
    CHECK_NUMBERS(&l, 0, 0, 0);
    /* Vertices at an odd distance differ: four such pairs a vertex, less the pair that was left out. */
    CHECK(edge_cut_of(&l).cut == 4 * 4096 - 1);
    CHECK(lambda_cut_of(&l).cut == 4096);
    make_wide_ring(1);
    CHECK(l.neighbours_count == 65535);
    CHECK_NUMBERS(&l, 4, 4, 0);
    make_wide_ring(0);
    CHECK(l.neighbours_count == 65536);
    CHECK_NUMBERS(&l, 2, 2, 0);
}

static void vertex_weights(void)
{
    make_path(&l, 3);
    l.weights[0] = 2147483645;
    CHECK_NUMBERS(&l, 0, 0, 0);
    CHECK(loads_of(&l).loads.at[0] == 2147483646);
    CHECK(lambda_cut_of(&l).cut == 2147483647);
    l.weights[1]++;
    CHECK_NUMBERS(&l, 0, 5, 5);
    /* Sums that are small again if they wrap at 32 bits. */
    l.weights[0] = l.weights[1] = 2147483648u;
    CHECK_NUMBERS(&l, 0, 5, 5);
    make_path(&l, 4096);
    for (int v = 0; v < 4096; v++)
        l.weights[v] = 4294967295u;
    CHECK_NUMBERS(&l, 0, 5, 5);
}

static void arc_weights(void)
{
    make_path(&l, 3);
    l.arc_weights[0] = l.arc_weights[1] = 1073741822;
    CHECK_NUMBERS(&l, 0, 0, 0);
    CHECK(edge_cut_of(&l).cut == 1073741823);
    l.arc_weights[2] = l.arc_weights[3] = 2;
    CHECK_NUMBERS(&l, 5, 5, 0);
    l.arc_weights[0] = l.arc_weights[1] = 2147483648u;
    l.arc_weights[2] = l.arc_weights[3] = 0;
    CHECK_NUMBERS(&l, 5, 5, 0);
    make_wide_ring(2);
    for (int e = 0; e < 65534; e++)
        l.arc_weights[e] = 4294967295u;
    CHECK_NUMBERS(&l, 5, 5, 0);
}

int main(void)
{
    vertices();
    arcs();
    vertex_weights();
    arc_weights();
    return finish("limits");
}
