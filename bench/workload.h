/* The workloads: graphs and labels from a seeded generator, so that every run has the same. */
#include "plain.h"
#include <stdio.h>
#include <string.h>

enum { MOST_N = DAUNSREVIT_MOST_VERTICES, MOST_A = DAUNSREVIT_MOST_ARCS };

/* A grid of wide times high vertices; or, where high is 0, a random graph of wide vertices and four times as many pairs. Vertex
 * weights and arc weights are from 1 to most_weight, labels are random and below parts. */
struct workload {
    const char *name;
    uint32_t wide, high, parts, most_weight;
};

/* The workload that was made last. */
static uint32_t starts[MOST_N + 1], neighbours[MOST_A], arc_weights[MOST_A], weights[MOST_N], first_labels[MOST_N];
static struct graph graph = {0, 0, starts, neighbours, arc_weights, weights};
static uint32_t smaller_part; /* of parts 0 and 1, the count of vertices */

static uint64_t state;

static uint32_t random_below(uint32_t limit)
{
    state = state * 6364136223846793005u + 1442695040888963407u;
    return (uint32_t)((state >> 33) % limit);
}

/* The same for both arcs of a pair. */
static uint32_t arc_weight(uint32_t u, uint32_t v, uint32_t most)
{
    uint64_t x = ((uint64_t)(u < v ? u : v) << 32 | (u < v ? v : u)) * 0x9e3779b97f4a7c15u;
    x ^= x >> 29;
    x *= 0xbf58476d1ce4e5b9u;
    return 1 + (uint32_t)((x >> 32) % most);
}

static uint16_t joined[MOST_N][MOST_N]; /* the weight of the arc, or 0 */

static void begin(void)
{
    state = 2026;
    memset(joined, 0, sizeof joined);
}

static void join(uint32_t u, uint32_t v, uint32_t weight)
{
    joined[u][v] = joined[v][u] = (uint16_t)weight;
}

/* The rows of what was joined. */
static void collect(uint32_t n)
{
    uint32_t a = 0;
    for (uint32_t v = 0; v < n; v++) {
        starts[v] = a;
        for (uint32_t u = 0; u < n; u++)
            if (joined[v][u]) {
                neighbours[a] = u;
                arc_weights[a++] = joined[v][u];
            }
    }
    starts[n] = a;
    graph.n = n;
    graph.a = a;
}

static void make(const struct workload *w)
{
    uint32_t n = w->high ? w->wide * w->high : w->wide, part[DAUNSREVIT_PARTS] = {0};
    begin();
    for (uint32_t v = 0; w->high && v < n; v++) {
        if (v % w->wide + 1 < w->wide)
            join(v, v + 1, arc_weight(v, v + 1, w->most_weight));
        if (v + w->wide < n)
            join(v, v + w->wide, arc_weight(v, v + w->wide, w->most_weight));
    }
    for (uint32_t pairs = 0; !w->high && pairs < 4 * n;) {
        uint32_t u = random_below(n), v = random_below(n);
        if (u != v && !joined[u][v]) {
            join(u, v, arc_weight(u, v, w->most_weight));
            pairs++;
        }
    }
    collect(n);
    for (uint32_t v = 0; v < n; v++) {
        weights[v] = 1 + random_below(w->most_weight);
        first_labels[v] = random_below(w->parts);
        part[first_labels[v]]++;
    }
    smaller_part = part[0] < part[1] ? part[0] : part[1];
}

/* The graphs from here on are made for FM's scan: two parts and as many vertices as can be. */
static inline void no_arcs(void)
{
    begin();
    collect(MOST_N);
    for (uint32_t v = 0; v < MOST_N; v++) {
        weights[v] = 1;
        first_labels[v] = random_below(2);
    }
}

/* A path whose arcs are all cut and weigh more from one to the next, so that each vertex has a larger gain than the one before. Of
 * every 64 vertices the first so many have no arc. */
static inline void rising_path(uint32_t without)
{
    begin();
    for (uint32_t v = 1; v < MOST_N; v++)
        if (v % 64 >= without && (v - 1) % 64 >= without)
            join(v - 1, v, v);
    collect(MOST_N);
    for (uint32_t v = 0; v < MOST_N; v++) {
        weights[v] = 1;
        first_labels[v] = v % 2;
    }
}

static inline void rising(void)
{
    rising_path(0);
}

/* The scan samples every 64th vertex, and finds no gain there in one of 64 samples, or in half of them. */
static inline void against_one_sample(void)
{
    rising_path(1);
}

static inline void against_half(void)
{
    rising_path(32);
}

/* All vertices tie, and those of part 0 weigh less. Where part 1 is the heavier one, only their label tells that they would not be
 * lighter there than a vertex of part 1 in part 0. */
static inline void ties_by_label(void)
{
    no_arcs();
    for (uint32_t v = 0; v < MOST_N; v++) {
        first_labels[v] = v % 2;
        weights[v] = 99 + v % 2;
    }
}

/* All vertices tie. One half of every 64 weigh less from one to the next, and the others, which half of the samples find, weigh
 * more than any of them. */
static inline void falling_ties(void)
{
    no_arcs();
    for (uint32_t v = 0; v < MOST_N; v++) {
        first_labels[v] = v % 2;
        weights[v] = v % 64 < 32 ? 9000 : 100 + MOST_N - v;
    }
}

/* Part 1 is a ring of the last vertices, with heavy arcs. Each vertex of part 0 has one arc, to the ring, and so would gain by a
 * move, for which there may be no room. */
static inline void ring(uint32_t count, uint32_t weight)
{
    uint32_t first = MOST_N - count;
    begin();
    for (uint32_t v = 0; v < first; v++)
        join(v, first + v % count, 2);
    for (uint32_t i = 0; i < count; i++)
        join(first + i, first + (i + 1) % count, weight);
    collect(MOST_N);
    for (uint32_t v = 0; v < MOST_N; v++) {
        weights[v] = 1 + random_below(3);
        first_labels[v] = v >= first;
    }
}

static inline void one_full(void)
{
    ring(MOST_N / 2, 3);
}

/* Part 1 is the heavier one. */
static inline void nine_tenths(void)
{
    ring(MOST_N / 10, 30);
    for (uint32_t v = 0; v < MOST_N; v++)
        if (first_labels[v])
            weights[v] = 20;
}

/* One vertex makes part 1 the heavier one. For the first moves, which are out of it and by light vertices, no vertex of part 0 has
 * room there. */
static inline void too_heavy(void)
{
    ring(MOST_N / 10, 30);
    for (uint32_t v = 0; v < MOST_N; v++)
        weights[v] = first_labels[v] ? 1 : 100;
    weights[MOST_N - 1] = 400000;
}

/* The lent lists, and the labels that a call refines. */
static uint32_t labels[MOST_N], rows_made[DAUNSREVIT_MOST_PASSES], rows_rewound[DAUNSREVIT_MOST_PASSES];
static int64_t gains[MOST_N];
static struct daunsrevit_move moves[MOST_N];
static uint8_t locks[MOST_N];
static uint32_t swaps[MOST_N / 2], stack[MOST_A];
static struct daunsrevit_run_record run;

static void lend(void)
{
    memcpy(labels, first_labels, graph.n * sizeof *labels);
    memset(gains, 0xa5, sizeof gains);
    memset(moves, 0xa5, sizeof moves);
    memset(locks, 0xa5, sizeof locks);
    memset(swaps, 0xa5, sizeof swaps);
    memset(stack, 0xa5, sizeof stack);
    memset(&run, 0xa5, sizeof run);
}

/* The C entry points on the workload and the lent lists, which are as long as is needed; arc-swap's stack is as long as there are
 * arcs. */
static inline struct daunsrevit_loads_answer port_loads(void)
{
    return daunsrevit_compute_parts_load(weights, graph.n, labels, graph.n);
}

static inline struct daunsrevit_cut_answer port_edge_cut(void)
{
    return daunsrevit_edge_cut(starts, graph.n + 1, neighbours, graph.a, arc_weights, graph.a, labels, graph.n);
}

static inline struct daunsrevit_cut_answer port_lambda_cut(void)
{
    return daunsrevit_lambda_cut(starts, graph.n + 1, neighbours, graph.a, arc_weights, graph.a, weights, graph.n, labels, graph.n);
}

static inline struct daunsrevit_fiduccia_mattheyses_report port_fm(struct daunsrevit_fiduccia_mattheyses_settings s)
{
    return daunsrevit_fiduccia_mattheyses(starts, graph.n + 1, neighbours, graph.a, arc_weights, graph.a, weights, graph.n,
        labels, graph.n, gains, graph.n, moves, graph.n, rows_made, s.pass_limit, rows_rewound, s.pass_limit, s);
}

static inline struct daunsrevit_kernighan_lin_report port_kl(struct daunsrevit_kernighan_lin_settings s)
{
    return daunsrevit_kernighan_lin(starts, graph.n + 1, neighbours, graph.a, arc_weights, graph.a, weights, graph.n,
        labels, graph.n, gains, graph.n, locks, graph.n, swaps, graph.n / 2, s);
}

static inline struct daunsrevit_arc_swap_report port_arc_swap(struct daunsrevit_arc_swap_settings s)
{
    return daunsrevit_arc_swap(starts, graph.n + 1, neighbours, graph.a, arc_weights, graph.a, weights, graph.n,
        labels, graph.n, stack, graph.a, s, &run);
}
