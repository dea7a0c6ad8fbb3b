/* What the C tests share: checks that are counted, and the lists of a call with room past their ends.
 * The toolchain has no C headers, so what is used of the C library is declared here. */
#include "../../include/daunsrevit.h"

int printf(const char *, ...);
int memcmp(const void *, const void *, size_t);
void *memcpy(void *, const void *, size_t);
void *memset(void *, int, size_t);

static int checks, failures;

static void check(int holds, const char *what, const char *file, int line)
{
    checks++;
    if (!holds) {
        failures++;
        printf("%s:%d: does not hold: %s\n", file, line, what);
    }
}
#define CHECK(what) check((what) != 0, #what, __FILE__, __LINE__)

/* A test's one line, and the status that its main returns: a test that checked nothing fails too. */
static int finish(const char *name)
{
    int failed = failures > 0 || checks == 0;
    printf("%s: %d checks, %d failed\n", name, checks, failures);
    return failed;
}

/* The lists of a call, with room for one element more than any limit allows. */
struct lists {
    size_t starts_count, neighbours_count, arc_weights_count, weights_count, labels_count;
    uint32_t starts[DAUNSREVIT_MOST_VERTICES + 3];
    uint32_t neighbours[DAUNSREVIT_MOST_ARCS + 2];
    uint32_t arc_weights[DAUNSREVIT_MOST_ARCS + 2];
    uint32_t weights[DAUNSREVIT_MOST_VERTICES + 2];
    uint32_t labels[DAUNSREVIT_MOST_VERTICES + 2];
};

/* Paint, so that what is written past a list's end, or to a list that is only read, shows. */
static void paint(struct lists *l)
{
    memset(l, 0xa5, sizeof *l);
}

static void set_counts(struct lists *l, size_t n, size_t a)
{
    l->starts_count = n + 1;
    l->neighbours_count = a;
    l->arc_weights_count = a;
    l->weights_count = n;
    l->labels_count = n;
}

/* A path of n vertices: all weights 1, labels 0 and 1 in turn. */
static void make_path(struct lists *l, size_t n)
{
    size_t a = 0;
    paint(l);
    for (size_t u = 0; u < n; u++) {
        l->starts[u] = (uint32_t)a;
        if (u > 0)
            l->neighbours[a++] = (uint32_t)(u - 1);
        if (u + 1 < n)
            l->neighbours[a++] = (uint32_t)(u + 1);
        l->weights[u] = 1;
        l->labels[u] = u % 2;
    }
    l->starts[n] = (uint32_t)a;
    for (size_t e = 0; e < a; e++)
        l->arc_weights[e] = 1;
    set_counts(l, n, a);
}

/* The eight-block grid of document 01, with these labels: 0-1-2-3, 4-5-6-7, 0-4, 1-5, 2-6, 3-7, all weights 1. */
static void make_grid(struct lists *l, const uint32_t *labels)
{
    static const uint32_t starts[9] = {0, 2, 5, 8, 10, 12, 15, 18, 20};
    static const uint32_t neighbours[20] = {1, 4, 0, 2, 5, 1, 3, 6, 2, 7, 0, 5, 1, 4, 6, 2, 5, 7, 3, 6};
    paint(l);
    memcpy(l->starts, starts, sizeof starts);
    memcpy(l->neighbours, neighbours, sizeof neighbours);
    memcpy(l->labels, labels, 8 * sizeof labels[0]);
    for (int e = 0; e < 20; e++)
        l->arc_weights[e] = 1;
    for (int v = 0; v < 8; v++)
        l->weights[v] = 1;
    set_counts(l, 8, 20);
}

static struct daunsrevit_loads_answer loads_of(const struct lists *l)
{
    return daunsrevit_compute_parts_load(l->weights, l->weights_count, l->labels, l->labels_count);
}

static struct daunsrevit_cut_answer edge_cut_of(const struct lists *l)
{
    return daunsrevit_edge_cut(l->starts, l->starts_count, l->neighbours, l->neighbours_count,
        l->arc_weights, l->arc_weights_count, l->labels, l->labels_count);
}

static struct daunsrevit_cut_answer lambda_cut_of(const struct lists *l)
{
    return daunsrevit_lambda_cut(l->starts, l->starts_count, l->neighbours, l->neighbours_count,
        l->arc_weights, l->arc_weights_count, l->weights, l->weights_count, l->labels, l->labels_count);
}

static double of_bits(uint64_t bits)
{
    double e;
    memcpy(&e, &bits, sizeof e);
    return e;
}

static uint64_t bits_of(double e)
{
    uint64_t bits;
    memcpy(&bits, &e, sizeof bits);
    return bits;
}

/* Not a number, the floats next to 0.0 and to 64.0 that are no legal imbalance, and infinity. */
#define NAN_BITS 0x7ff8000000000000u
#define BELOW_ZERO_BITS 0x8000000000000001u
#define ABOVE_64_BITS 0x4050000000000001u
#define INFINITY_BITS 0x7ff0000000000000u

/* A ceiling of its own for each board, and all of them 0. */
static void cap_none(struct daunsrevit_ceiling *ceiling)
{
    ceiling->choice = DAUNSREVIT_EACH;
    for (int t = 0; t < DAUNSREVIT_PARTS; t++)
        ceiling->each[t] = 0;
}

static int has(unsigned faults, unsigned fault)
{
    return faults >> fault & 1;
}

static int all_zero(struct daunsrevit_loads loads)
{
    for (int t = 0; t < DAUNSREVIT_PARTS; t++)
        if (loads.at[t] != 0)
            return 0;
    return 1;
}

/* Calls the three measures: their numbers are these, a refusal answers zeros, and no list changed. */
static void check_numbers(const struct lists *given, uint32_t cut, uint32_t lambda, uint32_t loads, const char *file, int line)
{
    static struct lists l;
    l = *given;
    struct daunsrevit_cut_answer c = edge_cut_of(&l), m = lambda_cut_of(&l);
    struct daunsrevit_loads_answer p = loads_of(&l);
    check(c.number == cut, "the edge cut's number", file, line);
    check(m.number == lambda, "the lambda cut's number", file, line);
    check(p.number == loads, "the loads' number", file, line);
    check(c.number == 0 || c.cut == 0, "a refused edge cut is 0", file, line);
    check(m.number == 0 || m.cut == 0, "a refused lambda cut is 0", file, line);
    check(p.number == 0 || all_zero(p.loads), "refused loads are 0", file, line);
    check(memcmp(&l, given, sizeof l) == 0, "no list is written", file, line);
}
#define CHECK_NUMBERS(given, cut, lambda, loads) check_numbers(given, cut, lambda, loads, __FILE__, __LINE__)
