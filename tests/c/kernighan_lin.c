/* KL: the eight-block grid's rows 7 to 9 of document 01, the inputs on which coupe panics, every refusal, and what is left in each
 * lent list. */
#include "check.h"

#define ROOM (DAUNSREVIT_MOST_VERTICES + 4)

struct call {
    struct lists l;
    struct daunsrevit_kernighan_lin_settings s;
    size_t gains_count, locks_count, swaps_count;
    int64_t gains[ROOM];
    uint8_t locks[ROOM];
    uint32_t swaps[ROOM];
};

static struct call c, wanted;
static const uint32_t a[8] = {0, 0, 1, 1, 0, 1, 0, 1}, b[8] = {0, 0, 1, 1, 0, 0, 1, 1};

static struct daunsrevit_kernighan_lin_report run(void)
{
    return daunsrevit_kernighan_lin(c.l.starts, c.l.starts_count, c.l.neighbours, c.l.neighbours_count,
        c.l.arc_weights, c.l.arc_weights_count, c.l.weights, c.l.weights_count, c.l.labels, c.l.labels_count,
        c.gains, c.gains_count, c.locks, c.locks_count, c.swaps, c.swaps_count, c.s);
}

/* The working lists just as long as is needed, all painted. */
static void set_up(uint32_t passes, uint32_t swaps, uint32_t bad)
{
    memset(c.gains, 0xa5, sizeof c.gains);
    memset(c.locks, 0xa5, sizeof c.locks);
    memset(c.swaps, 0xa5, sizeof c.swaps);
    c.gains_count = c.locks_count = c.l.labels_count;
    c.swaps_count = c.l.labels_count / 2;
    c.s.pass_limit = passes;
    c.s.swap_limit = swaps;
    c.s.bad_limit = bad;
}

static void on_grid(const uint32_t *labels, uint32_t passes, uint32_t swaps, uint32_t bad)
{
    make_grid(&c.l, labels);
    set_up(passes, swaps, bad);
}

static void on_path(size_t n)
{
    make_path(&c.l, n);
    set_up(3, 100, 1);
}

/* n vertices without an arc, in which coupe finds nothing to gain. */
static void on_loose(size_t n, const uint32_t *labels, uint32_t swaps, uint32_t bad)
{
    paint(&c.l);
    for (size_t v = 0; v < n; v++) {
        c.l.starts[v] = c.l.weights[v] = 0;
        c.l.labels[v] = labels[v];
    }
    c.l.starts[n] = 0;
    set_counts(&c.l, n, 0);
    set_up(1, swaps, bad);
}

/* The call is refused with this number, and no list changes. */
static void check_refusal(uint32_t number, int line)
{
    memcpy(&wanted, &c, sizeof c);
    struct daunsrevit_kernighan_lin_report r = run();
    check(r.number == number, "the number", __FILE__, line);
    check(r.end == 0 && r.passes == 0 && r.first == 0 && r.last == 0, "a zero report", __FILE__, line);
    check(memcmp(&c, &wanted, sizeof c) == 0, "nothing is written", __FILE__, line);
}
#define REFUSED(number) check_refusal(number, __LINE__)
#include "refiner.h"

/* The call is done, with these labels, and every lent list is as it should be to its last byte. */
static void check_run(const uint32_t *labels, uint32_t end, uint32_t passes, uint64_t first, uint64_t last, int line)
{
    size_t n = c.l.labels_count;
    memcpy(&wanted, &c, sizeof c);
    memcpy(wanted.l.labels, labels, n * sizeof labels[0]);
    memset(wanted.gains, 0, n * sizeof wanted.gains[0]);
    memset(wanted.locks, 0, n * sizeof wanted.locks[0]);
    memset(wanted.swaps, 0, n / 2 * sizeof wanted.swaps[0]);
    struct daunsrevit_kernighan_lin_report r = run();
    check(r.number == DAUNSREVIT_DONE, "done", __FILE__, line);
    check(r.end == end, "the end", __FILE__, line);
    check(r.passes == passes, "the passes", __FILE__, line);
    check(r.first == first, "the first cut", __FILE__, line);
    check(r.last == last, "the last cut", __FILE__, line);
    check(memcmp(&c.l, &wanted.l, sizeof c.l) == 0, "the labels, and no other list of the graph", __FILE__, line);
    check(memcmp(c.gains, wanted.gains, sizeof c.gains) == 0, "the gains", __FILE__, line);
    check(memcmp(c.locks, wanted.locks, sizeof c.locks) == 0, "the locks", __FILE__, line);
    check(memcmp(c.swaps, wanted.swaps, sizeof c.swaps) == 0, "the swaps", __FILE__, line);
}
#define DONE(labels, end, passes, first, last) check_run(labels, end, passes, first, last, __LINE__)

static void grid(void)
{
    const uint32_t worse[8] = {0, 0, 0, 1, 0, 1, 1, 1};
    on_grid(a, 1, 1, 1);
    DONE(b, DAUNSREVIT_PASS_LIMIT, 1, 6, 2);
    on_grid(b, 1, 1, 1);
    DONE(worse, DAUNSREVIT_GAINLESS, 1, 2, 4);
    on_grid(b, 1, 1, 0);
    DONE(b, DAUNSREVIT_GAINLESS, 1, 2, 2);
    on_grid(b, 1, 8, 0);
    DONE(b, DAUNSREVIT_GAINLESS, 1, 2, 2);

    on_grid(a, 0, 1, 1);
    DONE(a, DAUNSREVIT_PASS_LIMIT, 0, 6, 6);
    /* The second pass is that of the row before. */
    on_grid(a, 2, 1, 1);
    DONE(worse, DAUNSREVIT_GAINLESS, 2, 6, 4);
    on_grid(a, 1024, 1, 0);
    DONE(b, DAUNSREVIT_GAINLESS, 2, 6, 2);

    /* Any two numbers below 16 name the parts. */
    uint32_t before[8], after[8];
    for (int v = 0; v < 8; v++) {
        before[v] = a[v] ? 3 : 15;
        after[v] = b[v] ? 3 : 15;
    }
    on_grid(before, 1, 1, 1);
    DONE(after, DAUNSREVIT_PASS_LIMIT, 1, 6, 2);

    /* Lists longer than is needed. */
    on_grid(a, 1, 1, 1);
    c.gains_count += 1;
    c.locks_count += 2;
    c.swaps_count += 3;
    DONE(b, DAUNSREVIT_PASS_LIMIT, 1, 6, 2);
}

static void where_coupe_panics(void)
{
    const uint32_t one[1] = {0}, two[2] = {0, 1};
    const uint32_t first[4] = {0, 1, 1, 1}, first_left[4] = {1, 1, 1, 0};
    const uint32_t second[4] = {0, 0, 0, 1}, second_left[4] = {0, 0, 1, 0};
    /* Other than two labels. */
    on_loose(1, one, 1, 1);
    REFUSED(DAUNSREVIT_LABEL);
    /* A pass without a swap: by the bad limit, and by the swap limit. */
    on_loose(2, two, 1, 0);
    DONE(two, DAUNSREVIT_GAINLESS, 1, 0, 0);
    on_loose(2, two, 0, 9);
    DONE(two, DAUNSREVIT_GAINLESS, 1, 0, 0);
    /* No unlocked vertex is left in the first part, or in the second: the state after the one swap is kept. */
    on_loose(4, first, 9, 1);
    DONE(first_left, DAUNSREVIT_GAINLESS, 1, 0, 0);
    on_loose(4, second, 9, 1);
    DONE(second_left, DAUNSREVIT_GAINLESS, 1, 0, 0);
}

/* An odd number of vertices wants the half of it, rounded down, for the swaps. */
static void odd(void)
{
    const uint32_t labels[3] = {0, 1, 0}, left[3] = {0, 0, 1};
    on_loose(3, labels, 9, 1);
    CHECK(c.swaps_count == 1);
    DONE(left, DAUNSREVIT_GAINLESS, 1, 0, 0);
}

static void no_vertices(void)
{
    on_path(0);
    REFUSED(DAUNSREVIT_LABEL);
    struct daunsrevit_kernighan_lin_report r =
        daunsrevit_kernighan_lin(0, 0, 0, 0, 0, 0, 0, 0, 0, 0, 0, 0, 0, 0, 0, 0, c.s);
    CHECK(r.number == DAUNSREVIT_LENGTHS);
    CHECK(r.end == 0 && r.passes == 0 && r.first == 0 && r.last == 0);
}

static void refusals(void)
{
    graph_refusals();
    AFTER((c.l.labels[1] = c.l.labels[3] = 16), 6);
    AFTER(c.l.labels[4] = 2, 6);
    AFTER((c.l.labels[1] = c.l.labels[3] = 0), 6);
    AFTER(c.s.pass_limit = 1025, 7);
    AFTER(c.s.pass_limit = 4294967295u, 7);
    AFTER(c.gains_count--, 8);
    AFTER(c.locks_count--, 8);
    AFTER(c.swaps_count--, 8);
    AFTER((c.gains_count = c.locks_count = c.swaps_count = 0), 8);
}

/* The faults 6 to 8. */
static void own_faults(unsigned faults)
{
    if (has(faults, 6))
        c.l.labels[2] = 2;
    if (has(faults, 7))
        c.s.pass_limit = 1025;
    if (has(faults, 8))
        c.swaps_count--;
}

int main(void)
{
    grid();
    where_coupe_panics();
    odd();
    no_vertices();
    refusals();
    order(8, own_faults);
    return finish("kernighan_lin");
}
