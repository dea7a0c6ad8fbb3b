/* FM: the eight-block grid's rows 4 to 6 of document 01, the limits, a ceiling for each board, no vertices, every refusal, and what is left in each lent list. */
#include "check.h"

#define ROOM (DAUNSREVIT_MOST_VERTICES + 4)
#define ROWS (DAUNSREVIT_MOST_PASSES + 4)

struct call {
    struct lists l;
    struct daunsrevit_fiduccia_mattheyses_settings s;
    size_t gains_count, moves_count, made_count, rewound_count;
    int64_t gains[ROOM];
    struct daunsrevit_move moves[ROOM];
    uint32_t made[ROWS], rewound[ROWS];
};

static struct call c, wanted;
static const uint32_t a[8] = {0, 0, 1, 1, 0, 1, 0, 1}, b[8] = {0, 0, 1, 1, 0, 0, 1, 1};

static struct daunsrevit_fiduccia_mattheyses_report run(void)
{
    return daunsrevit_fiduccia_mattheyses(c.l.starts, c.l.starts_count, c.l.neighbours, c.l.neighbours_count,
        c.l.arc_weights, c.l.arc_weights_count, c.l.weights, c.l.weights_count, c.l.labels, c.l.labels_count,
        c.gains, c.gains_count, c.moves, c.moves_count, c.made, c.made_count, c.rewound, c.rewound_count, c.s);
}

/* The lists just as long as is needed, or by `extra` longer, all painted. */
static void lend(uint32_t passes, size_t extra)
{
    c.s.pass_limit = passes;
    c.gains_count = c.moves_count = c.l.labels_count + extra;
    c.made_count = c.rewound_count = passes + extra;
}

static void set_up(uint32_t passes, uint32_t moves, uint32_t bad)
{
    memset(c.gains, 0xa5, sizeof c.gains);
    memset(c.moves, 0xa5, sizeof c.moves);
    memset(c.made, 0xa5, sizeof c.made);
    memset(c.rewound, 0xa5, sizeof c.rewound);
    c.s.move_limit = moves;
    c.s.bad_limit = bad;
    c.s.ceiling.choice = DAUNSREVIT_IMBALANCE;
    c.s.ceiling.whole = 0xa5a5a5a5u;
    c.s.ceiling.imbalance = 0.25;
    memset(c.s.ceiling.each, 0xa5, sizeof c.s.ceiling.each);
    lend(passes, 0);
}

static void on_grid(const uint32_t *labels, uint32_t passes, uint32_t moves, uint32_t bad)
{
    make_grid(&c.l, labels);
    set_up(passes, moves, bad);
}

/* A path of 5 vertices, on which any of the faults can stand. */
static void on_path(size_t n)
{
    make_path(&c.l, n);
    set_up(3, 100, 1);
}

static int bare(struct daunsrevit_fiduccia_mattheyses_report r, uint32_t number, uint32_t end)
{
    return r.number == number && r.end == end && r.passes == 0 && r.first == 0 && r.last == 0 && all_zero(r.loads);
}

/* The call answers a bare report, and no list changes. */
static void check_bare(uint32_t number, uint32_t end, int line)
{
    memcpy(&wanted, &c, sizeof c);
    struct daunsrevit_fiduccia_mattheyses_report r = run();
    check(bare(r, number, end), "the bare report", __FILE__, line);
    check(memcmp(&c, &wanted, sizeof c) == 0, "nothing is written", __FILE__, line);
}
#define REFUSED(number) check_bare(number, 0, __LINE__)
#include "refiner.h"

struct row {
    uint32_t made, rewound;
};

/* The call is done, with these labels and rows; the loads are two, and every lent list is as it should be to its last byte. */
static void check_run(const uint32_t *labels, uint32_t end, uint32_t passes, const struct row *rows,
    uint64_t first, uint64_t last, uint64_t load0, uint64_t load1, int line)
{
    size_t n = c.l.labels_count;
    memcpy(&wanted, &c, sizeof c);
    memcpy(wanted.l.labels, labels, n * sizeof labels[0]);
    memset(wanted.gains, 0, n * sizeof wanted.gains[0]);
    memset(wanted.moves, 0, n * sizeof wanted.moves[0]);
    for (uint32_t i = 0; i < passes; i++) {
        wanted.made[i] = rows[i].made;
        wanted.rewound[i] = rows[i].rewound;
    }
    struct daunsrevit_fiduccia_mattheyses_report r = run();
    check(r.number == DAUNSREVIT_DONE, "done", __FILE__, line);
    check(r.end == end, "the end", __FILE__, line);
    check(r.passes == passes, "the passes", __FILE__, line);
    check(r.first == first, "the first cut", __FILE__, line);
    check(r.last == last, "the last cut", __FILE__, line);
    check(r.loads.at[0] == load0, "the load of part 0", __FILE__, line);
    check(r.loads.at[1] == load1, "the load of part 1", __FILE__, line);
    r.loads.at[0] = r.loads.at[1] = 0;
    check(all_zero(r.loads), "there is no other load", __FILE__, line);
    check(memcmp(&c.l, &wanted.l, sizeof c.l) == 0, "the labels, and no other list of the graph", __FILE__, line);
    check(memcmp(c.gains, wanted.gains, sizeof c.gains) == 0, "the gains", __FILE__, line);
    check(memcmp(c.moves, wanted.moves, sizeof c.moves) == 0, "the moves", __FILE__, line);
    check(memcmp(c.made, wanted.made, sizeof c.made) == 0, "the rows of moves made", __FILE__, line);
    check(memcmp(c.rewound, wanted.rewound, sizeof c.rewound) == 0, "the rows of moves rewound", __FILE__, line);
}
#define ROWS_OF(...) (const struct row[]){__VA_ARGS__}
#define DONE(labels, end, passes, rows, first, last) check_run(labels, end, passes, rows, first, last, 4, 4, __LINE__)

static void grid(void)
{
    const struct row *row4 = ROWS_OF({2, 0}, {0, 0}), *row5 = ROWS_OF({3, 1}, {1, 1}), *row6 = ROWS_OF({0, 0});
    on_grid(a, 64, 8, 0);
    DONE(b, DAUNSREVIT_GAINLESS, 2, row4, 6, 2);
    on_grid(a, 64, 8, 1);
    DONE(b, DAUNSREVIT_GAINLESS, 2, row5, 6, 2);
    on_grid(a, 64, 8, 0);
    c.s.ceiling.choice = DAUNSREVIT_CARRIED;
    DONE(a, DAUNSREVIT_GAINLESS, 1, row6, 6, 6);

    /* What the choice does not use is not looked at. */
    on_grid(a, 64, 8, 0);
    c.s.ceiling.choice = DAUNSREVIT_CARRIED;
    c.s.ceiling.imbalance = of_bits(NAN_BITS);
    DONE(a, DAUNSREVIT_GAINLESS, 1, row6, 6, 6);
    on_grid(a, 64, 8, 0);
    c.s.ceiling.choice = DAUNSREVIT_WHOLE;
    c.s.ceiling.whole = 5;
    c.s.ceiling.imbalance = of_bits(NAN_BITS);
    DONE(b, DAUNSREVIT_GAINLESS, 2, row4, 6, 2);
    on_grid(a, 64, 8, 0);
    c.s.ceiling.choice = DAUNSREVIT_WHOLE;
    c.s.ceiling.whole = 4;
    DONE(a, DAUNSREVIT_GAINLESS, 1, row6, 6, 6);

    /* Lists longer than is needed, and of different lengths. */
    on_grid(a, 64, 8, 1);
    lend(64, 3);
    DONE(b, DAUNSREVIT_GAINLESS, 2, row5, 6, 2);
    on_grid(a, 64, 8, 0);
    c.gains_count += 1;
    c.moves_count += 2;
    c.made_count += 3;
    c.rewound_count += 4;
    DONE(b, DAUNSREVIT_GAINLESS, 2, row4, 6, 2);
}

static void pass_and_move_limits(void)
{
    on_grid(a, 0, 8, 0);
    DONE(a, DAUNSREVIT_PASS_LIMIT, 0, 0, 6, 6);
    on_grid(a, 1, 8, 0);
    DONE(b, DAUNSREVIT_PASS_LIMIT, 1, ROWS_OF({2, 0}), 6, 2);
    on_grid(a, 2, 8, 0);
    DONE(b, DAUNSREVIT_GAINLESS, 2, ROWS_OF({2, 0}, {0, 0}), 6, 2);
    on_grid(a, 1024, 8, 0);
    DONE(b, DAUNSREVIT_GAINLESS, 2, ROWS_OF({2, 0}, {0, 0}), 6, 2);
    on_grid(a, 64, 4294967295u, 0);
    DONE(b, DAUNSREVIT_GAINLESS, 2, ROWS_OF({2, 0}, {0, 0}), 6, 2);
    on_grid(a, 64, 0, 0);
    DONE(a, DAUNSREVIT_GAINLESS, 1, ROWS_OF({0, 0}), 6, 6);
    /* A move a pass: vertices 5 and 6 tie, and the lower one moves first. */
    on_grid(a, 64, 1, 0);
    DONE(b, DAUNSREVIT_GAINLESS, 3, ROWS_OF({1, 0}, {1, 0}, {0, 0}), 6, 2);
    on_grid(a, 1, 1, 0);
    const uint32_t one[8] = {0, 0, 1, 1, 0, 0, 0, 1};
    check_run(one, DAUNSREVIT_PASS_LIMIT, 1, ROWS_OF({1, 0}), 6, 3, 5, 3, __LINE__);
}

/* Vertices 0 and 1 joined by weight 5, and vertex 2 alone, in the parts 0, 1 and 1. */
static void on_pair(uint32_t weight0, uint32_t weight1, uint32_t weight2, double imbalance)
{
    const uint32_t starts[4] = {0, 1, 2, 2}, neighbours[2] = {1, 0}, labels[3] = {0, 1, 1};
    paint(&c.l);
    memcpy(c.l.starts, starts, sizeof starts);
    memcpy(c.l.neighbours, neighbours, sizeof neighbours);
    memcpy(c.l.labels, labels, sizeof labels);
    c.l.weights[0] = weight0;
    c.l.weights[1] = weight1;
    c.l.weights[2] = weight2;
    c.l.arc_weights[0] = c.l.arc_weights[1] = 5;
    set_counts(&c.l, 3, 2);
    set_up(1, 3, 0);
    c.s.ceiling.imbalance = imbalance;
}

static void ceiling_and_loads(void)
{
    const uint32_t apart[3] = {0, 1, 1}, joined[3] = {0, 0, 1}, all[3] = {1, 1, 1};
    /* Total 7 over two parts: e = 0.1 gives 3, so that vertex 1 may not join vertex 0; e = 0.15 gives 4. */
    on_pair(3, 1, 3, 0.1);
    check_run(apart, DAUNSREVIT_GAINLESS, 1, ROWS_OF({0, 0}), 5, 5, 3, 4, __LINE__);
    on_pair(3, 1, 3, 0.15);
    check_run(joined, DAUNSREVIT_PASS_LIMIT, 1, ROWS_OF({1, 0}), 5, 0, 4, 3, __LINE__);
    /* Equal gains: the smaller target load goes first, 6 before 9; at equal loads the lower vertex. */
    on_pair(5, 1, 3, 64.0);
    check_run(joined, DAUNSREVIT_PASS_LIMIT, 1, ROWS_OF({1, 0}), 5, 0, 6, 3, __LINE__);
    on_pair(5, 1, 0, 64.0);
    check_run(all, DAUNSREVIT_PASS_LIMIT, 1, ROWS_OF({1, 0}), 5, 0, 0, 6, __LINE__);
}

/* A ceiling for each board: every other number is 0, as no board above 1 bears on the run. */
static void cap_each(uint32_t first, uint32_t second)
{
    cap_none(&c.s.ceiling);
    c.s.ceiling.each[0] = first;
    c.s.ceiling.each[1] = second;
}

/* Two blocks of weight 1 on two boards, joined: the two go to the board that has room for both, and stay apart where none has. */
static void two_boards(void)
{
    static const uint32_t ceilings[][2] = {{2, 1}, {1, 2}, {1, 1}, {0, 0}, {2, 2}, {4294967295u, 0}, {0, 4294967295u}};
    static const uint32_t left[][2] = {{0, 0}, {1, 1}, {0, 1}, {0, 1}, {1, 1}, {0, 0}, {1, 1}};
    for (size_t i = 0; i < sizeof left / sizeof left[0]; i++) {
        int moves = left[i][0] == left[i][1];
        on_path(2);
        c.l.labels[0] = 0;
        c.l.labels[1] = 1;
        c.s.bad_limit = 0;
        cap_each(ceilings[i][0], ceilings[i][1]);
        check_run(left[i], DAUNSREVIT_GAINLESS, 1 + moves, ROWS_OF({moves, 0}, {0, 0}), 1, !moves,
            (left[i][0] == 0) + (left[i][1] == 0), left[i][0] + left[i][1], __LINE__);
    }
    /* What choice 3 does not use is not looked at: not the imbalance, and not the numbers of boards above 1. */
    for (uint32_t ceiling = 4; ceiling <= 5; ceiling++) {
        on_grid(a, 64, 8, 0);
        cap_each(ceiling, ceiling);
        c.s.ceiling.imbalance = of_bits(NAN_BITS);
        if (ceiling == 4)
            DONE(a, DAUNSREVIT_GAINLESS, 1, ROWS_OF({0, 0}), 6, 6);
        else
            DONE(b, DAUNSREVIT_GAINLESS, 2, ROWS_OF({2, 0}, {0, 0}), 6, 2);
    }
}

/* No vertices come before all checks. */
static void no_vertices(void)
{
    on_path(0);
    check_bare(DAUNSREVIT_DONE, DAUNSREVIT_EMPTY, __LINE__);
    on_path(5);
    c.l.labels_count = 0;
    c.s.pass_limit = 1025;
    c.s.ceiling.choice = 4;
    check_bare(DAUNSREVIT_DONE, DAUNSREVIT_EMPTY, __LINE__);
    struct daunsrevit_fiduccia_mattheyses_report r =
        daunsrevit_fiduccia_mattheyses(0, 0, 0, 0, 0, 0, 0, 0, 0, 0, 0, 0, 0, 0, 0, 0, 0, 0, c.s);
    CHECK(bare(r, DAUNSREVIT_DONE, DAUNSREVIT_EMPTY));
}

static void refusals(void)
{
    graph_refusals();
    AFTER(c.l.labels[4] = 2, 6);
    AFTER(lend(1025, 0), 7);
    CHOICE_REFUSALS();
    AFTER(c.gains_count--, 8);
    AFTER(c.moves_count--, 8);
    AFTER(c.made_count--, 8);
    AFTER(c.rewound_count--, 8);
    AFTER((c.gains_count = c.moves_count = c.made_count = c.rewound_count = 0), 8);
}

/* At the limits and in them the call is done: 4,096 vertices, and e of 0.0, -0.0 and 64.0. */
static void at_the_limits(void)
{
    static uint32_t labels[4096];
    on_path(4096);
    for (int v = 0; v < 4096; v++)
        c.l.labels[v] = labels[v] = 0;
    c.s.ceiling.imbalance = 64.0;
    c.s.bad_limit = 100;
    check_run(labels, DAUNSREVIT_GAINLESS, 1, ROWS_OF({100, 100}), 0, 0, 4096, 0, __LINE__);
    for (int sign = 0; sign <= 1; sign++) {
        on_grid(a, 64, 8, 0);
        c.s.ceiling.imbalance = sign ? -0.0 : 0.0;
        DONE(a, DAUNSREVIT_GAINLESS, 1, ROWS_OF({0, 0}), 6, 6);
    }
}

/* The faults 6 to 8. */
static void own_faults(unsigned faults)
{
    if (has(faults, 6))
        c.l.labels[2] = 2;
    if (has(faults, 7))
        c.s.ceiling.choice = 4;
    if (has(faults, 8))
        c.rewound_count--;
}

int main(void)
{
    grid();
    pass_and_move_limits();
    ceiling_and_loads();
    two_boards();
    no_vertices();
    refusals();
    at_the_limits();
    order(8, own_faults);
    return finish("fiduccia_mattheyses");
}
