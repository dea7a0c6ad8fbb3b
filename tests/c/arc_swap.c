/* Arc-swap: the eight-block grid's row 10 of document 01, stacks that are too short, what may be done after one, the ceiling, sixteen
 * parts, a ceiling for each board, no vertices, every refusal, and what is left in each lent list and in the run record. */
#include "check.h"

#define STACK 64

struct call {
    struct lists l;
    struct daunsrevit_arc_swap_settings s;
    size_t stack_count;
    uint32_t stack[STACK];
    struct daunsrevit_run_record run;
};

static struct call c, wanted;
static const uint32_t a[8] = {0, 0, 1, 1, 0, 1, 0, 1}, b[8] = {0, 0, 1, 1, 0, 0, 1, 1};

static struct daunsrevit_arc_swap_report run(void)
{
    return daunsrevit_arc_swap(c.l.starts, c.l.starts_count, c.l.neighbours, c.l.neighbours_count,
        c.l.arc_weights, c.l.arc_weights_count, c.l.weights, c.l.weights_count, c.l.labels, c.l.labels_count,
        c.stack, c.stack_count, c.s, &c.run);
}

static void set_up(size_t stack_count)
{
    memset(c.stack, 0xa5, sizeof c.stack);
    memset(&c.run, 0xa5, sizeof c.run);
    c.stack_count = stack_count;
    c.s.ceiling.choice = DAUNSREVIT_IMBALANCE;
    c.s.ceiling.whole = 0xa5a5a5a5u;
    c.s.ceiling.imbalance = 0.25;
    memset(c.s.ceiling.each, 0xa5, sizeof c.s.ceiling.each);
}

static void on_grid(const uint32_t *labels, size_t stack_count)
{
    make_grid(&c.l, labels);
    set_up(stack_count);
}

static void on_path(size_t n)
{
    make_path(&c.l, n);
    set_up(8);
}

static int bare(struct daunsrevit_arc_swap_report r, uint32_t number, uint32_t end)
{
    return r.number == number && r.end == end && r.passes == 0 && r.first == 0 && r.last == 0 && all_zero(r.loads);
}

/* The call is refused with this number; no list changes, and neither does the run record. */
static void check_refusal(uint32_t number, int line)
{
    memcpy(&wanted, &c, sizeof c);
    struct daunsrevit_arc_swap_report r = run();
    check(bare(r, number, 0), "the bare report", __FILE__, line);
    check(memcmp(&c, &wanted, sizeof c) == 0, "nothing is written", __FILE__, line);
}
#define REFUSED(number) check_refusal(number, __LINE__)
#include "refiner.h"

/* What a run gives: end, passes, cuts; attempts, moves, no-gain, bad-balance. */
struct run {
    uint32_t end, passes;
    uint64_t first, last, attempts, moves, no_gain, bad_balance;
};

/* The call is done, with these labels and this run; the loads are those of the labels, the stack is zeroed whole, and no other list
 * has changed to its last byte. */
static void check_run(const uint32_t *labels, struct run given, int line)
{
    size_t n = c.l.labels_count;
    memcpy(&wanted, &c, sizeof c);
    memcpy(wanted.l.labels, labels, n * sizeof labels[0]);
    memset(wanted.stack, 0, c.stack_count * sizeof wanted.stack[0]);
    struct daunsrevit_arc_swap_report r = run();
    check(r.number == DAUNSREVIT_DONE, "done", __FILE__, line);
    check(r.end == given.end, "the end", __FILE__, line);
    check(r.passes == given.passes, "the passes", __FILE__, line);
    check(r.first == given.first, "the first cut", __FILE__, line);
    check(r.last == given.last, "the last cut", __FILE__, line);
    for (size_t v = 0; v < n; v++)
        r.loads.at[labels[v]] -= c.l.weights[v];
    check(all_zero(r.loads), "the loads", __FILE__, line);
    check(c.run.attempts == given.attempts, "the attempts", __FILE__, line);
    check(c.run.moves == given.moves, "the moves", __FILE__, line);
    check(c.run.no_gain == given.no_gain, "the attempts without gain", __FILE__, line);
    check(c.run.bad_balance == given.bad_balance, "the attempts of bad balance", __FILE__, line);
    check(memcmp(&c.l, &wanted.l, sizeof c.l) == 0, "the labels, and no other list of the graph", __FILE__, line);
    check(memcmp(c.stack, wanted.stack, sizeof c.stack) == 0, "the stack", __FILE__, line);
}
#define DONE(labels, ...) check_run(labels, (struct run){__VA_ARGS__}, __LINE__)

static void grid(void)
{
    on_grid(a, 8);
    DONE(b, DAUNSREVIT_GAINLESS, 2, 6, 2, 12, 4, 7, 1);
    on_grid(a, STACK);
    DONE(b, DAUNSREVIT_GAINLESS, 2, 6, 2, 12, 4, 7, 1);

    /* What the choice does not use is not looked at. */
    on_grid(a, 8);
    c.s.ceiling.choice = DAUNSREVIT_WHOLE;
    c.s.ceiling.whole = 5;
    c.s.ceiling.imbalance = of_bits(NAN_BITS);
    DONE(b, DAUNSREVIT_GAINLESS, 2, 6, 2, 12, 4, 7, 1);
    on_grid(a, 8);
    c.s.ceiling.choice = DAUNSREVIT_CARRIED;
    c.s.ceiling.imbalance = of_bits(NAN_BITS);
    DONE(a, DAUNSREVIT_GAINLESS, 1, 6, 6, 6, 0, 2, 4);
    for (int sign = 0; sign <= 1; sign++) {
        on_grid(a, 8);
        c.s.ceiling.imbalance = sign ? -0.0 : 0.0;
        DONE(a, DAUNSREVIT_GAINLESS, 1, 6, 6, 6, 0, 2, 4);
    }
    const uint32_t lopsided[8] = {0, 1, 1, 1, 0, 1, 1, 1};
    on_grid(a, 8);
    c.s.ceiling.imbalance = 64.0;
    DONE(lopsided, DAUNSREVIT_GAINLESS, 2, 6, 2, 11, 4, 7, 0);
}

/* Worked from document 01: without a place no vertex on the cut can be pushed; with one, vertex 1 moves, of its neighbours 5 alone
 * has gain, is pushed and moves, and then 1 and 6 have gain and do not both fit, so neither is pushed and the move stands. */
static void short_stacks(void)
{
    const uint32_t one[8] = {0, 1, 1, 1, 0, 0, 0, 1};
    on_grid(a, 0);
    DONE(a, DAUNSREVIT_STACK_FULL, 1, 6, 6, 0, 0, 0, 0);
    on_grid(a, 1);
    DONE(one, DAUNSREVIT_STACK_FULL, 1, 6, 4, 2, 2, 0, 0);
    on_grid(a, 2);
    DONE(b, DAUNSREVIT_GAINLESS, 2, 6, 2, 12, 4, 7, 1);
    /* Nothing is on the cut: no place is needed. */
    const uint32_t together[8] = {0};
    on_grid(together, 0);
    DONE(together, DAUNSREVIT_GAINLESS, 1, 0, 0, 0, 0, 0, 0);
}

/* Five vertices in three parts, of loads 6, 1 and 3: the ceiling by e = 0.5 is 5, as the total 10 over three parts gives 5. */
static void on_five(size_t stack_count)
{
    static const uint32_t starts[6] = {0, 2, 4, 5, 6, 10}, neighbours[10] = {1, 4, 0, 4, 4, 4, 0, 1, 2, 3};
    static const uint32_t arc_weights[10] = {1, 1, 1, 2, 3, 1, 1, 2, 3, 1}, weights[5] = {3, 1, 3, 2, 1}, labels[5] = {2, 0, 0, 0, 1};
    paint(&c.l);
    memcpy(c.l.starts, starts, sizeof starts);
    memcpy(c.l.neighbours, neighbours, sizeof neighbours);
    memcpy(c.l.arc_weights, arc_weights, sizeof arc_weights);
    memcpy(c.l.weights, weights, sizeof weights);
    memcpy(c.l.labels, labels, sizeof labels);
    set_counts(&c.l, 5, 10);
    set_up(stack_count);
    c.s.ceiling.imbalance = 0.5;
}

/* The same call once more, on the labels as they stand now, with a longer stack. */
static void lend_more(void)
{
    memset(c.stack, 0xa5, sizeof c.stack);
    memset(&c.run, 0xa5, sizeof c.run);
    c.stack_count = STACK;
}

/* A stack of one place ends the run with 2 after one move, which empties part 2. */
static void after_end_2(void)
{
    const uint32_t kept[5] = {2, 0, 0, 0, 1}, reached[5] = {1, 0, 0, 0, 1};

    /* Not safe: with choice 2 the second call finds two parts, and its ceiling is 7. Part 0, which began at 6 under a ceiling of 5,
     * ends at 7. */
    const uint32_t too_heavy[5] = {1, 0, 0, 0, 0};
    on_five(1);
    CHECK(loads_of(&c.l).loads.at[0] == 6);
    DONE(reached, DAUNSREVIT_STACK_FULL, 1, 8, 7, 1, 1, 0, 0);
    lend_more();
    DONE(too_heavy, DAUNSREVIT_GAINLESS, 2, 7, 2, 9, 3, 4, 2);
    CHECK(loads_of(&c.l).loads.at[0] == 7);

    /* Safe: the call again from the labels as they were before it. */
    const uint32_t within[5] = {1, 1, 0, 0, 1};
    on_five(1);
    DONE(reached, DAUNSREVIT_STACK_FULL, 1, 8, 7, 1, 1, 0, 0);
    lend_more();
    memcpy(c.l.labels, kept, sizeof kept);
    DONE(within, DAUNSREVIT_GAINLESS, 2, 8, 4, 10, 2, 0, 8);
    CHECK(loads_of(&c.l).loads.at[0] == 5);

    /* Safe: on from the labels reached, with a whole ceiling, which is the same in both calls. */
    on_five(1);
    c.s.ceiling.choice = DAUNSREVIT_WHOLE;
    c.s.ceiling.whole = 5;
    DONE(reached, DAUNSREVIT_STACK_FULL, 1, 8, 7, 1, 1, 0, 0);
    lend_more();
    DONE(within, DAUNSREVIT_GAINLESS, 2, 7, 4, 9, 1, 1, 7);
    CHECK(loads_of(&c.l).loads.at[0] == 5);

    /* Safe: the same with a ceiling for each board, here of 5 for the first three, which are the same in both calls. */
    on_five(1);
    cap_none(&c.s.ceiling);
    c.s.ceiling.each[0] = c.s.ceiling.each[1] = c.s.ceiling.each[2] = 5;
    DONE(reached, DAUNSREVIT_STACK_FULL, 1, 8, 7, 1, 1, 0, 0);
    lend_more();
    DONE(within, DAUNSREVIT_GAINLESS, 2, 7, 4, 9, 1, 1, 7);
    CHECK(loads_of(&c.l).loads.at[0] == 5);

    /* Safe: on from the labels reached, with the carried ceiling. No load is above 6 after the first call, so the second ceiling is
     * not above 6 either. */
    const uint32_t carried[5] = {1, 1, 0, 0, 0};
    on_five(1);
    c.s.ceiling.choice = DAUNSREVIT_CARRIED;
    DONE(reached, DAUNSREVIT_STACK_FULL, 1, 8, 7, 1, 1, 0, 0);
    lend_more();
    DONE(carried, DAUNSREVIT_GAINLESS, 2, 7, 3, 8, 2, 4, 2);
    CHECK(loads_of(&c.l).loads.at[0] == 6);
}

/* Every block on a board of its own, of sixteen: each pair across joins the higher board, where two find room. */
static void sixteen_parts(void)
{
    const uint32_t apart[8] = {0, 1, 2, 3, 12, 13, 14, 15}, joined[8] = {12, 13, 14, 15, 12, 13, 14, 15};
    on_grid(apart, 20);
    c.s.ceiling.choice = DAUNSREVIT_WHOLE;
    c.s.ceiling.whole = 2;
    DONE(joined, DAUNSREVIT_GAINLESS, 2, 10, 6, 19, 4, 15, 0);
    /* The best part is too heavy: no other is tried. */
    on_grid(apart, 20);
    c.s.ceiling.choice = DAUNSREVIT_WHOLE;
    c.s.ceiling.whole = 1;
    DONE(apart, DAUNSREVIT_GAINLESS, 1, 10, 10, 8, 0, 0, 8);
}

/* A ceiling for each board. Two blocks of weight 1 on two boards, joined: block 0 has its turn first and goes where there is room, else
 * block 1 does. */
static void two_boards(void)
{
    static const uint32_t ceilings[][2] = {{2, 1}, {1, 2}, {1, 1}, {2, 2}, {4294967295u, 0}};
    static const uint32_t left[][2] = {{0, 0}, {1, 1}, {0, 1}, {1, 1}, {0, 0}};
    static const struct run runs[] = {{DAUNSREVIT_GAINLESS, 2, 1, 0, 2, 1, 0, 1}, {DAUNSREVIT_GAINLESS, 2, 1, 0, 1, 1, 0, 0},
        {DAUNSREVIT_GAINLESS, 1, 1, 1, 2, 0, 0, 2}, {DAUNSREVIT_GAINLESS, 2, 1, 0, 1, 1, 0, 0},
        {DAUNSREVIT_GAINLESS, 2, 1, 0, 2, 1, 0, 1}};
    for (size_t i = 0; i < sizeof left / sizeof left[0]; i++) {
        on_path(2);
        c.l.labels[0] = 0;
        c.l.labels[1] = 1;
        cap_none(&c.s.ceiling);
        c.s.ceiling.each[0] = ceilings[i][0];
        c.s.ceiling.each[1] = ceilings[i][1];
        check_run(left[i], runs[i], __LINE__);
    }
}

/* Every block on a board of its own, and board t has room for two blocks, or for its one: a block joins its neighbour where there is
 * room, whatever its own board's ceiling is. */
static void sixteen_ceilings(void)
{
    const uint32_t apart[8] = {0, 1, 2, 3, 12, 13, 14, 15};
    const uint32_t upper[8] = {12, 13, 14, 15, 12, 13, 14, 15};
    on_grid(apart, 20);
    cap_none(&c.s.ceiling);
    for (size_t t = 12; t < 16; t++)
        c.s.ceiling.each[t] = 2;
    DONE(upper, DAUNSREVIT_GAINLESS, 2, 10, 6, 19, 4, 15, 0);
    on_grid(apart, 20);
    cap_none(&c.s.ceiling);
    for (size_t t = 0; t < 16; t++)
        c.s.ceiling.each[t] = 1;
    DONE(apart, DAUNSREVIT_GAINLESS, 1, 10, 10, 8, 0, 0, 8);
}

static int zero_counts(void)
{
    return c.run.attempts == 0 && c.run.moves == 0 && c.run.no_gain == 0 && c.run.bad_balance == 0;
}

/* No vertices come before all checks: nothing is written but the run record, which is zeroed. */
static void no_vertices(void)
{
    for (int wrong = 0; wrong <= 1; wrong++) {
        on_path(wrong ? 5 : 0);
        c.l.labels_count = 0;
        c.s.ceiling.choice = wrong ? 4 : 0;
        memcpy(&wanted, &c, sizeof c);
        memset(&wanted.run, 0, sizeof wanted.run);
        CHECK(bare(run(), DAUNSREVIT_DONE, DAUNSREVIT_EMPTY));
        CHECK(memcmp(&c, &wanted, sizeof c) == 0);
    }
    memset(&c.run, 0xa5, sizeof c.run);
    CHECK(bare(daunsrevit_arc_swap(0, 0, 0, 0, 0, 0, 0, 0, 0, 0, 0, 0, c.s, &c.run), DAUNSREVIT_DONE, DAUNSREVIT_EMPTY));
    CHECK(zero_counts());
}

/* A null stack of length 0, where one vertex alone needs no place. */
static void no_stack(void)
{
    const uint32_t starts[2] = {0, 0}, weights[1] = {3};
    uint32_t labels[1] = {15};
    set_up(0);
    struct daunsrevit_arc_swap_report r = daunsrevit_arc_swap(starts, 2, 0, 0, 0, 0, weights, 1, labels, 1, 0, 0, c.s, &c.run);
    CHECK(r.number == DAUNSREVIT_DONE);
    CHECK(r.end == DAUNSREVIT_GAINLESS);
    CHECK(r.passes == 1);
    CHECK(r.loads.at[15] == 3);
    CHECK(labels[0] == 15);
    CHECK(zero_counts());
}

static void refusals(void)
{
    graph_refusals();
    AFTER(c.l.labels[4] = 16, 6);
    CHOICE_REFUSALS();
}

/* The faults 6 and 7; no stack is too short for number 8. */
static void own_faults(unsigned faults)
{
    if (has(faults, 6))
        c.l.labels[2] = 16;
    if (has(faults, 7))
        c.s.ceiling.choice = 4;
    c.stack_count = 0;
}

int main(void)
{
    grid();
    short_stacks();
    after_end_2();
    sixteen_parts();
    two_boards();
    sixteen_ceilings();
    no_vertices();
    no_stack();
    refusals();
    order(7, own_faults);
    return finish("arc_swap");
}
