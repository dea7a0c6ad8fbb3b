/* Puts cases to the C entry points of the refiners: one case a line of standard input, one answer a line of standard output.
 *
 *   fm P M B CEILING n a  weights[n] starts[n+1] neighbours[a] arcs[a] labels[n]
 *   kl P M B n a  weights[n] starts[n+1] neighbours[a] arcs[a] labels[n]
 *   as CEILING LENGTH n a  weights[n] starts[n+1] neighbours[a] arcs[a] labels[n]
 *
 * all separated by blanks. P pass limit, M move or swap limit, B bad limit; CEILING the choice, the whole number, the imbalance's bits, a
 * decimal number, and with choice 3 the sixteen numbers; LENGTH that of arc-swap's stack. The lent lists are painted, and otherwise just as long as is needed. Answers:
 * `number=v end=v passes=v cut=first,last labels=v,v,..`, for FM and arc-swap `loads=v,v,..` too, for FM `rows=made/rewound,..`
 * and for arc-swap `counts=attempts,moves,no-gain,bad-balance`. Ends with 1 at a line that is not a case. */
#include "../c/check.h"

int getchar(void);

enum { STACK = 65535 };

static struct lists l;
static int64_t gains[DAUNSREVIT_MOST_VERTICES + 1];
static struct daunsrevit_move moves[DAUNSREVIT_MOST_VERTICES + 1];
static uint8_t locks[DAUNSREVIT_MOST_VERTICES + 1];
static uint32_t swaps[DAUNSREVIT_MOST_VERTICES + 1];
static uint32_t stack[STACK];
static uint32_t made[DAUNSREVIT_MOST_PASSES + 1], rewound[DAUNSREVIT_MOST_PASSES + 1];

static int next; /* the character to be read */
static int unreadable;

static void skip_blanks(void)
{
    while (next == ' ')
        next = getchar();
}

static uint64_t read_number(void)
{
    uint64_t value = 0;
    skip_blanks();
    if (next < '0' || next > '9')
        unreadable = 1;
    for (; next >= '0' && next <= '9'; next = getchar())
        value = value * 10 + (uint64_t)(next - '0');
    return value;
}

static void read_list(uint32_t *list, size_t count)
{
    for (size_t i = 0; i < count; i++)
        list[i] = (uint32_t)read_number();
}

static struct daunsrevit_ceiling read_ceiling(void)
{
    struct daunsrevit_ceiling ceiling;
    ceiling.choice = (uint32_t)read_number();
    ceiling.whole = (uint32_t)read_number();
    ceiling.imbalance = of_bits(read_number());
    memset(ceiling.each, 0xa5, sizeof ceiling.each);
    if (ceiling.choice == DAUNSREVIT_EACH)
        read_list(ceiling.each, DAUNSREVIT_PARTS);
    return ceiling;
}

static int read_graph(void)
{
    size_t n = read_number(), a = read_number();
    paint(&l);
    if (unreadable || n > DAUNSREVIT_MOST_VERTICES || a > DAUNSREVIT_MOST_ARCS)
        return 0;
    set_counts(&l, n, a);
    read_list(l.weights, n);
    read_list(l.starts, n + 1);
    read_list(l.neighbours, a);
    read_list(l.arc_weights, a);
    read_list(l.labels, n);
    skip_blanks();
    return !unreadable && (next == '\n' || next < 0);
}

static void print_labels(void)
{
    printf(" labels=");
    for (size_t v = 0; v < l.labels_count; v++)
        printf(v ? ",%u" : "%u", l.labels[v]);
}

static int fiduccia_mattheyses(void)
{
    struct daunsrevit_fiduccia_mattheyses_settings s;
    s.pass_limit = (uint32_t)read_number();
    s.move_limit = (uint32_t)read_number();
    s.bad_limit = (uint32_t)read_number();
    s.ceiling = read_ceiling();
    if (!read_graph() || s.pass_limit > DAUNSREVIT_MOST_PASSES)
        return 0;
    size_t n = l.labels_count;
    memset(gains, 0xa5, sizeof gains);
    memset(moves, 0xa5, sizeof moves);
    memset(made, 0xa5, sizeof made);
    memset(rewound, 0xa5, sizeof rewound);
    struct daunsrevit_fiduccia_mattheyses_report r = daunsrevit_fiduccia_mattheyses(l.starts, l.starts_count,
        l.neighbours, l.neighbours_count, l.arc_weights, l.arc_weights_count, l.weights, l.weights_count,
        l.labels, l.labels_count, gains, n, moves, n, made, s.pass_limit, rewound, s.pass_limit, s);
    printf("number=%u end=%u passes=%u cut=%lu,%lu", r.number, r.end, r.passes, r.first, r.last);
    print_labels();
    printf(" loads=%lu,%lu rows=", r.loads.at[0], r.loads.at[1]);
    for (uint32_t i = 0; i < r.passes; i++)
        printf(i ? ",%u/%u" : "%u/%u", made[i], rewound[i]);
    printf("\n");
    return 1;
}

static int kernighan_lin(void)
{
    struct daunsrevit_kernighan_lin_settings s;
    s.pass_limit = (uint32_t)read_number();
    s.swap_limit = (uint32_t)read_number();
    s.bad_limit = (uint32_t)read_number();
    if (!read_graph())
        return 0;
    size_t n = l.labels_count;
    memset(gains, 0xa5, sizeof gains);
    memset(locks, 0xa5, sizeof locks);
    memset(swaps, 0xa5, sizeof swaps);
    struct daunsrevit_kernighan_lin_report r = daunsrevit_kernighan_lin(l.starts, l.starts_count,
        l.neighbours, l.neighbours_count, l.arc_weights, l.arc_weights_count, l.weights, l.weights_count,
        l.labels, l.labels_count, gains, n, locks, n, swaps, n / 2, s);
    printf("number=%u end=%u passes=%u cut=%lu,%lu", r.number, r.end, r.passes, r.first, r.last);
    print_labels();
    printf("\n");
    return 1;
}

static int arc_swap(void)
{
    struct daunsrevit_arc_swap_settings s;
    s.ceiling = read_ceiling();
    size_t length = read_number(), parts = 2;
    if (!read_graph() || length > STACK)
        return 0;
    for (size_t v = 0; v < l.labels_count; v++)
        parts = l.labels[v] < parts ? parts : l.labels[v] + 1;
    struct daunsrevit_run_record run;
    memset(&run, 0xa5, sizeof run);
    memset(stack, 0xa5, length * sizeof *stack);
    struct daunsrevit_arc_swap_report r = daunsrevit_arc_swap(l.starts, l.starts_count,
        l.neighbours, l.neighbours_count, l.arc_weights, l.arc_weights_count, l.weights, l.weights_count,
        l.labels, l.labels_count, stack, length, s, &run);
    printf("number=%u end=%u passes=%u cut=%lu,%lu", r.number, r.end, r.passes, r.first, r.last);
    print_labels();
    printf(" loads=");
    for (size_t part = 0; part < parts && l.labels_count; part++)
        printf(part ? ",%lu" : "%lu", r.loads.at[part]);
    printf(" counts=%lu,%lu,%lu,%lu\n", run.attempts, run.moves, run.no_gain, run.bad_balance);
    return 1;
}

/* Reads the case's first word and puts the rest to its algorithm. */
static int one_case(void)
{
    int first = next, second = getchar();
    next = getchar();
    if (first == 'f' && second == 'm')
        return fiduccia_mattheyses();
    if (first == 'a' && second == 's')
        return arc_swap();
    return first == 'k' && second == 'l' && kernighan_lin();
}

int main(void)
{
    for (next = getchar(); next >= 0; next = getchar())
        if (!one_case())
            return 1;
    return 0;
}
