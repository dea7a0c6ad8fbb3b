/* Counts the instructions of coupe's Rust, of plain C and of the port on the same inputs, and holds their answers against each
 * other. It prints the tables of docs/SPEED.md, and ends with 1 where answers differ. It runs under a counter alone (bench/run):
 *
 *     bench FILE        under callgrind, which was given FILE by --callgrind-out-file
 *     bench             under qemu-x86_64 with the plugin count.c */
#include "workload.h"
#include "count.h"
#include "reference.h"

static const struct workload WORKLOADS[] = {
    {"grid, weights 1", 8, 8, 2, 1},
    {"grid, weights 1", 16, 32, 2, 1},
    {"grid, weights 1", 64, 64, 2, 1},
    {"random, weights 1 to 100", 64, 0, 2, 100},
    {"random, weights 1 to 100", 512, 0, 2, 100},
    {"random, weights 1 to 100", 4096, 0, 2, 100},
};
/* What the scan is counted on. Where the shape is null it is a grid or a random graph. A count of moves of 0 stands for no row. */
static const struct scanned {
    struct workload workload;
    void (*shape)(void);
    uint32_t ceiling, moves[2];
} SCANNED[] = {
    {{"random, weights 1 to 100", 4096, 0, 2, 100}, NULL, DAUNSREVIT_IMBALANCE, {1000, 4096}},
    {{"grid, weights 1 to 3", 64, 64, 2, 3}, NULL, DAUNSREVIT_IMBALANCE, {1000, 4096}},
    {{"grid, weights 1", 64, 64, 2, 1}, NULL, DAUNSREVIT_IMBALANCE, {1000, 4096}},
    {{"path, weights 1", 4096, 1, 2, 1}, NULL, DAUNSREVIT_IMBALANCE, {1000, 4096}},
    {{.name = "no arcs, weights 1"}, no_arcs, DAUNSREVIT_IMBALANCE, {1000, 4096}},
    {{.name = "path, weights rising"}, rising, DAUNSREVIT_IMBALANCE, {1000, 4096}},
    {{.name = "one board full"}, one_full, DAUNSREVIT_CARRIED, {1000, 4096}},
    {{.name = "nine tenths on one board, the other full"}, nine_tenths, DAUNSREVIT_CARRIED, {300, 4096}},
    {{.name = "most gains too heavy"}, too_heavy, DAUNSREVIT_CARRIED, {90, 0}},
    {{.name = "rising, against one sample of 64"}, against_one_sample, DAUNSREVIT_IMBALANCE, {1000, 4096}},
    {{.name = "rising, against half of the samples"}, against_half, DAUNSREVIT_IMBALANCE, {1000, 4096}},
    {{.name = "ties that the label ends"}, ties_by_label, DAUNSREVIT_IMBALANCE, {100, 1000}},
    {{.name = "falling ties, against half of the samples"}, falling_ties, DAUNSREVIT_IMBALANCE, {100, 1000}},
};
static const double IMBALANCE = 0.1;
enum { FM_PASSES = 64, KL_PASSES = 4, KL_SWAPS = 32, UNCHANGED_RUNS = 3 };

/* A HashSet of Rust's takes its seed from here, so that the unchanged FM repeats too. Each later set has another seed. */
long getrandom(void *buffer, size_t count, unsigned flags)
{
    (void)flags;
    memset(buffer, 0x5a, count);
    return (long)count;
}

static struct workload now;
static const char *call;
static int differing;

static void expect(int holds, const char *what)
{
    if (!holds) {
        printf("DIFFERS: %s on %s, n %u: %s\n", call, now.name, graph.n, what);
        differing = 1;
    }
}

/* The workload in coupe's types. */
static uint64_t wide_starts[MOST_N + 1], wide_neighbours[MOST_A], wide_labels[MOST_N];
static int64_t wide_arc_weights[MOST_A], wide_weights[MOST_N];
static double float_arc_weights[MOST_A], float_weights[MOST_N];
static struct reference_graph rust;

static void widen(void)
{
    for (uint32_t v = 0; v <= graph.n; v++)
        wide_starts[v] = starts[v];
    for (uint32_t v = 0; v < graph.n; v++)
        float_weights[v] = (double)(wide_weights[v] = weights[v]);
    for (uint32_t e = 0; e < graph.a; e++) {
        wide_neighbours[e] = neighbours[e];
        float_arc_weights[e] = (double)(wide_arc_weights[e] = arc_weights[e]);
    }
    rust = (struct reference_graph){graph.n, graph.a, wide_starts, wide_neighbours, wide_arc_weights, wide_weights,
        float_arc_weights, float_weights};
}

static void widen_labels(void)
{
    for (uint32_t v = 0; v < graph.n; v++)
        wide_labels[v] = first_labels[v];
}

static int labels_like_rust(void)
{
    for (uint32_t v = 0; v < graph.n; v++)
        if (labels[v] != wide_labels[v])
            return 0;
    return 1;
}

static uint64_t sum(const uint32_t *list, uint32_t count)
{
    uint64_t total = 0;
    for (uint32_t i = 0; i < count; i++)
        total += list[i];
    return total;
}

/* A number with a comma before each three digits. */
static const char *grouped(uint64_t number)
{
    static char texts[8][32];
    static unsigned next;
    char *text = texts[next++ % 8];
    size_t at = sizeof texts[0] - 1;
    text[at] = 0;
    for (int digits = 0; digits == 0 || number > 0; digits++, number /= 10) {
        if (digits > 0 && digits % 3 == 0)
            text[--at] = ',';
        text[--at] = (char)('0' + number % 10);
    }
    return text + at;
}

static void row(uint64_t from_rust, uint64_t from_plain, uint64_t from_port)
{
    printf("| %s | %s | %s | ", call, now.name, grouped(graph.n));
    if (from_rust)
        printf("%s | %s | %s | %.2f", grouped(from_rust), grouped(from_plain), grouped(from_port),
            (double)from_port / (double)from_rust);
    else
        printf("- | %s | %s | -", grouped(from_plain), grouped(from_port));
    printf(" | %.2f |\n", (double)from_port / (double)from_plain);
    fflush(stdout);
}

/* The unchanged FM breaks ties otherwise and so makes other moves. Its mean count is scaled to the moves of the other runs, and
 * the row has the lesser of that and the count of the FM that breaks ties like the port. The details stand in a table below. */
static char details[4096];

static void fm(uint32_t bad)
{
    struct daunsrevit_fiduccia_mattheyses_settings s = {.pass_limit = FM_PASSES, .move_limit = graph.n, .bad_limit = bad,
        .ceiling = {.choice = DAUNSREVIT_IMBALANCE, .imbalance = IMBALANCE}};
    struct daunsrevit_fiduccia_mattheyses_report from_plain, from_port;
    struct reference_run unchanged, lowest;
    uint64_t total = 0, made = 0, count, lowest_count, plain_count, port_count;
    static uint32_t plain_made[FM_PASSES], plain_rewound[FM_PASSES];
    for (int i = 0; i < UNCHANGED_RUNS; i++) {
        widen_labels();
        COUNT(count, unchanged = reference_fm(&rust, wide_labels, s.pass_limit, s.move_limit, s.bad_limit, IMBALANCE));
        total += count;
        made += unchanged.counts[0];
    }
    widen_labels();
    COUNT(lowest_count, lowest = reference_fm_lowest(&rust, wide_labels, s.pass_limit, s.move_limit, s.bad_limit, IMBALANCE));
    lend();
    COUNT(plain_count, from_plain = plain_fm(&graph, labels, gains, moves, plain_made, plain_rewound, s));
    expect(from_plain.number == 0 && labels_like_rust(), "labels, plain C and Rust");
    lend();
    COUNT(port_count, from_port = port_fm(s));
    expect(from_port.number == 0 && labels_like_rust(), "labels, port and Rust");
    expect(from_port.end == from_plain.end && from_port.passes == from_plain.passes && from_port.first == from_plain.first &&
        from_port.last == from_plain.last && !memcmp(&from_port.loads, &from_plain.loads, sizeof from_port.loads),
        "report, port and plain C");
    expect(!memcmp(rows_made, plain_made, from_port.passes * sizeof *rows_made) &&
        !memcmp(rows_rewound, plain_rewound, from_port.passes * sizeof *rows_rewound), "rows, port and plain C");
    expect(from_port.passes == lowest.passes && sum(rows_made, from_port.passes) == lowest.counts[0] &&
        sum(rows_rewound, from_port.passes) == lowest.counts[1], "rows, port and Rust");
    expect(made > 0 && lowest.counts[0] > 0, "moves");
    if (made == 0 || lowest.counts[0] == 0)
        return;
    uint64_t scaled = total * lowest.counts[0] / made;
    row(scaled < lowest_count ? scaled : lowest_count, plain_count, port_count);
    size_t used = strlen(details);
    snprintf(details + used, sizeof details - used, "| %s | %s | %s | %s | %s | %s | %s |", call, now.name, grouped(graph.n),
        grouped(total / UNCHANGED_RUNS), grouped(made / UNCHANGED_RUNS), grouped(lowest_count), grouped(lowest.counts[0]));
    used = strlen(details);
    snprintf(details + used, sizeof details - used, " %s | %s | %s | %s |\n", grouped(total / made),
        grouped(lowest_count / lowest.counts[0]), grouped(plain_count / lowest.counts[0]), grouped(port_count / lowest.counts[0]));
}

static void fm_bad_0(void)
{
    fm(0);
}

static void fm_bad_n(void)
{
    fm(graph.n);
}

/* The Rust panics where a part has no vertex left, so the swap limit is cut to the smaller part. */
static void kl(void)
{
    struct daunsrevit_kernighan_lin_settings s = {.pass_limit = KL_PASSES, .bad_limit = 1,
        .swap_limit = smaller_part < KL_SWAPS ? smaller_part : KL_SWAPS};
    struct daunsrevit_kernighan_lin_report from_plain, from_port;
    uint64_t rust_count, plain_count, port_count;
    widen_labels();
    COUNT(rust_count, reference_kl(&rust, wide_labels, s.pass_limit, s.swap_limit, s.bad_limit));
    lend();
    COUNT(plain_count, from_plain = plain_kl(&graph, labels, gains, locks, swaps, s));
    expect(from_plain.number == 0 && labels_like_rust(), "labels, plain C and Rust");
    lend();
    COUNT(port_count, from_port = port_kl(s));
    expect(from_port.number == 0 && labels_like_rust(), "labels, port and Rust");
    expect(from_port.end == from_plain.end && from_port.passes == from_plain.passes && from_port.first == from_plain.first &&
        from_port.last == from_plain.last, "report, port and plain C");
    row(rust_count, plain_count, port_count);
}

/* The Rust's stack grows. The port's is as long as there are arcs, which suffices here, or the answers would differ. */
static void arc_swap(void)
{
    struct daunsrevit_arc_swap_settings s = {.ceiling = {.choice = DAUNSREVIT_IMBALANCE, .imbalance = IMBALANCE}};
    struct daunsrevit_arc_swap_report from_plain, from_port;
    struct daunsrevit_run_record plain_run;
    struct reference_run rust_run;
    uint64_t rust_count, plain_count, port_count;
    widen_labels();
    COUNT(rust_count, rust_run = reference_arc_swap(&rust, wide_labels, IMBALANCE));
    lend();
    COUNT(plain_count, from_plain = plain_arc_swap(&graph, labels, stack, graph.a, s, &plain_run));
    expect(from_plain.number == 0 && labels_like_rust(), "labels, plain C and Rust");
    lend();
    COUNT(port_count, from_port = port_arc_swap(s));
    expect(from_port.number == 0 && labels_like_rust(), "labels, port and Rust");
    expect(from_port.end == DAUNSREVIT_GAINLESS && from_port.passes == rust_run.passes && run.attempts == rust_run.counts[0] &&
        run.moves == rust_run.counts[1] && run.no_gain == rust_run.counts[2] && run.bad_balance == rust_run.counts[3],
        "counts, port and Rust");
    expect(from_port.first == from_plain.first && from_port.last == from_plain.last &&
        !memcmp(&from_port.loads, &from_plain.loads, sizeof from_port.loads), "report, port and plain C");
    row(rust_count, plain_count, port_count);
}

static void edge_cut(void)
{
    struct daunsrevit_cut_answer from_plain, from_port;
    uint64_t rust_count, plain_count, port_count;
    int64_t from_rust;
    widen_labels();
    lend();
    COUNT(rust_count, from_rust = reference_edge_cut(&rust, wide_labels));
    COUNT(plain_count, from_plain = plain_edge_cut(&graph, labels));
    COUNT(port_count, from_port = port_edge_cut());
    expect(from_port.number == 0 && from_port.cut == from_plain.cut && from_port.cut == (uint64_t)from_rust, "cut");
    row(rust_count, plain_count, port_count);
}

/* A label that is refused after all other checks: the count is that of the checks alone. */
static void edge_cut_checks(void)
{
    struct daunsrevit_cut_answer from_plain, from_port;
    uint64_t plain_count, port_count;
    lend();
    labels[graph.n - 1] = DAUNSREVIT_PARTS;
    COUNT(plain_count, from_plain = plain_edge_cut(&graph, labels));
    COUNT(port_count, from_port = port_edge_cut());
    expect(from_port.number == 6 && from_plain.number == 6, "number");
    row(0, plain_count, port_count);
}

static void lambda_cut(void)
{
    struct daunsrevit_cut_answer from_plain, from_port;
    uint64_t rust_count, plain_count, port_count;
    int64_t from_rust;
    widen_labels();
    lend();
    COUNT(rust_count, from_rust = reference_lambda_cut(&rust, wide_labels));
    COUNT(plain_count, from_plain = plain_lambda_cut(&graph, labels));
    COUNT(port_count, from_port = port_lambda_cut());
    expect(from_port.number == 0 && from_port.cut == from_plain.cut && from_port.cut == (uint64_t)from_rust, "lambda cut");
    row(rust_count, plain_count, port_count);
}

static void loads(void)
{
    struct daunsrevit_loads_answer from_plain, from_port;
    uint64_t rust_count, plain_count, port_count;
    int64_t from_rust[DAUNSREVIT_PARTS] = {0};
    widen_labels();
    lend();
    COUNT(rust_count, reference_loads(&rust, wide_labels, now.parts, from_rust));
    COUNT(plain_count, from_plain = plain_compute_parts_load(&graph, labels));
    COUNT(port_count, from_port = port_loads());
    expect(from_port.number == 0 && !memcmp(&from_port.loads, from_rust, sizeof from_rust) &&
        !memcmp(&from_port.loads, &from_plain.loads, sizeof from_rust), "loads");
    row(rust_count, plain_count, port_count);
}

static const struct {
    const char *name;
    uint32_t parts;
    void (*count)(void);
} CALLS[] = {
    {"FM, bad limit 0", 2, fm_bad_0},
    {"FM, bad limit n", 2, fm_bad_n},
    {"KL", 2, kl},
    {"arc-swap, k 2", 2, arc_swap},
    {"arc-swap, k 16", 16, arc_swap},
    {"edge cut", 2, edge_cut},
    {"edge cut, its checks alone", 2, edge_cut_checks},
    {"lambda cut", 2, lambda_cut},
    {"loads", 2, loads},
};

/* The scan for the next vertex: one pass of so many moves, less the same call without a move, by the vertices looked at. The
 * ceiling can end the pass before the limit, so the moves made are what counts. */
static void scan(uint32_t ceiling, uint32_t most_moves)
{
    struct daunsrevit_fiduccia_mattheyses_settings s = {.pass_limit = 1, .bad_limit = graph.n,
        .ceiling = {.choice = ceiling, .imbalance = IMBALANCE}};
    struct daunsrevit_fiduccia_mattheyses_report from_plain, from_port;
    static uint32_t plain_labels[MOST_N];
    uint64_t plain_count[2], port_count[2];
    uint32_t made, rewound;
    for (int i = 0; i < 2; i++) {
        s.move_limit = i == 0 ? 0 : most_moves;
        lend();
        COUNT(plain_count[i], from_plain = plain_fm(&graph, labels, gains, moves, &made, &rewound, s));
        memcpy(plain_labels, labels, sizeof labels);
        lend();
        COUNT(port_count[i], from_port = port_fm(s));
        expect(from_plain.number == 0 && from_port.number == 0 && rows_made[0] == made && rows_rewound[0] == rewound &&
            from_port.last == from_plain.last && !memcmp(labels, plain_labels, graph.n * sizeof *labels), "port and plain C");
        expect(made <= s.move_limit && (made > 0) == (s.move_limit > 0), "moves");
    }
    double looked_at = (double)made * graph.n;
    printf("| %s | %s | %s | %.2f | %.2f |\n", now.name, grouped(graph.n), grouped(made),
        (double)(plain_count[1] - plain_count[0]) / looked_at, (double)(port_count[1] - port_count[0]) / looked_at);
    fflush(stdout);
}

static void all(void)
{
    COUNT(empty, (void)0);
    /* The first count of a process is a few instructions higher than that of later ones. */
    empty = 0;
    COUNT(empty, (void)0);
    printf("| Call | Graph | n | Rust | Plain C | Port | Port/Rust | Port/plain C |\n|---|---|---|---|---|---|---|---|\n");
    for (size_t i = 0; i < sizeof CALLS / sizeof *CALLS; i++)
        for (size_t k = 0; k < sizeof WORKLOADS / sizeof *WORKLOADS; k++) {
            call = CALLS[i].name;
            now = WORKLOADS[k];
            now.parts = CALLS[i].parts;
            make(&now);
            widen();
            CALLS[i].count();
        }
    printf("\n| Call | Graph | n | Rust unchanged | Its moves | Rust, lowest vertex | Moves | A move: Rust unchanged "
        "| Rust, lowest vertex | Plain C | Port |\n|---|---|---|---|---|---|---|---|---|---|---|\n%s", details);
    printf("\n| Graph | n | Moves | Plain C, a vertex | Port, a vertex |\n|---|---|---|---|---|\n");
    call = "the scan";
    for (const struct scanned *t = SCANNED; t < SCANNED + sizeof SCANNED / sizeof *SCANNED; t++) {
        now = t->workload;
        if (t->shape)
            t->shape();
        else
            make(&now);
        for (int i = 0; i < 2; i++)
            if (t->moves[i])
                scan(t->ceiling, t->moves[i]);
    }
    printf("\n%s\n", differing ? "ANSWERS DIFFER" : "All answers agree.");
}

int main(int count, char **words)
{
    if (!can_count(count > 1 ? words[1] : NULL)) {
        fprintf(stderr, "bench: run it by bench/run\n");
        return 2;
    }
    reference_inside(all);
    return differing;
}
