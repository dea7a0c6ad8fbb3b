/* Makes the cases of the refine program, in the folder in which it is run: of each a plan NAME.plan, and in NAME.text what the program
 * is to print of it. A run's text is made here from what the C entry points answer, and the eight-block grid's is document 01's own. */
#include "../c/check.h"

int open(const char *, int, ...);
int close(int);
long write(int, const void *, size_t);
int sprintf(char *, const char *, ...);

enum { CREATE = 0x241, BLOCK = DAUNSREVIT_BLOCK, MOST = 44 * BLOCK, STACK = 4096, PASSES = 64 };

static struct lists l;
static uint32_t k;
static struct daunsrevit_ceiling ceiling;
static uint8_t plan[MOST];
static size_t plan_length;
static char text[32768];
static size_t text_length;

#define SAY(...) (text_length += (size_t)sprintf(text + text_length, __VA_ARGS__))

static void put_file(const char *name, const char *ending, const void *bytes, size_t length)
{
    char path[64];
    sprintf(path, "%s.%s", name, ending);
    int file = open(path, CREATE, 0644);
    CHECK(file >= 0 && write(file, bytes, length) == (long)length && close(file) == 0);
}

static void put_case(const char *name)
{
    put_file(name, "plan", plan, plan_length);
    put_file(name, "text", text, text_length);
}

static void write_plan(void)
{
    struct daunsrevit_write_answer r = daunsrevit_write_plan(l.labels, l.labels_count, l.weights, l.weights_count, l.starts,
        l.starts_count, l.neighbours, l.neighbours_count, l.arc_weights, l.arc_weights_count, k, ceiling, plan, MOST);
    CHECK(r.number == DAUNSREVIT_DONE);
    plan_length = r.length;
}

static void refused(const char *name, unsigned number)
{
    text_length = 0;
    SAY("refused %u\n", number);
    put_case(name);
}

static void say_labels(void)
{
    SAY("labels");
    for (size_t v = 0; v < l.labels_count; v++)
        SAY(" %u", l.labels[v]);
    SAY("\n");
}

static void say_opening(uint32_t end, uint64_t first, uint64_t last, struct daunsrevit_loads loads, uint32_t parts, uint32_t passes)
{
    SAY("end %u\ncut %lu %lu\nloads", end, first, last);
    for (uint32_t t = 0; t < parts; t++)
        SAY(" %lu", loads.at[t]);
    SAY("\npasses %u\n", passes);
}

/* The plan is written before the run, which changes the labels. */
static void run_two(const char *name)
{
    static int64_t gains[512];
    static struct daunsrevit_move moves[512];
    static uint32_t made[PASSES], rewound[PASSES];
    struct daunsrevit_fiduccia_mattheyses_settings s = {PASSES, (uint32_t)l.labels_count, 0, ceiling};
    write_plan();
    struct daunsrevit_fiduccia_mattheyses_report r = daunsrevit_fiduccia_mattheyses(l.starts, l.starts_count,
        l.neighbours, l.neighbours_count, l.arc_weights, l.arc_weights_count, l.weights, l.weights_count,
        l.labels, l.labels_count, gains, 512, moves, 512, made, PASSES, rewound, PASSES, s);
    CHECK(r.number == DAUNSREVIT_DONE);
    text_length = 0;
    say_opening(r.end, r.first, r.last, r.loads, 2, r.passes);
    for (uint32_t i = 0; i < r.passes; i++)
        SAY("pass %u %u\n", made[i], rewound[i]);
    say_labels();
    put_case(name);
}

static void run_many(const char *name, uint32_t end)
{
    static uint32_t stack[STACK];
    struct daunsrevit_arc_swap_settings s = {ceiling};
    struct daunsrevit_run_record run;
    uint32_t parts = 2;
    for (size_t v = 0; v < l.labels_count; v++)
        parts = l.labels[v] < parts ? parts : l.labels[v] + 1;
    write_plan();
    struct daunsrevit_arc_swap_report r = daunsrevit_arc_swap(l.starts, l.starts_count,
        l.neighbours, l.neighbours_count, l.arc_weights, l.arc_weights_count, l.weights, l.weights_count,
        l.labels, l.labels_count, stack, STACK, s, &run);
    CHECK(r.number == DAUNSREVIT_DONE);
    CHECK(r.end == end);
    text_length = 0;
    say_opening(r.end, r.first, r.last, r.loads, parts, r.passes);
    SAY("counts %lu %lu %lu %lu\n", run.attempts, run.moves, run.no_gain, run.bad_balance);
    say_labels();
    put_case(name);
}

static void set_header(uint32_t parts, uint32_t by, uint32_t number, double e)
{
    k = parts;
    ceiling = (struct daunsrevit_ceiling){.choice = by, .whole = number, .imbalance = e};
}

/* One large board and the others small, each with a ceiling of its own. */
static void set_rack(uint32_t parts, uint32_t large, uint32_t small)
{
    set_header(parts, DAUNSREVIT_EACH, 0, 0.0);
    ceiling.each[0] = large;
    for (uint32_t t = 1; t < parts; t++)
        ceiling.each[t] = small;
}

/* Every vertex v is joined to v + 1 and to v + `far`, by weights that differ, in as many parts. */
static void make_ladder(size_t n, size_t far, uint32_t parts)
{
    size_t a = 0;
    paint(&l);
    for (size_t u = 0; u < n; u++) {
        l.starts[u] = (uint32_t)a;
        const size_t others[4] = {u - far, u - 1, u + 1, u + far};
        for (int i = 0; i < 4; i++)
            if (others[i] < n) {
                size_t low = u < others[i] ? u : others[i];
                l.neighbours[a] = (uint32_t)others[i];
                l.arc_weights[a++] = (uint32_t)(1 + (low * 7 + (i == 0 || i == 3) * 3) % 11);
            }
        l.weights[u] = (uint32_t)(1 + u % 3);
        l.labels[u] = (uint32_t)(u * 5 % 7 % parts);
    }
    l.starts[n] = (uint32_t)a;
    set_counts(&l, n, a);
}

/* n vertices in a ring, each joined to the next two and the two before: four arcs a vertex. */
static void make_ring(size_t n)
{
    size_t e = 0;
    paint(&l);
    for (size_t u = 0; u < n; u++) {
        l.starts[u] = (uint32_t)e;
        for (size_t v = 0; v < n; v++) {
            size_t apart = (u + n - v) % n;
            if (apart != 0 && (apart <= 2 || apart >= n - 2)) {
                l.neighbours[e] = (uint32_t)v;
                l.arc_weights[e++] = 1 + (uint32_t)((u + v) % 5);
            }
        }
        l.weights[u] = 1;
        l.labels[u] = (uint32_t)(u % 2);
    }
    l.starts[n] = (uint32_t)e;
    set_counts(&l, n, e);
}

/* The weight of the pair of blocks u and v of a lift group, 0 where they are not joined. A car has 12 blocks: its controller, which
 * exchanges with each of the others, and these, each with the next. The controllers stand in a ring. */
static uint32_t joined(size_t u, size_t v, size_t cars)
{
    size_t car = u / 12, other = v / 12, apart = (car + cars - other) % cars;
    if (car != other)
        return u % 12 == 0 && v % 12 == 0 && (apart == 1 || apart == cars - 1);
    if (u % 12 == 0 || v % 12 == 0)
        return u == v ? 0 : 6 + (uint32_t)((u + v) % 5);
    return u + 1 == v || v + 1 == u ? 2 : 0;
}

/* A lift group: two cars to a board or so, but for every fifth block, which is one board on. */
static void make_lift_group(size_t cars, uint32_t boards)
{
    size_t n = 12 * cars, a = 0;
    paint(&l);
    for (size_t u = 0; u < n; u++) {
        l.starts[u] = (uint32_t)a;
        for (size_t v = 0; v < n; v++)
            if (joined(u, v, cars)) {
                l.neighbours[a] = (uint32_t)v;
                l.arc_weights[a++] = joined(u, v, cars);
            }
        l.weights[u] = u % 12 == 0 ? 8 : 3;
        l.labels[u] = (uint32_t)((u * boards / n + (u % 5 == 0)) % boards);
    }
    l.starts[n] = (uint32_t)a;
    set_counts(&l, n, a);
}

/* The same ten cars in a rack of one large board and three small ones. A car weighs 41, so the large board, which may bear 220, takes five
 * of them, and a small one, which may bear 95, two. Again every fifth block is one board on. */
static void make_rack(void)
{
    static const uint32_t home[10] = {0, 0, 0, 0, 0, 1, 1, 2, 2, 3};
    make_lift_group(10, 4);
    for (size_t u = 0; u < l.labels_count; u++)
        l.labels[u] = (home[u / 12] + (u % 5 == 0)) % 4;
}

static void runs(void)
{
    static const uint32_t a[8] = {0, 0, 1, 1, 0, 1, 0, 1};
    static const char grid[] = "end 1\ncut 6 2\nloads 4 4\npasses 2\npass 2 0\npass 0 0\nlabels 0 0 1 1 0 0 1 1\n";
    set_header(2, DAUNSREVIT_IMBALANCE, 0, 0.25);
    make_grid(&l, a);
    run_two("grid");
    CHECK(text_length == sizeof grid - 1 && memcmp(text, grid, text_length) == 0);
    set_header(2, DAUNSREVIT_CARRIED, 0, 0.0);
    make_grid(&l, a);
    run_two("carried");
    set_header(3, DAUNSREVIT_IMBALANCE, 0, 0.25);
    make_grid(&l, a);
    run_many("own_parts", DAUNSREVIT_GAINLESS); /* the header's k is 3, and the labels have two */
    set_header(16, DAUNSREVIT_WHOLE, 4294967295u, 0.0);
    make_ladder(200, 14, 7);
    run_many("seven_parts", DAUNSREVIT_GAINLESS);
    set_header(5, DAUNSREVIT_IMBALANCE, 0, 0.1);
    make_ladder(512, 9, 5);
    run_many("five_parts", DAUNSREVIT_GAINLESS);
    set_header(5, DAUNSREVIT_IMBALANCE, 0, 0.25);
    make_lift_group(10, 5);
    run_many("lift_group", DAUNSREVIT_GAINLESS);
    set_rack(4, 220, 95);
    make_rack();
    run_many("rack", DAUNSREVIT_GAINLESS);
    set_rack(2, 5, 4);
    make_grid(&l, a);
    run_two("two_boards");
    set_header(2, DAUNSREVIT_CARRIED, 0, 0.0);
    make_path(&l, 1);
    run_two("one_vertex");
    /* The most vertices and arcs, and with them the most bytes. */
    make_ring(512);
    CHECK(l.neighbours_count == 2048);
    set_header(2, DAUNSREVIT_IMBALANCE, 0, 0.5);
    run_two("largest");
    CHECK(plan_length == 22016);
}

/* The check word of a block is made anew, so that only the fault itself is seen: the block's words sum to this. */
static void mend_to(size_t block, uint32_t must)
{
    uint32_t words[128], sum = 0;
    memcpy(words, plan + BLOCK * block, BLOCK);
    for (int w = 0; w < 127; w++)
        sum += words[w];
    words[127] = must - sum;
    memcpy(plan + BLOCK * block, words, BLOCK);
}

static void mend(size_t block)
{
    mend_to(block, (uint32_t)block);
}

static void plan_of(size_t n)
{
    set_header(2, DAUNSREVIT_CARRIED, 0, 0.0);
    make_path(&l, n);
    write_plan();
}

/* Sets a byte of a block of the plan of a path of 5 vertices (header, vertices, arcs). */
static void spoilt(const char *name, size_t block, size_t at, uint8_t byte, unsigned number)
{
    plan_of(5);
    plan[BLOCK * block + at] = byte;
    mend(block);
    refused(name, number);
}

static void reader_refusals(void)
{
    plan_length = 0;
    refused("empty", 9);
    plan_of(5);
    plan_length--;
    refused("short", 9);
    plan_of(5);
    plan[700] ^= 1;
    refused("check", 10);
    spoilt("header_kind", 0, 1, 2, 11);
    plan_of(5);
    plan[1] = 2;
    refused("header_kind_and_10", 11);
    spoilt("header", 0, 2, 4, 11);
    spoilt("parts", 0, 12, 17, 12);
    /* Choice 4 with three records, choice 3 with three records. */
    spoilt("choice", 0, 16, 4, 12);
    spoilt("records", 0, 16, 3, 11);
    spoilt("kind", 1, 0, 3, 13);
    spoilt("old_kind", 1, 1, 0, 13);
    spoilt("label", 1, 8, 2, 14);
    plan_of(5);
    plan_length -= BLOCK;
    refused("block_missing", 13);
    /* A file of the old kind, but for its header's record count. */
    plan_of(5);
    for (size_t block = 0; block < 3; block++) {
        plan[BLOCK * block + 1] = 0;
        mend_to(block, 0);
    }
    plan[2] = 4;
    mend_to(0, 0);
    refused("old_header", 11);
    plan_of(200);
    uint8_t first[BLOCK];
    memcpy(first, plan + BLOCK, BLOCK);
    memcpy(plan + BLOCK, plan + 2 * BLOCK, BLOCK);
    memcpy(plan + 2 * BLOCK, first, BLOCK);
    refused("blocks_exchanged", 10);
}

/* 12 for what is beyond the program, ranked by number. */
static void beyond(void)
{
    plan_of(513);
    refused("vertices_513", 12);
    make_ring(513);
    CHECK(l.neighbours_count == 2052);
    set_header(2, DAUNSREVIT_CARRIED, 0, 0.0);
    write_plan();
    CHECK(plan_length == 22016);
    refused("both_beyond", 12);
    plan_of(513);
    plan_length -= BLOCK;
    refused("beyond_and_13", 12);
    plan_of(513);
    plan[BLOCK + 8] = 2;
    mend(1);
    refused("beyond_and_14", 12);
    plan_of(513);
    plan[BLOCK + 8] = 1;
    refused("beyond_and_10", 10);
    memset(plan, 0, MOST);
    plan_length = 22017;
    refused("bytes_22017", 12);
    plan_length = MOST;
    refused("blocks_44", 12);
}

/* What the reader leaves to the refiners. */
static void refiner_refusals(void)
{
    for (uint32_t parts = 2; parts <= 3; parts++) {
        set_header(parts, DAUNSREVIT_CARRIED, 0, 0.0);
        make_path(&l, 5);
        l.neighbours[0] = 0;
        write_plan();
        refused(parts == 2 ? "two_row" : "many_row", 3);
        make_path(&l, 5);
        l.arc_weights[0] = 2;
        write_plan();
        refused(parts == 2 ? "two_opposite" : "many_opposite", 4);
        make_path(&l, 5);
        l.weights[0] = 2147483648u;
        write_plan();
        refused(parts == 2 ? "two_heavy" : "many_heavy", 5);
    }
}

int main(void)
{
    runs();
    reader_refusals();
    beyond();
    refiner_refusals();
    return finish("cases");
}
