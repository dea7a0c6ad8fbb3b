/* Two blocks moved by hand (document 02, A9), through the edge cut and the loads: either order gives the same, there and back changes
 * nothing, and the cut falls by what was foretold from the gains and the shared arc. */
#include "check.h"

static struct lists l;

static int64_t cut_now(void)
{
    struct daunsrevit_cut_answer c = edge_cut_of(&l);
    CHECK(c.number == DAUNSREVIT_DONE);
    return (int64_t)c.cut;
}

/* The weight of u's arcs into part t. */
static int64_t into(uint32_t u, uint32_t t)
{
    int64_t sum = 0;
    for (uint32_t e = l.starts[u]; e < l.starts[u + 1]; e++)
        if (l.labels[l.neighbours[e]] == t)
            sum += l.arc_weights[e];
    return sum;
}

static int64_t gain(uint32_t u, uint32_t t)
{
    return into(u, t) - into(u, l.labels[u]);
}

/* The weight of the arc from u to v: 0 where there is none. */
static int64_t shared(uint32_t u, uint32_t v)
{
    for (uint32_t e = l.starts[u]; e < l.starts[u + 1]; e++)
        if (l.neighbours[e] == v)
            return l.arc_weights[e];
    return 0;
}

/* What the labels come to. */
struct state {
    int64_t cut;
    struct daunsrevit_loads loads;
    uint32_t labels[16];
};

static struct state state_now(void)
{
    struct state s;
    struct daunsrevit_loads_answer p = loads_of(&l);
    CHECK(p.number == DAUNSREVIT_DONE);
    memset(&s, 0, sizeof s);
    s.cut = cut_now();
    s.loads = p.loads;
    memcpy(s.labels, l.labels, l.labels_count * sizeof l.labels[0]);
    return s;
}

static int same(struct state a, struct state b)
{
    return memcmp(&a, &b, sizeof a) == 0;
}

/* v goes to part t: its gain, as the labels stood, is the fall of the cut. */
static void move(uint32_t v, uint32_t t)
{
    int64_t before = cut_now(), foretold = gain(v, t);
    l.labels[v] = t;
    CHECK(before - cut_now() == foretold);
}

/* u goes to part s and v to part t, then back the same way, and once more in the other order: the fall of the cut. */
static int64_t fall_of(uint32_t u, uint32_t s, uint32_t v, uint32_t t)
{
    uint32_t own_u = l.labels[u], own_v = l.labels[v];
    struct state before = state_now();
    move(u, s);
    move(v, t);
    struct state after = state_now();
    move(v, own_v);
    move(u, own_u);
    CHECK(same(state_now(), before));
    move(v, t);
    move(u, s);
    CHECK(same(state_now(), after));
    l.labels[u] = own_u;
    l.labels[v] = own_v;
    return before.cut - after.cut;
}

/* Both go to the other of the parts a and b. */
static void check_both(uint32_t a, uint32_t b, uint32_t u, uint32_t v)
{
    uint32_t s = a + b - l.labels[u], t = a + b - l.labels[v];
    int64_t twice = 2 * shared(u, v);
    int64_t foretold = gain(u, s) + gain(v, t) + (l.labels[u] == l.labels[v] ? twice : -twice);
    CHECK(fall_of(u, s, v, t) == foretold);
}

/* Two blocks of different parts take each other's. */
static void check_exchange(uint32_t u, uint32_t v)
{
    uint32_t s = l.labels[v], t = l.labels[u];
    CHECK(fall_of(u, s, v, t) == gain(u, s) + gain(v, t) - 2 * shared(u, v));
}

/* Document 01's row 3, each gain the fall of the cut where the block moves alone; then the pairs of blocks worked out by hand. */
static void grid(void)
{
    static const uint32_t a[8] = {0, 0, 1, 1, 0, 1, 0, 1}, b[8] = {0, 0, 1, 1, 0, 0, 1, 1};
    static const int64_t gains[8] = {-2, 1, 1, -2, 0, 3, 3, 0};
    static const struct { uint32_t u, v; int64_t shared, fall; } pairs[4] = {
        {5, 6, 1, 3 + 3 - 2}, /* different parts: the cut goes from 6 to 2, the labels are B */
        {1, 2, 1, 1 + 1 - 2}, /* different parts */
        {5, 7, 0, 3 + 0},     /* the same part, no arc */
        {2, 3, 1, 1 - 2 + 2}, /* the same part */
    };
    make_grid(&l, a);
    CHECK(cut_now() == 6);
    for (uint32_t v = 0; v < 8; v++) {
        CHECK(gain(v, 1 - a[v]) == gains[v]);
        l.labels[v] = 1 - a[v];
        CHECK(6 - cut_now() == gains[v]);
        l.labels[v] = a[v];
    }
    for (int i = 0; i < 4; i++) {
        uint32_t u = pairs[i].u, v = pairs[i].v;
        CHECK(shared(u, v) == pairs[i].shared);
        CHECK(fall_of(u, 1 - a[u], v, 1 - a[v]) == pairs[i].fall);
        check_both(0, 1, u, v);
    }
    l.labels[5] = 0;
    l.labels[6] = 1;
    CHECK(memcmp(l.labels, b, sizeof b) == 0);
    CHECK(cut_now() == 2);
}

/* Two blocks whose arc weighs as much as the limit allows: exchanged, or moved together, they leave the cut as it is. */
static void heavy(void)
{
    make_path(&l, 2);
    l.arc_weights[0] = l.arc_weights[1] = 1073741823;
    CHECK(cut_now() == 1073741823);
    CHECK(fall_of(0, 1, 1, 0) == 0);
    check_both(0, 1, 0, 1);
    l.labels[1] = 0;
    CHECK(fall_of(0, 1, 1, 1) == 0);
    check_both(0, 1, 0, 1);
}

static uint64_t drawn = 1;

static uint32_t draw(uint32_t below)
{
    drawn = drawn * 6364136223846793005u + 1442695040888963407u;
    return (uint32_t)(drawn >> 33) % below;
}

/* A graph of n blocks: half of the pairs have an arc, of weight 0 to 9. */
static void make_random(uint32_t n)
{
    uint32_t weight[12][12], a = 0;
    for (uint32_t u = 0; u < n; u++)
        for (uint32_t v = 0; v < u; v++)
            weight[u][v] = weight[v][u] = draw(20);
    for (uint32_t u = 0; u < n; u++) {
        l.starts[u] = a;
        for (uint32_t v = 0; v < n; v++)
            if (v != u && weight[u][v] < 10) {
                l.neighbours[a] = v;
                l.arc_weights[a++] = weight[u][v];
            }
        l.weights[u] = draw(5);
    }
    l.starts[n] = a;
    set_counts(&l, n, a);
}

/* Every pair of blocks of random graphs: between two parts, any of the sixteen, and exchanged among many. */
static void random_graphs(void)
{
    for (int i = 0; i < 100; i++) {
        uint32_t n = 2 + draw(11), a = draw(16), b = (a + 1 + draw(15)) % 16;
        make_random(n);
        for (uint32_t v = 0; v < n; v++)
            l.labels[v] = draw(2) ? a : b;
        for (uint32_t u = 0; u < n; u++)
            for (uint32_t v = 0; v < u; v++)
                check_both(a, b, u, v);
        for (uint32_t v = 0; v < n; v++)
            l.labels[v] = draw(16);
        for (uint32_t u = 0; u < n; u++)
            for (uint32_t v = 0; v < u; v++)
                if (l.labels[u] != l.labels[v])
                    check_exchange(u, v);
    }
}

int main(void)
{
    grid();
    heavy();
    random_graphs();
    return finish("exchanges");
}
