/* What the header works out by itself: the version, the bytes of a plan, and what a plan's first block says of n and a. */
#include "check.h"

/* A constant expression, and so the length of an array. */
static uint8_t plan[DAUNSREVIT_PLAN_BYTES(8, 20)];

static void version(void)
{
    const char numbers[] = {'0' + DAUNSREVIT_VERSION_MAJOR, '.', '0' + DAUNSREVIT_VERSION_MINOR, '.', '0' + DAUNSREVIT_VERSION_PATCH, 0};
    CHECK(sizeof numbers == sizeof DAUNSREVIT_VERSION);
    CHECK(memcmp(numbers, DAUNSREVIT_VERSION, sizeof numbers) == 0);
}

/* Blocks counted one by one: the header, then one for each 63 records begun. */
static void bytes_of_a_plan(void)
{
    CHECK(sizeof plan == 3 * 512);
    size_t blocks = 0;
    int all = 1;
    for (uint32_t count = 0; count <= DAUNSREVIT_MOST_ARCS; count++) {
        all = all && DAUNSREVIT_PLAN_BYTES(count, 0) == 512 * (1 + blocks) && DAUNSREVIT_PLAN_BYTES(1, count) == 512 * (2 + blocks);
        blocks += count % 63 == 0;
    }
    CHECK(all);
    /* An argument is evaluated once, and taken whole. */
    uint32_t n = 62, a = 0;
    CHECK(DAUNSREVIT_PLAN_BYTES(++n, a++) == 2 * 512);
    CHECK(n == 63);
    CHECK(a == 1);
    CHECK(DAUNSREVIT_PLAN_BYTES(n | 64, a ? 64 : 0) == 6 * 512);
    CHECK(DAUNSREVIT_PLAN_BYTES(4294967295u, 4294967295u) == (size_t)512 * (1 + 2 * (size_t)68174085));
}

/* The writer needs exactly so many bytes, and the reader no longer lists than the first block says. */
static void room_by_the_header(void)
{
    static const uint32_t labels[8] = {0, 0, 1, 1, 0, 1, 0, 1};
    static const struct daunsrevit_ceiling carried = {.choice = DAUNSREVIT_CARRIED};
    static struct lists l;
    make_grid(&l, labels);
    for (size_t room = sizeof plan - 1; room <= sizeof plan; room++) {
        struct daunsrevit_write_answer w = daunsrevit_write_plan(l.labels, 8, l.weights, 8, l.starts, 9, l.neighbours, 20,
            l.arc_weights, 20, 2, carried, plan, room);
        CHECK(w.number == (room < sizeof plan ? DAUNSREVIT_SHORT_TARGET : DAUNSREVIT_DONE));
        CHECK(w.length == (room < sizeof plan ? 0 : sizeof plan));
    }
    size_t n = daunsrevit_plan_vertices(plan, sizeof plan), a = daunsrevit_plan_arcs(plan, sizeof plan);
    CHECK(n == 8);
    CHECK(a == 20);
    struct daunsrevit_read_answer r = daunsrevit_read_plan(plan, sizeof plan, l.labels, n, l.weights, n, l.starts, n + 1,
        l.neighbours, a, l.arc_weights, a);
    CHECK(r.number == DAUNSREVIT_DONE);
    CHECK(r.n == n);
    CHECK(r.a == a);

    /* Any bytes: what stands there is given, and without a whole block 0. */
    CHECK(daunsrevit_plan_vertices(0, 0) == 0);
    CHECK(daunsrevit_plan_arcs(0, 0) == 0);
    CHECK(daunsrevit_plan_vertices(plan, 511) == 0);
    CHECK(daunsrevit_plan_arcs(plan, 511) == 0);
    for (int i = 0; i < 8; i++)
        plan[4 + i] = (uint8_t)(0xf1 + i);
    CHECK(daunsrevit_plan_vertices(plan, 512) == 0xf4f3f2f1u);
    CHECK(daunsrevit_plan_arcs(plan, 512) == 0xf8f7f6f5u);
}

int main(void)
{
    version();
    bytes_of_a_plan();
    room_by_the_header();
    return finish("header");
}
