/* The floating-point environment, set in the processor's control register. The ceiling of choice 2 asks for rounding to the nearest
 * number: under each other mode the self-test answers 11. Denormals taken as zero, as by a program that was built for speed alone,
 * bear on nothing: e is judged by its bits. */
#include "check.h"

#define NEAREST 0x1f80u
#define DOWN 0x3f80u
#define UP 0x5f80u
#define TOWARDS_ZERO 0x7f80u
#define DENORMALS_ARE_ZERO 0x8040u

static void set_mode(uint32_t mode)
{
    __asm__ volatile("ldmxcsr %0" : : "m"(mode) : "memory");
}

/* Blocks 0 and 1 are joined, and the boards weigh 3 and 2. Block 1 may go to board 0 where the ceiling is 4: that of total 5 over two
 * boards with e = 0.6. */
static const uint32_t starts[4] = {0, 1, 2, 2}, neighbours[2] = {1, 0}, arc_weights[2] = {1, 1}, weights[3] = {3, 1, 1};
static uint32_t labels[3];

static void reset(void)
{
    labels[0] = 0;
    labels[1] = labels[2] = 1;
}

static struct daunsrevit_ceiling by_imbalance(double e)
{
    return (struct daunsrevit_ceiling){.choice = DAUNSREVIT_IMBALANCE, .imbalance = e};
}

static struct daunsrevit_fiduccia_mattheyses_report by_moves(double e)
{
    static int64_t gains[3];
    static struct daunsrevit_move moves[3];
    static uint32_t made[4], rewound[4];
    struct daunsrevit_fiduccia_mattheyses_settings s = {.pass_limit = 4, .move_limit = 3, .bad_limit = 0, .ceiling = by_imbalance(e)};
    reset();
    return daunsrevit_fiduccia_mattheyses(starts, 4, neighbours, 2, arc_weights, 2, weights, 3, labels, 3, gains, 3, moves, 3, made, 4, rewound, 4, s);
}

static struct daunsrevit_arc_swap_report by_attempts(double e)
{
    static uint32_t stack[8];
    static struct daunsrevit_run_record run;
    struct daunsrevit_arc_swap_settings s = {.ceiling = by_imbalance(e)};
    reset();
    return daunsrevit_arc_swap(starts, 4, neighbours, 2, arc_weights, 2, weights, 3, labels, 3, stack, 8, s, &run);
}

static struct daunsrevit_write_answer written(double e)
{
    static uint8_t target[3 * DAUNSREVIT_BLOCK];
    reset();
    return daunsrevit_write_plan(labels, 3, weights, 3, starts, 4, neighbours, 2, arc_weights, 2, 2, by_imbalance(e), target, sizeof target);
}

static void check_joined(uint32_t label)
{
    CHECK(by_moves(0.6).number == DAUNSREVIT_DONE);
    CHECK(labels[1] == label);
    CHECK(by_attempts(0.6).number == DAUNSREVIT_DONE);
    CHECK(labels[1] == label);
}

static void other_modes(void)
{
    static const uint32_t modes[3] = {DOWN, UP, TOWARDS_ZERO};
    for (int i = 0; i < 3; i++) {
        set_mode(modes[i]);
        CHECK(daunsrevit_self_test() == 11);
        set_mode(modes[i] | DENORMALS_ARE_ZERO);
        CHECK(daunsrevit_self_test() == 11);
    }
    set_mode(NEAREST);
    CHECK(daunsrevit_self_test() == 0);
    check_joined(0);
    /* What the header warns of: the ceiling is 3, and the block stays. */
    set_mode(TOWARDS_ZERO);
    check_joined(1);
    set_mode(NEAREST);
}

static void judged_by_bits(uint32_t mode)
{
    static const uint64_t illegal[] = {NAN_BITS, BELOW_ZERO_BITS, ABOVE_64_BITS, INFINITY_BITS, 0x800fffffffffffffu, 0x8010000000000000u,
        0xbff0000000000000u, 0xfff0000000000000u, 0xfff8000000000000u, 0x7ff0000000000001u, 0xffffffffffffffffu};
    static const uint64_t legal[] = {0, 0x8000000000000000u, 1, 0x000fffffffffffffu, 0x0010000000000000u, 0x404fffffffffffffu, 0x4050000000000000u};
    set_mode(mode);
    for (unsigned i = 0; i < sizeof illegal / sizeof illegal[0]; i++) {
        CHECK(by_moves(of_bits(illegal[i])).number == DAUNSREVIT_SETTING);
        CHECK(by_attempts(of_bits(illegal[i])).number == DAUNSREVIT_SETTING);
        CHECK(written(of_bits(illegal[i])).number == DAUNSREVIT_HEADER_RANGE);
    }
    for (unsigned i = 0; i < sizeof legal / sizeof legal[0]; i++) {
        CHECK(by_moves(of_bits(legal[i])).number == DAUNSREVIT_DONE);
        CHECK(by_attempts(of_bits(legal[i])).number == DAUNSREVIT_DONE);
        CHECK(written(of_bits(legal[i])).number == DAUNSREVIT_DONE);
    }
    CHECK((mode & TOWARDS_ZERO) != NEAREST || daunsrevit_self_test() == 0);
    set_mode(NEAREST);
}

int main(void)
{
    static const uint32_t modes[4] = {NEAREST, DOWN, UP, TOWARDS_ZERO};
    other_modes();
    for (int i = 0; i < 4; i++) {
        judged_by_bits(modes[i]);
        judged_by_bits(modes[i] | DENORMALS_ARE_ZERO);
    }
    return finish("rounding");
}
