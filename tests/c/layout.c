/* The header's structs against what the library writes. On x86-64 a large struct is written through a hidden first pointer,
 * and one of 16 bytes comes back in two registers: here the entries are declared once more, to take both as they come. */
#include "check.h"

struct registers {
    uint64_t first, second;
};

void *raw_loads(void *answer, const uint32_t *weights, size_t weights_count, const uint32_t *labels, size_t labels_count)
    __asm__("daunsrevit_compute_parts_load");
struct registers raw_edge_cut(const uint32_t *starts, size_t starts_count, const uint32_t *neighbours, size_t neighbours_count,
    const uint32_t *arc_weights, size_t arc_weights_count, const uint32_t *labels, size_t labels_count)
    __asm__("daunsrevit_edge_cut");

void *raw_refine(void *report, const uint32_t *starts, size_t starts_count, const uint32_t *neighbours, size_t neighbours_count,
    const uint32_t *arc_weights, size_t arc_weights_count, const uint32_t *weights, size_t weights_count,
    uint32_t *labels, size_t labels_count, int64_t *gains, size_t gains_count, struct daunsrevit_move *moves, size_t moves_count,
    uint32_t *rows_made, size_t rows_made_count, uint32_t *rows_rewound, size_t rows_rewound_count,
    struct daunsrevit_fiduccia_mattheyses_settings settings)
    __asm__("daunsrevit_fiduccia_mattheyses");
void *raw_swap(void *report, const uint32_t *starts, size_t starts_count, const uint32_t *neighbours, size_t neighbours_count,
    const uint32_t *arc_weights, size_t arc_weights_count, const uint32_t *weights, size_t weights_count,
    uint32_t *labels, size_t labels_count, int64_t *gains, size_t gains_count, uint8_t *locks, size_t locks_count,
    uint32_t *swaps, size_t swaps_count, struct daunsrevit_kernighan_lin_settings settings)
    __asm__("daunsrevit_kernighan_lin");
void *raw_arc_swap(void *report, const uint32_t *starts, size_t starts_count, const uint32_t *neighbours, size_t neighbours_count,
    const uint32_t *arc_weights, size_t arc_weights_count, const uint32_t *weights, size_t weights_count,
    uint32_t *labels, size_t labels_count, uint32_t *stack, size_t stack_count, struct daunsrevit_arc_swap_settings settings,
    void *run)
    __asm__("daunsrevit_arc_swap");
void *raw_read(void *answer, const uint8_t *bytes, size_t bytes_count, uint32_t *labels, size_t labels_count,
    uint32_t *weights, size_t weights_count, uint32_t *starts, size_t starts_count,
    uint32_t *neighbours, size_t neighbours_count, uint32_t *arc_weights, size_t arc_weights_count)
    __asm__("daunsrevit_read_plan");
struct registers raw_write(const uint32_t *labels, size_t labels_count, const uint32_t *weights, size_t weights_count,
    const uint32_t *starts, size_t starts_count, const uint32_t *neighbours, size_t neighbours_count,
    const uint32_t *arc_weights, size_t arc_weights_count, uint32_t k, struct daunsrevit_ceiling ceiling,
    uint8_t *target, size_t target_count)
    __asm__("daunsrevit_write_plan");

#define OFFSET(type, field) __builtin_offsetof(struct type, field)

static const uint32_t weights[3] = {7, 9, 11}, labels[3] = {0, 15, 1};
static const uint32_t starts[3] = {0, 1, 2}, neighbours[2] = {1, 0}, arc_weights[2] = {5, 5}, parts[2] = {0, 1};

static void sizes(void)
{
    CHECK(sizeof(struct daunsrevit_loads) == 128);
    CHECK(sizeof(struct daunsrevit_loads_answer) == 136);
    CHECK(OFFSET(daunsrevit_loads_answer, number) == 0);
    CHECK(OFFSET(daunsrevit_loads_answer, loads) == 8);
    CHECK(sizeof(struct daunsrevit_cut_answer) == 16);
    CHECK(OFFSET(daunsrevit_cut_answer, number) == 0);
    CHECK(OFFSET(daunsrevit_cut_answer, cut) == 8);
    CHECK(sizeof(struct daunsrevit_move) == 8);
    CHECK(OFFSET(daunsrevit_move, vertex) == 0);
    CHECK(OFFSET(daunsrevit_move, part) == 4);
    CHECK(sizeof(struct daunsrevit_ceiling) == 80);
    CHECK(OFFSET(daunsrevit_ceiling, choice) == 0);
    CHECK(OFFSET(daunsrevit_ceiling, whole) == 4);
    CHECK(OFFSET(daunsrevit_ceiling, imbalance) == 8);
    CHECK(OFFSET(daunsrevit_ceiling, each) == 16);
    CHECK(sizeof(struct daunsrevit_fiduccia_mattheyses_settings) == 96);
    CHECK(OFFSET(daunsrevit_fiduccia_mattheyses_settings, pass_limit) == 0);
    CHECK(OFFSET(daunsrevit_fiduccia_mattheyses_settings, move_limit) == 4);
    CHECK(OFFSET(daunsrevit_fiduccia_mattheyses_settings, bad_limit) == 8);
    CHECK(OFFSET(daunsrevit_fiduccia_mattheyses_settings, ceiling) == 16);
    CHECK(sizeof(struct daunsrevit_fiduccia_mattheyses_report) == 160);
    CHECK(OFFSET(daunsrevit_fiduccia_mattheyses_report, number) == 0);
    CHECK(OFFSET(daunsrevit_fiduccia_mattheyses_report, end) == 4);
    CHECK(OFFSET(daunsrevit_fiduccia_mattheyses_report, passes) == 8);
    CHECK(OFFSET(daunsrevit_fiduccia_mattheyses_report, first) == 16);
    CHECK(OFFSET(daunsrevit_fiduccia_mattheyses_report, last) == 24);
    CHECK(OFFSET(daunsrevit_fiduccia_mattheyses_report, loads) == 32);
    CHECK(sizeof(struct daunsrevit_kernighan_lin_settings) == 12);
    CHECK(OFFSET(daunsrevit_kernighan_lin_settings, pass_limit) == 0);
    CHECK(OFFSET(daunsrevit_kernighan_lin_settings, swap_limit) == 4);
    CHECK(OFFSET(daunsrevit_kernighan_lin_settings, bad_limit) == 8);
    CHECK(sizeof(struct daunsrevit_kernighan_lin_report) == 32);
    CHECK(OFFSET(daunsrevit_kernighan_lin_report, number) == 0);
    CHECK(OFFSET(daunsrevit_kernighan_lin_report, end) == 4);
    CHECK(OFFSET(daunsrevit_kernighan_lin_report, passes) == 8);
    CHECK(OFFSET(daunsrevit_kernighan_lin_report, first) == 16);
    CHECK(OFFSET(daunsrevit_kernighan_lin_report, last) == 24);
    CHECK(sizeof(struct daunsrevit_arc_swap_settings) == 80);
    CHECK(OFFSET(daunsrevit_arc_swap_settings, ceiling) == 0);
    CHECK(sizeof(struct daunsrevit_arc_swap_report) == 160);
    CHECK(OFFSET(daunsrevit_arc_swap_report, number) == 0);
    CHECK(OFFSET(daunsrevit_arc_swap_report, end) == 4);
    CHECK(OFFSET(daunsrevit_arc_swap_report, passes) == 8);
    CHECK(OFFSET(daunsrevit_arc_swap_report, first) == 16);
    CHECK(OFFSET(daunsrevit_arc_swap_report, last) == 24);
    CHECK(OFFSET(daunsrevit_arc_swap_report, loads) == 32);
    CHECK(sizeof(struct daunsrevit_run_record) == 32);
    CHECK(OFFSET(daunsrevit_run_record, attempts) == 0);
    CHECK(OFFSET(daunsrevit_run_record, moves) == 8);
    CHECK(OFFSET(daunsrevit_run_record, no_gain) == 16);
    CHECK(OFFSET(daunsrevit_run_record, bad_balance) == 24);
    CHECK(sizeof(struct daunsrevit_read_answer) == 96);
    CHECK(OFFSET(daunsrevit_read_answer, number) == 0);
    CHECK(OFFSET(daunsrevit_read_answer, n) == 4);
    CHECK(OFFSET(daunsrevit_read_answer, a) == 8);
    CHECK(OFFSET(daunsrevit_read_answer, k) == 12);
    CHECK(OFFSET(daunsrevit_read_answer, ceiling) == 16);
    CHECK(sizeof(struct daunsrevit_write_answer) == 16);
    CHECK(OFFSET(daunsrevit_write_answer, number) == 0);
    CHECK(OFFSET(daunsrevit_write_answer, length) == 8);
}

static uint64_t word_at(const unsigned char *bytes, size_t offset)
{
    uint64_t word;
    memcpy(&word, bytes + offset, sizeof word);
    return word;
}

static void loads_as_bytes(void)
{
    _Alignas(16) unsigned char bytes[192];
    for (int refused = 0; refused <= 1; refused++) {
        memset(bytes, 0xa5, sizeof bytes);
        CHECK(raw_loads(bytes, weights, refused ? 2 : 3, labels, 3) == bytes);
        uint32_t number;
        memcpy(&number, bytes, sizeof number);
        CHECK(number == (refused ? 1u : 0u));
        for (size_t t = 0; t < 16; t++) {
            uint64_t load = refused ? 0 : t == 0 ? 7 : t == 1 ? 11 : t == 15 ? 9 : 0;
            CHECK(word_at(bytes, 8 + 8 * t) == load);
        }
        for (size_t i = sizeof(struct daunsrevit_loads_answer); i < sizeof bytes; i++)
            CHECK(bytes[i] == 0xa5);
    }
}

static void cut_as_registers(void)
{
    struct registers r = raw_edge_cut(starts, 3, neighbours, 2, arc_weights, 2, parts, 2);
    CHECK((uint32_t)r.first == 0);
    CHECK(r.second == 5);
    r = raw_edge_cut(starts, 2, neighbours, 2, arc_weights, 2, parts, 2);
    CHECK((uint32_t)r.first == 1);
    CHECK(r.second == 0);
}

static uint32_t half_at(const unsigned char *bytes, size_t offset)
{
    uint32_t half;
    memcpy(&half, bytes + offset, sizeof half);
    return half;
}

static void past(const unsigned char *bytes, size_t from, size_t to)
{
    for (size_t i = from; i < to; i++)
        CHECK(bytes[i] == 0xa5);
}

/* Two vertices of weights 7 and 9, joined by weight 5. By choice 1, and not by the imbalance, which is no legal one, FM has room
 * for both in one part, and moves the first. */
static void reports_as_bytes(void)
{
    _Alignas(16) unsigned char bytes[192];
    uint32_t refined[2] = {0, 1}, made[2], rewound[2], swaps[1];
    int64_t gains[2];
    struct daunsrevit_move moves[2];
    uint8_t locks[2];
    struct daunsrevit_fiduccia_mattheyses_settings s = {1, 2, 0, {1, 16, 99.0, {3, 3}}};
    memset(bytes, 0xa5, sizeof bytes);
    CHECK(raw_refine(bytes, starts, 3, neighbours, 2, arc_weights, 2, weights, 2, refined, 2, gains, 2, moves, 2, made, 2,
        rewound, 2, s) == bytes);
    CHECK(half_at(bytes, 0) == 0);
    CHECK(half_at(bytes, 4) == 0);
    CHECK(half_at(bytes, 8) == 1);
    CHECK(word_at(bytes, 16) == 5);
    CHECK(word_at(bytes, 24) == 0);
    for (size_t t = 0; t < 16; t++)
        CHECK(word_at(bytes, 32 + 8 * t) == (t == 1 ? 16 : 0));
    past(bytes, 160, sizeof bytes);
    CHECK(refined[0] == 1);
    CHECK(refined[1] == 1);
    CHECK(made[0] == 1);
    CHECK(rewound[0] == 0);

    /* KL swaps the two, which lowers nothing. */
    struct daunsrevit_kernighan_lin_settings limits = {9, 1, 1};
    refined[0] = 0;
    memset(bytes, 0xa5, sizeof bytes);
    CHECK(raw_swap(bytes, starts, 3, neighbours, 2, arc_weights, 2, weights, 2, refined, 2, gains, 2, locks, 2, swaps, 1,
        limits) == bytes);
    CHECK(half_at(bytes, 0) == 0);
    CHECK(half_at(bytes, 4) == 1);
    CHECK(half_at(bytes, 8) == 1);
    CHECK(word_at(bytes, 16) == 5);
    CHECK(word_at(bytes, 24) == 5);
    past(bytes, 32, sizeof bytes);
    CHECK(refined[0] == 1);
    CHECK(refined[1] == 0);
}

/* The same two vertices, and two more on their own board: both of those are on the cut of weight 0, and have no gain. */
static void run_record_as_bytes(void)
{
    const uint32_t four_starts[5] = {0, 1, 2, 3, 4}, four_neighbours[4] = {1, 0, 3, 2}, four_arcs[4] = {5, 5, 0, 0};
    const uint32_t four_weights[4] = {7, 9, 1, 30};
    uint32_t refined[4] = {0, 1, 2, 3}, stack[3];
    _Alignas(16) unsigned char bytes[192], run[48];
    struct daunsrevit_arc_swap_settings s = {{1, 16, 99.0, {3, 3}}};
    memset(bytes, 0xa5, sizeof bytes);
    memset(run, 0xa5, sizeof run);
    CHECK(raw_arc_swap(bytes, four_starts, 5, four_neighbours, 4, four_arcs, 4, four_weights, 4, refined, 4, stack, 3, s, run)
        == bytes);
    CHECK(half_at(bytes, 0) == 0);
    CHECK(half_at(bytes, 4) == 1);
    CHECK(half_at(bytes, 8) == 2);
    CHECK(word_at(bytes, 16) == 5);
    CHECK(word_at(bytes, 24) == 0);
    for (size_t t = 0; t < 16; t++)
        CHECK(word_at(bytes, 32 + 8 * t) == (t == 1 ? 16 : t == 2 ? 1 : t == 3 ? 30 : 0));
    past(bytes, 160, sizeof bytes);
    CHECK(word_at(run, 0) == 5);
    CHECK(word_at(run, 8) == 1);
    CHECK(word_at(run, 16) == 4);
    CHECK(word_at(run, 24) == 0);
    past(run, 32, sizeof run);
    CHECK(refined[0] == 1);
    CHECK(refined[1] == 1);
    CHECK(refined[2] == 2);
    CHECK(refined[3] == 3);
}

/* A ceiling for each board, by which FM and arc-swap have room on board 0 alone: a wrong place of a number in the record would show. */
static void numbers_by_board(void)
{
    static const struct daunsrevit_ceiling each = {3, 1, 99.0, {16, 15}};
    _Alignas(16) unsigned char bytes[192], run[48];
    uint32_t refined[2] = {0, 1}, made[2], rewound[2], stack[2];
    int64_t gains[2];
    struct daunsrevit_move moves[2];
    struct daunsrevit_fiduccia_mattheyses_settings s = {1, 2, 0, each};
    struct daunsrevit_arc_swap_settings t = {each};
    CHECK(raw_refine(bytes, starts, 3, neighbours, 2, arc_weights, 2, weights, 2, refined, 2, gains, 2, moves, 2, made, 2,
        rewound, 2, s) == bytes);
    CHECK(half_at(bytes, 0) == 0);
    CHECK(refined[0] == 0);
    CHECK(refined[1] == 0);
    refined[1] = 1;
    CHECK(raw_arc_swap(bytes, starts, 3, neighbours, 2, arc_weights, 2, weights, 2, refined, 2, stack, 2, t, run) == bytes);
    CHECK(half_at(bytes, 0) == 0);
    CHECK(refined[0] == 0);
    CHECK(refined[1] == 0);
}

/* The writer's k and its ceiling stand between lists, and the target comes last. What is read of the ceiling is what was written, and 0 where
 * its choice does not use it. */
static void plan_as_bytes(struct daunsrevit_ceiling ceiling)
{
    static uint8_t plan[1536];
    _Alignas(16) unsigned char bytes[128];
    uint32_t read_labels[2], read_weights[2], read_starts[3], read_neighbours[2], read_arc_weights[2];
    struct registers r = raw_write(parts, 2, weights, 2, starts, 3, neighbours, 2, arc_weights, 2, 13, ceiling, plan, 1535);
    CHECK((uint32_t)r.first == 15);
    CHECK(r.second == 0);
    r = raw_write(parts, 2, weights, 2, starts, 3, neighbours, 2, arc_weights, 2, 13, ceiling, plan, 1536);
    CHECK((uint32_t)r.first == 0);
    CHECK(r.second == 1536);
    memset(bytes, 0xa5, sizeof bytes);
    CHECK(raw_read(bytes, plan, 1536, read_labels, 2, read_weights, 2, read_starts, 3, read_neighbours, 2, read_arc_weights, 2)
        == bytes);
    CHECK(half_at(bytes, 0) == 0);
    CHECK(half_at(bytes, 4) == 2);
    CHECK(half_at(bytes, 8) == 2);
    CHECK(half_at(bytes, 12) == 13);
    CHECK(half_at(bytes, 16) == ceiling.choice);
    CHECK(half_at(bytes, 20) == (ceiling.choice == 1 ? ceiling.whole : 0));
    CHECK(word_at(bytes, 24) == (ceiling.choice == 2 ? bits_of(ceiling.imbalance) : 0));
    for (size_t t = 0; t < 16; t++)
        CHECK(half_at(bytes, 32 + 4 * t) == (ceiling.choice == 3 ? ceiling.each[t] : 0));
    past(bytes, 96, sizeof bytes);
    CHECK(memcmp(read_labels, parts, sizeof parts) == 0);
    CHECK(memcmp(read_weights, weights, sizeof read_weights) == 0);
    CHECK(memcmp(read_starts, starts, sizeof starts) == 0);
    CHECK(memcmp(read_neighbours, neighbours, sizeof neighbours) == 0);
    CHECK(memcmp(read_arc_weights, arc_weights, sizeof arc_weights) == 0);
}

static void plan_answers(void)
{
    struct daunsrevit_ceiling ceiling = {0, 77, 0.25, {5, 6, 7, 8, 9, 10, 11, 12, 13, 14, 15, 16, 17, 18, 19, 4294967295u}};
    for (; ceiling.choice < 4; ceiling.choice++)
        plan_as_bytes(ceiling);
}

int main(void)
{
    sizes();
    loads_as_bytes();
    cut_as_registers();
    reports_as_bytes();
    run_record_as_bytes();
    numbers_by_board();
    plan_answers();
    return finish("layout");
}
