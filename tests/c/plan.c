/* Plans: written, read back and written again; the bytes against those made by hand, in files of both kinds, and each refusal of the
 * writer with its target compared. */
#include "plan_file.h"

static struct lists wanted;
static uint8_t blank[ROOM], again[ROOM];
static const uint32_t a[8] = {0, 0, 1, 1, 0, 1, 0, 1};

static struct daunsrevit_write_answer write_to(uint8_t *target, size_t target_count)
{
    return daunsrevit_write_plan(p.l.labels, p.l.labels_count, p.l.weights, p.l.weights_count, p.l.starts, p.l.starts_count,
        p.l.neighbours, p.l.neighbours_count, p.l.arc_weights, p.l.arc_weights_count, p.k, p.ceiling,
        target, target_count);
}

/* The bytes are read: the header and the lists are the plan's, and nothing stands past the lists' ends. */
static struct daunsrevit_read_answer check_read(size_t extra, int line)
{
    size_t n = p.l.labels_count, arcs = p.l.neighbours_count;
    lend(extra);
    memcpy(&wanted, &targets, sizeof targets);
    memcpy(wanted.labels, p.l.labels, 4 * n);
    memcpy(wanted.weights, p.l.weights, 4 * n);
    memcpy(wanted.starts, p.l.starts, 4 * (n + 1));
    memcpy(wanted.neighbours, p.l.neighbours, 4 * arcs);
    memcpy(wanted.arc_weights, p.l.arc_weights, 4 * arcs);
    struct daunsrevit_read_answer r = read_into_targets();
    check(r.number == DAUNSREVIT_DONE, "read", __FILE__, line);
    check(r.n == n && r.a == arcs && r.k == p.k && r.ceiling.choice == p.ceiling.choice, "the header read", __FILE__, line);
    check(r.ceiling.whole == (p.ceiling.choice == 1 ? p.ceiling.whole : 0), "the whole number read", __FILE__, line);
    check(bits_of(r.ceiling.imbalance) == (p.ceiling.choice == 2 ? bits_of(p.ceiling.imbalance) : 0), "the imbalance read", __FILE__, line);
    for (size_t t = 0; t < DAUNSREVIT_PARTS; t++)
        check(r.ceiling.each[t] == number_of(t), "the number of each part read", __FILE__, line);
    check(memcmp(&targets, &wanted, sizeof targets) == 0, "the lists read, and the targets past them", __FILE__, line);
    check(memcmp(bytes, by_hand, bytes_count) == 0, "the bytes are not changed", __FILE__, line);
    return r;
}

/* Written, read and written again: the bytes are those made by hand, of the new kind, the lists the same, and nothing stands past the
 * ends. The old file of the plan, made by hand, is read alike, and so the new file is what it is written as. */
static void check_round(size_t extra, int line)
{
    static struct plan before;
    memcpy(&before, &p, sizeof p);
    bytes_count = make_by_hand(0);
    memcpy(bytes, by_hand, bytes_count);
    check_read(extra, line);

    size_t length = make_by_hand(1);
    check(length == bytes_count, "the two kinds are as long", __FILE__, line);
    memcpy(bytes, blank, sizeof bytes);
    struct daunsrevit_write_answer w = write_to(bytes, length + extra);
    check(w.number == DAUNSREVIT_DONE, "written", __FILE__, line);
    check(w.length == length, "the length written", __FILE__, line);
    check(memcmp(bytes, by_hand, length) == 0, "the bytes written", __FILE__, line);
    check(memcmp(bytes + length, blank + length, sizeof bytes - length) == 0, "the target past the plan", __FILE__, line);
    check(memcmp(&before, &p, sizeof p) == 0, "what is written from is not changed", __FILE__, line);

    struct daunsrevit_read_answer r = check_read(extra, line);
    set_counts(&targets, p.l.labels_count, p.l.neighbours_count);
    memcpy(&p.l, &targets, sizeof p.l);
    p.k = r.k;
    p.ceiling = r.ceiling;
    memcpy(again, blank, sizeof again);
    w = write_to(again, length);
    check(w.number == DAUNSREVIT_DONE && w.length == length, "written again", __FILE__, line);
    check(memcmp(again, bytes, sizeof again) == 0, "the same bytes", __FILE__, line);
}
#define ROUND(extra) check_round(extra, __LINE__)

static void rounds(void)
{
    static const size_t sizes[] = {1, 2, 32, 33, 62, 63, 64, 126, 127, 4096};
    for (size_t i = 0; i < sizeof sizes / sizeof sizes[0]; i++)
        for (size_t extra = 0; extra <= 3; extra += 3) {
            make_path(&p.l, sizes[i]);
            set_ceiling(2, DAUNSREVIT_CARRIED, 0, 0);
            ROUND(extra);
        }

    /* Each choice, and values that it does not use: these are no part of a plan. */
    static const double legal[] = {0.0, -0.0, 0.25, 0.1, 64.0, 4.9406564584124654e-324};
    for (size_t i = 0; i < sizeof legal / sizeof legal[0]; i++) {
        make_grid(&p.l, a);
        set_ceiling(16, DAUNSREVIT_IMBALANCE, 7, legal[i]);
        ROUND(0);
    }
    make_grid(&p.l, a);
    set_ceiling(3, DAUNSREVIT_CARRIED, 7, of_bits(NAN_BITS));
    ROUND(0);
    make_grid(&p.l, a);
    set_ceiling(2, DAUNSREVIT_WHOLE, 4294967295u, of_bits(ABOVE_64_BITS));
    ROUND(0);
    make_grid(&p.l, a);
    set_ceiling(2, DAUNSREVIT_WHOLE, 0, 1.5);
    ROUND(0);

    /* A number for each part: all sixteen are part of the plan, whatever k is, and nothing else of the ceiling is looked at. */
    for (uint32_t k = 2; k <= DAUNSREVIT_PARTS; k += 7)
        for (size_t t = 0; t < DAUNSREVIT_PARTS; t++) {
            make_grid(&p.l, a);
            set_ceiling(k, DAUNSREVIT_EACH, 7, of_bits(NAN_BITS));
            memset(p.ceiling.each, 0, sizeof p.ceiling.each);
            p.ceiling.each[t] = t % 2 ? 7 : 4294967295u;
            ROUND(0);
        }

    /* Labels up to k - 1; the row rules but for the starts, opposites and weight sums are left to the refiners. */
    make_grid(&p.l, a);
    for (int v = 0; v < 8; v++) {
        p.l.labels[v] = (uint32_t)(15 - v);
        p.l.weights[v] = 4294967295u;
    }
    p.l.neighbours[0] = 4294967295u;
    p.l.neighbours[19] = 7;
    p.l.arc_weights[3] = 4294967295u;
    set_ceiling(16, DAUNSREVIT_CARRIED, 0, 0);
    ROUND(0);
}

static void drawn_rounds(void)
{
    for (size_t n = 1; n <= 130; n++) {
        make_drawn(n, draw(400));
        ROUND(draw(3));
    }
    for (int i = 0; i < 40; i++) {
        make_drawn(1 + draw(DAUNSREVIT_MOST_VERTICES), draw(DAUNSREVIT_MOST_ARCS + 1));
        ROUND(draw(3));
    }
    make_drawn(DAUNSREVIT_MOST_VERTICES, DAUNSREVIT_MOST_ARCS);
    ROUND(1);
    make_drawn(1, DAUNSREVIT_MOST_ARCS);
    ROUND(1);
}

/* The writer refuses with this number, and the target and what is written from are as they were. */
static void check_unwritten(size_t target_count, uint32_t number, int line)
{
    static struct plan before;
    memcpy(&before, &p, sizeof p);
    memcpy(bytes, blank, sizeof bytes);
    struct daunsrevit_write_answer w = write_to(bytes, target_count);
    check(w.number == number, "the writer's number", __FILE__, line);
    check(w.length == 0, "nothing is said to be written", __FILE__, line);
    check(memcmp(bytes, blank, sizeof bytes) == 0, "the target is not written", __FILE__, line);
    check(memcmp(&before, &p, sizeof p) == 0, "what is written from is not changed", __FILE__, line);
}
#define UNWRITTEN(change, number) \
    do { \
        size_t room = 1536; \
        set_up(); \
        change; \
        check_unwritten(room, number, __LINE__); \
    } while (0)

static void writer_refusals(void)
{
    UNWRITTEN(p.l.labels_count = 0, 12);
    UNWRITTEN((make_path(&p.l, 4097), room = ROOM), 12);
    UNWRITTEN((p.l.neighbours_count = p.l.arc_weights_count = 65536), 12);
    UNWRITTEN(p.k = 0, 12);
    UNWRITTEN(p.k = 1, 12);
    UNWRITTEN(p.k = 17, 12);
    UNWRITTEN(p.ceiling.choice = 4, 12);
    UNWRITTEN(p.ceiling.choice = 4294967295u, 12);
    UNWRITTEN(p.ceiling.imbalance = of_bits(NAN_BITS), 12);
    UNWRITTEN(p.ceiling.imbalance = of_bits(BELOW_ZERO_BITS), 12);
    UNWRITTEN(p.ceiling.imbalance = of_bits(ABOVE_64_BITS), 12);
    UNWRITTEN(p.ceiling.imbalance = of_bits(INFINITY_BITS), 12);
    UNWRITTEN(p.l.weights_count--, 1);
    UNWRITTEN(p.l.weights_count++, 1);
    UNWRITTEN(p.l.starts_count--, 1);
    UNWRITTEN(p.l.starts_count++, 1);
    UNWRITTEN(p.l.arc_weights_count--, 1);
    UNWRITTEN(p.l.arc_weights_count++, 1);
    UNWRITTEN(p.l.starts[0] = 1, 3);
    UNWRITTEN(p.l.starts[8] = 19, 3);
    UNWRITTEN(p.l.starts[8] = 21, 3);
    UNWRITTEN((p.l.starts[4] = 12, p.l.starts[5] = 10), 3);
    UNWRITTEN(p.l.starts[4] = 4294967295u, 3);
    UNWRITTEN(p.l.labels[0] = 2, 14);
    UNWRITTEN(p.l.labels[7] = 4294967295u, 14);
    UNWRITTEN(room = 1535, 15);
    UNWRITTEN(room = 0, 15);
}

/* The writer's own order: 12, 1, 3, 14, 15. */
static void writing_order(void)
{
    static const uint32_t numbers[5] = {12, 1, 3, 14, 15};
    for (unsigned faults = 1; faults < 32; faults++) {
        unsigned first = 0;
        while (!has(faults, first))
            first++;
        set_up();
        if (has(faults, 0))
            p.ceiling.choice = 4;
        if (has(faults, 1))
            p.l.weights_count--;
        if (has(faults, 2))
            p.l.starts[0] = 1;
        if (has(faults, 3))
            p.l.labels[3] = 2;
        check_unwritten(has(faults, 4) ? 1535 : 1536, numbers[first], __LINE__);
    }
}

int main(void)
{
    paint(&painted);
    memset(blank, 0xa5, sizeof blank);
    rounds();
    drawn_rounds();
    writer_refusals();
    writing_order();
    return finish("plan");
}
