/* Each refusal of each measure, one fault at a time, on the path 0-1-2-3-4; every input list is compared after the call. */
#include "check.h"

static struct lists l;
#define AFTER(fault, cut, lambda, loads) \
    do { \
        make_path(&l, 5); \
        fault; \
        CHECK_NUMBERS(&l, cut, lambda, loads); \
    } while (0)

static void lengths(void)
{
    AFTER(l.weights_count = 4, 0, 1, 1);
    AFTER(l.weights_count = 6, 0, 1, 1);
    AFTER(l.weights_count = 0, 0, 1, 1);
    AFTER(l.starts_count = 5, 1, 1, 0);
    AFTER(l.starts_count = 7, 1, 1, 0);
    AFTER(l.starts_count = 0, 1, 1, 0);
    AFTER(l.neighbours_count = 7, 1, 1, 0);
    AFTER(l.arc_weights_count = 7, 1, 1, 0);
    AFTER(l.arc_weights_count = 9, 1, 1, 0);
    AFTER(l.labels_count = 4, 1, 1, 1);
    AFTER(l.labels_count = 6, 1, 1, 1);
}

/* The path's rows: starts 0 1 3 5 7 8, neighbours 1 | 0 2 | 1 3 | 2 4 | 3. */
static void row_rules(void)
{
    AFTER(l.starts[0] = 1, 3, 3, 0);
    AFTER(l.starts[5] = 7, 3, 3, 0);
    AFTER(l.starts[5] = 9, 3, 3, 0);
    AFTER((l.starts[2] = 5, l.starts[3] = 3), 3, 3, 0);
    AFTER(l.starts[3] = 4294967295u, 3, 3, 0);
    AFTER(l.neighbours[0] = 5, 3, 3, 0);
    AFTER(l.neighbours[7] = 4294967295u, 3, 3, 0);
    AFTER(l.neighbours[0] = 0, 3, 3, 0);
    AFTER(l.neighbours[7] = 4, 3, 3, 0);
    AFTER(l.neighbours[2] = 0, 3, 3, 0);
    AFTER((l.neighbours[3] = 3, l.neighbours[4] = 1), 3, 3, 0);
}

static void opposites(void)
{
    AFTER(l.arc_weights[0] = 2, 4, 4, 0);
    AFTER(l.arc_weights[7] = 0, 4, 4, 0);
    AFTER(l.neighbours[0] = 2, 4, 4, 0);
    AFTER(l.neighbours[7] = 0, 4, 4, 0);
    /* Row 4 is empty, and row 3 still goes there. */
    AFTER((set_counts(&l, 5, 7), l.starts[5] = 7), 4, 4, 0);
}

static void weight_sums(void)
{
    AFTER(l.weights[4] = 2147483644, 0, 5, 5);
    AFTER(l.weights[0] = 4294967295u, 0, 5, 5);
    AFTER((l.arc_weights[0] = l.arc_weights[1] = 1073741824), 5, 5, 0);
    AFTER((l.arc_weights[6] = l.arc_weights[7] = 4294967295u), 5, 5, 0);
}

static void label(void)
{
    AFTER(l.labels[0] = 16, 6, 6, 6);
    AFTER(l.labels[4] = 16, 6, 6, 6);
    AFTER(l.labels[2] = 4294967295u, 6, 6, 6);
    AFTER(l.labels[4] = 15, 0, 0, 0);
}

int main(void)
{
    AFTER((void)0, 0, 0, 0);
    lengths();
    row_rules();
    opposites();
    weight_sums();
    label();
    return finish("refusals");
}
