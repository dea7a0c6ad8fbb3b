/* Reads a plan from standard input by the library's reader and writes to standard output what the library's writer makes of it. Ends with
 * 1, and writes nothing, where the reader refuses it, and with 2 where the writer does or what it makes is not as long. */
#include "../c/check.h"

long read(int, void *, size_t);
long write(int, const void *, size_t);

enum { MOST = 1108 * DAUNSREVIT_BLOCK };

static struct lists l;
static uint8_t plan[MOST + 1], renewed[MOST];

int main(void)
{
    size_t length = 0;
    for (long more = 1; more > 0 && length < sizeof plan; length += (size_t)(more > 0 ? more : 0))
        more = read(0, plan + length, sizeof plan - length);
    set_counts(&l, DAUNSREVIT_MOST_VERTICES, DAUNSREVIT_MOST_ARCS);
    struct daunsrevit_read_answer r = daunsrevit_read_plan(plan, length, l.labels, l.labels_count, l.weights, l.weights_count, l.starts,
        l.starts_count, l.neighbours, l.neighbours_count, l.arc_weights, l.arc_weights_count);
    if (r.number != DAUNSREVIT_DONE)
        return 1;
    struct daunsrevit_write_answer w = daunsrevit_write_plan(l.labels, r.n, l.weights, r.n, l.starts, r.n + 1, l.neighbours, r.a,
        l.arc_weights, r.a, r.k, r.ceiling, renewed, MOST);
    return w.number != DAUNSREVIT_DONE || w.length != length || write(1, renewed, w.length) != (long)w.length ? 2 : 0;
}
