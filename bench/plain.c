/* Document 01 in plain C: linear scans, no allocation, no memory but the lent lists. It is what the port is measured against, and
 * a second opinion on its answers. */
#include "plain.h"
#include <string.h>

static const int64_t LOCKED = INT64_MIN;

/* Rules 2 to 4. The opposite of an arc is found by halving its row. */
static uint32_t rows_number(const struct graph *g)
{
    uint32_t n = g->n, a = g->a;
    if (n > DAUNSREVIT_MOST_VERTICES || a > DAUNSREVIT_MOST_ARCS)
        return 2;
    if (g->starts[0] != 0 || g->starts[n] != a)
        return 3;
    for (uint32_t v = 0; v < n; v++)
        if (g->starts[v] > g->starts[v + 1])
            return 3;
    for (uint32_t v = 0; v < n; v++)
        for (uint32_t e = g->starts[v]; e < g->starts[v + 1]; e++) {
            uint32_t u = g->neighbours[e];
            if (u >= n || u == v || (e > g->starts[v] && g->neighbours[e - 1] >= u))
                return 3;
        }
    for (uint32_t v = 0; v < n; v++)
        for (uint32_t e = g->starts[v]; e < g->starts[v + 1]; e++) {
            uint32_t u = g->neighbours[e], low = g->starts[u], high = g->starts[u + 1];
            while (low < high) {
                uint32_t middle = low + (high - low) / 2;
                if (g->neighbours[middle] < v)
                    low = middle + 1;
                else
                    high = middle;
            }
            if (low == g->starts[u + 1] || g->neighbours[low] != v || g->arc_weights[low] != g->arc_weights[e])
                return 4;
        }
    return 0;
}

static int too_heavy(const uint32_t *list, uint32_t count)
{
    uint64_t sum = 0;
    for (uint32_t i = 0; i < count; i++)
        sum += list[i];
    return sum > DAUNSREVIT_MOST_WEIGHT;
}

static int label_above(const uint32_t *labels, uint32_t n, uint32_t top)
{
    for (uint32_t v = 0; v < n; v++)
        if (labels[v] > top)
            return 1;
    return 0;
}

/* Rules 2 to 6. */
static uint32_t graph_number(const struct graph *g, const uint32_t *labels, uint32_t top)
{
    uint32_t number = rows_number(g);
    if (number != 0)
        return number;
    if (too_heavy(g->weights, g->n) || too_heavy(g->arc_weights, g->a))
        return 5;
    return label_above(labels, g->n, top) ? 6 : 0;
}

static struct daunsrevit_loads loads_of(const struct graph *g, const uint32_t *labels)
{
    struct daunsrevit_loads loads = {{0}};
    for (uint32_t v = 0; v < g->n; v++)
        loads.at[labels[v]] += g->weights[v];
    return loads;
}

static uint64_t cut_of(const struct graph *g, const uint32_t *labels)
{
    uint64_t cut = 0;
    for (uint32_t v = 0; v < g->n; v++)
        for (uint32_t e = g->starts[v]; e < g->starts[v + 1]; e++) {
            uint32_t u = g->neighbours[e];
            if (u >= v)
                break;
            if (labels[u] != labels[v])
                cut += g->arc_weights[e];
        }
    return cut;
}

struct daunsrevit_loads_answer plain_compute_parts_load(const struct graph *g, const uint32_t *labels)
{
    struct daunsrevit_loads_answer answer = {0};
    if (g->n > DAUNSREVIT_MOST_VERTICES)
        answer.number = 2;
    else if (too_heavy(g->weights, g->n))
        answer.number = 5;
    else if (label_above(labels, g->n, DAUNSREVIT_PARTS - 1))
        answer.number = 6;
    else
        answer.loads = loads_of(g, labels);
    return answer;
}

struct daunsrevit_cut_answer plain_edge_cut(const struct graph *g, const uint32_t *labels)
{
    struct daunsrevit_cut_answer answer = {rows_number(g), 0};
    if (answer.number != 0)
        return answer;
    if (too_heavy(g->arc_weights, g->a))
        answer.number = 5;
    else if (label_above(labels, g->n, DAUNSREVIT_PARTS - 1))
        answer.number = 6;
    else
        answer.cut = cut_of(g, labels);
    return answer;
}

struct daunsrevit_cut_answer plain_lambda_cut(const struct graph *g, const uint32_t *labels)
{
    struct daunsrevit_cut_answer answer = {graph_number(g, labels, DAUNSREVIT_PARTS - 1), 0};
    if (answer.number != 0)
        return answer;
    for (uint32_t v = 0; v < g->n; v++) {
        uint32_t seen = 1u << labels[v], parts = 0;
        for (uint32_t e = g->starts[v]; e < g->starts[v + 1]; e++) {
            uint32_t bit = 1u << labels[g->neighbours[e]];
            if (!(seen & bit)) {
                seen |= bit;
                parts++;
            }
        }
        answer.cut += (uint64_t)parts * g->weights[v];
    }
    return answer;
}

static int ceiling_wrong(struct daunsrevit_ceiling asked)
{
    double e = asked.imbalance;
    return asked.choice > DAUNSREVIT_EACH || (asked.choice == DAUNSREVIT_IMBALANCE && !(e >= 0.0 && e <= 64.0));
}

/* The one ceiling of a choice other than DAUNSREVIT_EACH. */
static uint64_t ceiling_of(struct daunsrevit_ceiling asked, const struct daunsrevit_loads *loads, uint32_t parts)
{
    uint64_t total = 0, largest = 0;
    for (uint32_t t = 0; t < parts; t++) {
        total += loads->at[t];
        if (loads->at[t] > largest)
            largest = loads->at[t];
    }
    if (asked.choice == DAUNSREVIT_CARRIED)
        return largest;
    if (asked.choice == DAUNSREVIT_WHOLE)
        return asked.whole;
    double ideal = (double)total / (double)parts, share = asked.imbalance * ideal;
    return (uint64_t)(ideal + share);
}

/* The ceiling of each part. */
static struct daunsrevit_loads ceilings_of(struct daunsrevit_ceiling asked, const struct daunsrevit_loads *loads, uint32_t parts)
{
    struct daunsrevit_loads ceilings;
    uint64_t one = asked.choice == DAUNSREVIT_EACH ? 0 : ceiling_of(asked, loads, parts);
    for (uint32_t t = 0; t < DAUNSREVIT_PARTS; t++)
        ceilings.at[t] = asked.choice == DAUNSREVIT_EACH ? asked.each[t] : one;
    return ceilings;
}

/* Of two parts, the gain of v to the other one. */
static int64_t gain_to_other(const struct graph *g, const uint32_t *labels, uint32_t v)
{
    int64_t gain = 0;
    for (uint32_t e = g->starts[v]; e < g->starts[v + 1]; e++) {
        int64_t w = g->arc_weights[e];
        gain += labels[g->neighbours[e]] == labels[v] ? -w : w;
    }
    return gain;
}

/* Largest gain, then smallest target load, then lowest vertex; n if there is none. */
static uint32_t choose(const struct graph *g, const uint32_t *labels, const int64_t *gains, const struct daunsrevit_loads *loads,
    const struct daunsrevit_loads *ceilings)
{
    uint32_t best = g->n;
    int64_t best_gain = LOCKED;
    uint64_t best_load = UINT64_MAX;
    for (uint32_t v = 0; v < g->n; v++) {
        int64_t gain = gains[v];
        if (gain < best_gain || gain == LOCKED)
            continue;
        uint64_t load = loads->at[1 - labels[v]] + g->weights[v];
        if (load > ceilings->at[1 - labels[v]])
            continue;
        if (gain > best_gain || load < best_load) {
            best = v;
            best_gain = gain;
            best_load = load;
        }
    }
    return best;
}

struct daunsrevit_fiduccia_mattheyses_report plain_fm(const struct graph *g, uint32_t *labels, int64_t *gains,
    struct daunsrevit_move *moves, uint32_t *rows_made, uint32_t *rows_rewound,
    struct daunsrevit_fiduccia_mattheyses_settings s)
{
    struct daunsrevit_fiduccia_mattheyses_report r = {0};
    if (g->n == 0) {
        r.end = DAUNSREVIT_EMPTY;
        return r;
    }
    r.number = graph_number(g, labels, 1);
    if (r.number == 0 && (s.pass_limit > DAUNSREVIT_MOST_PASSES || ceiling_wrong(s.ceiling)))
        r.number = 7;
    if (r.number != 0)
        return r;
    r.loads = loads_of(g, labels);
    struct daunsrevit_loads ceilings = ceilings_of(s.ceiling, &r.loads, 2);
    r.first = cut_of(g, labels);
    int64_t least = (int64_t)r.first;
    while (r.passes < s.pass_limit) {
        int64_t cut = least, start = least;
        uint32_t count = 0, kept = 0, bad = 0;
        for (uint32_t v = 0; v < g->n; v++)
            gains[v] = gain_to_other(g, labels, v);
        while (count < s.move_limit) {
            uint32_t v = choose(g, labels, gains, &r.loads, &ceilings);
            if (v == g->n)
                break;
            int64_t gain = gains[v];
            if (gain > 0)
                bad = 0;
            else if (bad++ >= s.bad_limit)
                break;
            uint32_t before = labels[v];
            gains[v] = LOCKED;
            labels[v] = 1 - before;
            r.loads.at[before] -= g->weights[v];
            r.loads.at[1 - before] += g->weights[v];
            moves[count].vertex = v;
            moves[count++].part = before;
            cut -= gain;
            if (cut < least) {
                least = cut;
                kept = count;
            }
            for (uint32_t e = g->starts[v]; e < g->starts[v + 1]; e++) {
                uint32_t u = g->neighbours[e];
                if (gains[u] == LOCKED)
                    continue;
                int64_t twice = 2 * (int64_t)g->arc_weights[e];
                gains[u] += labels[u] == before ? twice : -twice;
            }
        }
        for (uint32_t m = kept; m < count; m++) {
            uint32_t v = moves[m].vertex, before = moves[m].part;
            labels[v] = before;
            r.loads.at[before] += g->weights[v];
            r.loads.at[1 - before] -= g->weights[v];
        }
        rows_made[r.passes] = count;
        rows_rewound[r.passes++] = count - kept;
        if (least >= start) {
            r.end = DAUNSREVIT_GAINLESS;
            break;
        }
    }
    r.last = (uint64_t)least;
    memset(gains, 0, g->n * sizeof *gains);
    memset(moves, 0, g->n * sizeof *moves);
    return r;
}

/* Largest gain of an unlocked vertex in a part, the last among equals; n if there is none. */
static uint32_t last_largest(const struct graph *g, const uint32_t *labels, const int64_t *gains, const uint8_t *locks,
    uint32_t part)
{
    uint32_t best = g->n;
    for (uint32_t v = 0; v < g->n; v++)
        if (labels[v] == part && !locks[v] && (best == g->n || gains[v] >= gains[best]))
            best = v;
    return best;
}

/* The first label and the other one; the same twice if there are not exactly two. */
static void two_labels(const struct graph *g, const uint32_t *labels, uint32_t *first, uint32_t *second)
{
    *first = g->n ? labels[0] : 0;
    *second = *first;
    for (uint32_t v = 0; v < g->n; v++)
        if (labels[v] != *first) {
            if (*second != *first && labels[v] != *second) {
                *second = *first;
                return;
            }
            *second = labels[v];
        }
}

struct daunsrevit_kernighan_lin_report plain_kl(const struct graph *g, uint32_t *labels, int64_t *gains, uint8_t *locks,
    uint32_t *swaps, struct daunsrevit_kernighan_lin_settings s)
{
    struct daunsrevit_kernighan_lin_report r = {0};
    uint32_t first, second;
    r.number = graph_number(g, labels, DAUNSREVIT_PARTS - 1);
    if (r.number != 0)
        return r;
    two_labels(g, labels, &first, &second);
    if (first == second)
        r.number = 6;
    else if (s.pass_limit > DAUNSREVIT_MOST_PASSES)
        r.number = 7;
    if (r.number != 0)
        return r;
    uint32_t limit = g->n / 2 < s.swap_limit ? g->n / 2 : s.swap_limit;
    uint64_t cut = r.first = cut_of(g, labels);
    while (r.passes < s.pass_limit) {
        uint64_t start = cut, least = cut;
        uint32_t count = 0, kept = 0;
        memset(gains, 0, g->n * sizeof *gains);
        memset(locks, 0, g->n * sizeof *locks);
        while (count < limit) {
            for (uint32_t v = 0; v < g->n; v++)
                gains[v] += gain_to_other(g, labels, v);
            uint32_t u = last_largest(g, labels, gains, locks, first);
            if (u == g->n)
                break;
            int64_t u_gain = gains[u];
            for (uint32_t e = g->starts[u]; e < g->starts[u + 1]; e++) {
                int64_t twice = 2 * (int64_t)g->arc_weights[e];
                gains[g->neighbours[e]] += labels[g->neighbours[e]] == first ? twice : -twice;
            }
            uint32_t v = last_largest(g, labels, gains, locks, second);
            if (v == g->n || (u_gain + gains[v] <= 0 && s.bad_limit == 0))
                break;
            locks[u] = locks[v] = 1;
            labels[u] = second;
            labels[v] = first;
            swaps[count++] = u << 16 | v;
            cut = cut_of(g, labels);
            if (count == 1 || cut < least) {
                least = cut;
                kept = count;
            }
        }
        for (uint32_t m = kept; m < count; m++) {
            labels[swaps[m] >> 16] = first;
            labels[swaps[m] & 65535] = second;
        }
        cut = least;
        r.passes++;
        if (cut >= start) {
            r.end = DAUNSREVIT_GAINLESS;
            break;
        }
    }
    r.last = cut;
    memset(gains, 0, g->n * sizeof *gains);
    memset(locks, 0, g->n * sizeof *locks);
    memset(swaps, 0, g->n / 2 * sizeof *swaps);
    return r;
}

/* Largest gain to another part and, among equals, the highest such part; part by part, as coupe does. */
static int64_t best_target(const struct graph *g, const uint32_t *labels, uint32_t v, uint32_t parts, uint32_t *target)
{
    int64_t best = INT64_MIN;
    uint32_t own = labels[v];
    for (uint32_t t = 0; t < parts; t++) {
        if (t == own)
            continue;
        int64_t gain = 0;
        for (uint32_t e = g->starts[v]; e < g->starts[v + 1]; e++) {
            uint32_t part = labels[g->neighbours[e]];
            if (part == own)
                gain -= g->arc_weights[e];
            else if (part == t)
                gain += g->arc_weights[e];
        }
        if (gain >= best) {
            best = gain;
            *target = t;
        }
    }
    return best;
}

static int on_cut(const struct graph *g, const uint32_t *labels, uint32_t v)
{
    for (uint32_t e = g->starts[v]; e < g->starts[v + 1]; e++)
        if (labels[g->neighbours[e]] != labels[v])
            return 1;
    return 0;
}

struct daunsrevit_arc_swap_report plain_arc_swap(const struct graph *g, uint32_t *labels, uint32_t *stack, size_t stack_count,
    struct daunsrevit_arc_swap_settings s, struct daunsrevit_run_record *run)
{
    struct daunsrevit_arc_swap_report r = {0};
    if (g->n == 0) {
        memset(run, 0, sizeof *run);
        r.end = DAUNSREVIT_EMPTY;
        return r;
    }
    r.number = graph_number(g, labels, DAUNSREVIT_PARTS - 1);
    if (r.number == 0 && ceiling_wrong(s.ceiling))
        r.number = 7;
    if (r.number != 0)
        return r;
    memset(run, 0, sizeof *run);
    uint32_t parts = 2;
    for (uint32_t v = 0; v < g->n; v++)
        if (labels[v] >= parts)
            parts = labels[v] + 1;
    r.loads = loads_of(g, labels);
    struct daunsrevit_loads ceilings = ceilings_of(s.ceiling, &r.loads, parts);
    uint64_t before;
    r.first = r.last = cut_of(g, labels);
    do {
        before = r.last;
        r.passes++;
        for (uint32_t next = 0; next < g->n; next++) {
            if (!on_cut(g, labels, next))
                continue;
            size_t depth = 0;
            if (stack_count == 0)
                goto full;
            stack[depth++] = next;
            while (depth > 0) {
                uint32_t v = stack[--depth], target = 0, ignored;
                run->attempts++;
                int64_t gain = best_target(g, labels, v, parts, &target);
                if (gain <= 0) {
                    run->no_gain++;
                    continue;
                }
                if (r.loads.at[target] + g->weights[v] > ceilings.at[target]) {
                    run->bad_balance++;
                    continue;
                }
                run->moves++;
                r.last -= (uint64_t)gain;
                r.loads.at[labels[v]] -= g->weights[v];
                r.loads.at[target] += g->weights[v];
                labels[v] = target;
                size_t top = depth;
                for (uint32_t e = g->starts[v]; e < g->starts[v + 1]; e++) {
                    uint32_t u = g->neighbours[e];
                    if (best_target(g, labels, u, parts, &ignored) <= 0)
                        continue;
                    if (top == stack_count)
                        goto full;
                    stack[top++] = u;
                }
                depth = top;
            }
        }
    } while (r.last < before);
    r.end = DAUNSREVIT_GAINLESS;
    memset(stack, 0, stack_count * sizeof *stack);
    return r;
full:
    r.end = DAUNSREVIT_STACK_FULL;
    memset(stack, 0, stack_count * sizeof *stack);
    return r;
}
