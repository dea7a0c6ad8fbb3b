/* Document 01's rules in plain C, with the records and the lent lists of the header. A broken rule 1 or a short list cannot be
 * expressed here, as the counts of a graph belong together and the lists are as long as is needed. */
#ifndef PLAIN_H
#define PLAIN_H
#include "../include/daunsrevit.h"

struct graph {
    uint32_t n, a;
    const uint32_t *starts, *neighbours, *arc_weights, *weights;
};

struct daunsrevit_loads_answer plain_compute_parts_load(const struct graph *, const uint32_t *labels);
struct daunsrevit_cut_answer plain_edge_cut(const struct graph *, const uint32_t *labels);
struct daunsrevit_cut_answer plain_lambda_cut(const struct graph *, const uint32_t *labels);
struct daunsrevit_fiduccia_mattheyses_report plain_fm(const struct graph *, uint32_t *labels, int64_t *gains,
    struct daunsrevit_move *moves, uint32_t *rows_made, uint32_t *rows_rewound,
    struct daunsrevit_fiduccia_mattheyses_settings);
struct daunsrevit_kernighan_lin_report plain_kl(const struct graph *, uint32_t *labels, int64_t *gains, uint8_t *locks,
    uint32_t *swaps, struct daunsrevit_kernighan_lin_settings);
struct daunsrevit_arc_swap_report plain_arc_swap(const struct graph *, uint32_t *labels, uint32_t *stack, size_t stack_count,
    struct daunsrevit_arc_swap_settings, struct daunsrevit_run_record *);

#endif
