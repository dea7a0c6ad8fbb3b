/* coupe's own refiners and measures (reference/src/lib.rs), in the types that coupe wants. All but reference_inside are called on
 * the thread that reference_inside makes. */
#include <stddef.h>
#include <stdint.h>

struct reference_graph {
    size_t n, a;
    const uint64_t *starts, *neighbours;
    const int64_t *arc_weights, *weights;
    const double *float_arc_weights, *float_weights; /* KL's */
};

/* FM: passes, then moves and rewound moves. Arc-swap: passes, then attempts, moves, no-gain and bad-balance. */
struct reference_run {
    uint64_t passes, counts[4];
};

void reference_inside(void (*work)(void));

/* FM unchanged, whose HashSet breaks ties by its seed; and FM with one line changed, by which ties go to the lowest vertex. */
struct reference_run reference_fm(const struct reference_graph *, uint64_t *labels, size_t passes, size_t moves, size_t bad,
    double imbalance);
struct reference_run reference_fm_lowest(const struct reference_graph *, uint64_t *labels, size_t passes, size_t moves, size_t bad,
    double imbalance);
void reference_kl(const struct reference_graph *, uint64_t *labels, size_t passes, size_t swaps, size_t bad);
struct reference_run reference_arc_swap(const struct reference_graph *, uint64_t *labels, double imbalance);
int64_t reference_edge_cut(const struct reference_graph *, const uint64_t *labels);
int64_t reference_lambda_cut(const struct reference_graph *, const uint64_t *labels);
void reference_loads(const struct reference_graph *, const uint64_t *labels, size_t parts, int64_t *loads);
