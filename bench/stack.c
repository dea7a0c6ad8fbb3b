/* The stack that each C entry point needs: the deepest byte written below the place where the call put its return address. The
 * stack is painted before the call. A frame that is reserved and never written in its lowest part is not seen there, so several
 * workloads are tried and the most is given. The return address is counted in; arguments are on the caller's account. */
#include "workload.h"

enum { DEPTH = 65536 };
static const uint64_t PAINT = 0xfeedc0de5ca1ab1e;

/* Linked with --wrap, each call goes through these few instructions, which note the stack pointer and go on to the entry. */
char *entered;
#define NOTED(entry) \
    __asm__(".globl __wrap_" #entry "\n__wrap_" #entry ":\n    movq %rsp, entered(%rip)\n    jmp __real_" #entry "\n");
NOTED(daunsrevit_compute_parts_load)
NOTED(daunsrevit_edge_cut)
NOTED(daunsrevit_lambda_cut)
NOTED(daunsrevit_fiduccia_mattheyses)
NOTED(daunsrevit_kernighan_lin)
NOTED(daunsrevit_arc_swap)
NOTED(daunsrevit_read_plan)
NOTED(daunsrevit_write_plan)
NOTED(daunsrevit_self_test)

/* Calls, and answers how many bytes lie between the end of the entry's return address and the deepest byte written. */
__attribute__((noinline)) static size_t depth_of(uint32_t (*call)(void), uint32_t *number)
{
    volatile uint64_t *top, *low;
    __asm__ volatile("movq %%rsp, %0" : "=r"(top));
    low = top - DEPTH / 8;
    for (volatile uint64_t *p = low; p < top; p++)
        *p = PAINT;
    *number = call();
    while (*low == PAINT)
        low++;
    return (size_t)(entered + 8 - (char *)low);
}

static uint8_t plan[512 * 1200];
static uint32_t parts;

static const struct daunsrevit_ceiling TENTH = {.choice = DAUNSREVIT_IMBALANCE, .imbalance = 0.1};
static const struct daunsrevit_ceiling CARRIED = {.choice = DAUNSREVIT_CARRIED};
static const struct daunsrevit_ceiling EACH = {.choice = DAUNSREVIT_EACH, .each = {30000, 60000, 90000}};

static uint32_t loads(void)
{
    return port_loads().number;
}

static uint32_t edge_cut(void)
{
    return port_edge_cut().number;
}

static uint32_t lambda_cut(void)
{
    return port_lambda_cut().number;
}

static uint32_t fm(void)
{
    return port_fm((struct daunsrevit_fiduccia_mattheyses_settings){4, 64, 0, TENTH}).number;
}

static uint32_t fm_downhill(void)
{
    return port_fm((struct daunsrevit_fiduccia_mattheyses_settings){4, 64, 64, CARRIED}).number;
}

static uint32_t fm_by_board(void)
{
    return port_fm((struct daunsrevit_fiduccia_mattheyses_settings){4, 64, 64, EACH}).number;
}

static uint32_t kl(void)
{
    return port_kl((struct daunsrevit_kernighan_lin_settings){4, 32, 1}).number;
}

static uint32_t kl_gainful(void)
{
    return port_kl((struct daunsrevit_kernighan_lin_settings){4, 32, 0}).number;
}

static uint32_t arc_swap(void)
{
    return port_arc_swap((struct daunsrevit_arc_swap_settings){TENTH}).number;
}

static uint32_t arc_swap_carried(void)
{
    return port_arc_swap((struct daunsrevit_arc_swap_settings){CARRIED}).number;
}

static uint32_t arc_swap_by_board(void)
{
    return port_arc_swap((struct daunsrevit_arc_swap_settings){EACH}).number;
}

static uint32_t write_under(struct daunsrevit_ceiling ceiling)
{
    return daunsrevit_write_plan(labels, graph.n, weights, graph.n, starts, graph.n + 1, neighbours, graph.a,
        arc_weights, graph.a, parts, ceiling, plan, sizeof plan).number;
}

static uint32_t write_plan(void)
{
    return write_under(TENTH);
}

static uint32_t write_by_board(void)
{
    return write_under(EACH);
}

/* Reads what write_plan wrote last. */
static uint32_t read_plan(void)
{
    size_t blocks = 1 + (graph.n + 62) / 63 + (graph.a + 62) / 63;
    return daunsrevit_read_plan(plan, 512 * blocks, labels, MOST_N, weights, MOST_N, starts, MOST_N + 1, neighbours, MOST_A,
        arc_weights, MOST_A).number;
}

static const struct {
    const char *name;
    uint32_t (*calls[3])(void);
} ENTRIES[] = {
    {"daunsrevit_compute_parts_load", {loads}},
    {"daunsrevit_edge_cut", {edge_cut}},
    {"daunsrevit_lambda_cut", {lambda_cut}},
    {"daunsrevit_fiduccia_mattheyses", {fm, fm_downhill, fm_by_board}},
    {"daunsrevit_kernighan_lin", {kl, kl_gainful}},
    {"daunsrevit_arc_swap", {arc_swap, arc_swap_carried, arc_swap_by_board}},
    {"daunsrevit_write_plan", {write_plan, write_by_board}},
    {"daunsrevit_read_plan", {read_plan}},
    {"daunsrevit_self_test", {daunsrevit_self_test}},
};
enum { ENTRY_COUNT = sizeof ENTRIES / sizeof *ENTRIES };

static const struct workload WORKLOADS[] = {
    {"grid", 4, 2, 2, 1},
    {"grid", 64, 64, 2, 1},
    {"grid", 64, 64, 16, 1},
    {"random", 512, 0, 2, 100},
    {"random", 512, 0, 16, 100},
    {"random", 4096, 0, 2, 100},
    {"random", 4096, 0, 16, 100},
};

int main(void)
{
    size_t most[ENTRY_COUNT] = {0};
    int done[ENTRY_COUNT] = {0}, status = 0;
    for (size_t i = 0; i < sizeof WORKLOADS / sizeof *WORKLOADS; i++)
        for (int broken = 0; broken < 2; broken++)
            for (size_t k = 0; k < ENTRY_COUNT; k++)
                for (size_t c = 0; c < 3 && ENTRIES[k].calls[c]; c++) {
                    uint32_t number;
                    make(&WORKLOADS[i]);
                    parts = WORKLOADS[i].parts;
                    lend();
                    /* A label of 16 is refused by all that take labels, after the checks of the graph. */
                    if (broken)
                        labels[graph.n - 1] = DAUNSREVIT_PARTS;
                    size_t depth = depth_of(ENTRIES[k].calls[c], &number);
                    done[k] += number == 0;
                    if (depth > most[k])
                        most[k] = depth;
                }
    printf("| Entry | Bytes of stack | Up to the next 16 |\n|---|---|---|\n");
    for (size_t k = 0; k < ENTRY_COUNT; k++) {
        printf("| `%s` | %zu | %zu |\n", ENTRIES[k].name, most[k], (most[k] + 15) / 16 * 16);
        if (done[k] == 0) {
            printf("REFUSED: no call of %s was done\n", ENTRIES[k].name);
            status = 1;
        }
    }
    return status;
}
