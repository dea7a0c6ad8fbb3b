/* The lambda cut over every set of the sixteen parts, and the stack that the two cuts take: no more than the header says, whatever
 * the graph and the labels are and whichever number refuses the call. */
#include "check.h"

static struct lists l;

/* A star: vertex 0 has this label and weighs 100. Its leaves weigh 1, and leaf v's label is at v - 1. */
static void make_star(uint32_t label, const uint32_t *of_leaf, size_t leaves)
{
    l.starts[0] = 0;
    l.labels[0] = label;
    l.weights[0] = 100;
    for (uint32_t v = 1; v <= leaves; v++) {
        l.starts[v] = (uint32_t)leaves + v - 1;
        l.labels[v] = of_leaf[v - 1];
        l.weights[v] = 1;
        l.neighbours[v - 1] = v;
        l.neighbours[leaves + v - 1] = 0;
        l.arc_weights[v - 1] = l.arc_weights[leaves + v - 1] = 1;
    }
    l.starts[leaves + 1] = 2 * (uint32_t)leaves;
    set_counts(&l, leaves + 1, 2 * leaves);
}

/* Leaves in the parts of the set, so many in each: a part other than the centre's counts once around the centre, and around each leaf
 * in such a part the centre's counts. */
static void check_set(uint32_t label, uint32_t set, uint32_t times)
{
    uint32_t of_leaf[32], others = 0;
    size_t leaves = 0;
    for (uint32_t t = 0; t < 16 * times; t++)
        if (has(set, t % 16)) {
            of_leaf[leaves++] = t % 16;
            others += t < 16 && t != label;
        }
    make_star(label, of_leaf, leaves);
    struct daunsrevit_cut_answer m = lambda_cut_of(&l);
    CHECK(m.number == DAUNSREVIT_DONE && m.cut == (100 + times) * others);
}

static void every_set(void)
{
    for (uint32_t set = 0; set < 65536; set++)
        check_set(set % 16, set, 1);
    for (uint32_t set = 0; set < 65536; set += 37)
        for (uint32_t label = 0; label < 16; label += 15)
            check_set(label, set, 2);
}

/* The first part and the last. */
static void parts_0_and_15(void)
{
    static const uint32_t pairs[4][2] = {{0, 15}, {15, 0}, {0, 0}, {15, 15}};
    for (int i = 0; i < 4; i++) {
        make_path(&l, 2);
        memcpy(l.labels, pairs[i], sizeof pairs[i]);
        struct daunsrevit_cut_answer c = edge_cut_of(&l), m = lambda_cut_of(&l);
        CHECK(c.number == DAUNSREVIT_DONE && m.number == DAUNSREVIT_DONE);
        CHECK(c.cut == (i < 2 ? 1 : 0));
        CHECK(m.cut == (i < 2 ? 2 : 0));
    }
}

/* The entries by way of a few instructions that note the stack pointer, which then points to the return address. */
char *entered;
#define NOTED(entry) __asm__(".globl noted_" #entry "\nnoted_" #entry ":\n    movq %rsp, entered(%rip)\n    jmp daunsrevit_" #entry "\n")
NOTED(edge_cut);
NOTED(lambda_cut);
struct daunsrevit_cut_answer noted_edge_cut(const uint32_t *, size_t, const uint32_t *, size_t, const uint32_t *, size_t,
    const uint32_t *, size_t);
struct daunsrevit_cut_answer noted_lambda_cut(const uint32_t *, size_t, const uint32_t *, size_t, const uint32_t *, size_t,
    const uint32_t *, size_t, const uint32_t *, size_t);

static struct daunsrevit_cut_answer answer;

static void call_edge_cut(void)
{
    answer = noted_edge_cut(l.starts, l.starts_count, l.neighbours, l.neighbours_count, l.arc_weights, l.arc_weights_count,
        l.labels, l.labels_count);
}

static void call_lambda_cut(void)
{
    answer = noted_lambda_cut(l.starts, l.starts_count, l.neighbours, l.neighbours_count, l.arc_weights, l.arc_weights_count,
        l.weights, l.weights_count, l.labels, l.labels_count);
}

/* The bytes from the end of the return address down to the deepest one that the call wrote, on a painted stack. */
__attribute__((noinline)) static size_t depth_of(void (*call)(void))
{
    enum { WORDS = 1024 };
    static const uint64_t paint_word = 0xfeedc0de5ca1ab1e;
    volatile uint64_t *low;
    __asm__ volatile("movq %%rsp, %0" : "=r"(low));
    low -= WORDS;
    for (int i = 0; i < WORDS; i++)
        low[i] = paint_word;
    call();
    while (*low == paint_word)
        low++;
    return (size_t)(entered + 8 - (char *)low);
}

/* The header's figure for each cut, as the toolchain's compiler of today makes them. */
enum { MOST_EDGE_STACK = 96, MOST_LAMBDA_STACK = 96 };

static void check_stack(uint32_t edge_number, uint32_t lambda_number)
{
    size_t depth = depth_of(call_edge_cut);
    CHECK(answer.number == edge_number);
    CHECK(depth >= 8 && depth <= MOST_EDGE_STACK);
    depth = depth_of(call_lambda_cut);
    CHECK(answer.number == lambda_number);
    CHECK(depth >= 8 && depth <= MOST_LAMBDA_STACK);
}

static void stack(void)
{
    uint32_t of_leaf[32];
    for (uint32_t t = 0; t < 32; t++)
        of_leaf[t] = t % 16;
    make_star(7, of_leaf, 32);
    check_stack(0, 0);
    make_path(&l, 4096);
    check_stack(0, 0);
    l.labels[4095] = 16;
    check_stack(6, 6);
    l.weights[0] = DAUNSREVIT_MOST_WEIGHT;
    check_stack(6, 5);
    l.arc_weights[0] = l.arc_weights[1] = DAUNSREVIT_MOST_WEIGHT;
    check_stack(5, 5);
    l.arc_weights[0]--;
    check_stack(4, 4);
    l.neighbours[0] = 0;
    check_stack(3, 3);
    make_path(&l, 4097);
    check_stack(2, 2);
    l.starts_count--;
    check_stack(1, 1);
    make_path(&l, 0);
    check_stack(0, 0);
}

int main(void)
{
    every_set();
    parts_0_and_15();
    stack();
    return finish("cuts");
}
