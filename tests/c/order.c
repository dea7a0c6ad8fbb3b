/* The smallest number that applies: every choice of faults 1 to 6 on one path, where fault i alone gives the number i. */
#include "check.h"

static struct lists l;

static void make(unsigned faults)
{
    make_path(&l, has(faults, 2) ? 4097 : 5);
    if (has(faults, 1)) {
        l.weights_count--;
        l.arc_weights_count--;
    }
    if (has(faults, 3))
        l.starts[0] = 1;
    if (has(faults, 5)) {
        l.weights[0] = 2147483648u;
        l.arc_weights[0] = l.arc_weights[1] = 2147483648u;
    }
    if (has(faults, 4))
        l.arc_weights[3]++;
    if (has(faults, 6))
        l.labels[2] = 16;
}

/* The smallest fault among those that a measure can see. */
static uint32_t smallest(unsigned faults, unsigned seen)
{
    for (uint32_t number = 1; number <= 6; number++)
        if (has(faults & seen, number))
            return number;
    return 0;
}

int main(void)
{
    const unsigned all = 126, of_loads = 1 << 1 | 1 << 2 | 1 << 5 | 1 << 6;
    for (unsigned faults = 0; faults <= all; faults += 2) {
        make(faults);
        uint32_t number = smallest(faults, all);
        CHECK_NUMBERS(&l, number, number, smallest(faults, of_loads));
    }
    return finish("order");
}
