/* What the refiners' tests share: the refusals of a graph, and the order of the numbers. Before it includes this, a test has its
 * call `c` with the lists c.l; on_path(n), which sets up a call on a path of n vertices that is done; and REFUSED(number), which
 * makes the call and checks that it is refused so and has written nothing. */

/* One fault on a path of 5 vertices. */
#define AFTER(fault, number) \
    do { \
        on_path(5); \
        fault; \
        REFUSED(number); \
    } while (0)

static void graph_refusals(void)
{
    AFTER(c.l.weights_count--, 1);
    AFTER(c.l.weights_count++, 1);
    AFTER(c.l.starts_count--, 1);
    AFTER(c.l.starts_count = 0, 1);
    AFTER(c.l.neighbours_count--, 1);
    AFTER(c.l.arc_weights_count++, 1);
    on_path(4097);
    REFUSED(2);
    AFTER(c.l.starts[0] = 1, 3);
    AFTER(c.l.neighbours[0] = 0, 3);
    AFTER(c.l.neighbours[0] = 5, 3);
    AFTER((c.l.starts[2] = 5, c.l.starts[3] = 3), 3);
    AFTER(c.l.arc_weights[0] = 2, 4);
    AFTER(c.l.neighbours[7] = 0, 4);
    AFTER(c.l.weights[0] = 2147483648u, 5);
    AFTER((c.l.arc_weights[0] = c.l.arc_weights[1] = 1073741824), 5);
    AFTER(c.l.labels[0] = 4294967295u, 6);
}

/* The refusals of a ceiling's choice, for the refiners that have one. */
#define CHOICE_REFUSALS() \
    do { \
        AFTER(c.s.ceiling.choice = 4, 7); \
        AFTER(c.s.ceiling.choice = 4294967295u, 7); \
        AFTER(c.s.ceiling.imbalance = of_bits(NAN_BITS), 7); \
        AFTER(c.s.ceiling.imbalance = of_bits(BELOW_ZERO_BITS), 7); \
        AFTER(c.s.ceiling.imbalance = of_bits(ABOVE_64_BITS), 7); \
        AFTER(c.s.ceiling.imbalance = of_bits(INFINITY_BITS), 7); \
    } while (0)

/* The smallest number that applies: every choice of faults 1 to `most`, where fault i alone gives the number i. The faults from 6
 * on are the refiner's own, and `own` makes them. */
static void order(unsigned most, void (*own)(unsigned faults))
{
    for (unsigned faults = 2; faults < 2u << most; faults += 2) {
        uint32_t smallest = 1;
        while (!has(faults, smallest))
            smallest++;
        on_path(has(faults, 2) ? 4097 : 5);
        if (has(faults, 1))
            c.l.weights_count--;
        if (has(faults, 3))
            c.l.starts[0] = 1;
        if (has(faults, 5))
            c.l.weights[0] = 2147483648u;
        if (has(faults, 4))
            c.l.arc_weights[3]++;
        own(faults);
        REFUSED(smallest);
    }
}
