/* A program of someone who has installed the library: the header and the archive are of one version, and the archive runs. */
#include <daunsrevit.h>

#ifndef DAUNSREVIT_OWN_TYPES
#include <stdio.h>
#else
int printf(const char *, ...);
#endif

int main(void)
{
    const uint32_t starts[] = {0, 1, 2}, neighbours[] = {1, 0}, arc_weights[] = {5, 5}, labels[] = {0, 1};
    struct daunsrevit_cut_answer answer = daunsrevit_edge_cut(starts, 3, neighbours, 2, arc_weights, 2, labels, 2);
    printf("version %s, self-test %u, cut %u\n", DAUNSREVIT_VERSION, (unsigned)daunsrevit_self_test(), (unsigned)answer.cut);
    return answer.number != DAUNSREVIT_DONE;
}
