/* COUNT(into, call): how many instructions the call takes. Callgrind counts on an x86-64 machine, and the plugin count.c in
 * qemu-x86_64 on any other, where BY_PLUGIN is defined. */
#include <stdint.h>
#include <stdio.h>
#include <stdlib.h>

static uint64_t empty; /* what is counted of no call at all */

#ifdef BY_PLUGIN
#include <fcntl.h>
#include <unistd.h>

static int ends[2]; /* of the pipe through which counts come */

/* The pipe does not wait, so that a count that nobody wrote is noticed. */
static int can_count(const char *unused)
{
    (void)unused;
    return pipe(ends) == 0 && fcntl(ends[0], F_SETFL, O_NONBLOCK) == 0;
}

/* The count since the plugin was told to start. */
static uint64_t collected(void)
{
    uint64_t count;
    syscall(0x7a13, ends[1]);
    if (read(ends[0], &count, sizeof count) != sizeof count) {
        fprintf(stderr, "bench: no count from the plugin\n");
        exit(2);
    }
    return count - empty;
}
#define COUNT(into, call) \
    do { \
        syscall(0x7a11); \
        call; \
        into = collected(); \
    } while (0)

#else
#include <valgrind/callgrind.h>

/* The file that callgrind was given by --callgrind-out-file. It writes what it collected to FILE.1, FILE.2, .. */
static const char *out_file;
static unsigned dumps;

static int can_count(const char *file)
{
    out_file = file;
    return file && RUNNING_ON_VALGRIND;
}

/* The count that callgrind has just written. */
static uint64_t collected(void)
{
    char name[4096], line[4096];
    unsigned long long count = 0;
    int found = 0;
    snprintf(name, sizeof name, "%s.%u", out_file, ++dumps);
    FILE *file = fopen(name, "r");
    while (file && fgets(line, sizeof line, file))
        found |= sscanf(line, "totals: %llu", &count) == 1;
    if (!found) {
        fprintf(stderr, "bench: no count in %s\n", name);
        exit(2);
    }
    fclose(file);
    remove(name);
    return count - empty;
}
#define COUNT(into, call) \
    do { \
        CALLGRIND_TOGGLE_COLLECT; \
        call; \
        CALLGRIND_TOGGLE_COLLECT; \
        CALLGRIND_DUMP_STATS; \
        into = collected(); \
    } while (0)
#endif
