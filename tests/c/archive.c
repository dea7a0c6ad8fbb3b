/* The archive as a linker sees it: one object for x86-64, which wants memcpy and memset and no other name, gives the nine entries and no
 * other name, and has no section that can be written: no .data, no .bss, nothing by thread. It is read as the ELF format lays it out. */
#include "check.h"

int open(const char *, int, ...);
long read(int, void *, size_t);
int close(int);
int strcmp(const char *, const char *);
int strncmp(const char *, const char *, size_t);

static unsigned char archive[1 << 20];
static size_t archive_size;

static uint64_t number_at(size_t at, size_t bytes)
{
    uint64_t x = 0;
    if (at > archive_size || bytes > archive_size - at) {
        CHECK(!"within the archive");
        return 0;
    }
    for (size_t i = 0; i < bytes; i++)
        x |= (uint64_t)archive[at + i] << 8 * i;
    return x;
}

/* A name in a string section; the archive's last byte is followed by a zero. */
static const char *name_at(size_t at)
{
    CHECK(at < archive_size);
    return at < archive_size ? (const char *)archive + at : "";
}

static const char *const wanted[] = {"memcpy", "memset"};
static const char *const given[] = {"daunsrevit_arc_swap", "daunsrevit_compute_parts_load", "daunsrevit_edge_cut",
    "daunsrevit_fiduccia_mattheyses", "daunsrevit_kernighan_lin", "daunsrevit_lambda_cut", "daunsrevit_read_plan",
    "daunsrevit_self_test", "daunsrevit_write_plan"};
static int found_wanted[2], found_given[9];

static void note(const char *name, const char *const *names, int *found, int count, const char *what)
{
    for (int i = 0; i < count; i++)
        if (strcmp(name, names[i]) == 0) {
            found[i]++;
            return;
        }
    printf("%s: %s\n", what, name);
    CHECK(!"a name that is not in the list");
}

enum { SYMBOLS = 2, NO_BITS = 8, WRITE = 1, ALLOCATED = 2, BY_THREAD = 0x400, LOCAL = 0, UNDEFINED = 0, COMMON = 0xfff2 };

static void symbols(size_t at, size_t size, size_t names)
{
    for (size_t symbol = at + 24; symbol + 24 <= at + size; symbol += 24) {
        const char *name = name_at(names + number_at(symbol, 4));
        uint64_t section = number_at(symbol + 6, 2);
        CHECK(section != COMMON);
        if (section == UNDEFINED)
            note(name, wanted, found_wanted, 2, "undefined");
        else if (number_at(symbol + 4, 1) >> 4 != LOCAL)
            note(name, given, found_given, 9, "given");
    }
}

static void object(size_t at)
{
    int tables = 0;
    CHECK(number_at(at, 4) == 0x464c457f); /* "\x7fELF" */
    CHECK(number_at(at + 4, 1) == 2);      /* 64 bits */
    CHECK(number_at(at + 16, 2) == 1);     /* an object to be linked */
    CHECK(number_at(at + 18, 2) == 62);    /* for x86-64 */
    size_t sections = at + number_at(at + 40, 8), count = number_at(at + 60, 2), names = number_at(at + 62, 2);
    CHECK(number_at(at + 58, 2) == 64);
    CHECK(count > 1);
    names = at + number_at(sections + 64 * names + 24, 8);
    for (size_t i = 0; i < count; i++) {
        size_t section = sections + 64 * i;
        const char *name = name_at(names + number_at(section, 4));
        uint64_t type = number_at(section + 4, 4), flags = number_at(section + 8, 8);
        int state = (flags & ALLOCATED && flags & (WRITE | BY_THREAD)) || type == NO_BITS || strncmp(name, ".data", 5) == 0
            || strncmp(name, ".bss", 4) == 0 || strncmp(name, ".tdata", 6) == 0 || strncmp(name, ".tbss", 5) == 0;
        if (state)
            printf("a section that keeps state: %s\n", name);
        CHECK(!state);
        if (type == SYMBOLS) {
            tables++;
            symbols(at + number_at(section + 24, 8), number_at(section + 32, 8),
                at + number_at(sections + 64 * number_at(section + 40, 4) + 24, 8));
        }
    }
    CHECK(tables == 1);
}

/* A member's size stands in decimal digits and spaces. */
static size_t size_at(size_t at)
{
    size_t x = 0;
    for (int i = 0; i < 10; i++) {
        uint64_t digit = number_at(at + i, 1);
        if (digit >= '0' && digit <= '9')
            x = 10 * x + digit - '0';
    }
    return x;
}

int main(void)
{
    int file = open("crates/daunsrevit/out/libdaunsrevit.a", 0), objects = 0;
    long got;
    CHECK(file >= 0);
    while (archive_size < sizeof archive - 1 && (got = read(file, archive + archive_size, sizeof archive - 1 - archive_size)) > 0)
        archive_size += (size_t)got;
    CHECK(archive_size < sizeof archive - 1);
    CHECK(close(file) == 0);
    CHECK(archive_size > 8 && memcmp(archive, "!<arch>\n", 8) == 0);
    for (size_t at = 8; at + 60 <= archive_size;) {
        size_t size = size_at(at + 48);
        /* A member whose name begins with a slash is the archive's own index or list of names. */
        if (archive[at] != '/' || (archive[at + 1] >= '0' && archive[at + 1] <= '9')) {
            objects++;
            object(at + 60);
        }
        at += 60 + size + size % 2;
    }
    CHECK(objects == 1);
    for (int i = 0; i < 2; i++)
        CHECK(found_wanted[i] == 1);
    for (int i = 0; i < 9; i++)
        CHECK(found_given[i] == 1);
    return finish("archive");
}
