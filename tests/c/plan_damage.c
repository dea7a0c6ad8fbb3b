/* Damaged plans: each refusal of the reader, in files of both kinds, with its targets compared; blocks that changed places; and drawn
 * faults, of which the number is worked out here in plain steps. */
#include "plan_file.h"

/* The reader answers the bytes with this number and zeros. */
static int refusal(uint32_t number)
{
    static const uint32_t no_numbers[DAUNSREVIT_PARTS];
    struct daunsrevit_read_answer r = read_into_targets();
    return r.number == number && r.n == 0 && r.a == 0 && r.k == 0 && r.ceiling.choice == 0 && r.ceiling.whole == 0
        && bits_of(r.ceiling.imbalance) == 0 && memcmp(r.ceiling.each, no_numbers, sizeof no_numbers) == 0;
}

/* The targets are as they were. */
static int untouched(void)
{
    return memcmp(targets.labels, painted.labels, sizeof targets.labels) == 0
        && memcmp(targets.weights, painted.weights, sizeof targets.weights) == 0
        && memcmp(targets.starts, painted.starts, sizeof targets.starts) == 0
        && memcmp(targets.neighbours, painted.neighbours, sizeof targets.neighbours) == 0
        && memcmp(targets.arc_weights, painted.arc_weights, sizeof targets.arc_weights) == 0;
}

static int refused(uint32_t number)
{
    return refusal(number) && untouched();
}

static void plan_length(void)
{
    static const size_t lengths[] = {0, 1, 511, 513, 1023, 1025, 1535, 1537};
    for (size_t i = 0; i < sizeof lengths / sizeof lengths[0]; i++) {
        set_up();
        bytes_count = lengths[i];
        CHECK(refused(DAUNSREVIT_PLAN_LENGTH));
    }
    CHECK(daunsrevit_read_plan(0, 0, 0, 0, 0, 0, 0, 0, 0, 0, 0, 0).number == DAUNSREVIT_PLAN_LENGTH);
}

/* A flipped bit changes its word by a power of 2 below 2^32, and with it the sum: every one gives 10, but for those by which the header's byte 1
 * rises above 1, which give 11. */
static void flipped_bits(void)
{
    set_up();
    for (size_t i = 0; i < bytes_count; i++) {
        for (int bit = 0; bit < 8; bit++) {
            bytes[i] ^= (uint8_t)(1 << bit);
            CHECK(refusal(bytes[1] > 1 ? DAUNSREVIT_HEADER : DAUNSREVIT_BLOCK_CHECK));
            bytes[i] ^= (uint8_t)(1 << bit);
        }
        CHECK(untouched());
    }
}

/* Word w of a block is x, and the block's check holds. */
static void check_word(size_t block, size_t w, uint32_t x, uint32_t number, int line)
{
    set_up();
    put_word(bytes + 512 * block, w, x);
    mend(bytes, block);
    check(refused(number), "refused with this number, and no target is written", __FILE__, line);
}
#define WORD(block, w, x, number) check_word(block, w, x, number, __LINE__)

/* The ceiling's choice and value in the header, and the check holds. */
static void check_value(uint32_t choice, uint64_t value, int line)
{
    set_up();
    put_word(bytes, 4, choice);
    put_word(bytes, 5, (uint32_t)value);
    put_word(bytes, 6, (uint32_t)(value >> 32));
    mend(bytes, 0);
    check(refused(DAUNSREVIT_HEADER_RANGE), "the value does not fit its choice", __FILE__, line);
}
#define VALUE(choice, value) check_value(choice, value, __LINE__)

static void damaged_header(void)
{
    WORD(0, 0, opening(0, 3), DAUNSREVIT_HEADER);
    WORD(0, 0, opening(2, 3), DAUNSREVIT_HEADER);
    WORD(0, 0, opening(1, 2), DAUNSREVIT_HEADER);
    WORD(0, 0, opening(1, 4), DAUNSREVIT_HEADER);
    for (uint32_t kind = 2; kind < 256; kind++)
        WORD(0, 0, 1 | kind << 8 | 3 << 16, DAUNSREVIT_HEADER);
    /* The other kind in the header: the later blocks have not the sums that it asks. */
    WORD(0, 0, 1 | !file_kind << 8 | 3 << 16, DAUNSREVIT_BLOCK_CHECK);
    for (size_t w = 7; w < 127; w++)
        WORD(0, w, 1u << w % 32, DAUNSREVIT_HEADER);
    WORD(0, 1, 0, DAUNSREVIT_HEADER_RANGE);
    WORD(0, 1, 4097, DAUNSREVIT_HEADER_RANGE);
    WORD(0, 1, 4294967295u, DAUNSREVIT_HEADER_RANGE);
    WORD(0, 2, 65536, DAUNSREVIT_HEADER_RANGE);
    WORD(0, 3, 0, DAUNSREVIT_HEADER_RANGE);
    WORD(0, 3, 1, DAUNSREVIT_HEADER_RANGE);
    WORD(0, 3, 17, DAUNSREVIT_HEADER_RANGE);
    WORD(0, 4, 4, DAUNSREVIT_HEADER_RANGE);
    WORD(0, 4, 4294967295u, DAUNSREVIT_HEADER_RANGE);
    VALUE(0, 1);
    VALUE(0, 0x100000000u);
    VALUE(1, 0x100000000u);
    VALUE(2, NAN_BITS);
    VALUE(2, BELOW_ZERO_BITS);
    VALUE(2, ABOVE_64_BITS);
    VALUE(2, INFINITY_BITS);
    VALUE(4, 0);
}

/* A header with this choice, this many records and this value, and numbers by part in the first `words` of its further places; the check
 * holds. */
static void put_choice(uint32_t choice, uint32_t records, uint64_t value, size_t words)
{
    set_up();
    put_word(bytes, 0, opening(1, records));
    put_word(bytes, 4, choice);
    put_word(bytes, 5, (uint32_t)value);
    put_word(bytes, 6, (uint32_t)(value >> 32));
    for (size_t t = 0; t < words; t++)
        put_word(bytes, 7 + t, 100 + (uint32_t)t);
    mend(bytes, 0);
}

/* The record count is judged by the choice: eleven records with choice 3, three with every other, also with one above 3. What is past the
 * count is 11; a choice above 3 and a value that is not 0 with choice 3 are 12. */
static void records_by_choice(void)
{
    for (uint32_t records = 0; records < 64; records++) {
        put_choice(3, records, 0, 0);
        CHECK(records == 11 ? read_into_targets().number == DAUNSREVIT_DONE : refused(DAUNSREVIT_HEADER));
        for (uint32_t choice = 4; choice < 9; choice++) {
            put_choice(choice, records, 0, 0);
            CHECK(refused(records == 3 ? DAUNSREVIT_HEADER_RANGE : DAUNSREVIT_HEADER));
        }
        for (uint32_t choice = 0; choice < 3; choice++) {
            put_choice(choice, records, 0, 0);
            CHECK(records == 3 ? read_into_targets().number == DAUNSREVIT_DONE : refused(DAUNSREVIT_HEADER));
        }
    }
    for (int bit = 0; bit < 64; bit++) {
        put_choice(3, 11, (uint64_t)1 << bit, 16);
        CHECK(refused(DAUNSREVIT_HEADER_RANGE));
    }
    for (uint32_t choice = 0; choice < 6; choice++) {
        put_choice(choice, choice == 3 ? 11 : 3, 0, choice == 3 ? 17 : 1);
        CHECK(refused(DAUNSREVIT_HEADER));
    }
    put_choice(3, 11, 0, 16);
    struct daunsrevit_read_answer r = read_into_targets();
    CHECK(r.number == DAUNSREVIT_DONE);
    CHECK(r.k == 2);
    CHECK(r.ceiling.choice == DAUNSREVIT_EACH);
    CHECK(r.ceiling.whole == 0);
    CHECK(bits_of(r.ceiling.imbalance) == 0);
    for (uint32_t t = 0; t < DAUNSREVIT_PARTS; t++)
        CHECK(r.ceiling.each[t] == 100 + t);
}

static void damaged_later_blocks(void)
{
    WORD(1, 0, opening(1, 8), DAUNSREVIT_LATER_BLOCK);
    WORD(1, 0, opening(3, 8), DAUNSREVIT_LATER_BLOCK);
    WORD(1, 0, opening(2, 7), DAUNSREVIT_LATER_BLOCK);
    WORD(1, 0, opening(2, 9), DAUNSREVIT_LATER_BLOCK);
    WORD(2, 0, opening(2, 20), DAUNSREVIT_LATER_BLOCK);
    WORD(2, 0, opening(3, 21), DAUNSREVIT_LATER_BLOCK);
    /* A byte 1 other than the header's, in a block that has the sum that the header's kind asks. */
    for (uint32_t kind = 0; kind < 256; kind++)
        if (kind != file_kind) {
            WORD(1, 0, 2 | kind << 8 | 8 << 16, DAUNSREVIT_LATER_BLOCK);
            WORD(2, 0, 3 | kind << 8 | 20 << 16, DAUNSREVIT_LATER_BLOCK);
        }
    for (size_t w = 17; w < 127; w++)
        WORD(1, w, 1u << w % 32, DAUNSREVIT_LATER_BLOCK);
    for (size_t w = 41; w < 127; w++)
        WORD(2, w, 1u << w % 32, DAUNSREVIT_LATER_BLOCK);
    /* n and a other than what the blocks hold, and a block too few or too many. */
    WORD(0, 1, 7, DAUNSREVIT_LATER_BLOCK);
    WORD(0, 1, 4096, DAUNSREVIT_LATER_BLOCK);
    WORD(0, 2, 0, DAUNSREVIT_LATER_BLOCK);
    WORD(0, 2, 65535, DAUNSREVIT_LATER_BLOCK);
    set_up();
    bytes_count -= 512;
    CHECK(refused(DAUNSREVIT_LATER_BLOCK));
    bytes_count -= 512;
    CHECK(refused(DAUNSREVIT_LATER_BLOCK));
    /* A block of zeros past the last has the sum that the old kind asks; with its position as its last word, the sum that the new one does. */
    bytes_count = 2048;
    CHECK(refused(file_kind == 0 ? DAUNSREVIT_LATER_BLOCK : DAUNSREVIT_BLOCK_CHECK));
    put_word(bytes + 1536, 127, 3);
    CHECK(refused(file_kind == 0 ? DAUNSREVIT_BLOCK_CHECK : DAUNSREVIT_LATER_BLOCK));
}

/* A block is summed by the header's kind, whatever its own byte 1 is. */
static void summed_by_the_header(void)
{
    set_up();
    put_word(bytes + 512, 0, 2 | !file_kind << 8 | 8 << 16);
    mend_to(bytes, 1, file_kind);
    CHECK(refused(DAUNSREVIT_LATER_BLOCK));
    mend_to(bytes, 1, !file_kind);
    CHECK(refused(DAUNSREVIT_BLOCK_CHECK));
}

/* Vertex 0 stands in words 1 and 2: weight 1, label 0, degree 2. */
static void damaged_records(void)
{
    WORD(1, 2, 0 | 1 << 16, DAUNSREVIT_RECORDS);
    WORD(1, 2, 0 | 3 << 16, DAUNSREVIT_RECORDS);
    WORD(1, 2, 0 | 65535u << 16, DAUNSREVIT_RECORDS);
    WORD(1, 2, 2 | 2 << 16, DAUNSREVIT_RECORDS);
    WORD(1, 16, 65535 | 2 << 16, DAUNSREVIT_RECORDS);
}

static void short_targets(void)
{
#define SHORT(change) \
    do { \
        set_up(); \
        change; \
        CHECK(refused(DAUNSREVIT_SHORT_TARGET)); \
    } while (0)
    SHORT(targets.labels_count--);
    SHORT(targets.weights_count--);
    SHORT(targets.starts_count--);
    SHORT(targets.neighbours_count--);
    SHORT(targets.arc_weights_count--);
    SHORT(targets.starts_count = 0);
    SHORT(targets.arc_weights_count = 0);
}

/* The reader gives the first number that applies: every choice of faults, where fault i alone gives the number first_is[i]. */
static void reading_order(void)
{
    static const uint32_t first_is[8] = {9, 11, 10, 11, 12, 13, 14, 15};
    for (unsigned faults = 1; faults < 1 << 8; faults++) {
        unsigned first = 0;
        while (!has(faults, first))
            first++;
        set_up();
        if (has(faults, 3))
            put_word(bytes, 126, 1);
        if (has(faults, 4))
            put_word(bytes, 4, 4);
        if (has(faults, 5))
            bytes[1025] ^= 1;
        if (has(faults, 6))
            put_word(bytes + 512, 2, 0 | 3 << 16);
        for (size_t block = 0; block < 3; block++)
            mend(bytes, block);
        if (has(faults, 1))
            bytes[1] = 2;
        if (has(faults, 2))
            bytes[1535] ^= 1;
        if (has(faults, 0))
            bytes_count++;
        if (has(faults, 7))
            targets.starts_count--;
        CHECK(refused(first_is[first]));
    }
    /* 600 bytes are 9, whatever the header's byte 1 is. */
    set_up();
    bytes[1] = 2;
    bytes_count = 600;
    CHECK(refused(DAUNSREVIT_PLAN_LENGTH));
    /* The header's byte 1 alone comes ahead of 10, not the rest of 11. */
    set_up();
    bytes[0] = 5;
    CHECK(refused(DAUNSREVIT_BLOCK_CHECK));
}

/* The plan of a path of 500 vertices: a header, 8 blocks of vertices and 16 of arcs, the last of each kind not full. */
enum { LAST_VERTICES = 8, LAST_ARCS = 24, PATH_BLOCKS = 25 };

static void set_up_path(void)
{
    make_path(&p.l, 500);
    for (size_t v = 0; v < 500; v++)
        p.l.weights[v] = (uint32_t)v;
    set_ceiling(2, DAUNSREVIT_CARRIED, 0, 0);
    bytes_count = make_by_hand(file_kind);
    memcpy(bytes, by_hand, bytes_count + 1024);
    lend(0);
}

/* The path's plan without a block, and with a block twice. */
static void cut_block(size_t block)
{
    set_up_path();
    memcpy(bytes + 512 * block, by_hand + 512 * (block + 1), bytes_count - 512 * (block + 1));
    bytes_count -= 512;
}

static void double_block(size_t block)
{
    set_up_path();
    memcpy(bytes + 512 * (block + 1), by_hand + 512 * block, bytes_count - 512 * block);
    bytes_count += 512;
}

static void exchange_blocks(size_t one, size_t two)
{
    memcpy(bytes + 512 * one, by_hand + 512 * two, 512);
    memcpy(bytes + 512 * two, by_hand + 512 * one, 512);
}

/* Whole blocks that changed their places, in a file of the new kind: each has another's position as its sum. */
static void moved_new_blocks(void)
{
    file_kind = 1;
    for (size_t one = 0; one < PATH_BLOCKS; one++)
        for (size_t two = one + 1; two < PATH_BLOCKS; two++) {
            set_up_path();
            exchange_blocks(one, two);
            CHECK(refused(DAUNSREVIT_BLOCK_CHECK));
        }
    /* A block cut off, and a block doubled: the blocks past it have changed their places, but none where the last is cut off. */
    for (size_t block = 0; block < PATH_BLOCKS; block++) {
        cut_block(block);
        CHECK(refused(block == LAST_ARCS ? DAUNSREVIT_LATER_BLOCK : DAUNSREVIT_BLOCK_CHECK));
        double_block(block);
        CHECK(refused(DAUNSREVIT_BLOCK_CHECK));
    }
}

/* The same in a file of the old kind: each block's check holds, so kinds and counts must tell. */
static void moved_old_blocks(void)
{
    file_kind = 0;
    for (size_t one = 0; one < PATH_BLOCKS; one++)
        for (size_t two = one + 1; two < PATH_BLOCKS; two++) {
            int both_full = (one >= 1 && two < LAST_VERTICES) || (one > LAST_VERTICES && two < LAST_ARCS);
            set_up_path();
            exchange_blocks(one, two);
            if (!both_full)
                CHECK(refused(one == 0 ? DAUNSREVIT_HEADER : DAUNSREVIT_LATER_BLOCK));
            else
                CHECK(read_into_targets().number == DAUNSREVIT_DONE);
        }

    /* Two full blocks of one kind, exchanged, are another plan. */
    set_up_path();
    exchange_blocks(1, 2);
    CHECK(read_into_targets().number == DAUNSREVIT_DONE);
    for (size_t v = 0; v < 500; v++)
        CHECK(targets.weights[v] == (v < 63 ? v + 63 : v < 126 ? v - 63 : v));
    set_up_path();
    exchange_blocks(LAST_VERTICES + 1, LAST_VERTICES + 6);
    CHECK(read_into_targets().number == DAUNSREVIT_DONE);
    CHECK(memcmp(targets.neighbours, p.l.neighbours + 5 * 63, 63 * 4) == 0);
    CHECK(memcmp(targets.neighbours + 5 * 63, p.l.neighbours, 63 * 4) == 0);

    for (size_t block = 0; block < PATH_BLOCKS; block++) {
        cut_block(block);
        CHECK(refused(block == 0 ? DAUNSREVIT_HEADER : DAUNSREVIT_LATER_BLOCK));
        double_block(block);
        CHECK(refused(DAUNSREVIT_LATER_BLOCK));
    }
}

/* The number by document 01 and document 02's A2 and A4, in plain steps: of the bytes, and of the targets' lengths. */
static int block_laid(size_t block, uint32_t kind, uint32_t count)
{
    const uint8_t *at = bytes + 512 * block;
    int laid = at[0] == kind && at[1] == bytes[1] && (at[2] | at[3] << 8) == (int)count;
    for (size_t w = 1 + 2 * count; w < 127; w++)
        laid = laid && word_of(at, w) == 0;
    return laid;
}

static int value_fits(uint32_t choice, uint64_t value)
{
    double e = of_bits(value);
    return choice == 0 || choice == 3 ? value == 0 : choice == 1 ? value <= 4294967295u : choice == 2 && e >= 0.0 && e <= 64.0;
}

static int blocks_laid(size_t n, size_t arcs)
{
    size_t vertices = blocks_for(n), blocks = 1 + vertices + blocks_for(arcs);
    int laid = bytes_count / 512 == blocks;
    for (size_t b = 1; laid && b < blocks; b++) {
        size_t left = b <= vertices ? n - 63 * (b - 1) : arcs - 63 * (b - 1 - vertices);
        laid = block_laid(b, b <= vertices ? 2 : 3, left < 63 ? (uint32_t)left : 63);
    }
    return laid;
}

static int records_fit(size_t n, size_t arcs, uint32_t k)
{
    size_t degrees = 0;
    int below = 1;
    for (size_t v = 0; v < n; v++) {
        uint32_t second = word_of(bytes + 512 * (1 + v / 63), 2 + 2 * (v % 63));
        below = below && (second & 65535) < k;
        degrees += second >> 16;
    }
    return below && degrees == arcs;
}

static uint32_t number_by_hand(void)
{
    if (bytes_count == 0 || bytes_count % 512 != 0)
        return 9;
    if (bytes[1] > 1)
        return 11;
    for (size_t block = 0; block < bytes_count / 512; block++) {
        uint32_t sum = 0;
        for (size_t w = 0; w < 128; w++)
            sum += word_of(bytes + 512 * block, w);
        if (sum != (bytes[1] == 0 ? 0 : block))
            return 10;
    }
    if (!block_laid(0, 1, word_of(bytes, 4) == 3 ? 11 : 3))
        return 11;
    size_t n = word_of(bytes, 1), arcs = word_of(bytes, 2);
    uint32_t k = word_of(bytes, 3);
    if (n < 1 || n > 4096 || arcs > 65535 || k < 2 || k > 16)
        return 12;
    if (!value_fits(word_of(bytes, 4), word_of(bytes, 5) | (uint64_t)word_of(bytes, 6) << 32))
        return 12;
    if (!blocks_laid(n, arcs))
        return 13;
    if (!records_fit(n, arcs, k))
        return 14;
    return targets.labels_count < n || targets.weights_count < n || targets.starts_count < n + 1 || targets.neighbours_count < arcs
            || targets.arc_weights_count < arcs
        ? 15
        : 0;
}

/* The first elements of each target, more than a drawn file lends of any, and what they are to be. */
enum { FEW_VERTICES = 200, FEW_ARCS = 400, FEW = 512 };
static struct lists wanted;

static void paint_first(struct lists *l)
{
    memcpy(l->labels, painted.labels, 4 * FEW);
    memcpy(l->weights, painted.weights, 4 * FEW);
    memcpy(l->starts, painted.starts, 4 * FEW);
    memcpy(l->neighbours, painted.neighbours, 4 * FEW);
    memcpy(l->arc_weights, painted.arc_weights, 4 * FEW);
}

static int first_as_wanted(void)
{
    return memcmp(targets.labels, wanted.labels, 4 * FEW) == 0 && memcmp(targets.weights, wanted.weights, 4 * FEW) == 0
        && memcmp(targets.starts, wanted.starts, 4 * FEW) == 0 && memcmp(targets.neighbours, wanted.neighbours, 4 * FEW) == 0
        && memcmp(targets.arc_weights, wanted.arc_weights, 4 * FEW) == 0;
}

/* What stands in the places of a file that is accepted is what the targets are to hold. */
static void want_places(size_t n, size_t arcs)
{
    uint32_t row = 0;
    for (size_t v = 0; v < n; v++) {
        const uint8_t *block = bytes + 512 * (1 + v / 63);
        uint32_t second = word_of(block, 2 + 2 * (v % 63));
        wanted.weights[v] = word_of(block, 1 + 2 * (v % 63));
        wanted.labels[v] = second & 65535;
        wanted.starts[v] = row;
        row += second >> 16;
    }
    wanted.starts[n] = row;
    for (size_t e = 0; e < arcs; e++) {
        const uint8_t *block = bytes + 512 * (1 + blocks_for(n) + e / 63);
        wanted.neighbours[e] = word_of(block, 1 + 2 * (e % 63));
        wanted.arc_weights[e] = word_of(block, 2 + 2 * (e % 63));
    }
}

/* The file is accepted: the header's numbers are answered, the places are in the targets, and nothing past them is written. */
static int accepted(void)
{
    uint32_t choice = word_of(bytes, 4);
    uint64_t value = word_of(bytes, 5) | (uint64_t)word_of(bytes, 6) << 32;
    struct daunsrevit_read_answer r = read_into_targets();
    want_places(word_of(bytes, 1), word_of(bytes, 2));
    for (size_t t = 0; t < DAUNSREVIT_PARTS; t++)
        if (r.ceiling.each[t] != (choice == 3 ? word_of(bytes, 7 + t) : 0))
            return 0;
    return r.number == DAUNSREVIT_DONE && r.n == word_of(bytes, 1) && r.a == word_of(bytes, 2) && r.k == word_of(bytes, 3)
        && r.ceiling.choice == choice && r.ceiling.whole == (choice == 1 ? value : 0) && bits_of(r.ceiling.imbalance) == (choice == 2 ? value : 0)
        && first_as_wanted();
}

/* A target of up to two elements less. */
static void shorten(size_t *count)
{
    uint32_t less = draw(3);
    *count -= *count < less ? *count : less;
}

/* One fault, drawn, in a file of so many blocks: two of them at least. */
static void draw_fault(uint32_t blocks)
{
    uint32_t block = draw(blocks), other = (block + 1 + draw(blocks - 1)) % blocks, word = draw(128), small = draw(70), large = draw(70000);
    uint8_t *at = bytes + 512 * block, *there = bytes + 512 * other;
    switch (draw(15)) {
    case 0: at[4 * word + small % 4] ^= (uint8_t)(1u << large % 8); break;
    case 1: put_word(at, word, draw(4294967295u)); break;
    case 2: put_word(bytes, 1 + word % 6, small); break;
    case 3: put_word(bytes, 1 + word % 3, large); break;
    case 4: at[1] = (uint8_t)(small % 4); break;
    case 5: at[word % 4] = (uint8_t)(small % 5); break;
    case 6: bytes[1] = (uint8_t)(small % 3); break;
    case 7: memcpy(at, there, 512); break;
    case 8:
        memcpy(by_hand, at, 512);
        memcpy(at, there, 512);
        memcpy(there, by_hand, 512);
        break;
    case 9: bytes_count = 512 * (1 + small % (blocks + 2)); break;
    case 10: bytes_count += small % 3; break;
    case 11: put_word(bytes + 512 * (1 + block % (blocks - 1)), 2 + 2 * (word % 63), small % 20 | large % 4 << 16); break;
    case 12: bytes[2] = small % 2 ? 11 : 3; break;
    case 13: put_word(bytes, 4, small % 6); break;
    default: shorten(small % 2 ? &targets.starts_count : &targets.arc_weights_count); break;
    }
}

/* Drawn plans in files of both kinds with up to three faults, the blocks mended or not: the reader's number is the one by hand, a refusal
 * writes nothing, and what it accepts is what stands in the file. */
static void drawn_faults(void)
{
    static uint8_t fresh[512 * 16];
    unsigned seen[16] = {0};
    for (int plan = 0; plan < 200; plan++) {
        size_t n = 1 + draw(FEW_VERTICES), arcs = draw(FEW_ARCS);
        make_drawn(n, arcs);
        size_t length = make_by_hand(draw(2));
        memcpy(fresh, by_hand, length + 1024);
        for (int i = 0; i < 100; i++) {
            memcpy(bytes, fresh, length + 1024);
            bytes_count = length;
            paint_first(&targets);
            paint_first(&wanted);
            set_counts(&targets, n, arcs);
            for (uint32_t faults = draw(4); faults > 0; faults--)
                draw_fault((uint32_t)(length / 512));
            file_kind = bytes[1] > 0;
            for (size_t block = 0; block < length / 512 + 2 && draw(8) != 0; block++)
                mend(bytes, block);
            uint32_t number = number_by_hand();
            seen[number]++;
            CHECK(number == 0 ? accepted() : refusal(number) && first_as_wanted());
        }
    }
    /* Every number was seen many times. */
    for (int number = 9; number <= 15; number++)
        CHECK(seen[number] >= 100);
    CHECK(seen[0] >= 100);
}

int main(void)
{
    paint(&painted);
    for (uint32_t kind = 0; kind < 2; kind++) {
        file_kind = kind;
        plan_length();
        flipped_bits();
        damaged_header();
        records_by_choice();
        damaged_later_blocks();
        summed_by_the_header();
        damaged_records();
        short_targets();
        reading_order();
    }
    moved_new_blocks();
    moved_old_blocks();
    drawn_faults();
    return finish("plan_damage");
}
