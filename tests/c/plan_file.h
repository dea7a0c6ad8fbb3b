/* Plan files of both kinds, made here word by word as document 01 and document 02's A2 and A4 lay them out, and the call of the reader
 * on them. */
#include "check.h"

/* The largest plan that there is: 1 header, 66 blocks of vertices, 1,041 of arcs. */
#define MOST_BLOCKS 1108
#define ROOM ((MOST_BLOCKS + 2) * DAUNSREVIT_BLOCK)

/* What is written, or read: the lists, the header and the ceiling. */
struct plan {
    struct lists l;
    uint32_t k;
    struct daunsrevit_ceiling ceiling;
};

static struct plan p;
static struct lists targets, painted;
static size_t bytes_count;
static uint8_t bytes[ROOM], by_hand[ROOM];

/* The kind of the files that are made by hand: byte 1 of each block, 0 the old one, 1 the new one. */
static uint32_t file_kind;

static struct daunsrevit_read_answer read_into_targets(void)
{
    return daunsrevit_read_plan(bytes, bytes_count, targets.labels, targets.labels_count, targets.weights, targets.weights_count,
        targets.starts, targets.starts_count, targets.neighbours, targets.neighbours_count,
        targets.arc_weights, targets.arc_weights_count);
}

/* A ceiling by one of the first three choices, which do not look at the numbers by part: these are painted. */
static void set_ceiling(uint32_t k, uint32_t choice, uint32_t whole, double imbalance)
{
    p.k = k;
    p.ceiling.choice = choice;
    p.ceiling.whole = whole;
    p.ceiling.imbalance = imbalance;
    memset(p.ceiling.each, 0xa5, sizeof p.ceiling.each);
}

/* Part t's number in a plan: part of it with choice 3 alone. */
static uint32_t number_of(size_t t)
{
    return p.ceiling.choice == DAUNSREVIT_EACH ? p.ceiling.each[t] : 0;
}

/* Word w of a block, or of a file: four bytes, the lowest first. */
static void put_word(uint8_t *at, size_t w, uint32_t x)
{
    for (int i = 0; i < 4; i++)
        at[4 * w + i] = (uint8_t)(x >> 8 * i);
}

static uint32_t word_of(const uint8_t *at, size_t w)
{
    uint32_t x = 0;
    for (int i = 0; i < 4; i++)
        x |= (uint32_t)at[4 * w + i] << 8 * i;
    return x;
}

/* The block's last word, by which the sum of its 128 words, wrapping, is this. */
static void mend_to(uint8_t *at, size_t block, uint32_t must)
{
    uint32_t sum = 0;
    for (size_t w = 0; w < 127; w++)
        sum += word_of(at + 512 * block, w);
    put_word(at + 512 * block, 127, must - sum);
}

/* What its file's kind asks: 0, or the block's position. */
static void mend(uint8_t *at, size_t block)
{
    mend_to(at, block, file_kind == 0 ? 0 : (uint32_t)block);
}

/* A block's first word. */
static uint32_t opening(uint32_t kind, uint32_t count)
{
    return kind | file_kind << 8 | count << 16;
}

static size_t blocks_for(size_t records)
{
    return (records + 62) / 63;
}

/* Where record i of those of its kind stands, from its kind's first block on; the blocks' openings are put on the way. */
static uint8_t *put_record(size_t first_block, uint32_t kind, size_t i)
{
    uint8_t *block = by_hand + 512 * (first_block + i / 63);
    put_word(block, 0, opening(kind, (uint32_t)(i % 63 + 1)));
    return block + 4 + 8 * (i % 63);
}

/* The plan's file of this kind, and two blocks of zeros past its end. */
static size_t make_by_hand(uint32_t kind)
{
    file_kind = kind;
    size_t n = p.l.labels_count, arcs = p.l.neighbours_count, blocks = 1 + blocks_for(n) + blocks_for(arcs);
    uint64_t value = p.ceiling.choice == 1 ? p.ceiling.whole : p.ceiling.choice == 2 ? bits_of(p.ceiling.imbalance) : 0;
    uint32_t header[22] = {(uint32_t)n, (uint32_t)arcs, p.k, p.ceiling.choice, (uint32_t)value, (uint32_t)(value >> 32)};
    for (size_t t = 0; t < DAUNSREVIT_PARTS; t++)
        header[6 + t] = number_of(t);
    memset(by_hand, 0, 512 * (blocks + 2));
    for (size_t i = 0; i < (p.ceiling.choice == DAUNSREVIT_EACH ? 11 : 3); i++) {
        uint8_t *at = put_record(0, 1, i);
        put_word(at, 0, header[2 * i]);
        put_word(at, 1, header[2 * i + 1]);
    }
    for (size_t v = 0; v < n; v++) {
        uint8_t *at = put_record(1, 2, v);
        put_word(at, 0, p.l.weights[v]);
        put_word(at, 1, p.l.labels[v] | (p.l.starts[v + 1] - p.l.starts[v]) << 16);
    }
    for (size_t e = 0; e < arcs; e++) {
        uint8_t *at = put_record(1 + blocks_for(n), 3, e);
        put_word(at, 0, p.l.neighbours[e]);
        put_word(at, 1, p.l.arc_weights[e]);
    }
    for (size_t block = 0; block < blocks; block++)
        mend(by_hand, block);
    return 512 * blocks;
}

/* Targets that are by `extra` longer than is needed, all painted. */
static void lend(size_t extra)
{
    memcpy(&targets, &painted, sizeof targets);
    set_counts(&targets, p.l.labels_count, p.l.neighbours_count);
    targets.labels_count += extra;
    targets.weights_count += extra;
    targets.starts_count += extra;
    targets.neighbours_count += extra;
    targets.arc_weights_count += extra;
}

/* A number below this, drawn. */
static uint32_t drawn = 1;
static uint32_t draw(uint32_t below)
{
    drawn = drawn * 1664525u + 1013904223u;
    return (uint32_t)((uint64_t)drawn * below >> 32);
}

/* A plan of n vertices and so many arcs, all else drawn; a plan need not be a graph that the refiners take. */
static void make_drawn(size_t n, size_t arcs)
{
    paint(&p.l);
    p.k = 2 + draw(15);
    p.ceiling.choice = draw(4);
    p.ceiling.whole = draw(4294967295u);
    p.ceiling.imbalance = draw(4096) / 64.0;
    for (size_t t = 0; t < DAUNSREVIT_PARTS; t++)
        p.ceiling.each[t] = draw(4294967295u);
    p.l.starts[0] = 0;
    for (size_t v = 0; v < n; v++) {
        size_t left = arcs - p.l.starts[v];
        size_t degree = v + 1 == n ? left : draw((uint32_t)(2 * left / (n - v) + 1));
        p.l.starts[v + 1] = p.l.starts[v] + (uint32_t)degree;
        p.l.weights[v] = draw(4294967295u);
        p.l.labels[v] = draw(p.k);
    }
    for (size_t e = 0; e < arcs; e++) {
        p.l.neighbours[e] = draw(4294967295u);
        p.l.arc_weights[e] = draw(4294967295u);
    }
    set_counts(&p.l, n, arcs);
}

/* The grid's plan, in a file of the kind at hand: three blocks, and targets as long as is needed. */
static void set_up(void)
{
    static const uint32_t a[8] = {0, 0, 1, 1, 0, 1, 0, 1};
    make_grid(&p.l, a);
    set_ceiling(2, DAUNSREVIT_IMBALANCE, 0, 0.25);
    bytes_count = make_by_hand(file_kind);
    memcpy(bytes, by_hand, bytes_count + 1024);
    lend(0);
}
