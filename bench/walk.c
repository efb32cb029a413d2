/*
 * Times walks that hit: those of the proved page table, and those of the same structure written by hand below.
 * Both make a table with one chain of 1 to 4 nodes, and walk to its pages in one random order; their sums have to be equal.
 */
#define _GNU_SOURCE
#include <inttypes.h>
#include <stdbool.h>
#include <stdint.h>
#include <stdio.h>
#include <stdlib.h>
#include <string.h>
#include <time.h>

uint64_t joistolive_bench_walks(uint64_t nodes, uint64_t rounds);
uint64_t joistolive_bench_row_walks(uint64_t nodes, uint64_t rounds);

enum {
    NODES = 256,
    BUCKETS = 64,
    ROWS = 128,
    END = -1,
};

enum content { FREE, COMPACT, ROW };

/* 16 bytes: a compact word, or the number of a row */
struct held {
    enum content kind;
    uint64_t content;
};

/* 2-byte links: one byte names the 256 nodes, and leaves no value for the end of a chain */
struct table {
    int16_t heads[BUCKETS];
    int16_t next[NODES];
    int16_t free;
    uint64_t blocks[NODES];
    struct held held[NODES];
    uint64_t rows[ROWS][16];
    unsigned rows_used;
};

/* A word of either form, and how many nodes were looked at. */
struct walked {
    enum content form;
    uint64_t word;
    unsigned looked;
};

static unsigned bucket_of(uint64_t block)
{
    return (block + block / 64) % 64;
}

static inline bool walk(const struct table *table, uint64_t page, struct walked *walked)
{
    uint64_t block = page / 16;
    unsigned offset = page % 16;
    unsigned looked = 0;

    for (int i = table->heads[bucket_of(block)]; i != END; i = table->next[i]) {
        looked++;
        if (table->blocks[i] != block)
            continue;

        const struct held *held = &table->held[i];

        walked->looked = looked;
        walked->form = held->kind;
        if (held->kind == COMPACT) {
            walked->word = held->content;
            return held->content >> (48 + offset) & 1;
        }
        walked->word = table->rows[held->content][offset];
        return walked->word != 0;
    }
    return false;
}

static void empty(struct table *table)
{
    memset(table, 0, sizeof *table);
    for (int i = 0; i < BUCKETS; i++)
        table->heads[i] = END;
    for (int i = 0; i < NODES; i++)
        table->next[i] = i == NODES - 1 ? END : i + 1;
}

/* What the node of a block holds; it is linked at the head of its chain where it is new. */
static struct held *held_of(struct table *table, uint64_t block)
{
    int16_t *head = &table->heads[bucket_of(block)];

    for (int i = *head; i != END; i = table->next[i])
        if (table->blocks[i] == block)
            return &table->held[i];

    int i = table->free;
    table->free = table->next[i];
    table->next[i] = *head;
    *head = i;
    table->blocks[i] = block;
    table->held[i] = (struct held){.kind = FREE};
    return &table->held[i];
}

/* Maps a page to a frame, with read, write and execute; enough for the maps of this program, where a block is placed or not as a whole. */
static void map(struct table *table, uint64_t page, uint64_t frame)
{
    struct held *held = held_of(table, page / 16);

    if (frame % 16 == page % 16) {
        held->kind = COMPACT;
        held->content |= UINT64_C(1) << (48 + page % 16) | frame / 16 << 16 | 7;
        return;
    }
    if (held->kind == FREE) {
        held->kind = ROW;
        held->content = table->rows_used++;
    }
    table->rows[held->content][page % 16] = UINT64_C(1) << 63 | frame << 12 | 7;
}

static uint64_t page_of(unsigned number)
{
    return (number / 16 % 64 * 63 + 63) * 16 + number % 16;
}

static uint64_t hand_walks(unsigned nodes, uint64_t rounds, unsigned shift)
{
    struct table table;
    uint64_t pages[256];
    uint64_t state = 1, sum = 0;

    empty(&table);
    for (unsigned i = 0; i < 256; i++) {
        pages[i] = page_of(i % (nodes * 16));
        map(&table, pages[i], pages[i] % 0x1000000 + shift);
    }
    for (uint64_t i = 0; i < rounds; i++) {
        struct walked walked;

        state = state * 1566083941 + 1;
        if (walk(&table, pages[state >> 56], &walked))
            sum += walked.word + walked.looked;
    }
    return sum;
}

__attribute__((noinline)) static uint64_t hand_compact(uint64_t nodes, uint64_t rounds)
{
    return hand_walks(nodes, rounds, 0);
}

__attribute__((noinline)) static uint64_t hand_rows(uint64_t nodes, uint64_t rounds)
{
    return hand_walks(nodes, rounds, 5);
}

typedef uint64_t walks(uint64_t nodes, uint64_t rounds);

/* Processor time of this thread, so that other processes' turns do not count. */
static double now(void)
{
    struct timespec time;

    clock_gettime(CLOCK_THREAD_CPUTIME_ID, &time);
    return time.tv_sec * 1e9 + time.tv_nsec;
}

static double taken(walks *run, uint64_t nodes, uint64_t rounds, uint64_t *sum)
{
    double start = now();

    *sum = run(nodes, rounds);
    return now() - start;
}

static void keep_least(double *least, double value)
{
    if (value < *least)
        *least = value;
}

struct least {
    double set_up;
    double whole;
};

static void time_once(struct least *least, walks *run, uint64_t nodes, uint64_t rounds, uint64_t *sum)
{
    uint64_t nothing;

    keep_least(&least->set_up, taken(run, nodes, 0, &nothing));
    keep_least(&least->whole, taken(run, nodes, rounds, sum));
}

static double per_walk(struct least least, uint64_t rounds)
{
    return (least.whole - least.set_up) / rounds;
}

/* The least of several runs of each, in turn, without the set-up. */
static bool compare(const char *form, walks *proved, walks *hand, uint64_t nodes, unsigned repeats)
{
    const uint64_t rounds = 100000;
    struct least a = {1e18, 1e18}, b = {1e18, 1e18};
    uint64_t sum_a = 0, sum_b = 0;

    for (unsigned i = 0; i < repeats; i++) {
        time_once(&a, proved, nodes, rounds, &sum_a);
        time_once(&b, hand, nodes, rounds, &sum_b);
        if (sum_a != sum_b) {
            printf("%s, %" PRIu64 " nodes: the sums differ, %" PRIx64 " and %" PRIx64 "\n", form, nodes, sum_a, sum_b);
            return false;
        }
    }
    printf("%s %" PRIu64 " %.3f %.3f\n", form, nodes, per_walk(a, rounds), per_walk(b, rounds));
    return true;
}

/* For each form and number of nodes a line: the nanoseconds of a walk, proved and by hand. */
int main(int argc, char **argv)
{
    unsigned repeats = argc > 1 ? (unsigned)atoi(argv[1]) : 31;
    bool equal = true;

    for (uint64_t nodes = 1; nodes <= 4; nodes++)
        equal &= compare("compact", joistolive_bench_walks, hand_compact, nodes, repeats);
    for (uint64_t nodes = 1; nodes <= 4; nodes++)
        equal &= compare("full", joistolive_bench_row_walks, hand_rows, nodes, repeats);
    return equal ? 0 : 1;
}
