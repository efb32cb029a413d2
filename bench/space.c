/*
 * Bytes for each mapped page: of a clustered table, of a hashed table with a node for each page, and of a radix tree of four levels.
 * Heads of chains are not counted, nor what is free.
 */
#include <inttypes.h>
#include <stdint.h>
#include <stdio.h>

uint64_t joistolive_bench_size(void);

enum {
    BLOCKS = 128,           /* as many as can have a row at once */
    NODE = 24 + 2,          /* block, kind of content, content; and a link */
    ROW = 16 * 8,
    HASHED = 24,            /* page, word and link */
    RADIX = 512 * 8,
};

/* The radix tree of these blocks: a node for each distinct prefix of their pages, and the root. */
static uint64_t radix_bytes(uint64_t first, uint64_t step)
{
    uint64_t nodes = 1;

    for (unsigned shift = 9; shift <= 27; shift += 9)
        for (uint64_t i = 0; i < BLOCKS; i++)
            if (i == 0 || (first + i * step) * 16 >> shift != (first + (i - 1) * step) * 16 >> shift)
                nodes++;
    return nodes * RADIX;
}

static void print_line(const char *kind, unsigned pages)
{
    double all = (double)BLOCKS * pages;

    printf("%-10s %5u %9.2f %9.2f %9.2f %12.2f %12.2f\n", kind, pages, (double)NODE / pages, (double)(NODE + ROW) / pages, (double)HASHED,
           radix_bytes(0, 1) / all, radix_bytes(0, UINT64_C(1) << 23) / all);
}

int main(void)
{
    printf("bytes of a whole table: %" PRIu64 "\n", joistolive_bench_size());
    printf("bytes for each mapped page, of %d blocks\n", BLOCKS);
    printf("%-10s %5s %9s %9s %9s %12s %12s\n", "blocks", "pages", "compact", "rows", "hashed", "radix, near", "radix, far");
    print_line("dense", 16);
    print_line("half full", 8);
    print_line("sparse", 1);
    return 0;
}
