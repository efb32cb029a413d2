/* A TLB miss handler in small: takes the form and the word of the page that missed, and prints what it would load. */
#include <inttypes.h>
#include <stdio.h>

#include "joistolive.h"

struct entry {
    uint64_t form;
    uint64_t word;
};

static void handle_miss(uint64_t address, struct entry entry)
{
    uint64_t offset = address / 4096 % 16;
    uint64_t answer = joistolive_read_word(entry.form, entry.word, offset);

    if (answer & JOISTOLIVE_REFUSED) {
        printf("0x%" PRIx64 ": refused %" PRIu64 "\n", address, answer - JOISTOLIVE_REFUSED);
        return;
    }
    printf("0x%" PRIx64 ": frame 0x%" PRIx64 ", attributes 0x%" PRIx64 ", physical 0x%" PRIx64 "\n", address,
           answer / 4096, answer % 4096, answer / 4096 * 4096 + address % 4096);
}

int main(void)
{
    /* page 0x41 alone, on frame 0x1001: a compact word */
    struct entry placed = {JOISTOLIVE_COMPACT, UINT64_C(0x0002000001000003)};
    /* the same page on frame 0x1000, which has another offset: a full word */
    struct entry misplaced = {JOISTOLIVE_FULL, UINT64_C(0x8000000001000003)};
    /* a word with no offset bit */
    struct entry broken = {JOISTOLIVE_COMPACT, UINT64_C(0x0000000001000003)};

    handle_miss(UINT64_C(0x41034), placed);
    handle_miss(UINT64_C(0x42034), placed);
    handle_miss(UINT64_C(0x41034), misplaced);
    handle_miss(UINT64_C(0x41034), broken);
    return 0;
}
