/*
 * The word reader against a second one that was written from the formats with masks and shifts.
 * Words are drawn near the formats: sound ones, sound ones with one bit flipped, and random ones. Forms and offsets are mostly sound;
 * others are small, or past 2^8, 2^16, 2^31 and so on up to 2^63, with low bits that alone would be sound: a reader or a header that takes
 * fewer bits of them is found out.
 */
#include <inttypes.h>
#include <stdio.h>

#include "joistolive.h"

static uint64_t by_masks(uint64_t form, uint64_t word, uint64_t offset)
{
    const uint64_t compact_bits = UINT64_C(0xFFFF00FFFFFF0FFF);
    const uint64_t full_bits = UINT64_C(0x800000FFFFFFFFFF);

    if (offset > 15)
        return JOISTOLIVE_BAD_WORD;
    if (form == 1) {
        if ((word & ~compact_bits) || !(word >> 48))
            return JOISTOLIVE_BAD_WORD;
        if (!(word & (UINT64_C(1) << (48 + offset))))
            return JOISTOLIVE_NOT_MAPPED;
        return ((word & UINT64_C(0xFFFFFF0000)) | offset << 12) | (word & 0xFFF);
    }
    if (form == 2) {
        if (!word)
            return JOISTOLIVE_NOT_MAPPED;
        if ((word & ~full_bits) || !(word >> 63))
            return JOISTOLIVE_BAD_WORD;
        return word & UINT64_C(0xFFFFFFFFFF);
    }
    return JOISTOLIVE_BAD_WORD;
}

static uint64_t state = UINT64_C(0x9E3779B97F4A7C15);

static uint64_t draw(void)
{
    state ^= state << 13;
    state ^= state >> 7;
    state ^= state << 17;
    return state;
}

/* A number whose low bits are drawn below the limit, and which has one high bit or the upper half set. */
static uint64_t draw_far(uint64_t limit)
{
    static const uint64_t far[] = {
        UINT64_C(1) << 8,  UINT64_C(1) << 16, UINT64_C(1) << 31, UINT64_C(1) << 32,
        UINT64_C(1) << 33, UINT64_C(1) << 48, UINT64_C(1) << 63, UINT64_C(0xFFFFFFFF) << 32,
    };

    return far[draw() % (sizeof far / sizeof far[0])] + draw() % limit;
}

static uint64_t draw_form(void)
{
    switch (draw() % 32) {
    case 0:
        return draw() % 300;
    case 1:
        return draw_far(4);
    default:
        return 1 + draw() % 2;
    }
}

static uint64_t draw_offset(void)
{
    switch (draw() % 32) {
    case 0:
        return draw() % 300;
    case 1:
        return draw_far(20);
    default:
        return draw() % 16;
    }
}

static uint64_t draw_word(uint64_t form)
{
    uint64_t word = draw();
    if (draw() % 8)
        word = form == 1 ? word & UINT64_C(0xFFFF00FFFFFF0FFF) : (word & UINT64_C(0xFFFFFFFFFF)) | UINT64_C(1) << 63;
    if (draw() % 4 == 0)
        word ^= UINT64_C(1) << draw() % 64;
    if (draw() % 16 == 0)
        word = 0;
    return word;
}

int main(void)
{
    enum { CASES = 20000000 };
    uint64_t translated = 0, absent = 0, bad = 0;

    for (int i = 0; i < CASES; i++) {
        uint64_t form = draw_form();
        uint64_t word = draw_word(form);
        uint64_t offset = draw_offset();
        uint64_t expected = by_masks(form, word, offset);
        uint64_t answer = joistolive_read_word(form, word, offset);

        if (answer != expected) {
            printf("form %" PRIu64 " word 0x%016" PRIx64 " offset %" PRIu64 ": 0x%" PRIx64 ", expected 0x%" PRIx64 "\n",
                   form, word, offset, answer, expected);
            return 1;
        }
        if (answer == JOISTOLIVE_BAD_WORD)
            bad++;
        else if (answer == JOISTOLIVE_NOT_MAPPED)
            absent++;
        else
            translated++;
    }
    /* each kind of answer has to come up often, or the draw is no test */
    if (translated < CASES / 10 || absent < CASES / 10 || bad < CASES / 10) {
        printf("uneven draw: %" PRIu64 " translated, %" PRIu64 " absent, %" PRIu64 " bad\n", translated, absent, bad);
        return 1;
    }
    printf("reader by masks: %d words agree\n", CASES);
    return 0;
}
