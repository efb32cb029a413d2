/*
 * The word reader, for a TLB miss handler.
 *
 * joistolive_read_word answers, for a mapping word and the offset of a page in its block of sixteen,
 * the frame and the attributes of that page.  It takes any three numbers, and always returns.
 *
 *   form    1: compact word, 2: full word
 *   word    the mapping word
 *             compact: bits 63 to 48 one bit for each offset (offset 0 in bit 48), at least one of them set;
 *                      bits 39 to 16 the frame block; bits 11 to 0 the attributes; zeros elsewhere
 *             full:    bit 63 set; bits 39 to 12 the frame; bits 11 to 0 the attributes; zeros elsewhere;
 *                      or zero, the empty word
 *   offset  the page's offset in its block, page mod 16
 *
 * Answer:
 *   frame * 4096 + attributes, below 2^40, where the page is in the word: the frame of a compact word is
 *     frame block * 16 + offset, that of a full word is the same at every offset;
 *   JOISTOLIVE_BAD_WORD    there is no such form, the offset is over 15, or the word breaks the rules of its form;
 *   JOISTOLIVE_NOT_MAPPED  else, where the word is sound and the page is not in it.
 */
#ifndef JOISTOLIVE_H
#define JOISTOLIVE_H

#include <stdint.h>

#ifdef __cplusplus
extern "C" {
#endif

#define JOISTOLIVE_COMPACT UINT64_C(1)
#define JOISTOLIVE_FULL UINT64_C(2)

/* A refusal is 2^63 plus its number: an answer with this bit set is no translation. */
#define JOISTOLIVE_REFUSED UINT64_C(0x8000000000000000)
#define JOISTOLIVE_NOT_MAPPED (JOISTOLIVE_REFUSED + 9)
#define JOISTOLIVE_BAD_WORD (JOISTOLIVE_REFUSED + 17)

uint64_t joistolive_read_word(uint64_t form, uint64_t word, uint64_t offset);

#ifdef __cplusplus
}
#endif

#endif
