/* Pyrathene: control transfer types and lengths of RISC-V instruction words, for C.
 *
 * Link target/staticlib/libclassifier.a ('make examples' builds it). A word is 32 bits; a 16-bit
 * instruction stands in the low half, and the upper half is then ignored. Types are numbered as in
 * ctrdata: 4 branch not taken, 5 branch taken, 8 indirect call, 9 direct call, 10 indirect jump,
 * 11 direct jump, 12 co-routine swap, 13 function return, 14 other indirect jump, 15 other direct
 * jump; 0 stands for a word that transfers nothing.
 *
 * 'zc' says whether the machine has Zcmp and Zcmt. If it has, CM.JT is of type 11, CM.JALT of 9, CM.POPRET
 * and CM.POPRETZ of 13; if not, their codes are C.FSDSP, of type 0. All other words ignore it.
 */
#ifndef PYRATHENE_H
#define PYRATHENE_H

#include <stdbool.h>
#include <stddef.h>
#include <stdint.h>

#ifdef __cplusplus
extern "C" {
#endif

/* The type of a word. Of a branch, 'taken' says whether it is 5 or 4; other words ignore it. */
uint8_t ctr_classify(uint32_t word, bool taken, bool zc);

/* The length of a word's instruction in bytes: 4 if its two low bits are 11, else 2. Of the formats longer
 * than 32 bits it answers 4 as well; they are of type 0. */
uint8_t ctr_length(uint32_t word);

/* Puts the type of each word, a branch as taken, into 'types': as many as both arrays hold, which
 * is also the answer. Further places of 'types' stay as they were. The arrays must not overlap,
 * and neither pointer may be null, even with a count of 0. From 8,192 words on it goes by a table
 * that it fills first, some 5 KB on the stack, so one long run is quicker than many short ones. */
size_t ctr_classify_all(const uint32_t *words, size_t word_count, bool zc,
                        uint8_t *types, size_t type_count);

#ifdef __cplusplus
}
#endif

#endif
