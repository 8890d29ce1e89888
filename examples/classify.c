/* Types and lengths of a few words, one at a time and all at once. */
#include <stdio.h>

#include "pyrathene.h"

int main(void) {
    const uint32_t words[] = {0x000000ef, 0x00008067, 0x000280e7, 0x00000063, 0x00000013, 0x0000a082};
    enum { COUNT = sizeof words / sizeof words[0] };
    uint8_t types[COUNT];

    size_t done = ctr_classify_all(words, COUNT, false, types, COUNT);
    for (size_t i = 0; i < done; i++) {
        printf("0x%08x is of type %u and has %u bytes\n", (unsigned)words[i], (unsigned)types[i],
               (unsigned)ctr_length(words[i]));
    }
    printf("a branch not taken is of type %u\n", (unsigned)ctr_classify(0x00000063, false, false));
    printf("with Zcmt 0x0000a082, CM.JALT, is of type %u\n",
           (unsigned)ctr_classify(0x0000a082, false, true));
    return 0;
}
