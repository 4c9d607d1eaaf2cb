/* Which gates of net A have a LUT in a stored cover.

   make library
   cc examples/find_root.c -Iinclude target/staticlib/libkamfelu.a -o find_root */
#include "kamfelu.h"
#include <stdio.h>

static const uint8_t record[] = {2, 2, 2, 2, 0, 0, 1, 8, 4, 2, 2, 2, 4, 1, 0, 9}; /* net A's cover, k 2 */

int main(void)
{
    for (int g = 2; g <= 4; g++) {
        int64_t offset = kamfelu_find_root(record, sizeof record, (uint16_t)g);
        if (offset < 0)
            printf("gate %d: refused %d\n", g, (int)-offset);
        else if (offset == 0)
            printf("gate %d: no LUT\n", g);
        else
            printf("gate %d: LUT at byte %d\n", g, (int)offset);
    }
    return 0;
}
