/* A board takes over from a running unit: net C of document 01, with a second output and a section, mapped at k 2 for
   period 1 to a forward cover, and what the registers of its board hold if it takes over at step 0, 1, 2 or 3.

   make library
   cc examples/change_over.c -Iinclude target/staticlib/libkamfelu.a -o change_over */
#include "kamfelu.h"
#include <stdio.h>

/* Gate 2 = and(0:1, 1:1); outputs 2:0 and 0:2; the section: 01 03 07. */
static const uint8_t net[] = {0x82, 1, 2, 3, 3, 0, 1, 1, 1, 8, 0, 2, 1, 0, 2, 1, 3, 7};
/* The inputs at steps 0, 1 and 2: both 1, then input 1 alone, then input 0 alone. */
static const uint8_t pairs[] = {3, 0, 2, 0, 1, 0};
static uint8_t cover[962], scratch[65536], contents[20592];

int main(void)
{
    for (size_t steps = 0; steps <= sizeof pairs / 2; steps++) {
        int64_t length = kamfelu_change_over(net, sizeof net, 2, 1, pairs, 2 * steps, cover, sizeof cover, scratch,
                                             sizeof scratch, NULL, 0, contents, sizeof contents);
        if (length < 0) {
            printf("change-over: refused %d\n", (int)-length);
            return 1;
        }
        /* One register at output 0 and two at output 1; examples/forward.c works that out from the record. */
        printf("step %d: %d bytes, period %d, output 0: %d, output 1: %d %d\n", (int)steps, (int)length, cover[0],
               contents[0], contents[1], contents[2]);
    }
    return 0;
}
