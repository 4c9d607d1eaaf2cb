/* Two captures of one unit, the second begun 3 steps after the first.

   make library
   cc examples/align.c -Iinclude target/staticlib/libkamfelu.a -o align */
#include "kamfelu.h"
#include <stdio.h>

static uint16_t first[100], second[100];

int main(void)
{
    for (int i = 0; i < 100; i++) {
        first[i] = (uint16_t)(i * i);
        second[i] = (uint16_t)((i + 3) * (i + 3));
    }
    int64_t shift = kamfelu_align(first, 100, second, 100);
    if (shift < 0)
        printf("align: refused %d\n", (int)-shift);
    else if (shift == 256)
        printf("align: none\n");
    else
        printf("align: shift %d\n", (int)shift);
    return 0;
}
