/* Maps net A of document 01 at k 2 for the least period, then marks the cover at k 3.

   make library
   cc examples/map_and_mark.c -Iinclude target/staticlib/libkamfelu.a -o map_and_mark */
#include "kamfelu.h"
#include <stdio.h>

static const uint8_t net[] = {2, 3, 1, 3, 0, 0, 1, 8, 3, 2, 2, 4, 1, 6, 1, 0, 3, 1, 0, 4};
static uint8_t cover[962], scratch[65536];

int main(void)
{
    int64_t length = kamfelu_map(net, sizeof net, 2, 0, cover, sizeof cover, scratch, sizeof scratch);
    if (length < 0) {
        printf("map: refused %d\n", (int)-length);
        return 1;
    }
    printf("map: %d bytes, period %d\n", (int)length, cover[0]);
    int64_t excess = kamfelu_mark(net, sizeof net, 3, cover, (size_t)length, scratch, sizeof scratch);
    if (excess < 0) {
        printf("mark: refused %d\n", (int)-excess);
        return 1;
    }
    printf("mark: excess %d\n", (int)excess);
    return 0;
}
