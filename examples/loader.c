/* Maps net A of document 01 at k 2, with the image of its tables for the chip's loader: eight bytes for each LUT.

   make library
   cc examples/loader.c -Iinclude target/staticlib/libkamfelu.a -o loader */
#include "kamfelu.h"
#include <stdio.h>

static const uint8_t net[] = {2, 3, 1, 3, 0, 0, 1, 8, 3, 2, 2, 4, 1, 6, 1, 0, 3, 1, 0, 4}; /* net A */
static uint8_t cover[962], scratch[65536], loader[256];

int main(void)
{
    int64_t length = kamfelu_map_loader(net, sizeof net, 2, 0, cover, sizeof cover, scratch, sizeof scratch, loader,
                                        sizeof loader);
    if (length < 0) {
        printf("map: refused %d\n", (int)-length);
        return 1;
    }
    printf("map: %d bytes, %d LUTs\n", (int)length, cover[1]);
    for (int i = 0; i < 8 * cover[1]; i++)
        printf("%02x%c", loader[i], i % 8 == 7 ? '\n' : ' ');
    return 0;
}
