/* Maps net C of document 01, with a second output and a section, at k 2 for period 1 to a forward cover, and shows what
   each connection's registers hold at first.

   make library
   cc examples/forward.c -Iinclude target/staticlib/libkamfelu.a -o forward */
#include "kamfelu.h"
#include <stdio.h>

/* Gate 2 = and(0:1, 1:1); outputs 2:0 and 0:2; the section: 01 03 07. */
static const uint8_t net[] = {0x82, 1, 2, 3, 3, 0, 1, 1, 1, 8, 0, 2, 1, 0, 2, 1, 3, 7};
static const int outputs[][2] = {{2, 0}, {0, 2}};
static uint8_t cover[962], scratch[65536], contents[20592];

struct lut {
    int root, leaves, lag, node[6], d[6];
};

/* Reads a LUT of a cover record; the place behind it. */
static const uint8_t *read_lut(const uint8_t *at, struct lut *lut)
{
    lut->root = at[0];
    lut->leaves = at[1];
    int map = at[2];
    at += 3;
    for (int j = 0; j < lut->leaves; j++)
        lut->node[j] = *at++;
    for (int j = 0; j < lut->leaves; j++) {
        lut->d[j] = 0;
        if (map >> j & 1) {
            lut->d[j] = at[0] + 256 * at[1];
            at += 2;
        }
    }
    lut->lag = map & 64 ? (int8_t)*at++ : 0;
    return at + (lut->leaves > 3 ? 1 << (lut->leaves - 3) : 1);
}

/* Prints a connection's registers, the newest first; the place behind them. */
static const uint8_t *show(const uint8_t *at, int registers)
{
    printf("registers %d", registers);
    for (int i = 0; i < registers; i++)
        printf("%s%d", i ? " " : ": ", *at++);
    printf("\n");
    return at;
}

int main(void)
{
    int64_t length = kamfelu_map_forward(net, sizeof net, 2, 1, cover, sizeof cover, scratch, sizeof scratch, NULL, 0,
                                         contents, sizeof contents);
    if (length < 0) {
        printf("map: refused %d\n", (int)-length);
        return 1;
    }
    printf("map: %d bytes, period %d\n", (int)length, cover[0]);
    struct lut luts[32];
    int lag[48] = {0}; /* by node */
    const uint8_t *at = cover + 2;
    for (int i = 0; i < cover[1]; i++) {
        at = read_lut(at, &luts[i]);
        lag[luts[i].root] = luts[i].lag;
    }
    at = contents;
    for (int i = 0; i < cover[1]; i++) {
        const struct lut *lut = &luts[i];
        for (int j = 0; j < lut->leaves; j++) {
            printf("leaf %d:%d of LUT %d, ", lut->node[j], lut->d[j], lut->root);
            at = show(at, lut->d[j] + lut->lag - lag[lut->node[j]]);
        }
    }
    for (int i = 0; i < 2; i++) {
        printf("output %d, ", i);
        at = show(at, outputs[i][1] - lag[outputs[i][0]]);
    }
    return 0;
}
