/* A pointer may be NULL where its length is 0: each area of map with and without a loader area, forward map, the
   change-over, mark, find root and align in turn, then all of them. */
#include "kamfelu.h"
#include <stdio.h>

static const uint8_t net[] = {2, 3, 1, 3, 0, 0, 1, 8, 3, 2, 2, 4, 1, 6, 1, 0, 3, 1, 0, 4}; /* net A */
static const uint8_t record[] = {2, 2, 2, 2, 0, 0, 1, 8, 4, 2, 2, 2, 4, 1, 0, 9};           /* its cover, k 2 */
static const uint8_t net_c[] = {0x82, 1, 1, 3, 3, 0, 1, 1, 1, 8, 0, 2, 1, 1, 0};            /* net C, with a section */
static const uint8_t pairs[] = {2, 0, 9};                                                    /* a step and a lone byte */
static uint8_t cover[962], scratch[65536], loader[256], contents[20592];
static const uint16_t words[16];
static int wrong;

static void expect(const char *call, int64_t answer, int64_t expected)
{
    if (answer != expected) {
        printf("%s: %d, not %d\n", call, (int)answer, (int)expected);
        wrong = 1;
    }
}

/* The scratch is all 7 before a call; afterwards it is kept, or all 0. */
static void fill(void)
{
    for (size_t i = 0; i < sizeof scratch; i++)
        scratch[i] = 7;
}

static void expect_scratch(const char *call, uint8_t byte)
{
    for (size_t i = 0; i < sizeof scratch; i++) {
        if (scratch[i] != byte) {
            printf("%s: scratch byte %d is %d\n", call, (int)i, scratch[i]);
            wrong = 1;
            return;
        }
    }
}

int main(void)
{
    fill();
    expect("map, no net", kamfelu_map(NULL, 0, 2, 0, cover, 962, scratch, 65536), -4);
    expect_scratch("map, no net", 0);
    fill();
    expect("map, no cover area", kamfelu_map(net, 20, 2, 0, NULL, 0, scratch, 65536), -3);
    expect_scratch("map, no cover area", 7);
    expect("map, no scratch", kamfelu_map(net, 20, 2, 0, cover, 962, NULL, 0), -3);
    expect("map, nothing", kamfelu_map(NULL, 0, 2, 0, NULL, 0, NULL, 0), -3);
    expect("map, nothing, target 33", kamfelu_map(NULL, 0, 2, 33, NULL, 0, NULL, 0), -2);
    expect("map, nothing, k 7", kamfelu_map(NULL, 0, 7, 33, NULL, 0, NULL, 0), -1);

    fill();
    expect("loader, no loader area", kamfelu_map_loader(net, 20, 2, 0, cover, 962, scratch, 65536, NULL, 0), 16);
    expect_scratch("loader, no loader area", 0);
    fill();
    expect("loader, no net", kamfelu_map_loader(NULL, 0, 2, 0, cover, 962, scratch, 65536, loader, 256), -4);
    expect_scratch("loader, no net", 0);
    fill();
    expect("loader, no net, short", kamfelu_map_loader(NULL, 0, 2, 0, cover, 962, scratch, 65536, loader, 255), -20);
    expect_scratch("loader, no net, short", 0);
    fill();
    expect("loader, no cover area", kamfelu_map_loader(net, 20, 2, 0, NULL, 0, scratch, 65536, loader, 255), -3);
    expect_scratch("loader, no cover area", 7);
    expect("loader, no scratch", kamfelu_map_loader(net, 20, 2, 0, cover, 962, NULL, 0, loader, 255), -3);
    fill();
    expect("loader, no net, no loader area", kamfelu_map_loader(NULL, 0, 2, 0, cover, 962, scratch, 65536, NULL, 0), -4);
    expect_scratch("loader, no net, no loader area", 0);
    expect("loader, nothing", kamfelu_map_loader(NULL, 0, 2, 0, NULL, 0, NULL, 0, NULL, 0), -3);
    expect("loader, nothing, target 33", kamfelu_map_loader(NULL, 0, 2, 33, NULL, 0, NULL, 0, NULL, 0), -2);
    expect("loader, nothing, k 7", kamfelu_map_loader(NULL, 0, 7, 33, NULL, 0, NULL, 0, NULL, 0), -1);

    fill();
    expect("forward, no other area", kamfelu_map_forward(net, 20, 2, 0, cover, 962, scratch, 65536, NULL, 0, NULL, 0), 16);
    expect_scratch("forward, no other area", 0);
    expect("forward, no loader area", kamfelu_map_forward(net_c, 15, 2, 1, cover, 962, scratch, 65536, NULL, 0, contents, 20592), 13);
    expect("forward, no loader area, contents", contents[0], 1);
    expect("forward, no contents area", kamfelu_map_forward(net_c, 15, 2, 1, cover, 962, scratch, 65536, loader, 256, NULL, 0), 13);
    expect("forward, no contents area, loader", loader[7], 0x88);
    fill();
    expect("forward, no net", kamfelu_map_forward(NULL, 0, 2, 0, cover, 962, scratch, 65536, loader, 256, contents, 20592), -4);
    expect_scratch("forward, no net", 0);
    fill();
    expect("forward, no net, short loader", kamfelu_map_forward(NULL, 0, 2, 0, cover, 962, scratch, 65536, loader, 255, NULL, 0), -20);
    expect_scratch("forward, no net, short loader", 0);
    fill();
    expect("forward, no net, short contents", kamfelu_map_forward(NULL, 0, 2, 0, cover, 962, scratch, 65536, NULL, 0, contents, 20591), -3);
    expect("forward, no cover area", kamfelu_map_forward(net, 20, 2, 0, NULL, 0, scratch, 65536, NULL, 0, NULL, 0), -3);
    expect_scratch("forward, no cover area", 7);
    expect("forward, no scratch", kamfelu_map_forward(net, 20, 2, 0, cover, 962, NULL, 0, NULL, 0, NULL, 0), -3);
    expect("forward, no section", kamfelu_map_forward(net, 20, 2, 1, cover, 962, scratch, 65536, NULL, 0, contents, 20592), -21);
    expect("forward, out of reach", kamfelu_map_forward(net, 20, 2, 1, cover, 962, scratch, 65536, NULL, 0, NULL, 0), -22);
    expect("forward, nothing", kamfelu_map_forward(NULL, 0, 2, 0, NULL, 0, NULL, 0, NULL, 0, NULL, 0), -3);
    expect("forward, nothing, target 33", kamfelu_map_forward(NULL, 0, 2, 33, NULL, 0, NULL, 0, NULL, 0, NULL, 0), -2);
    expect("forward, nothing, k 7", kamfelu_map_forward(NULL, 0, 7, 33, NULL, 0, NULL, 0, NULL, 0, NULL, 0), -1);

    fill();
    expect("change, no pairs", kamfelu_change_over(net_c, 15, 2, 1, NULL, 0, cover, 962, scratch, 65536, loader, 256, contents, 20592), 13);
    expect_scratch("change, no pairs", 0);
    expect("change, no pairs, contents", contents[0], 1);
    expect("change, no loader area", kamfelu_change_over(net_c, 15, 2, 1, pairs, 3, cover, 962, scratch, 65536, NULL, 0, contents, 20592), 13);
    expect("change, no loader area, contents", contents[0], 0);
    expect("change, no pairs, no loader area", kamfelu_change_over(net_c, 15, 2, 1, NULL, 0, cover, 962, scratch, 65536, NULL, 0, contents, 20592), 13);
    expect("change, no pairs, no loader area, contents", contents[0], 1);
    fill();
    expect("change, no net", kamfelu_change_over(NULL, 0, 2, 0, pairs, 3, cover, 962, scratch, 65536, loader, 256, contents, 20592), -4);
    expect_scratch("change, no net", 0);
    fill();
    expect("change, no net, short loader", kamfelu_change_over(NULL, 0, 2, 0, pairs, 3, cover, 962, scratch, 65536, loader, 255, contents, 20592), -20);
    expect_scratch("change, no net, short loader", 0);
    fill();
    expect("change, no contents area", kamfelu_change_over(net_c, 15, 2, 1, pairs, 3, cover, 962, scratch, 65536, loader, 256, NULL, 0), -3);
    expect("change, no contents area, short loader", kamfelu_change_over(net_c, 15, 2, 1, pairs, 3, cover, 962, scratch, 65536, loader, 255, NULL, 0), -3);
    expect("change, no net, short contents", kamfelu_change_over(NULL, 0, 2, 0, NULL, 0, cover, 962, scratch, 65536, NULL, 0, contents, 20591), -3);
    expect("change, no cover area", kamfelu_change_over(net_c, 15, 2, 1, pairs, 3, NULL, 0, scratch, 65536, NULL, 0, contents, 20592), -3);
    expect_scratch("change, no cover area", 7);
    expect("change, no scratch", kamfelu_change_over(net_c, 15, 2, 1, pairs, 3, cover, 962, NULL, 0, NULL, 0, contents, 20592), -3);
    expect("change, no section", kamfelu_change_over(net, 20, 2, 1, NULL, 0, cover, 962, scratch, 65536, NULL, 0, contents, 20592), -21);
    expect("change, nothing", kamfelu_change_over(NULL, 0, 2, 0, NULL, 0, NULL, 0, NULL, 0, NULL, 0, NULL, 0), -3);
    expect("change, nothing, target 33", kamfelu_change_over(NULL, 0, 2, 33, NULL, 0, NULL, 0, NULL, 0, NULL, 0, NULL, 0), -2);
    expect("change, nothing, k 7", kamfelu_change_over(NULL, 0, 7, 33, NULL, 0, NULL, 0, NULL, 0, NULL, 0, NULL, 0), -1);

    fill();
    expect("mark, no net", kamfelu_mark(NULL, 0, 2, record, 16, scratch, 65536), -4);
    expect_scratch("mark, no net", 0);
    fill();
    expect("mark, no record", kamfelu_mark(net, 20, 2, NULL, 0, scratch, 65536), -13);
    expect_scratch("mark, no record", 0);
    expect("mark, no scratch", kamfelu_mark(net, 20, 2, record, 16, NULL, 0), -3);
    fill();
    expect("mark, no net, no record", kamfelu_mark(NULL, 0, 2, NULL, 0, scratch, 65536), -4);
    expect_scratch("mark, no net, no record", 0);
    expect("mark, nothing", kamfelu_mark(NULL, 0, 2, NULL, 0, NULL, 0), -3);
    expect("mark, nothing, k 1", kamfelu_mark(NULL, 0, 1, NULL, 0, NULL, 0), -1);

    expect("find root, no record", kamfelu_find_root(NULL, 0, 4), -19);

    expect("align, no first", kamfelu_align(NULL, 0, words, 16), 256);
    expect("align, no second", kamfelu_align(words, 16, NULL, 0), 256);
    expect("align, nothing", kamfelu_align(NULL, 0, NULL, 0), 256);

    /* The same areas without NULL. */
    expect("map", kamfelu_map(net, 20, 2, 0, cover, 962, scratch, 65536), 16);
    expect("loader", kamfelu_map_loader(net, 20, 2, 0, cover, 962, scratch, 65536, loader, 256), 16);
    expect("loader, first byte", loader[0], 0x88);
    expect("loader, last byte", loader[15], 0x99);
    expect("loader, byte behind", loader[16], 0);
    expect("mark", kamfelu_mark(net, 20, 2, record, 16, scratch, 65536), 0);
    expect("find root", kamfelu_find_root(record, 16, 4), 8);
    expect("align", kamfelu_align(words, 16, words, 16), 0);
    if (!wrong)
        printf("as expected\n");
    return wrong;
}
