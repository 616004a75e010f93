/* Filters the luma plane of a picture of 64 by 64 samples, one superblock: four blocks of 32 by 32, the right ones lighter.
   cc -Iinclude examples/superblock.c -Ltarget/lib -lspringspade -o superblock */
#include <inttypes.h>
#include <stdio.h>
#include <string.h>

#include "springspade.h"

enum { MI_COLS = 8, MI_ROWS = 8, CELLS = MI_COLS * MI_ROWS, WIDTH = 8 * MI_COLS, HEIGHT = 8 * MI_ROWS };

static bool refused(const char *call, SpringspadeRefusal answer) {
    if (answer.number != 0)
        printf("%s: refused %" PRIu32 " place %" PRIu32 "\n", call, answer.number, answer.place);
    return answer.number != 0;
}

/* Level 32 for every block: no deltas, no segments. */
static bool make_levels(uint8_t levels[64]) {
    const int8_t deltas[6] = {0};
    const bool deltas_present[6] = {false};
    const bool feature_enabled[32] = {false};
    const int16_t feature_data[32] = {0};
    return !refused("levels", springspade_level_table(32, false, false, deltas, 6, deltas_present, 6, false, false,
                                                      feature_enabled, 32, feature_data, 32, levels, 64));
}

/* Every cell is part of an intra block of 32 by 32 with one transform. */
static bool make_cells(const uint8_t levels[64], uint32_t cells[CELLS]) {
    uint8_t mi_sizes[CELLS], tx_sizes[CELLS], zeros[CELLS] = {0};
    const int32_t ref_frames[CELLS] = {0};
    memset(mi_sizes, 9, CELLS);
    memset(tx_sizes, 3, CELLS);
    return !refused("row", springspade_row(mi_sizes, CELLS, tx_sizes, CELLS, zeros, CELLS, ref_frames, CELLS, zeros, CELLS,
                                           zeros, CELLS, levels, 0, 8, 1, 1, MI_COLS, MI_ROWS, 0, cells, CELLS));
}

static void print_samples(const uint16_t *samples) {
    for (int x = 24; x < 40; x++)
        printf("%" PRIu16 "%c", samples[x], x < 39 ? ' ' : '\n');
}

int main(void) {
    uint8_t levels[64];
    uint32_t cells[CELLS];
    uint16_t samples[WIDTH * HEIGHT];
    for (int k = 0; k < WIDTH * HEIGHT; k++)
        samples[k] = k % WIDTH < 32 ? 100 : 104;
    print_samples(samples);

    if (!make_levels(levels) || !make_cells(levels, cells))
        return 1;
    /* Vertical edges, then horizontal ones. */
    for (uint8_t pass = 0; pass < 2; pass++)
        if (refused("pass", springspade_pass(samples, WIDTH * HEIGHT, cells, CELLS, WIDTH, HEIGHT, WIDTH, 0, 0, 8, 1, 1,
                                             MI_COLS, MI_ROWS, 0, 0, 0, pass)))
            return 1;
    print_samples(samples);
    return 0;
}
