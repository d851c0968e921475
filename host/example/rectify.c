/* Lays a drawn card flat through libtablet.a, to show how the functions are called. Build and run:
 *   cc -std=c99 -Ihost/include host/example/rectify.c target/staticlib/libtablet.a -lm -o rectify && ./rectify
 */
#include <stdio.h>
#include <stdlib.h>
#include <string.h>

#include "tablet.h"

enum { WIDTH = 192, HEIGHT = 192, CELL = 1, MARGIN = 48 };

/* A white card, its four markers, and cells in two greys. */
static void draw(uint8_t *photo, size_t w, size_t h)
{
    memset(photo, 255, 3 * w * h);
    for (size_t y = MARGIN; y < h - MARGIN; y++)
        for (size_t x = MARGIN; x < w - MARGIN; x++)
            memset(photo + 3 * (y * w + x), (x / 8 + y / 8) % 2 ? 90 : 160, 3);
    tablet_stamp_fiducials(photo, 3 * w * h, w, h, WIDTH, HEIGHT, CELL, MARGIN);
}

int main(void)
{
    static uint8_t photo[3 * WIDTH * HEIGHT];
    size_t w = WIDTH, h = HEIGHT;
    draw(photo, w, h);

    uint64_t lengths[TABLET_LENGTHS_LEN];
    if (tablet_lengths(w, h, WIDTH, HEIGHT, CELL, MARGIN, lengths, TABLET_LENGTHS_LEN) != 0) return 1;
    struct tablet_areas areas = {.capture = photo, .capture_len = 3 * w * h};
    void *block = malloc(tablet_areas_size(lengths));
    if (!tablet_areas_lend(&areas, lengths, block)) return 2;
    uint32_t refusal = tablet_areas_rectify(&areas, w, h, WIDTH, HEIGHT, CELL, MARGIN);

    printf("refusal %u\n", (unsigned)refusal);
    if (refusal == 0) {
        printf("candidates %u\n", (unsigned)areas.counts[TABLET_CANDIDATES]);
        printf("trials %u, homographies %u\n", (unsigned)areas.counts[TABLET_TRIALS], (unsigned)areas.counts[TABLET_HOMOGRAPHIES]);
        printf("scored %s\n", areas.counts[TABLET_GRADE] == TABLET_SCORED ? "yes" : "no");
        /* Pixels of the card that lie beyond the picture's edge: they look real, and are not the card's. */
        printf("beyond %u\n", (unsigned)areas.counts[TABLET_BEYOND]);
        /* A marker has a black dot at its centre. */
        const uint8_t *p = areas.canonical + 3 * (24 * WIDTH + 24);
        printf("card at 24, 24: %u %u %u\n", p[0], p[1], p[2]);
    }
    free(block);
    if (fflush(stdout) != 0) return 2; /* what was printed is lost */
    return refusal == 0 ? 0 : 1;
}
