/* The functions over struct tablet_areas answer as the plain ones do, and stay inside their block. Run by host/test. */
#include <assert.h>
#include <stdio.h>
#include <stdlib.h>
#include <string.h>

#include "tablet.h"

#define FRAME 192, 192, 1, 48

enum { SIDE = 192, GUARD = 64, OUTLINE = TABLET_PATCH_LEN - 1 };

static uint8_t photo[3 * SIDE * SIDE];

/* Areas over a block whose last bytes are a guard. */
static uint8_t *lent(struct tablet_areas *a, const uint64_t *lengths)
{
    size_t size = tablet_areas_size(lengths);
    uint8_t *block = malloc(size + GUARD);
    assert(block != NULL);
    memset(block, 0xa5, size + GUARD);
    memset(a, 0, sizeof *a);
    assert(tablet_areas_lend(a, lengths, block) == 1);
    assert((uint8_t *)a->integral == block && a->canonical + a->canonical_len == block + size);
    a->capture = photo;
    a->capture_len = sizeof photo;
    return block;
}

static void guarded(const uint8_t *block, const uint64_t *lengths)
{
    for (size_t i = 0; i < GUARD; i++) assert(block[tablet_areas_size(lengths) + i] == 0xa5);
}

/* The page of the four candidates of the last look. None of their numbers is half of a decimal, so C's own rounding is the same. */
static void paged(const struct tablet_areas *a)
{
    enum { LINES = 4, LEN = LINES * TABLET_PAGE_LINE_LEN };
    char wanted[LEN + 1];
    uint8_t page[LEN + GUARD];
    for (int i = 0; i < LINES; i++) {
        const double *c = a->candidates + TABLET_CANDIDATE_LEN * i;
        char *line = wanted + TABLET_PAGE_LINE_LEN * i;
        assert(snprintf(line, TABLET_PAGE_LINE_LEN + 1, "%4d %8.2f %8.2f %7.2f %5.3f\n", i + 1, c[0], c[1], c[3], c[2]) ==
               TABLET_PAGE_LINE_LEN);
    }
    memset(page, 0xa5, sizeof page);
    assert(tablet_areas_page(a, page, LEN - 1) == 12 && page[0] == 0xa5);
    assert(tablet_areas_page(a, page, sizeof page) == 0 && memcmp(page, wanted, LEN) == 0);
    for (size_t i = LEN; i < sizeof page; i++) assert(page[i] == 0xa5);
}

/* The luma plane of the last look has what tablet_luma gives of each pixel's red, green and blue. */
static void lumas(const struct tablet_areas *a)
{
    for (size_t i = 0; i < SIDE * SIDE; i++) {
        float y = tablet_luma(photo[3 * i], photo[3 * i + 1], photo[3 * i + 2]);
        assert(memcmp(&a->luma[i], &y, sizeof y) == 0);
    }
    assert(tablet_luma(255, 0, 0) == 0.299f * 255.0f && tablet_luma(0, 255, 0) == 0.587f * 255.0f);
    assert(tablet_luma(0, 0, 255) == 0.114f * 255.0f && tablet_luma(0, 0, 0) == 0.0f);
}

/* The sides of a mask's dark pixels that face a light pixel or the picture's border. */
static uint64_t dark_sides(const uint8_t *mask)
{
    uint64_t sides = 0;
    for (size_t i = 0; i < SIDE * SIDE; i++) {
        size_t x = i % SIDE, y = i / SIDE;
        if (mask[i] == 0) continue;
        sides += x == 0 || mask[i - 1] == 0;
        sides += x == SIDE - 1 || mask[i + 1] == 0;
        sides += y == 0 || mask[i - SIDE] == 0;
        sides += y == SIDE - 1 || mask[i + SIDE] == 0;
    }
    return sides;
}

/* The outlines of the patches, their records' last numbers, add up to the dark sides of the mask. */
static void outlines(const struct tablet_areas *a, uint64_t patches)
{
    uint64_t sum = 0;
    for (size_t i = 0; i < patches; i++) sum += a->patches[TABLET_PATCH_LEN * i + OUTLINE];
    assert(sum > 0 && sum == dark_sides(a->mask));
}

/* The mask with most patches takes every record of the areas, and with one less it is refused. Each patch is a pixel with four
 * sides. */
static void boards(struct tablet_areas *a)
{
    enum { MOST = SIDE * SIDE / 2 };
    uint64_t counts[TABLET_LABELLED_LEN];
    assert(tablet_checkerboard(SIDE, 4097, a->mask, a->mask_len) == 2);
    assert(tablet_checkerboard(SIDE, SIDE + 1, a->mask, a->mask_len) == 3);
    assert(tablet_checkerboard(SIDE, SIDE, a->mask, a->mask_len) == 0);
    for (size_t i = 0; i < SIDE * SIDE; i++) assert(a->mask[i] == ((i % SIDE + i / SIDE) % 2 == 0));
    assert(a->patches_len == TABLET_PATCH_LEN * MOST);
    assert(tablet_label_blobs(a->mask, SIDE * SIDE, SIDE, SIDE, a->seen, a->seen_len, a->waiting, a->waiting_len,
                              a->patches, a->patches_len - 1, counts, TABLET_LABELLED_LEN) == 3);
    assert(tablet_label_blobs(a->mask, SIDE * SIDE, SIDE, SIDE, a->seen, a->seen_len, a->waiting, a->waiting_len,
                              a->patches, a->patches_len, counts, TABLET_LABELLED_LEN) == 0);
    assert(counts[0] == MOST && counts[1] == 1);
    for (size_t i = 0; i < MOST; i++) {
        const uint64_t *patch = a->patches + TABLET_PATCH_LEN * i;
        assert(patch[0] == 1 && patch[OUTLINE] == 4);
    }
    outlines(a, MOST);
}

/* How many pixels of a mask before pixel i are dark: on the checkerboard the place of the patch that starts there. */
static uint64_t dark_before(const uint8_t *mask, size_t i)
{
    uint64_t dark = 0;
    for (size_t j = 0; j < i; j++) dark += mask[j] != 0;
    return dark;
}

/* Rectangles over the checkerboard, whose patches are its dark pixels; the last lies outside the picture. */
static void windows(const struct tablet_areas *a, uint64_t patches)
{
    enum { K = 3, LEN = K * TABLET_WINDOW_LEN };
    uint64_t at[K * TABLET_RECTANGLE_LEN] = {50, 70, 60, 75, 7, 4, 7, 4, 4095, 0, 4095, 4095}, answers[LEN + 1], dark = 0;
    for (size_t y = 70; y <= 75; y++)
        for (size_t x = 50; x <= 60; x++) dark += a->mask[y * SIDE + x] != 0;
    /* The first one's centre lies between pixels 55, 72, which is light, and 55, 73. Pixel 7, 4 is light, and the one above it the
     * first of four that are as near. The picture's last pixel is dark, and nearest to a centre that lies right of it and below. */
    const uint64_t wanted[LEN + 1] = {dark, dark_before(a->mask, 70 * SIDE + 50), dark_before(a->mask, 73 * SIDE + 55),
                                      0, TABLET_NO_PATCH, dark_before(a->mask, 3 * SIDE + 7),
                                      0, TABLET_NO_PATCH, patches - 1, 9};
    for (size_t i = 0; i <= LEN; i++) answers[i] = 9;
    assert(tablet_patch_windows(a->patches, a->patches_len, patches, at, sizeof at / sizeof *at, K, answers, LEN - 1) == 3);
    at[2] = 4096;
    assert(tablet_patch_windows(a->patches, a->patches_len, patches, at, sizeof at / sizeof *at, K, answers, LEN) == 17);
    for (size_t i = 0; i <= LEN; i++) assert(answers[i] == 9);
    at[2] = 60;
    assert(tablet_patch_windows(a->patches, a->patches_len, patches, at, sizeof at / sizeof *at, K, answers, LEN + 1) == 0);
    assert(memcmp(answers, wanted, sizeof answers) == 0);
    assert(tablet_patch_windows(a->patches, a->patches_len, 0, at, sizeof at / sizeof *at, 1, answers, TABLET_WINDOW_LEN) == 0);
    assert(answers[0] == 0 && answers[1] == TABLET_NO_PATCH && answers[2] == TABLET_NO_PATCH && answers[3] == wanted[3]);
}

/* The whole picture touches every patch of a look. */
static void whole(const struct tablet_areas *a)
{
    const uint64_t at[TABLET_RECTANGLE_LEN] = {0, 0, SIDE - 1, SIDE - 1};
    uint64_t answers[TABLET_WINDOW_LEN], patches = a->counts[TABLET_PATCHES];
    assert(tablet_patch_windows(a->patches, a->patches_len, (size_t)patches, at, TABLET_RECTANGLE_LEN, 1, answers, TABLET_WINDOW_LEN) == 0);
    assert(answers[0] == patches && answers[1] == 0 && answers[2] < patches);
}

int main(void)
{
    uint64_t lengths[TABLET_LENGTHS_LEN];
    struct tablet_areas a, b;
    assert(tablet_lengths(SIDE, SIDE, FRAME, lengths, TABLET_LENGTHS_LEN) == 0);
    memset(photo, 255, sizeof photo);
    for (size_t i = 0; i < SIDE * SIDE; i++) {
        uint8_t light = (i % SIDE / 8 + i / SIDE / 8) % 2 ? 90 : 160;
        photo[3 * i] = light, photo[3 * i + 1] = light + 15, photo[3 * i + 2] = light - 25;
    }
    assert(tablet_stamp_fiducials(photo, sizeof photo, SIDE, SIDE, FRAME) == 0);
    assert(tablet_areas_lend(&a, lengths, NULL) == 0);

    uint8_t *first = lent(&a, lengths), *second = lent(&b, lengths);
    assert(tablet_areas_look(&a, SIDE, SIDE, FRAME) == 0);
    assert(a.counts[TABLET_CANDIDATES] == 4 && a.counts[TABLET_PATCHES] >= 4);
    paged(&a);
    lumas(&a);
    outlines(&a, a.counts[TABLET_PATCHES]);
    whole(&a);
    boards(&a);
    windows(&a, SIDE * SIDE / 2);
    a.counts[TABLET_BEYOND] = 9;
    assert(tablet_areas_fit(&a, SIDE, SIDE, FRAME) == 0);
    assert(tablet_areas_rectify(&b, SIDE, SIDE, FRAME) == 0);
    assert(memcmp(a.fit, b.fit, sizeof a.fit) == 0 && memcmp(a.counts, b.counts, TABLET_FITTED_LEN * sizeof *a.counts) == 0);
    assert(a.counts[TABLET_BEYOND] == 9);
    assert(b.fit[TABLET_SCORE] > 0.0 && b.counts[TABLET_GRADE] == TABLET_SCORED);
    assert(a.canonical[0] == 0xa5 && b.canonical[0] != 0xa5);
    assert(memcmp(a.candidates, b.candidates, 4 * TABLET_CANDIDATE_LEN * sizeof *a.candidates) == 0);
    guarded(first, lengths), guarded(second, lengths);

    /* The card again, by the plain function and the fit. */
    static uint8_t card[3 * SIDE * SIDE];
    uint64_t beyond[TABLET_WARPED_LEN + 1] = {9, 9};
    assert(tablet_warp_with(photo, sizeof photo, SIDE, SIDE, FRAME, a.fit, TABLET_FIT_LEN, card, sizeof card, beyond, 0) == 3);
    assert(beyond[0] == 9 && card[0] == 0);
    assert(tablet_warp_with(photo, sizeof photo, SIDE, SIDE, FRAME, a.fit, TABLET_FIT_LEN, card, sizeof card, beyond, 2) == 0);
    assert(memcmp(card, b.canonical, sizeof card) == 0 && beyond[0] == b.counts[TABLET_BEYOND] && beyond[1] == 9);

    /* A refusal's number comes through. */
    a.capture_len = 1;
    assert(tablet_areas_look(&a, SIDE, SIDE, FRAME) == 2 && tablet_areas_fit(&a, SIDE, SIDE, FRAME) == 2);
    assert(tablet_areas_rectify(&a, SIDE, SIDE, FRAME) == 2);
    free(first), free(second);
    return puts("areas agree") < 0;
}
