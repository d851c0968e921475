/* Fits are kept in a book and read again, bit by bit, two books are joined, and cards are laid under kept fits. Run by host/test. */
#include <assert.h>
#include <stdio.h>
#include <string.h>

#include "tablet.h"

enum {
    RECORDS = 2,
    HEADS = RECORDS * TABLET_BOOK_HEAD_LEN,
    NUMBERS = RECORDS * TABLET_FIT_LEN,
    LEN = TABLET_BOOK_HEADER_LEN + RECORDS * TABLET_BOOK_RECORD_LEN,
    GUARD = 0xa5
};

static const uint32_t heads[HEADS] = {7, 1, TABLET_SCORED, 7, 2, TABLET_TOO_FEW};
static uint64_t numbers[NUMBERS];

/* A fit, and then signalling NaNs, no two the same. */
static void fill(void)
{
    const double fit[TABLET_FIT_LEN] = {1.5, 0.0, -3.0, 0.0, 1.5, -4.0, 0.0, 0.0, 1.0, -0.1, 4.0, 3.0, 5.0};
    memcpy(numbers, fit, sizeof fit);
    for (uint64_t i = 0; i < TABLET_FIT_LEN; i++) numbers[TABLET_FIT_LEN + i] = 0x7ff0000000000001u + i;
}

static void written_and_read(void)
{
    uint8_t book[LEN + 1], again[LEN];
    uint32_t h[HEADS];
    uint64_t n[NUMBERS];
    memset(book, GUARD, sizeof book);
    assert(tablet_write_book(heads, HEADS, numbers, NUMBERS, RECORDS, book, sizeof book) == 0);
    assert(book[0] == RECORDS && book[TABLET_BOOK_HEADER_LEN] == 7 && book[LEN] == GUARD);

    /* What a reader knows is the length. */
    size_t count = (LEN - TABLET_BOOK_HEADER_LEN) / TABLET_BOOK_RECORD_LEN;
    assert(tablet_read_book(book, LEN, h, count * TABLET_BOOK_HEAD_LEN, n, count * TABLET_FIT_LEN) == 0);
    assert(memcmp(h, heads, sizeof heads) == 0 && memcmp(n, numbers, sizeof numbers) == 0);
    assert(tablet_write_book(h, HEADS, n, NUMBERS, count, again, LEN) == 0 && memcmp(again, book, LEN) == 0);

    /* A byte too many is 14, and comes before 3. */
    assert(tablet_read_book(book, LEN + 1, h, HEADS - 1, n, NUMBERS) == 14);
    assert(tablet_read_book(book, LEN, h, HEADS - 1, n, NUMBERS) == 3);
}

static void refused(void)
{
    const uint32_t equal[HEADS] = {7, 1, TABLET_SCORED, 7, 1, TABLET_SCORED};
    uint8_t book[LEN] = {GUARD};
    assert(tablet_write_book(equal, HEADS, numbers, NUMBERS, RECORDS, book, LEN - 1) == 3);
    assert(tablet_write_book(equal, HEADS, numbers, NUMBERS, RECORDS, book, LEN) == 15);
    assert(tablet_write_book(heads, HEADS, numbers, NUMBERS, TABLET_BOOK_MOST_RECORDS + 1, book, LEN) == 3);
    assert(book[0] == GUARD && book[LEN - 1] == 0);
}

/* A book of two records and one of another, whose panel comes after theirs. */
static void joined(void)
{
    enum { ONE = TABLET_BOOK_HEADER_LEN + TABLET_BOOK_RECORD_LEN, ALL = LEN + TABLET_BOOK_RECORD_LEN };
    const uint32_t head[TABLET_BOOK_HEAD_LEN] = {8, 0, TABLET_OUTSIDE};
    const uint8_t header[TABLET_BOOK_HEADER_LEN] = {RECORDS + 1, 0, 0, 0, 16, 0, 0, 0, 120, 0, 0, 0, ALL % 256, ALL / 256, 0, 0};
    uint8_t two[LEN], one[ONE], wanted[ALL], target[ALL + 1];
    assert(tablet_write_book(heads, HEADS, numbers, NUMBERS, RECORDS, two, LEN) == 0);
    assert(tablet_write_book(head, TABLET_BOOK_HEAD_LEN, numbers, NUMBERS, 1, one, ONE) == 0);
    memcpy(wanted, header, sizeof header);
    memcpy(wanted + TABLET_BOOK_HEADER_LEN, two + TABLET_BOOK_HEADER_LEN, LEN - TABLET_BOOK_HEADER_LEN);
    memcpy(wanted + LEN, one + TABLET_BOOK_HEADER_LEN, TABLET_BOOK_RECORD_LEN);

    memset(target, GUARD, sizeof target);
    assert(tablet_merge_books(one, ONE, two, LEN, target, sizeof target) == 0);
    assert(memcmp(target, wanted, ALL) == 0 && target[ALL] == GUARD);

    /* A record that stands in both is there once. */
    memset(target, GUARD, sizeof target);
    assert(tablet_merge_books(wanted, ALL, one, ONE, target, ALL) == 0 && memcmp(target, wanted, ALL) == 0);

    /* Nothing chooses between two fits of one key that differ in a bit, and a target that is short goes before that. */
    one[ONE - 1] ^= 0x80;
    memset(target, GUARD, sizeof target);
    assert(tablet_merge_books(wanted, ALL, one, ONE, target, ALL - 1) == 3);
    assert(tablet_merge_books(wanted, ALL, one, ONE, target, ALL) == 18);
    assert(tablet_merge_books(two, LEN, one, ONE, target, ALL - 1) == 3);
    for (size_t i = 0; i < sizeof target; i++) assert(target[i] == GUARD);
}

enum { W = 8, H = 6, SIDE = 5, CARD = 3 * SIDE * SIDE };

/* How many pixels of the card have a position that is not inside the picture. */
static uint64_t beyond(const double *fit)
{
    uint64_t n = 0;
    for (int i = 0; i < SIDE * SIDE; i++) {
        double p[TABLET_POINT_LEN];
        assert(tablet_apply(fit, TABLET_MATRIX_LEN, i % SIDE + 0.5, i / SIDE + 0.5, p, TABLET_POINT_LEN) == 0);
        assert(tablet_distort(fit + TABLET_K, TABLET_LENS_LEN, p[0], p[1], p, TABLET_POINT_LEN) == 0);
        n += !(p[0] >= 0.0 && p[1] >= 0.0 && p[0] < W && p[1] < H);
    }
    return n;
}

/* A card under a kept fit is tablet_warp_with's; under one that was not scored there is none, after all that is wrong otherwise. */
static void laid(void)
{
    uint8_t capture[3 * W * H], card[CARD], kept[CARD];
    uint64_t counts[TABLET_WARPED_LEN];
    double fit[TABLET_FIT_LEN];
    for (size_t i = 0; i < sizeof capture; i++) capture[i] = (uint8_t)(i * i + 7 * i);
    memcpy(fit, numbers, sizeof fit);
    memset(kept, GUARD, CARD);
    assert(0 < beyond(fit) && beyond(fit) < SIDE * SIDE);
    assert(tablet_warp_with(capture, sizeof capture, W, H, SIDE, SIDE, 1, 0, fit, TABLET_FIT_LEN, card, CARD, counts, 1) == 0);
    assert(counts[0] == beyond(fit));
    counts[0] = GUARD;
    assert(tablet_warp_record(capture, sizeof capture, W, H, SIDE, SIDE, 1, 0, TABLET_SCORED, numbers, NUMBERS, kept, CARD,
                              counts, 1) == 0);
    assert(memcmp(card, kept, CARD) == 0 && counts[0] == beyond(fit));

    memset(kept, GUARD, CARD);
    counts[0] = GUARD;
    for (uint32_t grade = TABLET_OUTSIDE; grade < 5; grade++) {
        assert(tablet_warp_record(capture, sizeof capture, W, H, SIDE, SIDE, 1, 0, grade, numbers, NUMBERS, kept, CARD, counts, 1) == 16);
        assert(tablet_warp_record(capture, sizeof capture, W, H, SIDE, 0, 1, 0, grade, numbers, 12, kept, 0, counts, 0) == 1);
        assert(tablet_warp_record(capture, 1, W, H, SIDE, SIDE, 1, 0, grade, numbers, 12, kept, 0, counts, 0) == 2);
        assert(tablet_warp_record(capture, sizeof capture, W, H, SIDE, SIDE, 1, 0, grade, numbers, 12, kept, 0, counts, 1) == 3);
        assert(tablet_warp_record(capture, sizeof capture, W, H, SIDE, SIDE, 1, 0, grade, numbers, NUMBERS, kept, 0, counts, 0) == 3);
        assert(tablet_warp_record(capture, sizeof capture, W, H, SIDE, SIDE, 1, 0, grade, numbers, NUMBERS, kept, 0, counts, 1) == 4);
    }
    for (size_t i = 0; i < CARD; i++) assert(kept[i] == GUARD);
    assert(counts[0] == GUARD);
}

int main(void)
{
    fill();
    written_and_read();
    refused();
    joined();
    laid();
    return puts("books agree") < 0;
}
