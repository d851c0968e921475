/* tablet.h: the functions of libtablet.a (crate tablet), for C and C++.
 *
 * Every function returns a refusal number, 0 where it accepts, but for tablet_luma, which refuses nothing and returns the luma.
 * The lowest number that applies is given, but in two places: tablet_read_book gives 3 after 14 and 15, and tablet_merge_books
 * gives 14 and 15 of the first book, those of the second, 3 and 18 in this order.
 *    1  a frame number outside its limit: sides 1 to 4096, cell 1 to 512, margin 0 to 4096 (the writer of the frame)
 *    2  a capture side outside 1 to 4096, or a capture or mask of another length than its sides say (the host)
 *    3  a work area, a slice of numbers handed in or for results, or the memory for a book or a mask is too short (the host)
 *    4  the canonical image is not 3 * width * height bytes (the host)
 *    5  the frame has no room for its markers (the writer of the frame)
 *    6  a capture side below 32 (the photographer)
 *    7  fewer than four candidates: a ring cut, covered or blurred, or the card turned by 10 degrees or more
 *       (the photographer)
 *    8  one candidate fills two corners: a ring missing, or the card turned by 10 degrees or more (the photographer)
 *    9  the corners do not turn one way, or the area is too small (the photographer)
 *   10  no homography (whoever hands in the points)
 *   11  tablet_inverse only: absolute determinant below 1e-12 (whoever hands in the matrix)
 *   12  tablet_candidate_page only: the page is shorter than 37 bytes a candidate (the host)
 *   13  tablet_candidate_page only: above 9,999 candidates, or a number negative, not finite or too wide (whoever hands in the
 *       candidates)
 *   14  tablet_read_book, tablet_write_book and tablet_merge_books only: the book's header, its length, a grade or a zero field
 *       is wrong, or the length of a book to be written would be above 4,294,967,295 (whoever hands in the book)
 *   15  tablet_read_book, tablet_write_book and tablet_merge_books only: the book's keys, panel and then camera, do not rise
 *       strictly (whoever hands in the book)
 *   16  tablet_rectify and tablet_warp_record only: the kept fit has no score, since fewer than 16 cells are sampled or one lies
 *       outside the picture; a record's grade is not TABLET_SCORED (the photographer)
 *   17  tablet_patch_windows only: above 64 rectangles, or a rectangle or a patch box with an end before its start or above 4,095
 *       (whoever hands in the rectangles or the list)
 *   18  tablet_merge_books only: a key stands in both books with different bytes, or the joined book would be longer than
 *       4,294,967,295 bytes (whoever hands in the books)
 *
 * A slice is a pointer and then its number of entries (not bytes). A pointer must not be NULL, with 0 entries too, and must
 * be aligned for its type. No two slices of a call may overlap, unless both are const. Nothing is kept after a call.
 *
 * A capture is w * h pixels of three bytes, red, green, blue, by rows: exactly 3 * w * h bytes. So is the canonical image:
 * exactly 3 * width * height. The frame is width, height, cell and margin, in canonical pixels. Positions are in pixels from
 * the upper left corner of the picture; the centre of its first pixel is (0.5, 0.5). A position is inside the picture where
 * 0 <= x, 0 <= y, x < w and y < h: -0 is inside, w, h, an infinity and a NaN in either are not. Points are x, y of TL, TR, BR,
 * BL. A matrix is by rows. A lens is k, cx, cy, norm. A fit is a matrix and then a lens. Each function names the number of
 * entries of its slices by the names below.
 *
 * Work areas may be longer than needed; what lies past the lengths that tablet_lengths gives is never written. Their contents
 * before a call change no answer. After acceptance, and after a refusal by 7 to 10 or by tablet_rectify's 16, they hold
 *    luma        the capture's luma, w * h
 *    integral    its integral image, (w + 1) * (h + 1)
 *    mask        1 where dark, else 0, w * h
 *    seen        the same as mask
 *    patches     eight numbers a patch, in raster order of the first pixels: area, sum of x, sum of y, x0, y0, x1, y1, outline;
 *                the outline is how many sides of its pixels face a light pixel or the picture's border, those of a hole too
 *    candidates  four numbers a candidate, in patch order: centre x, centre y, score, size
 *    blob_index  for each candidate its patch's place in patches, from 0
 * and waiting and means hold nothing of use: they are free. Records past the last are as they were. After a refusal by 1 to 6,
 * by 11 to 15, 17 or 18, or by tablet_warp_record's 16, no memory is changed, and after any refusal the canonical image is as it was.
 *
 * Acceptance says that the answer is the one that the rules give for this capture. It does not say that the four rings are the
 * card's, nor which way up the card lies: README.md, "When not to trust a card". host/flatten/src/phase.rs has a sign of both
 * that a caller can work out from the canonical image, to go with the score.
 *
 * Nor does it say that the whole card is in the photograph. Where a pixel of the card lies beyond the picture's edge it is given the
 * colour of the edge, so that a card that leaves the photograph has smeared borders that look real. How many such pixels there are
 * is told by tablet_rectify (TABLET_BEYOND), tablet_warp_with and tablet_warp_record: 0 where the whole card is in the picture.
 *
 * struct tablet_areas, at the end, holds all slices of a call, so that a caller writes one argument for them.
 */
#ifndef TABLET_H
#define TABLET_H

#include <stddef.h>
#include <stdint.h>

#ifdef __cplusplus
extern "C" {
#endif

/* Numbers of entries: of slices handed in at least so many, of results exactly what is filled. */
enum {
    TABLET_LENGTHS_LEN = 11, /* of tablet_lengths */
    TABLET_COUNTS_LEN = 12, /* counts of tablet_rectify */
    TABLET_FITTED_LEN = 11, /* counts of tablet_fit_geometry */
    TABLET_DETECTED_LEN = 7, /* counts of tablet_detect_fiducials */
    TABLET_LISTED_LEN = 3, /* counts of tablet_fiducial_candidates */
    TABLET_LABELLED_LEN = 2, /* counts of tablet_label_blobs */
    TABLET_WARPED_LEN = 1, /* counts of tablet_warp_with and tablet_warp_record */
    TABLET_SCORED_FIT_LEN = 14, /* a fit and its score */
    TABLET_FIT_LEN = 13,
    TABLET_MATRIX_LEN = 9,
    TABLET_LENS_LEN = 4,
    TABLET_POINTS_LEN = 8,
    TABLET_POINT_LEN = 2,
    TABLET_COLOUR_LEN = 4, /* of tablet_bilinear */
    TABLET_GRADE_LEN = 2, /* of tablet_grid_score */
    TABLET_MARKER_NUMBERS_LEN = 3,
    TABLET_GRID_LEN = 2,
    TABLET_PATCH_LEN = 8, /* one record of patches */
    TABLET_CANDIDATE_LEN = 4, /* one record of candidates */
    TABLET_PAGE_LINE_LEN = 37, /* one line of a candidate page: 36 columns and a line feed */
    TABLET_BOOK_HEADER_LEN = 16, /* bytes of a book before its first record */
    TABLET_BOOK_RECORD_LEN = 120, /* bytes of one record of a book */
    TABLET_BOOK_HEAD_LEN = 3, /* one record of heads; of its numbers TABLET_FIT_LEN */
    TABLET_BOOK_MOST_RECORDS = 35791393, /* the length of a longer book does not fit its header */
    TABLET_RECTANGLE_LEN = 4, /* one rectangle of windows */
    TABLET_WINDOW_LEN = 3, /* answers of tablet_patch_windows, for each rectangle */
    TABLET_MOST_WINDOWS = 64 /* rectangles that one call takes */
};

/* Stands for the place of a patch where there is none. A macro: no constant of an enum holds it. */
#define TABLET_NO_PATCH UINT64_MAX

/* Entries of the counts. tablet_fiducial_candidates fills the first three, tablet_detect_fiducials the first seven,
 * tablet_fit_geometry the first eleven and tablet_rectify all twelve. They are filled on acceptance and on a refusal by 7 to 10 or
 * 16. After 7 to 10 what there is not to tell is 0, and the grade TABLET_NO_GRADE; after 16 the places and TABLET_BEYOND are 0, and
 * the grade is TABLET_OUTSIDE or TABLET_TOO_FEW. */
enum {
    TABLET_PATCHES = 0,
    TABLET_CANDIDATES = 1,
    TABLET_WAITED = 2, /* the most pixels that waited at once, over all patches, as the original's stack holds them: the newest is
                        * taken first; its neighbours go on left, right, up, down, where dark and not yet marked, and are marked
                        * then; a patch's first pixel counts as one waiting. The waiting area needs its w * h entries all the
                        * same: fewer are refused by 3 */
    TABLET_PLACE_TL = 3, /* the four corners' places in patches */
    TABLET_PLACE_TR = 4,
    TABLET_PLACE_BR = 5,
    TABLET_PLACE_BL = 6,
    TABLET_TRIALS = 7, /* different lens terms tried, added over the three stages: 43 to 78 when accepted; after 10 and 16 those of
                        * the stages that were tried. A term that a stage tries again counts once there */
    TABLET_HOMOGRAPHIES = 8, /* of them, with a homography */
    TABLET_GRADE = 9, /* of the kept trial */
    TABLET_OUTSIDE_CELL = 10, /* where the grade is TABLET_OUTSIDE the first sampled cell, by row, then column, that has a tap
                               * outside the picture: row * cols + column, over all cells; else 0 */
    TABLET_BEYOND = 11 /* how many pixels of the card were read from beyond the picture's edge: their positions are not inside */
};

/* Grades. */
enum { TABLET_SCORED = 0, TABLET_OUTSIDE = 1, TABLET_TOO_FEW = 2, TABLET_NO_GRADE = 3 };

/* Entries of a found fit, filled on acceptance only: the matrix by rows, the lens, the score (-infinity where unscored, which a
 * fit of tablet_rectify never is). */
enum { TABLET_MATRIX = 0, TABLET_K = 9, TABLET_CX = 10, TABLET_CY = 11, TABLET_NORM = 12, TABLET_SCORE = 13 };

/* Entries of tablet_lengths: the smallest number of entries of each slice (exact for capture and canonical). */
enum {
    TABLET_LENGTH_CAPTURE = 0,
    TABLET_LENGTH_LUMA = 1,
    TABLET_LENGTH_INTEGRAL = 2,
    TABLET_LENGTH_MASK = 3,
    TABLET_LENGTH_SEEN = 4,
    TABLET_LENGTH_WAITING = 5,
    TABLET_LENGTH_PATCHES = 6,
    TABLET_LENGTH_CANDIDATES = 7,
    TABLET_LENGTH_BLOB_INDEX = 8,
    TABLET_LENGTH_MEANS = 9,
    TABLET_LENGTH_CANONICAL = 10
};

/* Every smallest length for a capture of w by h and a frame. 1, 2, 3. lengths: TABLET_LENGTHS_LEN. */
uint32_t tablet_lengths(size_t w, size_t h, size_t width, size_t height, size_t cell, size_t margin,
                        uint64_t *lengths, size_t lengths_len);

/* The flat card of a capture. 1 to 10, 16. counts: TABLET_COUNTS_LEN; fit: TABLET_SCORED_FIT_LEN. */
uint32_t tablet_rectify(const uint8_t *capture, size_t capture_len, size_t w, size_t h,
                        size_t width, size_t height, size_t cell, size_t margin,
                        float *luma, size_t luma_len, double *integral, size_t integral_len,
                        uint8_t *mask, size_t mask_len, uint8_t *seen, size_t seen_len,
                        uint32_t *waiting, size_t waiting_len, uint64_t *patches, size_t patches_len,
                        double *candidates, size_t candidates_len, uint32_t *blob_index, size_t blob_index_len,
                        double *means, size_t means_len, uint8_t *canonical, size_t canonical_len,
                        uint64_t *counts, size_t counts_len, double *fit, size_t fit_len);

/* The fit alone, unscored ones too. 1, 2, 3, 5 to 10. counts: TABLET_FITTED_LEN, and the rest of a longer one stays as it was;
 * fit: TABLET_SCORED_FIT_LEN. */
uint32_t tablet_fit_geometry(const uint8_t *capture, size_t capture_len, size_t w, size_t h,
                             size_t width, size_t height, size_t cell, size_t margin,
                             float *luma, size_t luma_len, double *integral, size_t integral_len,
                             uint8_t *mask, size_t mask_len, uint8_t *seen, size_t seen_len,
                             uint32_t *waiting, size_t waiting_len, uint64_t *patches, size_t patches_len,
                             double *candidates, size_t candidates_len, uint32_t *blob_index, size_t blob_index_len,
                             double *means, size_t means_len,
                             uint64_t *counts, size_t counts_len, double *fit, size_t fit_len);

/* The four corners. 1, 2, 3, 5 to 9. counts: TABLET_DETECTED_LEN; points: TABLET_POINTS_LEN, filled on acceptance only. */
uint32_t tablet_detect_fiducials(const uint8_t *capture, size_t capture_len, size_t w, size_t h,
                                 size_t width, size_t height, size_t cell, size_t margin,
                                 float *luma, size_t luma_len, double *integral, size_t integral_len,
                                 uint8_t *mask, size_t mask_len, uint8_t *seen, size_t seen_len,
                                 uint32_t *waiting, size_t waiting_len, uint64_t *patches, size_t patches_len,
                                 double *candidates, size_t candidates_len, uint32_t *blob_index, size_t blob_index_len,
                                 uint64_t *counts, size_t counts_len, double *points, size_t points_len);

/* Every ring-shaped patch. 1, 2, 3, 5, 6. counts: TABLET_LISTED_LEN. */
uint32_t tablet_fiducial_candidates(const uint8_t *capture, size_t capture_len, size_t w, size_t h,
                                    size_t width, size_t height, size_t cell, size_t margin,
                                    float *luma, size_t luma_len, double *integral, size_t integral_len,
                                    uint8_t *mask, size_t mask_len, uint8_t *seen, size_t seen_len,
                                    uint32_t *waiting, size_t waiting_len, uint64_t *patches, size_t patches_len,
                                    double *candidates, size_t candidates_len, uint32_t *blob_index, size_t blob_index_len,
                                    uint64_t *counts, size_t counts_len);

/* The patches of a mask, exactly w * h bytes, any nonzero byte dark; seen becomes 1 where dark, else 0. 2, 3.
 * counts: TABLET_LABELLED_LEN, number of patches and the most pixels that waited at once, as TABLET_WAITED. */
uint32_t tablet_label_blobs(const uint8_t *mask, size_t mask_len, size_t w, size_t h,
                            uint8_t *seen, size_t seen_len, uint32_t *waiting, size_t waiting_len,
                            uint64_t *patches, size_t patches_len, uint64_t *counts, size_t counts_len);

/* The mask of w by h with most patches, (w * h + 1) / 2 of one pixel each: 1 (dark) where column plus row is even, else 0. No mask
 * of that size has more, so that tablet_label_blobs needs no more patch records than it asks for, and takes all of them for this
 * one. 2 (sides), 3. mask: w * h, and the rest of a longer one stays as it was. */
uint32_t tablet_checkerboard(size_t w, size_t h, uint8_t *mask, size_t mask_len);

/* The fit of four observed points under a given lens term. 1, 2 (sides), 3, 5, 10.
 * points: TABLET_POINTS_LEN; fit: TABLET_FIT_LEN. */
uint32_t tablet_fit_for(size_t w, size_t h, size_t width, size_t height, size_t cell, size_t margin,
                        const double *points, size_t points_len, double k, double *fit, size_t fit_len);

/* How well a fit explains the cells. 1, 2, 3. fit: TABLET_FIT_LEN; means: a work area; grade: TABLET_GRADE_LEN, the grade and the
 * first cell outside, as TABLET_OUTSIDE_CELL; score: one, -infinity where unscored. The fit is not tested. */
uint32_t tablet_grid_score(const uint8_t *capture, size_t capture_len, size_t w, size_t h,
                           size_t width, size_t height, size_t cell, size_t margin,
                           const double *fit, size_t fit_len, double *means, size_t means_len,
                           uint64_t *grade, size_t grade_len, double *score, size_t score_len);

/* The card under a known fit. 1, 2, 3 (fit, counts), 4. fit: TABLET_FIT_LEN; counts: TABLET_WARPED_LEN, filled on acceptance only:
 * how many pixels of the card were read from beyond the picture's edge, as TABLET_BEYOND. */
uint32_t tablet_warp_with(const uint8_t *capture, size_t capture_len, size_t w, size_t h,
                          size_t width, size_t height, size_t cell, size_t margin,
                          const double *fit, size_t fit_len, uint8_t *canonical, size_t canonical_len,
                          uint64_t *counts, size_t counts_len);

/* The card under the fit of a book's record, by its grade (any but TABLET_SCORED gives 16) and the bit patterns of the fit's f64, as
 * tablet_read_book leaves them. 1, 2, 3 (numbers, counts), 4, 16. numbers: TABLET_FIT_LEN; counts as of tablet_warp_with. */
uint32_t tablet_warp_record(const uint8_t *capture, size_t capture_len, size_t w, size_t h,
                            size_t width, size_t height, size_t cell, size_t margin,
                            uint32_t grade, const uint64_t *numbers, size_t numbers_len,
                            uint8_t *canonical, size_t canonical_len, uint64_t *counts, size_t counts_len);

/* Draws the four markers into an image of w by h, clipped to it. 1, 2, 5. */
uint32_t tablet_stamp_fiducials(uint8_t *image, size_t image_len, size_t w, size_t h,
                                size_t width, size_t height, size_t cell, size_t margin);

/* Canonical centres of the markers. 1, 3, 5. points: TABLET_POINTS_LEN. */
uint32_t tablet_marker_centers(size_t width, size_t height, size_t cell, size_t margin, double *points, size_t points_len);

/* Marker side, quiet zone and the margin that holds them. 1 (cell), 3. numbers: TABLET_MARKER_NUMBERS_LEN. */
uint32_t tablet_marker_numbers(size_t cell, uint64_t *numbers, size_t numbers_len);

/* Columns and rows of cells. 1, 3. numbers: TABLET_GRID_LEN. */
uint32_t tablet_grid(size_t width, size_t height, size_t cell, size_t margin, uint64_t *numbers, size_t numbers_len);

/* The homography that takes source to target. 3, 10. source, target: TABLET_POINTS_LEN; matrix: TABLET_MATRIX_LEN. */
uint32_t tablet_from_points(const double *source, size_t source_len, const double *target, size_t target_len,
                            double *matrix, size_t matrix_len);

/* The inverse of a matrix. 3, 11. matrix, result: TABLET_MATRIX_LEN. */
uint32_t tablet_inverse(const double *matrix, size_t matrix_len, double *result, size_t result_len);

/* Where a matrix takes a point. 3. matrix: TABLET_MATRIX_LEN; point: TABLET_POINT_LEN. */
uint32_t tablet_apply(const double *matrix, size_t matrix_len, double x, double y, double *point, size_t point_len);

/* a times b. 3. a, b, result: TABLET_MATRIX_LEN. */
uint32_t tablet_mat3_mul(const double *a, size_t a_len, const double *b, size_t b_len, double *result, size_t result_len);

/* The lens of a capture of w by h with the term k. 2, 3. lens: TABLET_LENS_LEN. */
uint32_t tablet_radial(size_t w, size_t h, double k, double *lens, size_t lens_len);

/* Ideal to observed point, and back. 3. lens: TABLET_LENS_LEN; point: TABLET_POINT_LEN. */
uint32_t tablet_distort(const double *lens, size_t lens_len, double x, double y, double *point, size_t point_len);
uint32_t tablet_undistort(const double *lens, size_t lens_len, double x, double y, double *point, size_t point_len);

/* The colour of a capture at a position: that of the edge where it lies beyond, black where a coordinate is a NaN. 2, 3.
 * colour: TABLET_COLOUR_LEN, red, green, blue, and 1 where the position was inside the picture, else 0. */
uint32_t tablet_bilinear(const uint8_t *capture, size_t capture_len, size_t w, size_t h, double x, double y,
                         uint8_t *colour, size_t colour_len);

/* A pixel's luma, of its red, green and blue byte: what luma holds for such a pixel after a look. Never refused: every three bytes
 * have one. */
float tablet_luma(uint8_t r, uint8_t g, uint8_t b);

/* Root mean square distance of four points from four others. 3. a, b: TABLET_POINTS_LEN; result: one. */
uint32_t tablet_rms_error(const double *a, size_t a_len, const double *b, size_t b_len, double *result, size_t result_len);

/* The first count candidates as text, a line each: rank (from 1) in 4 columns, centre x in 8, centre y in 8, size in 7, score in 5,
 * a blank between each two, a line feed. Numbers stand to the right; centres and size have two decimals and the score three: the
 * exact amount, nearest, halves upward; -0 prints as 0. What then needs more columns is too wide. 3 (candidates), 12, 13.
 * candidates: TABLET_CANDIDATE_LEN for each, as a look leaves them; page: TABLET_PAGE_LINE_LEN for each, and the rest of a longer
 * one stays as it was. */
uint32_t tablet_candidate_page(const double *candidates, size_t candidates_len, size_t count, uint8_t *page, size_t page_len);

/* Which patches each of k rectangles touches, and which lies nearest, over the first n patches of a list. windows:
 * TABLET_RECTANGLE_LEN for each rectangle, x0, y0, x1, y1 in pixels, both ends counted; they may overlap, be the same and lie
 * outside the picture. patches: TABLET_PATCH_LEN for each patch, as a look leaves them; only x0, y0, x1, y1 are read. answers:
 * TABLET_WINDOW_LEN for each rectangle,
 *    how many patches have a box that shares a pixel with it
 *    the place in the list, from 0, of the first of them, or TABLET_NO_PATCH
 *    the place of the patch whose box has its centre nearest the rectangle's, touching or not, the earlier of equals: the least
 *    dx * dx + dy * dy, where dx is x0 + x1 of the box less x0 + x1 of the rectangle, and dy alike; TABLET_NO_PATCH where n is 0
 * and the rest of longer answers stays as it was. Each rectangle has the answers that it has alone. Records past n and numbers past
 * the k rectangles are not looked at. 3 (answers, windows, patches) and then 17, which is tried on the boxes where k is 0 too. */
uint32_t tablet_patch_windows(const uint64_t *patches, size_t patches_len, size_t n,
                              const uint64_t *windows, size_t windows_len, size_t k,
                              uint64_t *answers, size_t answers_len);

/* A book keeps fits as bytes, all numbers little-endian. Its header is four u32: the number of records, 16, 120, and the number
 * of all its bytes, 16 + 120 times the records. A record is four u32, panel, camera, grade (TABLET_SCORED, TABLET_OUTSIDE or
 * TABLET_TOO_FEW) and 0, and then the thirteen f64 of a fit. Panel, then camera, rise strictly from record to record.
 * heads: TABLET_BOOK_HEAD_LEN for each record, panel, camera, grade; numbers: TABLET_FIT_LEN for each, the bit patterns of the
 * f64. Patterns are kept as they are, NaN bits included: writing a book that was read gives its bytes back. */

/* The records of a book of exactly book_len bytes. 14, 15 and only then 3 (heads, numbers). On acceptance there are
 * (book_len - 16) / 120 of them, and the rest of longer heads and numbers stays as it was. */
uint32_t tablet_read_book(const uint8_t *book, size_t book_len, uint32_t *heads, size_t heads_len,
                          uint64_t *numbers, size_t numbers_len);

/* The book of the first count records. 3, 14 (count, grades), 15. On acceptance its length is 16 + 120 * count, and the rest of
 * a longer book stays as it was. */
uint32_t tablet_write_book(const uint32_t *heads, size_t heads_len, const uint64_t *numbers, size_t numbers_len,
                           size_t count, uint8_t *book, size_t book_len);

/* Two books put together: each key of either once, rising, with the record that stands under it in one of them, or in both: the 120
 * bytes of a shared key must be equal, compared as bytes, so that a NaN equals itself and -0 does not equal +0. Which book is first
 * changes nothing of the joined one. 14 and 15 of the first book, 14 and 15 of the second, and only then 3 (target) and 18. A shared
 * key counts once for the length that target needs, where its bytes differ too; as many bytes as both books have, less
 * TABLET_BOOK_HEADER_LEN, are always enough. On acceptance the fourth word of target's header is the length of the joined book, and
 * the rest of a longer target stays as it was. first and second may be the same memory. */
uint32_t tablet_merge_books(const uint8_t *first, size_t first_len, const uint8_t *second, size_t second_len,
                            uint8_t *target, size_t target_len);

/* All slices of a look, of a fit and of rectify, for captures of one size and one frame. tablet_areas_lend fills it but for the
 * capture; the functions below then take it in the place of 26 arguments. */
struct tablet_areas {
    const uint8_t *capture;
    size_t capture_len;
    float *luma;
    size_t luma_len;
    double *integral;
    size_t integral_len;
    uint8_t *mask;
    size_t mask_len;
    uint8_t *seen;
    size_t seen_len;
    uint32_t *waiting;
    size_t waiting_len;
    uint64_t *patches;
    size_t patches_len;
    double *candidates;
    size_t candidates_len;
    uint32_t *blob_index;
    size_t blob_index_len;
    double *means;
    size_t means_len;
    uint8_t *canonical;
    size_t canonical_len;
    uint64_t counts[TABLET_COUNTS_LEN];
    double fit[TABLET_SCORED_FIT_LEN];
};

/* How many bytes all lent areas take, by the lengths that tablet_lengths gives: 51 a pixel and the card. */
static inline size_t tablet_areas_size(const uint64_t *lengths)
{
    return (size_t)(8 * (lengths[TABLET_LENGTH_INTEGRAL] + lengths[TABLET_LENGTH_PATCHES]) +
                    8 * (lengths[TABLET_LENGTH_CANDIDATES] + lengths[TABLET_LENGTH_MEANS]) +
                    4 * (lengths[TABLET_LENGTH_LUMA] + lengths[TABLET_LENGTH_WAITING] + lengths[TABLET_LENGTH_BLOB_INDEX]) +
                    lengths[TABLET_LENGTH_MASK] + lengths[TABLET_LENGTH_SEEN] + lengths[TABLET_LENGTH_CANONICAL]);
}

/* Lends parts of one block of tablet_areas_size bytes, aligned as malloc's are; the widest entries come first, so that each part
 * is aligned. The block must outlive the areas. Gives 0, and lends nothing, where there is no block (NULL), else 1. */
static inline int tablet_areas_lend(struct tablet_areas *a, const uint64_t *lengths, void *block)
{
    if (block == NULL) return 0;
    a->integral_len = (size_t)lengths[TABLET_LENGTH_INTEGRAL];
    a->patches_len = (size_t)lengths[TABLET_LENGTH_PATCHES];
    a->candidates_len = (size_t)lengths[TABLET_LENGTH_CANDIDATES];
    a->means_len = (size_t)lengths[TABLET_LENGTH_MEANS];
    a->luma_len = (size_t)lengths[TABLET_LENGTH_LUMA];
    a->waiting_len = (size_t)lengths[TABLET_LENGTH_WAITING];
    a->blob_index_len = (size_t)lengths[TABLET_LENGTH_BLOB_INDEX];
    a->mask_len = (size_t)lengths[TABLET_LENGTH_MASK];
    a->seen_len = (size_t)lengths[TABLET_LENGTH_SEEN];
    a->canonical_len = (size_t)lengths[TABLET_LENGTH_CANONICAL];
    a->integral = (double *)block;
    a->patches = (uint64_t *)(void *)(a->integral + a->integral_len);
    a->candidates = (double *)(void *)(a->patches + a->patches_len);
    a->means = a->candidates + a->candidates_len;
    a->luma = (float *)(void *)(a->means + a->means_len);
    a->waiting = (uint32_t *)(void *)(a->luma + a->luma_len);
    a->blob_index = a->waiting + a->waiting_len;
    a->mask = (uint8_t *)(void *)(a->blob_index + a->blob_index_len);
    a->seen = a->mask + a->mask_len;
    a->canonical = a->seen + a->seen_len;
    return 1;
}

/* tablet_rectify: the card is in a->canonical, the rest in a->counts and a->fit. */
static inline uint32_t tablet_areas_rectify(struct tablet_areas *a, size_t w, size_t h,
                                            size_t width, size_t height, size_t cell, size_t margin)
{
    return tablet_rectify(a->capture, a->capture_len, w, h, width, height, cell, margin,
                          a->luma, a->luma_len, a->integral, a->integral_len, a->mask, a->mask_len, a->seen, a->seen_len,
                          a->waiting, a->waiting_len, a->patches, a->patches_len,
                          a->candidates, a->candidates_len, a->blob_index, a->blob_index_len,
                          a->means, a->means_len, a->canonical, a->canonical_len,
                          a->counts, TABLET_COUNTS_LEN, a->fit, TABLET_SCORED_FIT_LEN);
}

/* tablet_fit_geometry: the fit is in a->fit, the rest in a->counts, but for TABLET_BEYOND: that stays as it was. */
static inline uint32_t tablet_areas_fit(struct tablet_areas *a, size_t w, size_t h,
                                        size_t width, size_t height, size_t cell, size_t margin)
{
    return tablet_fit_geometry(a->capture, a->capture_len, w, h, width, height, cell, margin,
                               a->luma, a->luma_len, a->integral, a->integral_len,
                               a->mask, a->mask_len, a->seen, a->seen_len,
                               a->waiting, a->waiting_len, a->patches, a->patches_len,
                               a->candidates, a->candidates_len, a->blob_index, a->blob_index_len,
                               a->means, a->means_len, a->counts, TABLET_FITTED_LEN, a->fit, TABLET_SCORED_FIT_LEN);
}

/* tablet_fiducial_candidates: patches and candidates are in the areas, their numbers in the first three of a->counts. */
static inline uint32_t tablet_areas_look(struct tablet_areas *a, size_t w, size_t h,
                                         size_t width, size_t height, size_t cell, size_t margin)
{
    return tablet_fiducial_candidates(a->capture, a->capture_len, w, h, width, height, cell, margin,
                                      a->luma, a->luma_len, a->integral, a->integral_len,
                                      a->mask, a->mask_len, a->seen, a->seen_len,
                                      a->waiting, a->waiting_len, a->patches, a->patches_len,
                                      a->candidates, a->candidates_len, a->blob_index, a->blob_index_len,
                                      a->counts, TABLET_LISTED_LEN);
}

/* tablet_candidate_page: all candidates of the last of these calls, which was accepted or refused by 7 to 10 or 16. */
static inline uint32_t tablet_areas_page(const struct tablet_areas *a, uint8_t *page, size_t page_len)
{
    return tablet_candidate_page(a->candidates, a->candidates_len, (size_t)a->counts[TABLET_CANDIDATES], page, page_len);
}

#ifdef __cplusplus
}
#endif

#endif
