/* Converts a small picture to luma and chroma and back, asks the image check and the spot meter, judges another converter's frame, reads an
 * old label, and meets a few refusals. `tools/run-example` builds and runs it. */
#include "corkplover.h"

#include <stdio.h>
#include <string.h>

enum { WIDTH = 4, HEIGHT = 2, STRIDE = 5, LENGTH = HEIGHT * STRIDE };

/* Lossless YCgCo: RGB and Y with 8 bits, Cb and Cr with 9. Both sides are full range. */
static const cork_setting LOSSLESS = {1, 13, 8, 8, 8, 9, true, true, CORK_EDITION_PUBLISHED};

/* BT.709 from 8-bit full-range RGB to 8-bit narrow luma and chroma. */
static const cork_setting HD = {1, 1, 1, 8, 8, 8, true, false, CORK_EDITION_PUBLISHED};

/* From an archive, with a label by the draft: its matrix 15 is YCgCo-Re, where Y, Cb and Cr have two bits more than RGB. */
static const cork_setting ARCHIVE = {1, 13, 15, 8, 10, 10, true, true, CORK_EDITION_DRAFT};

/* Red, green, blue, white; then a few greys and a brown. The fifth element of a row is padding: anything may stand there. */
static const uint16_t R[LENGTH] = {255, 0, 0, 255, 999, 0, 64, 128, 150, 999};
static const uint16_t G[LENGTH] = {0, 255, 0, 255, 999, 0, 64, 128, 100, 999};
static const uint16_t B[LENGTH] = {0, 0, 255, 255, 999, 0, 64, 128, 50, 999};

static void print_plane(const char *name, const uint16_t *plane)
{
    for (int row = 0; row < HEIGHT; row++) {
        printf("  %-2s", row == 0 ? name : "");
        for (int i = 0; i < STRIDE; i++) printf(" %4u", plane[row * STRIDE + i]);
        printf("\n");
    }
}

static void print_planes(const char *title, const char *const names[3], cork_output picture)
{
    printf("%s\n", title);
    for (int k = 0; k < 3; k++) print_plane(names[k], picture.plane[k]);
}

static void print_refusal(const char *what, cork_answer answer)
{
    printf("%s: refusal %d, %s", what, (int)cork_refusal_of(answer), cork_refusal_text(cork_refusal_of(answer)));
    if (cork_refusal_of(answer) == CORK_SAMPLE_TOO_LARGE)
        printf(": sample %u of plane %u, row %u, column %u", cork_bad_sample(answer), cork_plane(answer), cork_row(answer),
               cork_column(answer));
    printf("\n");
}

static void print_pixel(const char *what, cork_answer pixel)
{
    printf("%s: Y %u  Cb %u  Cr %u\n", what, cork_sample(pixel, 0), cork_sample(pixel, 1), cork_sample(pixel, 2));
}

static bool is_same_picture(const uint16_t *a, const uint16_t *b)
{
    for (int row = 0; row < HEIGHT; row++)
        if (memcmp(a + row * STRIDE, b + row * STRIDE, WIDTH * sizeof *a) != 0) return false;
    return true;
}

static uint16_t y[LENGTH], cb[LENGTH], cr[LENGTH], r[LENGTH], g[LENGTH], b[LENGTH];
static const char *const YCC_NAMES[3] = {"Y", "Cb", "Cr"}, *const RGB_NAMES[3] = {"R", "G", "B"};

static void there_and_back(void)
{
    cork_source rgb = cork_source_of(R, G, B, LENGTH, STRIDE);
    cork_output ycc = cork_output_of(y, cb, cr, LENGTH, STRIDE);
    cork_output again = cork_output_of(r, g, b, LENGTH, STRIDE);
    cork_answer answer = cork_forward_frame(LOSSLESS, WIDTH, HEIGHT, rgb, ycc);
    printf("forward: %s\n", cork_refusal_text(cork_refusal_of(answer)));
    print_planes("luma and chroma, padding cleared", YCC_NAMES, ycc);
    answer = cork_reverse_frame(LOSSLESS, WIDTH, HEIGHT, cork_read_back(ycc), again);
    printf("reverse: %s\n", cork_refusal_text(cork_refusal_of(answer)));
    print_planes("R, G, B again", RGB_NAMES, again);
    printf("the same picture: %s\n", is_same_picture(R, r) && is_same_picture(G, g) && is_same_picture(B, b) ? "yes" : "no");
}

/* On what there_and_back left in y, cb, cr. */
static void image_check(void)
{
    cork_source ycc = cork_source_of(y, cb, cr, LENGTH, STRIDE);
    cork_answer answer = cork_image_check(LOSSLESS, WIDTH, HEIGHT, ycc);
    printf("has an RGB source: %s\n", cork_has_source(answer) ? "yes" : "no");
    y[1 * STRIDE + 2] = 0; /* the grey of row 1, column 2, made dark */
    cr[1 * STRIDE + 2] = 511;
    answer = cork_image_check(LOSSLESS, WIDTH, HEIGHT, ycc);
    printf("after an edit: %s, first at row %u, column %u\n", cork_has_source(answer) ? "yes" : "no", cork_row(answer),
           cork_column(answer));
}

/* Another converter's frame: the same as ours, but for a white that is too bright and two errors in the brown. */
static void judgement(void)
{
    cork_source rgb = cork_source_of(R, G, B, LENGTH, STRIDE);
    cork_output claimed = cork_output_of(y, cb, cr, LENGTH, STRIDE);
    cork_forward_frame(HD, WIDTH, HEIGHT, rgb, claimed);
    y[0 * STRIDE + 3] += 1;
    cb[1 * STRIDE + 3] += 1;
    cr[1 * STRIDE + 3] -= 1;
    cork_judgement found = cork_judge_forward(HD, WIDTH, HEIGHT, rgb, cork_read_back(claimed));
    printf("another converter's frame agrees: %s, first wrong at row %u, column %u, wrong pixels: %u\n",
           cork_agrees(found.answer) ? "yes" : "no", cork_row(found.answer), cork_column(found.answer), (unsigned)found.wrong);
}

static void meter(void)
{
    cork_answer pixel = cork_forward_pixel(HD, 255, 0, 0);
    print_pixel("red at BT.709, narrow", pixel);
    cork_levels levels = cork_meter_pixel(HD, cork_sample(pixel, 0), cork_sample(pixel, 1), cork_sample(pixel, 2));
    printf("its levels: %.6f  %.6f  %.6f\n", levels.y, levels.cb, levels.cr);
    print_refusal("the meter on a lossless setting", cork_meter_y(LOSSLESS, 63).answer);
}

/* One label in three editions: its own, one in which the code is another matrix, and none at all. */
static void old_label(void)
{
    cork_setting published = ARCHIVE, forgotten = ARCHIVE;
    published.edition = CORK_EDITION_PUBLISHED;
    forgotten.edition = 0;
    print_pixel("red by matrix 15 of the draft", cork_forward_pixel(ARCHIVE, 255, 0, 0));
    print_refusal("matrix 15 of the published edition", cork_forward_pixel(published, 255, 0, 0));
    print_refusal("matrix 15 without an edition", cork_forward_pixel(forgotten, 255, 0, 0));
}

static void bad_sample(void)
{
    uint16_t bad[LENGTH];
    memcpy(bad, G, sizeof bad);
    bad[1 * STRIDE + 3] = 256;
    cork_output ycc = cork_output_of(y, cb, cr, LENGTH, STRIDE);
    cork_answer answer = cork_forward_frame(LOSSLESS, WIDTH, HEIGHT, cork_source_of(R, bad, B, LENGTH, STRIDE), ycc);
    print_refusal("forward with 256 among 8-bit greens", answer);
    print_planes("nothing is left in the planes", YCC_NAMES, ycc);
}

int main(void)
{
    there_and_back();
    image_check();
    judgement();
    meter();
    old_label();
    bad_sample();
    return 0;
}
