/* The largest pictures that are served: 8192 by 8192, and 1 by 8192, both at stride 16,384, in planes of just the length that is
 * needed. Black pictures with one white pixel in the last corner. Takes about a gigabyte. */
#include "cases.h"

enum { SIDE = CORK_LARGEST_SIDE, STRIDE = CORK_LARGEST_STRIDE };

static const cork_setting LOSSLESS = {1, 1, 8, 8, 8, 9, true, true, CORK_EDITION_PUBLISHED};

/* Black and white on this setting, as Y, Cb, Cr. */
static const uint16_t BLACK[3] = {0, 256, 256}, WHITE[3] = {255, 256, 256};

static void must(bool holds, const char *what)
{
    if (holds) return;
    printf("%s\n", what);
    exit(1);
}

static uint16_t *planes[3], *sources[3];
static size_t length;

static cork_answer convert(size_t width, size_t shorter_by)
{
    for (int k = 0; k < 3; k++) memset(planes[k], 0xa5, length * sizeof(uint16_t));
    cork_source from = cork_source_of(sources[0], sources[1], sources[2], length, STRIDE);
    cork_output to = cork_output_of(planes[0], planes[1], planes[2], length - shorter_by, STRIDE);
    return cork_forward_frame(LOSSLESS, width, SIDE, from, to);
}

/* Every element: the picture's, and the zeros between its rows. */
static bool is_converted(int k, size_t width)
{
    for (size_t i = 0; i + 1 < length; i++)
        if (planes[k][i] != (i % STRIDE < width ? BLACK[k] : 0)) return false;
    return planes[k][length - 1] == WHITE[k];
}

static bool is_zero(int k, size_t count)
{
    for (size_t i = 0; i < count; i++)
        if (planes[k][i] != 0) return false;
    return true;
}

static void check_frames(size_t width)
{
    must(cork_accepted(convert(width, 0)), "the largest frame is not served");
    for (int k = 0; k < 3; k++) must(is_converted(k, width), "a sample of the largest frame is wrong");
    must(convert(width, 1).packed == CORK_PLANE_TOO_SHORT, "one element less is not refused with 9");
    for (int k = 0; k < 3; k++) {
        must(is_zero(k, length - 1), "a refused call left something behind");
        must(planes[k][length - 1] == 0xa5a5, "a refused call wrote past the plane's end");
    }
    sources[2][length - 1] = 300;
    cork_answer a = convert(width, 0);
    sources[2][length - 1] = 255;
    must(cork_refusal_of(a) == CORK_SAMPLE_TOO_LARGE && cork_plane(a) == 2, "a sample too large in the last corner is missed");
    must(cork_row(a) == SIDE - 1 && cork_column(a) == width - 1, "its place is wrong");
    must(cork_bad_sample(a) == 300, "its number is wrong");
}

/* On the black and white picture just made: its source is there, and is gone once the last corner's Cb is changed. */
static void image_check(size_t width)
{
    must(cork_accepted(convert(width, 0)), "the largest frame is not served");
    cork_source ycc = cork_source_of(planes[0], planes[1], planes[2], length, STRIDE);
    cork_answer a = cork_image_check(LOSSLESS, width, SIDE, ycc);
    must(cork_accepted(a) && cork_has_source(a), "the image check misses a source");
    planes[1][length - 1] = 511;
    a = cork_image_check(LOSSLESS, width, SIDE, ycc);
    must(cork_accepted(a) && !cork_has_source(a), "the image check finds a source where none is");
    must(cork_row(a) == SIDE - 1 && cork_column(a) == width - 1, "its place is wrong");
}

static cork_judgement judge(size_t width, size_t stride, size_t shorter_by)
{
    cork_source from = cork_source_of(sources[0], sources[1], sources[2], length, stride);
    cork_source claimed = cork_source_of(planes[0], planes[1], planes[2], length - shorter_by, stride);
    return cork_judge_forward(LOSSLESS, width, SIDE, from, claimed);
}

static bool differs_at(cork_judgement found, size_t row, size_t column, uint64_t wrong)
{
    cork_answer a = found.answer;
    return cork_accepted(a) && !cork_agrees(a) && cork_row(a) == row && cork_column(a) == column && found.wrong == wrong;
}

/* On planes that hold the picture as it should be: right, then wrong in the last corner, then in every pixel. */
static void judge_at(size_t width, size_t stride)
{
    cork_judgement found = judge(width, stride, 0);
    must(cork_accepted(found.answer) && cork_agrees(found.answer) && found.wrong == 0, "the largest frame is judged wrong");
    planes[1][cork_needed_length(width, SIDE, stride) - 1] ^= 1;
    must(differs_at(judge(width, stride, 0), SIDE - 1, width - 1, 1), "a wrong pixel in the last corner is missed");
    memset(planes[2], 0xa5, length * sizeof(uint16_t));
    must(differs_at(judge(width, stride, 0), 0, 0, (uint64_t)width * SIDE), "wrong pixels are not all counted");
}

/* Also without padding: at that stride the white pixel lies behind the picture. */
static void check_judgement(size_t width)
{
    must(cork_accepted(convert(width, 0)), "the largest frame is not served");
    judge_at(width, STRIDE);
    cork_judgement found = judge(width, STRIDE, 1);
    must(found.answer.packed == CORK_PLANE_TOO_SHORT && found.wrong == 0, "a claim of one element less is not refused with 9");
    for (int k = 0; k < 3; k++)
        for (size_t i = 0; i < width * SIDE; i++) planes[k][i] = BLACK[k];
    judge_at(width, width);
}

int main(void)
{
    const size_t widths[] = {SIDE, 1};
    for (int w = 0; w < 2; w++) {
        length = cork_needed_length(widths[w], SIDE, STRIDE);
        for (int k = 0; k < 3; k++) {
            /* pages of zeros that are only read take no memory */
            sources[k] = (uint16_t *)calloc(length, sizeof(uint16_t));
            planes[k] = (uint16_t *)malloc(length * sizeof(uint16_t));
            must(sources[k] && planes[k], "no memory");
            sources[k][length - 1] = 255;
        }
        check_frames(widths[w]);
        image_check(widths[w]);
        check_judgement(widths[w]);
        for (int k = 0; k < 3; k++) {
            free(sources[k]);
            free(planes[k]);
        }
    }
    return 0;
}
