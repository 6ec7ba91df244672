/* How much stack the calls take: each runs on a stack of its own that was painted before, and the deepest byte that lost its paint
 * is looked for afterwards. */
#define _XOPEN_SOURCE 700
#include "cases.h"
#include <ucontext.h>

enum { PAINT = 0xa5, STACK = 65536, MOST = 8192, WIDTH = 19, HEIGHT = 3, LENGTH = WIDTH * HEIGHT };

static unsigned char stack[STACK];
static ucontext_t here, there;
static const cork_setting SETTINGS[] = {
    {1, 1, 0, 8, 8, 8, true, true, CORK_EDITION_2021},           {1, 1, 1, 8, 8, 8, true, true, CORK_EDITION_2021},
    {1, 1, 9, 12, 10, 10, false, true, CORK_EDITION_PUBLISHED},  {1, 1, 8, 8, 8, 8, false, false, CORK_EDITION_PUBLISHED},
    {1, 1, 8, 8, 8, 9, true, true, CORK_EDITION_DRAFT},          {1, 1, 15, 10, 12, 12, true, true, CORK_EDITION_DRAFT},
    {1, 1, 16, 10, 12, 12, true, true, CORK_EDITION_PUBLISHED},  {1, 1, 17, 15, 16, 16, true, true, CORK_EDITION_PUBLISHED},
    {1, 1, 255, 8, 8, 8, true, true, CORK_EDITION_PUBLISHED},    {1, 1, 1, 8, 8, 8, true, true, 0},
};
enum { COUNT = sizeof SETTINGS / sizeof *SETTINGS };

static cork_setting setting;
static uint16_t from[3][LENGTH], to[3][LENGTH];
static volatile uint64_t seen;

static cork_source source(void) { return cork_source_of(from[0], from[1], from[2], LENGTH, WIDTH); }
static cork_output output(void) { return cork_output_of(to[0], to[1], to[2], LENGTH, WIDTH); }

static void forward_frame(void) { seen = cork_forward_frame(setting, WIDTH, HEIGHT, source(), output()).packed; }
static void reverse_frame(void) { seen = cork_reverse_frame(setting, WIDTH, HEIGHT, source(), output()).packed; }
static void image_check(void) { seen = cork_image_check(setting, WIDTH, HEIGHT, source()).packed; }
static void judge_forward(void) { seen = cork_judge_forward(setting, WIDTH, HEIGHT, source(), source()).wrong; }
static void judge_reverse(void) { seen = cork_judge_reverse(setting, WIDTH, HEIGHT, source(), source()).wrong; }
static void forward_pixel(void) { seen = cork_forward_pixel(setting, 1, 2, 3).packed; }
static void reverse_pixel(void) { seen = cork_reverse_pixel(setting, 1, 2, 3).packed; }
static void meter_pixel(void) { seen = cork_meter_pixel(setting, 1, 2, 3).answer.packed; }
static void meter_y(void) { seen = cork_meter_y(setting, 1).answer.packed; }
static void meter_cb(void) { seen = cork_meter_cb(setting, 1).answer.packed; }
static void meter_cr(void) { seen = cork_meter_cr(setting, 1).answer.packed; }
static void labels(void)
{
    seen = (uint64_t)cork_primaries_label(setting.edition, 1) + cork_transfer_label(setting.edition, 1) +
           cork_matrix_label(setting.edition, 1);
}
static void records(void)
{
    uint8_t record[CORK_RECORD_BYTES];
    cork_colour_label label = {setting.primaries, setting.transfer, setting.matrix, setting.ycc_full};
    seen = cork_write_label(label, record, sizeof record).packed + cork_read_label(record, sizeof record).packed;
    seen += cork_pick_label(record, sizeof record - 1, record, sizeof record).packed;
}
static void nothing(void) { seen = 0; }

static size_t taken_by(void (*call)(void))
{
    size_t deepest = 0;
    for (size_t i = 0; i < STACK; i++) stack[i] = PAINT;
    getcontext(&there);
    there.uc_stack.ss_sp = stack;
    there.uc_stack.ss_size = STACK;
    there.uc_link = &here;
    makecontext(&there, call, 0);
    swapcontext(&here, &there);
    while (deepest < STACK && stack[deepest] == PAINT) deepest++;
    return STACK - deepest;
}

static void (*const CALLS[])(void) = {forward_frame, reverse_frame, image_check, judge_forward, judge_reverse, forward_pixel,
                                      reverse_pixel, meter_pixel,   meter_y,     meter_cb,      meter_cr,      labels,
                                      records};

static size_t most_taken(void)
{
    size_t most = 0;
    for (size_t k = 0; k < COUNT; k++) {
        setting = SETTINGS[k];
        for (size_t i = 0; i < sizeof CALLS / sizeof *CALLS; i++) {
            size_t taken = taken_by(CALLS[i]);
            if (most < taken) most = taken;
        }
    }
    return most;
}

int main(void)
{
    size_t empty = taken_by(nothing), most;
    most_taken(); /* the loader binds some functions at their first call, on the caller's stack */
    most = most_taken();
    printf("%zu bytes of stack at most, %zu for a call of nothing\n", most, empty);
    return empty < most && most <= MOST ? 0 : 1;
}
