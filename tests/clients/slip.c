/* Stands between a client and the library and makes a slip on the way, in every call of one export. The variable SLIP says which:
 *
 *   EXPORT parameters I J   two parameters in each other's place, counted from 0; a plane or record is one parameter with its length
 *   EXPORT shorter I        the length of a record, parameter I, one byte less
 *   EXPORT fields I J       two fields of the setting in each other's place in its word
 *   EXPORT reversed         the word's bytes in the opposite order
 *   EXPORT noise I J        noise in the word's bits from I up to J
 *
 * The client is compiled with each corkplover_NAME renamed to slipped_NAME. Answers that stay right under a slip would show that the
 * cases cannot tell; but noise in the bits that the library does not look at has to leave them right. */
#include "corkplover.h"

#include <stdio.h>
#include <stdlib.h>
#include <string.h>

typedef struct slot {
    uint64_t number; /* or a plane's length */
    void *pointer;
} slot;

enum { FIELDS = 9 };
static const int FIRST_BIT[FIELDS] = {0, 8, 16, 24, 32, 40, 48, 49, 56};
static const uint64_t LARGEST[FIELDS] = {255, 255, 255, 255, 255, 255, 1, 1, 255};

/* A code, a depth or an edition in a flag's place counts as true where it is not 0. */
static uint64_t with_fields_exchanged(uint64_t word, int i, int j)
{
    uint64_t again = 0;
    for (int k = 0; k < FIELDS; k++) {
        int from = k == i ? j : k == j ? i : k;
        uint64_t value = word >> FIRST_BIT[from] & LARGEST[from];
        again |= (value < LARGEST[k] ? value : LARGEST[k]) << FIRST_BIT[k];
    }
    return again;
}

static uint64_t reversed(uint64_t word)
{
    uint64_t again = 0;
    for (int k = 0; k < 64; k += 8) again = again << 8 | (word >> k & 0xff);
    return again;
}

static uint64_t noise_in(int first, int last)
{
    static uint64_t state = 1;
    state = state * 6364136223846793005u + 1442695040888963407u;
    return state >> (63 - last + first) << first;
}

static void exchange(slot *a, slot *b)
{
    slot kept = *a;
    *a = *b;
    *b = kept;
}

/* The setting's word is parameter 0 of every export that takes one: all but the labels. A record of no bytes has none to lose. */
static void slip(const char *export_name, slot *s)
{
    char name[32], what[16];
    int i = 0, j = 0;
    const char *wanted = getenv("SLIP");
    if (!wanted || sscanf(wanted, "%31s %15s %d %d", name, what, &i, &j) < 2 || strcmp(name, export_name) != 0) return;
    if (strcmp(what, "parameters") == 0) exchange(&s[i], &s[j]);
    if (strcmp(what, "shorter") == 0 && s[i].number > 0) s[i].number--;
    if (strcmp(what, "fields") == 0) s[0].number = with_fields_exchanged(s[0].number, i, j);
    if (strcmp(what, "reversed") == 0) s[0].number = reversed(s[0].number);
    if (strcmp(what, "noise") == 0) s[0].number ^= noise_in(i, j);
}

#define NUMBER(i) s[i].number
#define BYTE(i) (uint8_t)s[i].number
#define SAMPLE(i) (uint16_t)s[i].number
#define LEVEL(i) (float *)s[i].pointer
#define RECORD(i) (const uint8_t *)s[i].pointer, s[i].number
#define SOURCE(i) (const uint16_t *)s[i].pointer, s[i].number
#define OUTPUT(i) (uint16_t *)s[i].pointer, s[i].number
#define LENT(p, n) {n, (void *)(uintptr_t)p}

#define LABEL_CALL(name)                                          \
    uint8_t slipped_##name(uint8_t edition, uint8_t code);        \
    uint8_t slipped_##name(uint8_t edition, uint8_t code)         \
    {                                                             \
        slot s[] = {{edition, 0}, {code, 0}};                     \
        slip(#name, s);                                           \
        return corkplover_##name(BYTE(0), BYTE(1));               \
    }
LABEL_CALL(primaries_label)
LABEL_CALL(transfer_label)
LABEL_CALL(matrix_label)

#define PIXEL_CALL(name)                                                              \
    uint64_t slipped_##name(uint64_t word, uint16_t p, uint16_t q, uint16_t r);       \
    uint64_t slipped_##name(uint64_t word, uint16_t p, uint16_t q, uint16_t r)        \
    {                                                                                 \
        slot s[] = {{word, 0}, {p, 0}, {q, 0}, {r, 0}};                               \
        slip(#name, s);                                                               \
        return corkplover_##name(NUMBER(0), SAMPLE(1), SAMPLE(2), SAMPLE(3));         \
    }
PIXEL_CALL(forward_pixel)
PIXEL_CALL(reverse_pixel)

#define SAMPLE_CALL(name)                                                \
    uint64_t slipped_##name(uint64_t word, uint16_t v, float *level);    \
    uint64_t slipped_##name(uint64_t word, uint16_t v, float *level)     \
    {                                                                    \
        slot s[] = {{word, 0}, {v, 0}, {0, level}};                      \
        slip(#name, s);                                                  \
        return corkplover_##name(NUMBER(0), SAMPLE(1), LEVEL(2));        \
    }
SAMPLE_CALL(meter_y)
SAMPLE_CALL(meter_cb)
SAMPLE_CALL(meter_cr)

uint64_t slipped_meter_pixel(uint64_t word, uint16_t p, uint16_t q, uint16_t r, float *x, float *y, float *z);
uint64_t slipped_meter_pixel(uint64_t word, uint16_t p, uint16_t q, uint16_t r, float *x, float *y, float *z)
{
    slot s[] = {{word, 0}, {p, 0}, {q, 0}, {r, 0}, {0, x}, {0, y}, {0, z}};
    slip("meter_pixel", s);
    return corkplover_meter_pixel(NUMBER(0), SAMPLE(1), SAMPLE(2), SAMPLE(3), LEVEL(4), LEVEL(5), LEVEL(6));
}

#define PLANES const uint16_t *p, size_t ps, const uint16_t *q, size_t qs, const uint16_t *r, size_t rs
#define OUTPUT_PLANES uint16_t *x, size_t xs, uint16_t *y, size_t ys, uint16_t *z, size_t zs

#define FRAME_CALL(name)                                                                                              \
    uint64_t slipped_##name(uint64_t word, size_t w, size_t v, size_t t, size_t u, PLANES, OUTPUT_PLANES);            \
    uint64_t slipped_##name(uint64_t word, size_t w, size_t v, size_t t, size_t u, PLANES, OUTPUT_PLANES)             \
    {                                                                                                                 \
        slot s[] = {{word, 0},   {w, 0},      {v, 0},      {t, 0},      {u, 0},     LENT(p, ps),                      \
                    LENT(q, qs), LENT(r, rs), LENT(x, xs), LENT(y, ys), LENT(z, zs)};                                 \
        slip(#name, s);                                                                                               \
        return corkplover_##name(NUMBER(0), NUMBER(1), NUMBER(2), NUMBER(3), NUMBER(4), SOURCE(5), SOURCE(6),         \
                                 SOURCE(7), OUTPUT(8), OUTPUT(9), OUTPUT(10));                                        \
    }
FRAME_CALL(forward_frame)
FRAME_CALL(reverse_frame)

#define CLAIMED_PLANES const uint16_t *x, size_t xs, const uint16_t *y, size_t ys, const uint16_t *z, size_t zs

#define JUDGE_CALL(name)                                                                                              \
    uint64_t slipped_##name(uint64_t word, size_t w, size_t v, size_t t, size_t u, PLANES, CLAIMED_PLANES,            \
                            uint64_t *wrong);                                                                         \
    uint64_t slipped_##name(uint64_t word, size_t w, size_t v, size_t t, size_t u, PLANES, CLAIMED_PLANES,            \
                            uint64_t *wrong)                                                                          \
    {                                                                                                                 \
        slot s[] = {{word, 0},   {w, 0},      {v, 0},      {t, 0},      {u, 0},     LENT(p, ps),                      \
                    LENT(q, qs), LENT(r, rs), LENT(x, xs), LENT(y, ys), LENT(z, zs)};                                 \
        slip(#name, s);                                                                                               \
        return corkplover_##name(NUMBER(0), NUMBER(1), NUMBER(2), NUMBER(3), NUMBER(4), SOURCE(5), SOURCE(6),         \
                                 SOURCE(7), SOURCE(8), SOURCE(9), SOURCE(10), wrong);                                 \
    }
JUDGE_CALL(judge_forward)
JUDGE_CALL(judge_reverse)

uint64_t slipped_image_check(uint64_t word, size_t w, size_t v, size_t t, PLANES);
uint64_t slipped_image_check(uint64_t word, size_t w, size_t v, size_t t, PLANES)
{
    slot s[] = {{word, 0}, {w, 0}, {v, 0}, {t, 0}, LENT(p, ps), LENT(q, qs), LENT(r, rs)};
    slip("image_check", s);
    return corkplover_image_check(NUMBER(0), NUMBER(1), NUMBER(2), NUMBER(3), SOURCE(4), SOURCE(5), SOURCE(6));
}

uint64_t slipped_read_label(const uint8_t *p, size_t ps);
uint64_t slipped_read_label(const uint8_t *p, size_t ps)
{
    slot s[] = {LENT(p, ps)};
    slip("read_label", s);
    return corkplover_read_label(RECORD(0));
}

/* A code in the flag's place counts as true where it is not 0. */
uint64_t slipped_write_label(uint8_t p, uint8_t t, uint8_t m, bool f, uint8_t *x, size_t xs);
uint64_t slipped_write_label(uint8_t p, uint8_t t, uint8_t m, bool f, uint8_t *x, size_t xs)
{
    slot s[] = {{p, 0}, {t, 0}, {m, 0}, {f, 0}, LENT(x, xs)};
    slip("write_label", s);
    return corkplover_write_label(BYTE(0), BYTE(1), BYTE(2), NUMBER(3) != 0, (uint8_t *)s[4].pointer, s[4].number);
}

uint64_t slipped_pick_label(const uint8_t *p, size_t ps, const uint8_t *q, size_t qs);
uint64_t slipped_pick_label(const uint8_t *p, size_t ps, const uint8_t *q, size_t qs)
{
    slot s[] = {LENT(p, ps), LENT(q, qs)};
    slip("pick_label", s);
    return corkplover_pick_label(RECORD(0), RECORD(1));
}
