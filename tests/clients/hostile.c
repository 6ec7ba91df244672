/* Sizes and strides at the ends of their types, in all combinations, on all five calls that take a picture. A length has to be true,
 * so no plane can be that long: outputs have 0, 1 and 40 elements, planes that are only read also 2^32 and one more, which 32 bits
 * would take for 0 and 1. Each answer is compared with what the refusal table says, worked out here without any multiplication that
 * could wrap; the output must be zeros, and the guards around it must stand. A short claim is all wrong and must stay as it was; a long
 * one is right. Each call is made again in every edition and with numbers that are none, and with the bits of the setting's word set
 * that the library does not look at. */
#define _DEFAULT_SOURCE
#include "cases.h"
#include <sys/mman.h>

enum { ROOM = 40, GUARD = 16, FILL = 0xbeef };

#define LONG ((size_t)1 << 32)

static const size_t NUMBERS[] = {
    0, 1, 2, 5, 8192, 8193, 16384, 16385, 65536, 65537, (size_t)1 << 32, ((size_t)1 << 32) + 1, (size_t)1 << 63, SIZE_MAX - 1, SIZE_MAX,
};
enum { COUNT = sizeof NUMBERS / sizeof *NUMBERS };

static const size_t LENGTHS[] = {0, 1, ROOM, LONG, LONG + 1};
enum { SHORT_LENGTHS = 3, ALL_LENGTHS = sizeof LENGTHS / sizeof *LENGTHS };

/* Code 0 only moves planes about, so that a black picture is zeros on both sides; FILL is above its depth. */
static const cork_setting LOSSLESS = {1, 1, 0, 8, 8, 8, true, true, CORK_EDITION_PUBLISHED};

static const uint8_t EDITIONS[] = {CORK_EDITION_2021, CORK_EDITION_DRAFT, CORK_EDITION_PUBLISHED, 0, 4, 255};
enum { EDITION_COUNT = sizeof EDITIONS / sizeof *EDITIONS };

#define NO_COUNT UINT64_MAX

/* Bits 50 to 55 of a setting's word. */
#define NOT_LOOKED_AT ((uint64_t)0x3f << 50)

typedef struct sizes {
    size_t width, height, stride, output_stride;
} sizes;

typedef struct trial {
    char call;
    uint8_t edition;
    sizes z;
    size_t source_length, output_length;
} trial;

static bool side_served(size_t n)
{
    return 1 <= n && n <= CORK_LARGEST_SIDE;
}

static bool stride_served(size_t width, size_t stride)
{
    return width <= stride && stride <= CORK_LARGEST_STRIDE;
}

static int expected(trial t)
{
    bool two = t.call != 'I';
    if (t.edition < CORK_EDITION_2021 || CORK_EDITION_PUBLISHED < t.edition) return 12;
    if (!side_served(t.z.width) || !side_served(t.z.height)) return 8;
    if (!stride_served(t.z.width, t.z.stride) || (two && !stride_served(t.z.width, t.z.output_stride))) return 8;
    if (t.source_length < cork_needed_length(t.z.width, t.z.height, t.z.stride)) return 9;
    if (two && t.output_length < cork_needed_length(t.z.width, t.z.height, t.z.output_stride)) return 9;
    return 0;
}

static const uint16_t short_zeros[ROOM];
static const uint16_t *zeros = short_zeros;
static int read_lengths = SHORT_LENGTHS;

/* Pages that are only read and never written are all the same page of zeros: eight gigabytes of them take no memory. */
static void find_long_zeros(void)
{
    void *pages = mmap(NULL, (LONG + 1) * sizeof *zeros, PROT_READ, MAP_PRIVATE | MAP_ANONYMOUS | MAP_NORESERVE, -1, 0);
    if (pages == MAP_FAILED) {
        printf("skipped: planes of 2^32 elements, for which this machine has no addresses\n");
        return;
    }
    zeros = (const uint16_t *)pages;
    read_lengths = ALL_LENGTHS;
}

static uint16_t blocks[3][GUARD + ROOM + GUARD];

static bool is_zero_plane(int k, size_t length, bool written)
{
    for (size_t i = 0; i < GUARD + ROOM + GUARD; i++) {
        bool inside = written && GUARD <= i && i < GUARD + length;
        if (blocks[k][i] != (inside ? 0 : FILL)) return false;
    }
    return true;
}

static cork_setting setting_of(trial t)
{
    cork_setting s = LOSSLESS;
    s.edition = t.edition;
    return s;
}

/* Before a call something that no count is, and after a judgement its count. */
static uint64_t wrong;

static uint64_t judged_by_header(trial t, cork_source from, cork_source claimed)
{
    cork_judgement judgement = t.call == 'J' ? cork_judge_forward(setting_of(t), t.z.width, t.z.height, from, claimed)
                                             : cork_judge_reverse(setting_of(t), t.z.width, t.z.height, from, claimed);
    wrong = judgement.wrong;
    return judgement.answer.packed;
}

static uint64_t by_header(trial t, cork_source from, cork_output to)
{
    if (is_judgement(t.call)) return judged_by_header(t, from, cork_read_back(to));
    if (t.call == 'I') return cork_image_check(setting_of(t), t.z.width, t.z.height, from).packed;
    if (t.call == 'F') return cork_forward_frame(setting_of(t), t.z.width, t.z.height, from, to).packed;
    return cork_reverse_frame(setting_of(t), t.z.width, t.z.height, from, to).packed;
}

/* By the library's own functions, since the header never sets them. */
static uint64_t with_bits_set(trial t, cork_source from, cork_output to)
{
    uint64_t word = cork_word_(setting_of(t)) | NOT_LOOKED_AT;
    sizes z = t.z;
    if (is_judgement(t.call)) return judge_into(&wrong, t.call, word, z.width, z.height, from, cork_read_back(to));
    if (t.call == 'I') return corkplover_image_check(word, z.width, z.height, z.stride, PLANES(from));
    if (t.call == 'F')
        return corkplover_forward_frame(word, z.width, z.height, z.stride, z.output_stride, PLANES(from), PLANES(to));
    return corkplover_reverse_frame(word, z.width, z.height, z.stride, z.output_stride, PLANES(from), PLANES(to));
}

/* A claim that is wrong differs from the first pixel on; every other answer is its refusal's number, or 0. */
static bool is_expected(trial t, uint64_t packed, int number)
{
    bool differs = is_judgement(t.call) && number == 0 && t.output_length <= ROOM;
    uint64_t count = !is_judgement(t.call) ? NO_COUNT : differs ? t.z.width * t.z.height : 0;
    return wrong == count && packed == (differs ? 0x100 : (uint64_t)number);
}

/* A long claim is zeros in pages that may only be read. */
static cork_output output_of(trial t)
{
    uint16_t *claim = (uint16_t *)(uintptr_t)zeros;
    if (t.output_length > ROOM) return cork_output_of(claim, claim, claim, t.output_length, t.z.output_stride);
    return cork_output_of(blocks[0] + GUARD, blocks[1] + GUARD, blocks[2] + GUARD, t.output_length, t.z.output_stride);
}

static long tried, given[13];

static void try_one(trial t, uint64_t (*ask)(trial, cork_source, cork_output))
{
    for (int k = 0; k < 3; k++)
        for (size_t i = 0; i < GUARD + ROOM + GUARD; i++) blocks[k][i] = FILL;
    cork_source from = cork_source_of(zeros, zeros, zeros, t.source_length, t.z.stride);
    wrong = NO_COUNT;
    uint64_t packed = ask(t, from, output_of(t));
    int number = expected(t);
    bool whole = is_expected(t, packed, number);
    for (int k = 0; k < 3; k++) whole = whole && is_zero_plane(k, t.output_length, t.call == 'F' || t.call == 'R');
    tried++;
    given[number]++;
    if (whole) return;
    printf("%c edition %u%s width %zu height %zu strides %zu %zu lengths %zu %zu: answer %" PRIx64 ", not refusal %d\n", t.call,
           t.edition, ask == with_bits_set ? " and bits set" : "", t.z.width, t.z.height, t.z.stride, t.z.output_stride,
           t.source_length, t.output_length, packed, number);
    exit(1);
}

static void try_editions(trial t)
{
    try_one(t, by_header);
    for (int e = 0; e < EDITION_COUNT; e++) {
        t.edition = EDITIONS[e];
        try_one(t, with_bits_set);
    }
}

/* Of the output or the claim. A long claim is not tried at the largest height, where it is judged to its end: large.c has that. */
static int other_lengths(char call, sizes z)
{
    if (call == 'I') return 1;
    return is_judgement(call) && z.height != CORK_LARGEST_SIDE ? read_lengths : SHORT_LENGTHS;
}

static void try_lengths(char call, sizes z)
{
    for (int i = 0; i < read_lengths; i++)
        for (int j = 0; j < other_lengths(call, z); j++) {
            trial t = {call, CORK_EDITION_PUBLISHED, z, LENGTHS[i], LENGTHS[j]};
            try_editions(t);
        }
}

int main(void)
{
    find_long_zeros();
    for (int w = 0; w < COUNT; w++)
        for (int h = 0; h < COUNT; h++)
            for (int s = 0; s < COUNT; s++)
                for (int o = 0; o < COUNT; o++) {
                    sizes z = {NUMBERS[w], NUMBERS[h], NUMBERS[s], NUMBERS[o]};
                    try_lengths('F', z);
                    try_lengths('R', z);
                    try_lengths('J', z);
                    try_lengths('K', z);
                    if (o == 0) try_lengths('I', z);
                }
    printf("%ld calls: %ld refused with 12, %ld with 8, %ld with 9, %ld accepted\n", tried, given[12], given[8], given[9], given[0]);
    return given[12] > 0 && given[8] > 0 && given[9] > 0 && given[0] > 0 ? 0 : 1;
}
