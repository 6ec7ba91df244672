/* Judgements of random frames, both ways, on settings of every kind. What the frame call writes agrees. With pixels spoilt, the verdict,
 * the place and the count are those of a plain loop over both frames. Padding changes nothing, and a refusal is the frame call's own,
 * with a count of 0 whatever stood there. Rows are about as long as a call's own buffers may be, and packed pictures narrow and tall. */
#include "cases.h"

enum { ROOM = 1056 * 5, SPOILINGS = 5 };

static const cork_setting SETTINGS[] = {
    {1, 1, 0, 8, 8, 8, true, true, CORK_EDITION_2021},          {1, 1, 0, 16, 16, 16, false, false, CORK_EDITION_PUBLISHED},
    {1, 1, 1, 8, 8, 8, true, true, CORK_EDITION_2021},          {1, 1, 1, 8, 8, 8, true, false, CORK_EDITION_PUBLISHED},
    {1, 1, 1, 10, 10, 10, true, true, CORK_EDITION_DRAFT},      {1, 1, 4, 12, 12, 12, false, true, CORK_EDITION_PUBLISHED},
    {1, 1, 5, 8, 10, 10, false, false, CORK_EDITION_DRAFT},     {1, 1, 6, 12, 8, 8, true, false, CORK_EDITION_2021},
    {1, 1, 7, 11, 11, 11, true, true, CORK_EDITION_PUBLISHED},  {1, 1, 9, 12, 10, 10, false, true, CORK_EDITION_PUBLISHED},
    {1, 1, 8, 8, 8, 8, false, false, CORK_EDITION_PUBLISHED},   {1, 1, 8, 16, 16, 16, true, true, CORK_EDITION_2021},
    {1, 1, 8, 8, 8, 9, true, true, CORK_EDITION_DRAFT},         {1, 1, 8, 15, 15, 16, false, false, CORK_EDITION_PUBLISHED},
    {1, 1, 15, 10, 12, 12, true, true, CORK_EDITION_DRAFT},     {1, 1, 16, 8, 9, 9, true, true, CORK_EDITION_DRAFT},
    {1, 1, 16, 14, 16, 16, true, true, CORK_EDITION_PUBLISHED}, {1, 1, 17, 15, 16, 16, true, true, CORK_EDITION_PUBLISHED},
};
enum { SETTING_COUNT = sizeof SETTINGS / sizeof *SETTINGS };

static const size_t SIZES[][2] = {
    {1, 1},   {2, 5},   {17, 3},  {255, 5}, {256, 5}, {257, 4},  {511, 3},  {512, 3},  {513, 5},
    {768, 2}, {769, 1}, {1, 700}, {3, 350}, {7, 150}, {1023, 3}, {1024, 5}, {1025, 2}, {1025, 1},
};
enum { SIZE_COUNT = sizeof SIZES / sizeof *SIZES };

/* How much wider than the picture the two strides are. */
static const size_t PADDINGS[][2] = {{0, 0}, {0, 3}, {5, 0}, {2, 2}};
enum { PADDING_COUNT = sizeof PADDINGS / sizeof *PADDINGS };

typedef struct trial {
    char way; /* J or K */
    cork_setting setting;
    size_t width, height;
    cork_output source, right, claimed; /* right is what the frame call writes, at the claim's stride */
} trial;

static uint16_t blocks[9][ROOM];
static long judged, differing, refused;

static void must(bool holds, const char *what, const trial *t)
{
    if (holds) return;
    printf("%c matrix %u, depths %u %u %u, %zu by %zu, strides %zu %zu: %s\n", t->way, t->setting.matrix, t->setting.rgb_depth,
           t->setting.y_depth, t->setting.c_depth, t->width, t->height, t->source.stride, t->claimed.stride, what);
    exit(1);
}

static uint64_t below(uint64_t end)
{
    static uint64_t state = 1;
    state = state * 6364136223846793005u + 1442695040888963407u;
    return (state >> 32) % end;
}

static unsigned source_depth(const trial *t, int k)
{
    if (t->way == 'J') return t->setting.rgb_depth;
    return k == 0 ? t->setting.y_depth : t->setting.c_depth;
}

/* One in eight is 0 or the largest there is. */
static uint16_t some_sample(unsigned depth)
{
    uint64_t end = (uint64_t)1 << depth;
    return (uint16_t)(below(8) ? below(end) : below(2) * (end - 1));
}

/* Every element that is no picture's, past the last row too. */
static void disturb_padding(const trial *t, cork_output picture)
{
    for (int k = 0; k < 3; k++)
        for (size_t i = 0; i < picture.length[k]; i++)
            if (i % picture.stride >= t->width || i / picture.stride >= t->height) picture.plane[k][i] = some_sample(16);
}

static void draw_source(const trial *t)
{
    for (int k = 0; k < 3; k++)
        for (size_t i = 0; i < t->source.length[k]; i++) t->source.plane[k][i] = some_sample(source_depth(t, k));
    disturb_padding(t, t->source);
}

static cork_answer convert(const trial *t, cork_output output)
{
    cork_source source = cork_read_back(t->source);
    if (t->way == 'J') return cork_forward_frame(t->setting, t->width, t->height, source, output);
    return cork_reverse_frame(t->setting, t->width, t->height, source, output);
}

static cork_judgement judge(const trial *t, cork_source source, cork_source claimed)
{
    cork_judgement found;
    found.wrong = below(UINT32_MAX);
    found.answer.packed = judge_into(&found.wrong, t->way, cork_word_(t->setting), t->width, t->height, source, claimed);
    judged++;
    return found;
}

/* What a plain loop finds in the claim. */
static cork_judgement looked_for(const trial *t, cork_source claimed)
{
    cork_judgement found = {{0}, 0};
    for (size_t row = 0; row < t->height; row++)
        for (size_t column = 0; column < t->width; column++) {
            bool wrong = false;
            for (int k = 0; k < 3; k++)
                wrong |= claimed.plane[k][row * claimed.stride + column] != t->right.plane[k][row * t->right.stride + column];
            if (wrong && found.wrong++ == 0) found.answer.packed = 0x100 | (uint64_t)row << 16 | (uint64_t)column << 32;
        }
    return found;
}

static bool is_same(cork_judgement one, cork_judgement two)
{
    return one.answer.packed == two.answer.packed && one.wrong == two.wrong;
}

/* Judged twice, with other padding on both sides. */
static void must_find(const trial *t, const char *what)
{
    cork_judgement wanted = looked_for(t, cork_read_back(t->claimed));
    differing += wanted.wrong != 0;
    for (int i = 0; i < 2; i++) {
        must(is_same(judge(t, cork_read_back(t->source), cork_read_back(t->claimed)), wanted), what, t);
        disturb_padding(t, t->source);
        disturb_padding(t, t->claimed);
    }
}

/* Often the last one, or one on either side of a multiple of 256 in its row or in the whole picture. */
static size_t some_pixel(const trial *t)
{
    size_t count = t->width * t->height, edge = below(count / 256 + 1) * 256 - below(2);
    switch (below(4)) {
    case 0: return count - 1;
    case 1: return edge % count;
    case 2: return below(t->height) * t->width + edge % t->width;
    default: return below(count);
    }
}

/* One sample or more, by one bit of 16: by the smallest step, by more, or beyond its depth. */
static void spoil(const trial *t, size_t pixel)
{
    size_t i = pixel / t->width * t->claimed.stride + pixel % t->width;
    for (int k = (int)below(3); k < 3; k += 1 + (int)below(2)) t->claimed.plane[k][i] ^= (uint16_t)(1 << below(16));
}

static void make_claim_right(const trial *t)
{
    for (int k = 0; k < 3; k++) memcpy(t->claimed.plane[k], t->right.plane[k], t->right.length[k] * sizeof(uint16_t));
    disturb_padding(t, t->claimed);
}

static void check_claims(const trial *t)
{
    size_t count = t->width * t->height;
    const size_t spoilt[SPOILINGS] = {0, 1, 2, 9, count};
    for (int n = 0; n < SPOILINGS; n++) {
        make_claim_right(t);
        for (size_t i = 0; i < spoilt[n]; i++) spoil(t, spoilt[n] == count ? i : some_pixel(t));
        must_find(t, spoilt[n] ? "a spoilt frame gets another verdict, place or count" : "the box's own frame does not agree");
    }
}

static cork_output picture_in(uint16_t (*planes)[ROOM], size_t width, size_t height, size_t padding)
{
    size_t length = cork_needed_length(width, height, width + padding) + padding;
    return cork_output_of(planes[0], planes[1], planes[2], length, width + padding);
}

/* A claim in the source's own memory, at the source's stride. */
static void check_shared(trial t)
{
    t.right = picture_in(blocks + 3, t.width, t.height, t.source.stride - t.width);
    must(cork_accepted(convert(&t, t.right)), "the frame call refuses", &t);
    cork_source shared = cork_read_back(t.source);
    cork_judgement wanted = looked_for(&t, shared);
    must(is_same(judge(&t, shared, shared), wanted), "a claim in the source's memory gets another verdict, place or count", &t);
}

/* The frame call refuses with an output of the claim's lengths: so does the judgement, in the same words. */
static void must_refuse(const trial *t, int number)
{
    cork_output output = t->right;
    for (int k = 0; k < 3; k++) output.length[k] = t->claimed.length[k];
    cork_answer wanted = convert(t, output);
    cork_judgement found = judge(t, cork_read_back(t->source), cork_read_back(t->claimed));
    must((int)cork_refusal_of(wanted) == number, "the frame call gives another refusal", t);
    must(found.answer.packed == wanted.packed, "the judgement refuses in other words than the frame call", t);
    must(found.wrong == 0, "a refused judgement counts pixels", t);
    refused++;
}

/* Each fault is added to those before, and goes before them. No number is too large for a depth of 16. */
static void check_refusals(trial t)
{
    int k = (int)below(3);
    size_t pixel = some_pixel(&t);
    uint16_t *sample = &t.source.plane[k][pixel / t.width * t.source.stride + pixel % t.width], kept = *sample;
    make_claim_right(&t);
    if (source_depth(&t, k) < 16) {
        *sample = (uint16_t)(1 << source_depth(&t, k));
        must_refuse(&t, CORK_SAMPLE_TOO_LARGE);
    }
    t.claimed.length[k] = cork_needed_length(t.width, t.height, t.claimed.stride) - 1;
    must_refuse(&t, CORK_PLANE_TOO_SHORT);
    t.claimed.stride = t.right.stride = t.width - 1;
    must_refuse(&t, CORK_SIZE_NOT_SERVED);
    t.setting.matrix = 2;
    must_refuse(&t, CORK_MATRIX_UNSPECIFIED);
    t.setting.edition = 0;
    must_refuse(&t, CORK_EDITION_UNKNOWN);
    *sample = kept;
}

static void try_one(char way, cork_setting setting, const size_t size[2], const size_t padding[2])
{
    trial t;
    t.way = way;
    t.setting = setting;
    t.width = size[0];
    t.height = size[1];
    t.source = picture_in(blocks, t.width, t.height, padding[0]);
    t.right = picture_in(blocks + 3, t.width, t.height, padding[1]);
    t.claimed = picture_in(blocks + 6, t.width, t.height, padding[1]);
    draw_source(&t);
    must(cork_accepted(convert(&t, t.right)), "the frame call refuses", &t);
    check_claims(&t);
    check_refusals(t);
    check_shared(t);
}

int main(void)
{
    for (int s = 0; s < SETTING_COUNT; s++)
        for (int z = 0; z < SIZE_COUNT; z++)
            for (int p = 0; p < PADDING_COUNT; p++) {
                try_one('J', SETTINGS[s], SIZES[z], PADDINGS[p]);
                try_one('K', SETTINGS[s], SIZES[z], PADDINGS[p]);
            }
    printf("%ld judgements, of %ld frames that differ, %ld refused\n", judged, differing, refused);
    return differing > 0 && refused > 0 ? 0 : 1;
}
