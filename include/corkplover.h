/* Corkplover: turns R, G, B into luma and chroma or back, by the code points of ITU-T H.273, and reads and writes the colour labels
 * of media files, which have these code points in them.
 *
 * This file is the manual for callers in C99, C11 and C++17. Hold to the types and functions whose names begin with cork_;
 * the functions at the end whose names begin with corkplover_ are how the library is reached, and may change. Link with
 * libcorkplover.a. The library keeps no state, allocates nothing and may be called from any number of threads at once.
 *
 * What a call may be given. Any numbers at all: editions, codes, depths, sizes, strides, samples and bytes of records that make no
 * sense get a refusal with a number and never a crash. What the caller owes the library, since no call can find out, is this:
 *
 *   1. A plane's pointer and length tell the truth: that many elements may be read there, or written in an output plane. With
 *      length 0 the pointer still has to point somewhere: not null. The same goes for a record of a media file and its bytes.
 *   2. A plane starts at an address that is aligned for uint16_t. A record may start anywhere.
 *   3. An output plane overlaps no other plane of the call. Planes that are only read may be one and the same: sources, and the
 *      claimed planes of a judgement; so may records that are only read.
 *   4. Nobody else writes to a plane or record that is only read, or reads or writes an output plane or a record that is written,
 *      while a call runs.
 *   5. A bool holds 0 or 1. It always does, unless its byte was written as something other than a bool.
 *   6. For the meter: the processor rounds floats to nearest, as every program starts out.
 *
 * If one of these is broken, nothing that is promised holds.
 */
#ifndef CORKPLOVER_H
#define CORKPLOVER_H

#include <stdbool.h>
#include <stddef.h>
#include <stdint.h>

/* ---- Settings ----
 *
 * primaries, transfer and matrix are code points. edition is the text of H.273 that numbers them: name the one that the label of
 * the material was written by.
 *
 *   CORK_EDITION_2021        for a label by the text of 2021
 *   CORK_EDITION_DRAFT       for a label by the draft of the third edition
 *   CORK_EDITION_PUBLISHED   for a label by the published third edition, and for the files of today
 *
 * Every other number is refused, and 0 is one of them: an initialiser that ends before the edition leaves it 0. So an edition that
 * was forgotten shows, and none is ever guessed.
 *
 * Primaries and transfer change no sample: they are looked at and a reserved one is refused. The matrix picks the formulas:
 *
 *   1, 4, 5, 6, 7, 9   luma matrices: depths 8 to 12, c_depth = y_depth, everything else free
 *   0                  the planes change places: three equal depths 8 to 16, equal flags. Lossless.
 *   8                  YCgCo: rgb_depth = y_depth, equal flags. With c_depth = y_depth it is lossy, with one bit more lossless.
 *   YCgCo-Re           y_depth = c_depth = rgb_depth + 2, equal flags. Lossless.
 *   YCgCo-Ro           y_depth = c_depth = rgb_depth + 1, equal flags. Lossless.
 *
 * Matrix codes below 15, and all primaries and transfers, mean the same in the three editions: with these it does not matter which
 * of them is named. From 15 on it does:
 *
 *                      15                  16          17          18 to 255
 *   2021               reserved            reserved    reserved    reserved
 *   draft              YCgCo-Re            YCgCo-Ro    reserved    reserved
 *   published          known, not served   YCgCo-Re    YCgCo-Ro    reserved
 *
 * If an edition accepts a setting, any other with the same codes, depths and flags gives the same samples or refuses. So a wrong
 * edition can never tint a picture silently: the published one refuses the draft's 15 with 3, and its 16 with 7.
 *
 * A depth is the number of bits in use. Samples of depth d are 0 to 2^d - 1, and stand in the low bits of a uint16_t. The flags
 * say for each side whether it is full range (true) or narrow (false).
 */
typedef enum cork_edition { CORK_EDITION_2021 = 1, CORK_EDITION_DRAFT = 2, CORK_EDITION_PUBLISHED = 3 } cork_edition;

typedef struct cork_setting {
    uint8_t primaries;
    uint8_t transfer;
    uint8_t matrix;
    uint8_t rgb_depth;
    uint8_t y_depth;
    uint8_t c_depth;
    bool rgb_full;
    bool ycc_full;
    uint8_t edition;
} cork_setting;

/* ---- Pictures ----
 *
 * Three planes of one size that share a stride, the distance from one row's first element to the next row's. Plane 0, 1, 2 is
 * R, G, B on one side and Y, Cb, Cr on the other. length counts elements, not bytes. The element of a row and column is
 * plane[k][row * stride + column]; every other element is padding. Padding is never looked at in a picture that is only read.
 */
typedef struct cork_source {
    const uint16_t *plane[3];
    size_t length[3];
    size_t stride;
} cork_source;

typedef struct cork_output {
    uint16_t *plane[3];
    size_t length[3];
    size_t stride;
} cork_output;

/* The ends of what is served. A stride is at least the width. */
#define CORK_LARGEST_SIDE 8192
#define CORK_LARGEST_STRIDE 16384

/* How many elements each plane of a served size has to have at least. It may have more. */
static inline size_t cork_needed_length(size_t width, size_t height, size_t stride)
{
    return (height - 1) * stride + width;
}

/* Three planes of one length, as a source or an output; and an output as the source of the next call. */
static inline cork_source cork_source_of(const uint16_t *plane0, const uint16_t *plane1, const uint16_t *plane2, size_t length,
                                         size_t stride)
{
    cork_source source = {{plane0, plane1, plane2}, {length, length, length}, stride};
    return source;
}

static inline cork_output cork_output_of(uint16_t *plane0, uint16_t *plane1, uint16_t *plane2, size_t length, size_t stride)
{
    cork_output output = {{plane0, plane1, plane2}, {length, length, length}, stride};
    return output;
}

static inline cork_source cork_read_back(cork_output output)
{
    cork_source source = {{output.plane[0], output.plane[1], output.plane[2]},
                          {output.length[0], output.length[1], output.length[2]},
                          output.stride};
    return source;
}

/* ---- Refusals ----
 *
 * They are tested in the order 12, then 1 to 7, 11, 8, 9, 10, and the first that applies is given. So a refused call may have
 * more than one fault, and mending one can bring up the next. The calls on records of media files have the refusals from 20 on, in
 * the order of their numbers, and no others. 13 to 19 are not in use.
 */
typedef enum cork_refusal {
    CORK_ACCEPTED = 0,
    CORK_MATRIX_RESERVED = 1,       /* the matrix is 3, or from 15 (2021), 17 (draft) or 18 (published) to 255 */
    CORK_MATRIX_UNSPECIFIED = 2,    /* the matrix is 2, which names none */
    CORK_MATRIX_NOT_SERVED = 3,     /* the matrix is 10 to 14, or 15 in the published edition */
    CORK_PRIMARIES_RESERVED = 4,    /* the primaries are not 1, 2, 4 to 12 or 22 */
    CORK_TRANSFER_RESERVED = 5,     /* the transfer is not 1, 2 or 4 to 18 */
    CORK_DEPTH_NOT_SERVED = 6,      /* a depth is outside 8 to 16, or outside 8 to 12 with a luma matrix */
    CORK_DEPTHS_DISAGREE = 7,       /* the depths or the flags are not as the matrix asks */
    CORK_SIZE_NOT_SERVED = 8,       /* a side outside 1 to 8192, or a stride less than the width or more than 16384 */
    CORK_PLANE_TOO_SHORT = 9,       /* a plane of either side is shorter than cork_needed_length */
    CORK_SAMPLE_TOO_LARGE = 10,     /* a source sample has more bits than its depth; the answer says where, and which number it is */
    CORK_NOT_FOR_THIS_SETTING = 11, /* the meter without a luma matrix, or the image check without a lossless setting */
    CORK_EDITION_UNKNOWN = 12,      /* the edition is 0 or above 3 */
    CORK_RECORD_LENGTH = 20,        /* the record, or the room for one, does not have 11 bytes */
    CORK_RECORD_LETTERS = 21,       /* the first four bytes are not the letters nclx */
    CORK_RECORD_CODE = 22,          /* the primaries, the transfer or the matrix is above 255, which no code point is */
    CORK_RECORD_RESERVED_BIT = 23,  /* one of the last byte's seven lower bits is set */
    CORK_RECORD_UNSPECIFIED = 24    /* none of two records wins, and all that is wrong with the container's is a code 2 */
} cork_refusal;

/* The refusal in words, for a message; words too for a number that is no refusal. */
static inline const char *cork_refusal_text(int number)
{
    switch (number) {
    case CORK_ACCEPTED: return "accepted";
    case CORK_MATRIX_RESERVED: return "the matrix code is reserved";
    case CORK_MATRIX_UNSPECIFIED: return "the matrix code is 2, unspecified";
    case CORK_MATRIX_NOT_SERVED: return "the matrix code is known and not served";
    case CORK_PRIMARIES_RESERVED: return "the primaries code is reserved";
    case CORK_TRANSFER_RESERVED: return "the transfer code is reserved";
    case CORK_DEPTH_NOT_SERVED: return "a depth is not served";
    case CORK_DEPTHS_DISAGREE: return "depths or range flags do not agree with the matrix";
    case CORK_SIZE_NOT_SERVED: return "the width, the height or a stride is not served";
    case CORK_PLANE_TOO_SHORT: return "a plane is too short for the picture";
    case CORK_SAMPLE_TOO_LARGE: return "a source sample is too large for its depth";
    case CORK_NOT_FOR_THIS_SETTING: return "the meter needs a luma matrix, the image check a lossless setting";
    case CORK_EDITION_UNKNOWN: return "the edition is none of 1 (2021), 2 (draft) and 3 (published)";
    case CORK_RECORD_LENGTH: return "a colour record has 11 bytes, and not any other number";
    case CORK_RECORD_LETTERS: return "the colour record does not begin with the letters nclx";
    case CORK_RECORD_CODE: return "a code of the colour record is above 255";
    case CORK_RECORD_RESERVED_BIT: return "a reserved bit of the colour record is set";
    case CORK_RECORD_UNSPECIFIED: return "the container's record has a code 2, unspecified, and the stream's is not well formed";
    default: return "not a refusal number";
    }
}

/* ---- Answers ----
 *
 * Every call answers one of these. Read it by the functions below; each says of which answers it speaks. Of any other answer it
 * gives some number that means nothing.
 */
typedef struct cork_answer {
    uint64_t packed;
} cork_answer;

/* CORK_ACCEPTED or the refusal. Of every answer. */
static inline cork_refusal cork_refusal_of(cork_answer answer)
{
    return (cork_refusal)(answer.packed & 0xff);
}

static inline bool cork_accepted(cork_answer answer)
{
    return cork_refusal_of(answer) == CORK_ACCEPTED;
}

/* The converted sample of plane 0, 1 or 2. Of an accepted call on a pixel. */
static inline uint16_t cork_sample(cork_answer answer, unsigned plane)
{
    return plane > 2 ? 0 : (uint16_t)(answer.packed >> (16 + 16 * plane));
}

/* Whether the whole picture has an RGB source. Of an accepted image check. */
static inline bool cork_has_source(cork_answer answer)
{
    return (answer.packed >> 8 & 0xff) == 0;
}

/* Whether every claimed pixel is the box's own. Of an accepted judgement. */
static inline bool cork_agrees(cork_answer answer)
{
    return (answer.packed >> 8 & 0xff) == 0;
}

/* The plane of the first source sample that is too large: the lowest plane that has one. Of CORK_SAMPLE_TOO_LARGE. */
static inline unsigned cork_plane(cork_answer answer)
{
    return (unsigned)(answer.packed >> 8 & 0xff);
}

/* Row and column, counted from 0. Of CORK_SAMPLE_TOO_LARGE: where in that plane, the lowest row and in it the lowest column; 0 and
 * 0 where the call took no picture. Of an accepted image check without a source: the first pixel that has none, likewise. Of an
 * accepted judgement that does not agree: the first wrong pixel, likewise; 0 and 0 where it agrees. */
static inline unsigned cork_row(cork_answer answer)
{
    return (unsigned)(answer.packed >> 16 & 0xffff);
}

static inline unsigned cork_column(cork_answer answer)
{
    return (unsigned)(answer.packed >> 32 & 0xffff);
}

/* The number of that first sample, as it was found: 2^depth or more. Of CORK_SAMPLE_TOO_LARGE; 0 of every other refusal. */
static inline uint16_t cork_bad_sample(cork_answer answer)
{
    return (uint16_t)(answer.packed >> 48);
}

/* What the meter shows: the level if it was accepted, and 0 if not. */
typedef struct cork_reading {
    cork_answer answer;
    float level;
} cork_reading;

typedef struct cork_levels {
    cork_answer answer;
    float y;
    float cb;
    float cr;
} cork_levels;

/* What a judgement finds. wrong counts pixels, not samples, and is 0 where the frame agrees and where the call is refused. */
typedef struct cork_judgement {
    cork_answer answer;
    uint64_t wrong;
} cork_judgement;

/* ---- The library's own functions: use the cork_ functions below ----
 *
 * A setting is one number, as cork_word_ makes it, and a picture plane is a pointer and a length. The library's compiler knows
 * nothing of these lines: tests/clients/run compares them with the library's source and calls every one.
 */
#define CORK_SOURCE_PARAMETERS_                                                                                     \
    const uint16_t *source0, size_t source_length0, const uint16_t *source1, size_t source_length1, const uint16_t *source2, \
        size_t source_length2
#define CORK_OUTPUT_PARAMETERS_                                                                                     \
    uint16_t *output0, size_t output_length0, uint16_t *output1, size_t output_length1, uint16_t *output2, size_t output_length2
#define CORK_CLAIMED_PARAMETERS_                                                                                    \
    const uint16_t *claimed0, size_t claimed_length0, const uint16_t *claimed1, size_t claimed_length1,             \
        const uint16_t *claimed2, size_t claimed_length2

#ifdef __cplusplus
extern "C" {
#endif
uint8_t corkplover_primaries_label(uint8_t edition, uint8_t code);
uint8_t corkplover_transfer_label(uint8_t edition, uint8_t code);
uint8_t corkplover_matrix_label(uint8_t edition, uint8_t code);
uint64_t corkplover_forward_pixel(uint64_t setting, uint16_t r, uint16_t g, uint16_t b);
uint64_t corkplover_reverse_pixel(uint64_t setting, uint16_t y, uint16_t cb, uint16_t cr);
uint64_t corkplover_forward_frame(uint64_t setting, size_t width, size_t height, size_t source_stride, size_t output_stride,
                                  CORK_SOURCE_PARAMETERS_, CORK_OUTPUT_PARAMETERS_);
uint64_t corkplover_reverse_frame(uint64_t setting, size_t width, size_t height, size_t source_stride, size_t output_stride,
                                  CORK_SOURCE_PARAMETERS_, CORK_OUTPUT_PARAMETERS_);
uint64_t corkplover_image_check(uint64_t setting, size_t width, size_t height, size_t stride, CORK_SOURCE_PARAMETERS_);
uint64_t corkplover_judge_forward(uint64_t setting, size_t width, size_t height, size_t source_stride, size_t claimed_stride,
                                  CORK_SOURCE_PARAMETERS_, CORK_CLAIMED_PARAMETERS_, uint64_t *wrong);
uint64_t corkplover_judge_reverse(uint64_t setting, size_t width, size_t height, size_t source_stride, size_t claimed_stride,
                                  CORK_SOURCE_PARAMETERS_, CORK_CLAIMED_PARAMETERS_, uint64_t *wrong);
uint64_t corkplover_meter_y(uint64_t setting, uint16_t y, float *level);
uint64_t corkplover_meter_cb(uint64_t setting, uint16_t cb, float *level);
uint64_t corkplover_meter_cr(uint64_t setting, uint16_t cr, float *level);
uint64_t corkplover_meter_pixel(uint64_t setting, uint16_t y, uint16_t cb, uint16_t cr, float *y_level, float *cb_level,
                                float *cr_level);
uint64_t corkplover_read_label(const uint8_t *record, size_t record_length);
uint64_t corkplover_write_label(uint8_t primaries, uint8_t transfer, uint8_t matrix, bool full, uint8_t *out, size_t out_length);
uint64_t corkplover_pick_label(const uint8_t *container, size_t container_length, const uint8_t *stream, size_t stream_length);
#ifdef __cplusplus
}
#endif

/* A size_t is passed where the library takes 64 bits. */
typedef char cork_needs_64_bit_sizes_[sizeof(size_t) == 8 ? 1 : -1];

#define CORK_FROM_BIT_(bit, value) ((uint64_t)(value) << (bit))
#define CORK_PLANES_(p) (p).plane[0], (p).length[0], (p).plane[1], (p).length[1], (p).plane[2], (p).length[2]

/* A byte for each code and depth, from the lowest byte up, then a bit for each flag, and the edition in the highest byte. The
 * library does not look at the six bits between. */
static inline uint64_t cork_word_(cork_setting s)
{
    return CORK_FROM_BIT_(0, s.primaries) + CORK_FROM_BIT_(8, s.transfer) + CORK_FROM_BIT_(16, s.matrix) +
           CORK_FROM_BIT_(24, s.rgb_depth) + CORK_FROM_BIT_(32, s.y_depth) + CORK_FROM_BIT_(40, s.c_depth) +
           CORK_FROM_BIT_(48, s.rgb_full) + CORK_FROM_BIT_(49, s.ycc_full) + CORK_FROM_BIT_(56, s.edition);
}

static inline cork_answer cork_answer_(uint64_t packed)
{
    cork_answer answer = {packed};
    return answer;
}

/* ---- Labels of code points ----
 *
 * What an edition of H.273 says of one code point, for each of the 256: assigned a meaning, unspecified (2), or reserved. Where the
 * edition is none the answer is CORK_NO_LABEL, which has the number of that refusal, so that cork_refusal_text has words for it.
 */
typedef enum cork_label { CORK_ASSIGNED = 0, CORK_UNSPECIFIED = 1, CORK_RESERVED = 2, CORK_NO_LABEL = 12 } cork_label;

static inline cork_label cork_primaries_label(uint8_t edition, uint8_t code)
{
    return (cork_label)corkplover_primaries_label(edition, code);
}

static inline cork_label cork_transfer_label(uint8_t edition, uint8_t code)
{
    return (cork_label)corkplover_transfer_label(edition, code);
}

static inline cork_label cork_matrix_label(uint8_t edition, uint8_t code)
{
    return (cork_label)corkplover_matrix_label(edition, code);
}

/* ---- One pixel ----
 *
 * Accepted: the three samples, by cork_sample. Refusals: 12, 1 to 7 and 10.
 */
static inline cork_answer cork_forward_pixel(cork_setting s, uint16_t r, uint16_t g, uint16_t b)
{
    return cork_answer_(corkplover_forward_pixel(cork_word_(s), r, g, b));
}

static inline cork_answer cork_reverse_pixel(cork_setting s, uint16_t y, uint16_t cb, uint16_t cr)
{
    return cork_answer_(corkplover_reverse_pixel(cork_word_(s), y, cb, cr));
}

/* ---- Frames ----
 *
 * Forward reads R, G, B and writes Y, Cb, Cr; reverse the other way. The two sides may have different strides and lengths.
 * Accepted: each picture element of the output is the converted sample, and every other element of the output planes, in the
 * padding and past the last row, is 0. Refused: every element of the output planes is 0. So nothing that the output held before
 * is left after any call. The source is only read. Refusals: 12, 1 to 7, 8, 9 and 10; 8 and 9 speak of both sides.
 */
static inline cork_answer cork_forward_frame(cork_setting s, size_t width, size_t height, cork_source source, cork_output output)
{
    return cork_answer_(corkplover_forward_frame(cork_word_(s), width, height, source.stride, output.stride,
                                                 CORK_PLANES_(source), CORK_PLANES_(output)));
}

static inline cork_answer cork_reverse_frame(cork_setting s, size_t width, size_t height, cork_source source, cork_output output)
{
    return cork_answer_(corkplover_reverse_frame(cork_word_(s), width, height, source.stride, output.stride,
                                                 CORK_PLANES_(source), CORK_PLANES_(output)));
}

/* ---- Image check ----
 *
 * On a lossless setting: whether some RGB picture within depth converts to this Y, Cb, Cr picture. Accepted: cork_has_source, and
 * where it is false the first pixel that no RGB pixel converts to, by cork_row and cork_column. The picture is only read.
 * Refusals: 12, 1 to 7, 11, 8, 9 and 10.
 */
static inline cork_answer cork_image_check(cork_setting s, size_t width, size_t height, cork_source ycc)
{
    return cork_answer_(corkplover_image_check(cork_word_(s), width, height, ycc.stride, CORK_PLANES_(ycc)));
}

/* ---- Judging ----
 *
 * Whether another converter's frame is right: claimed is what it made of source. Forward, the source is R, G, B and the claim is
 * Y, Cb, Cr; reverse the other way. Accepted: cork_agrees, and where it is false the first wrong pixel by cork_row and cork_column,
 * and in wrong the number of wrong pixels in the whole picture. A pixel is wrong if one of its samples is not the one that the
 * frame call would write. A claimed sample above its depth is never right, and no reason to refuse. Both pictures are only read.
 * Refusals: 12, 1 to 7, 8, 9 and 10; 8 and 9 speak of both sides, 10 of the source alone.
 */
static inline cork_judgement cork_judge_forward(cork_setting s, size_t width, size_t height, cork_source source,
                                                cork_source claimed)
{
    cork_judgement judgement;
    judgement.answer = cork_answer_(corkplover_judge_forward(cork_word_(s), width, height, source.stride, claimed.stride,
                                                             CORK_PLANES_(source), CORK_PLANES_(claimed), &judgement.wrong));
    return judgement;
}

static inline cork_judgement cork_judge_reverse(cork_setting s, size_t width, size_t height, cork_source source,
                                                cork_source claimed)
{
    cork_judgement judgement;
    judgement.answer = cork_answer_(corkplover_judge_reverse(cork_word_(s), width, height, source.stride, claimed.stride,
                                                             CORK_PLANES_(source), CORK_PLANES_(claimed), &judgement.wrong));
    return judgement;
}

/* ---- Spot meter ----
 *
 * The level that a sample stands for on a luma matrix: 0 to 1 from black to white for Y, -0.5 to 0.5 for Cb and Cr, and somewhat
 * beyond for samples outside the nominal range. It is the exact quotient, rounded once to a float. A call on one sample looks
 * at that sample alone. Refusals: 12, 1 to 7, 11 and 10; a 10 has the sample's plane, 0 for Y, 1 for Cb, 2 for Cr.
 */
static inline cork_reading cork_meter_y(cork_setting s, uint16_t y)
{
    cork_reading reading;
    reading.answer = cork_answer_(corkplover_meter_y(cork_word_(s), y, &reading.level));
    return reading;
}

static inline cork_reading cork_meter_cb(cork_setting s, uint16_t cb)
{
    cork_reading reading;
    reading.answer = cork_answer_(corkplover_meter_cb(cork_word_(s), cb, &reading.level));
    return reading;
}

static inline cork_reading cork_meter_cr(cork_setting s, uint16_t cr)
{
    cork_reading reading;
    reading.answer = cork_answer_(corkplover_meter_cr(cork_word_(s), cr, &reading.level));
    return reading;
}

static inline cork_levels cork_meter_pixel(cork_setting s, uint16_t y, uint16_t cb, uint16_t cr)
{
    cork_levels levels;
    levels.answer =
        cork_answer_(corkplover_meter_pixel(cork_word_(s), y, cb, cr, &levels.y, &levels.cb, &levels.cr));
    return levels;
}

/* ---- Colour labels of media files ----
 *
 * A media file says how its colours are to be understood in a record of ISO/IEC 14496-12, the contents of a box 'colr' of type
 * 'nclx': primaries, transfer and matrix as code points, and a flag for full range. Such a colour label speaks of a whole picture;
 * it has nothing to do with the labels above, which say of one code point whether it is assigned. The record has 11 bytes:
 *
 *   0 to 3    the letters nclx
 *   4, 5      primaries, the high byte first
 *   6, 7      transfer, likewise
 *   8, 9      matrix, likewise
 *   10        the flag in the highest bit, and seven reserved bits, which are 0
 *
 * No call looks at what a code means: a record with reserved codes is read and written as any other, and so is one with code 2,
 * unspecified. What is served of a label is for the calls that take a setting.
 */
#define CORK_RECORD_BYTES 11
#define CORK_LABEL_PART_BYTES 7 /* a record's last bytes, which are the label itself */

typedef struct cork_colour_label {
    uint8_t primaries;
    uint8_t transfer;
    uint8_t matrix;
    bool full;
} cork_colour_label;

/* Reads a record. Accepted: the label, by cork_label_in. It is accepted if and only if it is what cork_write_label writes of that
 * label, byte for byte. The record is only read. Refusals: 20, 21, 22, 23. */
static inline cork_answer cork_read_label(const uint8_t *record, size_t length)
{
    return cork_answer_(corkplover_read_label(record, length));
}

/* The label that was read. Of an accepted cork_read_label. */
static inline cork_colour_label cork_label_in(cork_answer answer)
{
    cork_colour_label label = {(uint8_t)(answer.packed >> 16), (uint8_t)(answer.packed >> 32), (uint8_t)(answer.packed >> 48),
                               (answer.packed >> 8 & 0xff) != 0};
    return label;
}

/* Writes the record of a label; every label has one. length is the number of bytes at out and has to be CORK_RECORD_BYTES: any other
 * is refused with 20, and then each of these bytes is 0. */
static inline cork_answer cork_write_label(cork_colour_label label, uint8_t *out, size_t length)
{
    return cork_answer_(corkplover_write_label(label.primaries, label.transfer, label.matrix, label.full, out, length));
}

/* Picks one of two records, where the container has one and the stream inside it another. The container's wins if cork_read_label
 * accepts it and none of its codes is 2; else the stream's wins if cork_read_label accepts it, with a code 2 or without. Accepted:
 * cork_picked_stream and cork_picked_part. Where none wins the refusal is the container's own, 20 to 23, and 24 where it has none.
 * A file that lacks one of the two has a record of length 0 there, which is refused with 20; but see 1 at the top on its pointer. */
static inline cork_answer cork_pick_label(const uint8_t *container, size_t container_length, const uint8_t *stream,
                                          size_t stream_length)
{
    return cork_answer_(corkplover_pick_label(container, container_length, stream, stream_length));
}

/* Whether the stream's record won, and not the container's. Of an accepted cork_pick_label. */
static inline bool cork_picked_stream(cork_answer answer)
{
    return (answer.packed >> 8 & 0xff) == 1;
}

/* The last CORK_LABEL_PART_BYTES of the record that won, where they stand in it; NULL where none won. container and stream are those of
 * the call. Of every cork_pick_label. */
static inline const uint8_t *cork_picked_part(cork_answer answer, const uint8_t *container, const uint8_t *stream)
{
    const uint8_t *winner = cork_picked_stream(answer) ? stream : container;
    return cork_accepted(answer) ? winner + (CORK_RECORD_BYTES - CORK_LABEL_PART_BYTES) : NULL;
}

#undef CORK_SOURCE_PARAMETERS_
#undef CORK_OUTPUT_PARAMETERS_
#undef CORK_CLAIMED_PARAMETERS_
#undef CORK_FROM_BIT_
#undef CORK_PLANES_

#endif
