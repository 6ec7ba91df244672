/* Reads the oracle's case texts from standard input: words in the order in which docs/src/oracle/answers.rs takes them. */
#ifndef CASES_H
#define CASES_H

#include "corkplover.h"

#include <inttypes.h>
#include <stdio.h>
#include <stdlib.h>
#include <string.h>

static inline void stop(const char *why)
{
    fprintf(stderr, "%s\n", why);
    exit(2);
}

/* The letter of the next case, or 0 at the end. */
static inline char next_case(void)
{
    char letter;
    return scanf(" %c", &letter) == 1 ? letter : 0;
}

static inline uint64_t number(void)
{
    uint64_t n;
    if (scanf("%" SCNu64, &n) != 1) stop("a number is missing");
    return n;
}

static inline cork_setting read_setting(void)
{
    cork_setting s;
    s.edition = (uint8_t)number();
    s.primaries = (uint8_t)number();
    s.transfer = (uint8_t)number();
    s.matrix = (uint8_t)number();
    s.rgb_depth = (uint8_t)number();
    s.y_depth = (uint8_t)number();
    s.c_depth = (uint8_t)number();
    s.rgb_full = number() != 0;
    s.ycc_full = number() != 0;
    return s;
}

/* As many bytes as the elements take and no more, so that a memory checker sees a step past either end. */
static inline uint16_t *new_plane(size_t length)
{
    uint16_t *plane = (uint16_t *)malloc(length * sizeof *plane);
    return plane ? plane : (uint16_t *)malloc(1);
}

/* A frame case has an output, a judgement a claimed picture, and an image check neither. */
typedef struct frame_case {
    char letter;
    cork_setting setting;
    size_t width;
    size_t height;
    cork_output source;
    cork_output other; /* an output's planes are null: each test has its own */
} frame_case;

static inline bool is_judgement(char letter)
{
    return letter == 'J' || letter == 'K';
}

static inline void read_planes(cork_output *picture)
{
    for (int k = 0; k < 3; k++) {
        picture->length[k] = (size_t)number();
        picture->plane[k] = new_plane(picture->length[k]);
        for (size_t i = 0; i < picture->length[k]; i++) picture->plane[k][i] = (uint16_t)number();
    }
}

/* Three lengths and the old contents, of which each test has its own too; all 0 where the case has no output. */
static inline void read_output(cork_output *picture, char letter)
{
    for (int k = 0; k < 3; k++) {
        picture->length[k] = letter == 'I' ? 0 : (size_t)number();
        picture->plane[k] = NULL;
    }
    if (letter != 'I') number();
}

static inline frame_case read_frame_case(char letter)
{
    frame_case c;
    c.letter = letter;
    c.setting = read_setting();
    c.width = (size_t)number();
    c.height = (size_t)number();
    c.source.stride = (size_t)number();
    c.other.stride = letter == 'I' ? 0 : (size_t)number();
    read_planes(&c.source);
    if (is_judgement(letter))
        read_planes(&c.other);
    else
        read_output(&c.other, letter);
    return c;
}

static inline void free_case(frame_case *c)
{
    for (int k = 0; k < 3; k++) {
        free(c->source.plane[k]);
        free(c->other.plane[k]);
    }
}

static inline cork_answer convert_frame(const frame_case *c, cork_source source, cork_output output)
{
    if (c->letter == 'F') return cork_forward_frame(c->setting, c->width, c->height, source, output);
    return cork_reverse_frame(c->setting, c->width, c->height, source, output);
}

/* A record of a media file, in as many bytes as it has and no more; see new_plane. */
typedef struct record {
    uint8_t *bytes;
    size_t length;
} record;

static inline record new_record(size_t length)
{
    record r = {(uint8_t *)malloc(length ? length : 1), length};
    if (!r.bytes) stop("no memory");
    return r;
}

static inline record read_record(void)
{
    record r = new_record((size_t)number());
    for (size_t i = 0; i < r.length; i++) r.bytes[i] = (uint8_t)number();
    return r;
}

static inline cork_colour_label read_colour_label(void)
{
    cork_colour_label label;
    label.primaries = (uint8_t)number();
    label.transfer = (uint8_t)number();
    label.matrix = (uint8_t)number();
    label.full = number() != 0;
    return label;
}

#define PLANES(p) (p).plane[0], (p).length[0], (p).plane[1], (p).length[1], (p).plane[2], (p).length[2]

/* By the library's own functions, so that a test has a say in what the count held before. */
static inline uint64_t judge_into(uint64_t *wrong, char letter, uint64_t word, size_t width, size_t height, cork_source source,
                                  cork_source claimed)
{
    size_t from = source.stride, to = claimed.stride;
    if (letter == 'J') return corkplover_judge_forward(word, width, height, from, to, PLANES(source), PLANES(claimed), wrong);
    return corkplover_judge_reverse(word, width, height, from, to, PLANES(source), PLANES(claimed), wrong);
}

#endif
