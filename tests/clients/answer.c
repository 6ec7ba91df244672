/* Answers the oracle's cases by the library, through the C header, in the oracle's words. Valid as C99 and as C++17. With the word
 * `unfilled` the output planes are left as the allocator gave them, for a memory checker that knows what was never written. */
#include "cases.h"

static bool filled = true;

static void print_refusal(cork_answer a)
{
    printf("refused %d", (int)cork_refusal_of(a));
    if (cork_refusal_of(a) == CORK_SAMPLE_TOO_LARGE)
        printf(" plane %u row %u column %u sample %u", cork_plane(a), cork_row(a), cork_column(a), cork_bad_sample(a));
    printf("\n");
}

static uint32_t bits(float level)
{
    uint32_t word;
    memcpy(&word, &level, sizeof word);
    return word;
}

static void label_case(char letter)
{
    static const char *const words[] = {"assigned", "unspecified", "reserved"};
    uint8_t edition = (uint8_t)number(), code = (uint8_t)number();
    cork_label label = letter == 'p'   ? cork_primaries_label(edition, code)
                       : letter == 't' ? cork_transfer_label(edition, code)
                                       : cork_matrix_label(edition, code);
    if (label == CORK_NO_LABEL)
        printf("refused %d\n", (int)label);
    else
        printf("%s\n", words[label]);
}

static void pixel_case(char letter)
{
    cork_setting s = read_setting();
    uint16_t p0 = (uint16_t)number(), p1 = (uint16_t)number(), p2 = (uint16_t)number();
    cork_answer a = letter == 'f' ? cork_forward_pixel(s, p0, p1, p2) : cork_reverse_pixel(s, p0, p1, p2);
    if (cork_accepted(a))
        printf("samples %u %u %u\n", cork_sample(a, 0), cork_sample(a, 1), cork_sample(a, 2));
    else
        print_refusal(a);
}

/* The library's check of a picture of one pixel stands for the oracle's check of a pixel. */
static void source_case(void)
{
    cork_setting s = read_setting();
    uint16_t p[3];
    for (int k = 0; k < 3; k++) p[k] = (uint16_t)number();
    cork_answer a = cork_image_check(s, 1, 1, cork_source_of(&p[0], &p[1], &p[2], 1, 1));
    if (cork_accepted(a))
        printf("%s\n", cork_has_source(a) ? "yes" : "none");
    else
        print_refusal(a);
}

static void print_reading(cork_reading reading)
{
    if (cork_accepted(reading.answer))
        printf("level %08" PRIx32 "\n", bits(reading.level));
    else if (bits(reading.level) != 0)
        printf("a refused reading is not 0\n");
    else
        print_refusal(reading.answer);
}

static void reading_case(char letter)
{
    cork_setting s = read_setting();
    uint16_t v = (uint16_t)number();
    print_reading(letter == 'y' ? cork_meter_y(s, v) : letter == 'b' ? cork_meter_cb(s, v) : cork_meter_cr(s, v));
}

static void levels_case(void)
{
    cork_setting s = read_setting();
    uint16_t y = (uint16_t)number(), cb = (uint16_t)number(), cr = (uint16_t)number();
    cork_levels levels = cork_meter_pixel(s, y, cb, cr);
    if (cork_accepted(levels.answer))
        printf("levels %08" PRIx32 " %08" PRIx32 " %08" PRIx32 "\n", bits(levels.y), bits(levels.cb), bits(levels.cr));
    else if (bits(levels.y) != 0 || bits(levels.cb) != 0 || bits(levels.cr) != 0)
        printf("refused levels are not 0\n");
    else
        print_refusal(levels.answer);
}

static void print_plane(const uint16_t *plane, size_t length)
{
    for (size_t i = 0; i < length; i++) printf(i ? " %u" : "%u", plane[i]);
    printf("\n");
}

static void frame_case_of(char letter)
{
    frame_case c = read_frame_case(letter);
    cork_output output = c.other;
    for (int k = 0; k < 3; k++) {
        output.plane[k] = new_plane(output.length[k]);
        for (size_t i = 0; filled && i < output.length[k]; i++) output.plane[k][i] = 0xa5a5;
    }
    cork_answer a = convert_frame(&c, cork_read_back(c.source), output);
    if (cork_accepted(a))
        printf("done\n");
    else
        print_refusal(a);
    for (int k = 0; k < 3; k++) {
        print_plane(output.plane[k], output.length[k]);
        free(output.plane[k]);
    }
    free_case(&c);
}

static void image_case(void)
{
    frame_case c = read_frame_case('I');
    cork_answer a = cork_image_check(c.setting, c.width, c.height, cork_read_back(c.source));
    if (!cork_accepted(a))
        print_refusal(a);
    else if (cork_has_source(a))
        printf("yes\n");
    else
        printf("none row %u column %u\n", cork_row(a), cork_column(a));
    free_case(&c);
}

static void judgement_case(char letter)
{
    frame_case c = read_frame_case(letter);
    cork_source source = cork_read_back(c.source), claimed = cork_read_back(c.other);
    cork_judgement judgement = letter == 'J' ? cork_judge_forward(c.setting, c.width, c.height, source, claimed)
                                             : cork_judge_reverse(c.setting, c.width, c.height, source, claimed);
    cork_answer a = judgement.answer;
    bool differs = cork_accepted(a) && !cork_agrees(a);
    if (differs)
        printf("differs row %u column %u wrong %" PRIu64 "\n", cork_row(a), cork_column(a), judgement.wrong);
    else if (judgement.wrong != 0)
        printf("pixels are counted where none is wrong\n");
    else if (cork_accepted(a))
        printf("agrees\n");
    else
        print_refusal(a);
    free_case(&c);
}

static void print_bytes(const char *word, const uint8_t *bytes, size_t length)
{
    printf("%s", word);
    for (size_t i = 0; i < length; i++) printf(" %u", bytes[i]);
    printf("\n");
}

static void read_case(void)
{
    record r = read_record();
    cork_answer a = cork_read_label(r.bytes, r.length);
    cork_colour_label label = cork_label_in(a);
    if (cork_accepted(a))
        printf("label %u %u %u %u\n", label.primaries, label.transfer, label.matrix, label.full);
    else
        print_refusal(a);
    free(r.bytes);
}

static void write_case(void)
{
    cork_colour_label label = read_colour_label();
    record r = new_record(CORK_RECORD_BYTES);
    if (filled) memset(r.bytes, 0xa5, r.length);
    cork_answer a = cork_write_label(label, r.bytes, r.length);
    if (cork_accepted(a))
        print_bytes("record", r.bytes, r.length);
    else
        print_refusal(a);
    free(r.bytes);
}

static void pick_case(void)
{
    record container = read_record(), stream = read_record();
    cork_answer a = cork_pick_label(container.bytes, container.length, stream.bytes, stream.length);
    const uint8_t *part = cork_picked_part(a, container.bytes, stream.bytes);
    if (part)
        print_bytes(cork_picked_stream(a) ? "stream" : "container", part, CORK_LABEL_PART_BYTES);
    else
        print_refusal(a);
    free(container.bytes);
    free(stream.bytes);
}

int main(int count, char **words)
{
    filled = !(count > 1 && strcmp(words[1], "unfilled") == 0);
    for (char letter; (letter = next_case()) != 0;) {
        switch (letter) {
        case 'p': case 't': case 'x': label_case(letter); break;
        case 'f': case 'r': pixel_case(letter); break;
        case 's': source_case(); break;
        case 'y': case 'b': case 'c': reading_case(letter); break;
        case 'm': levels_case(); break;
        case 'F': case 'R': frame_case_of(letter); break;
        case 'I': image_case(); break;
        case 'J': case 'K': judgement_case(letter); break;
        case 'N': read_case(); break;
        case 'W': write_case(); break;
        case 'P': pick_case(); break;
        default: stop("not a case");
        }
    }
    return 0;
}
