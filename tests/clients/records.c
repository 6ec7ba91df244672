/* The calls on records of media files, by the whole number that each answers: a refusal is its number alone, and every bit of an accepted
 * answer is as the header has it. What the numbers are to be is worked out here once more, byte by byte.
 *
 * The record cases are read from standard input. Each record that is only read stands in pages that may not be written, with a page right
 * after it that may not be touched, and then with such a page right before it. Beside them: every byte in every place of a record, all
 * lengths up to 40, lengths that are 11 in their lowest bits, up to 2^32 + 11, and a record that is written between guards. */
#define _DEFAULT_SOURCE
#include "cases.h"
#include "pages.h"
#include <signal.h>

enum { LENGTH = CORK_RECORD_BYTES, GUARD = 64, ROOM = 40 };

static const uint8_t WHOLE[LENGTH] = {'n', 'c', 'l', 'x', 0, 9, 0, 16, 0, 8, 0x80};

static long tried, given[256];

static void must(bool holds, const char *what, uint64_t packed)
{
    if (holds) return;
    printf("after %ld calls: %s: %" PRIx64 "\n", tried, what, packed);
    exit(1);
}

/* ---- what the answers are to be */

static uint64_t expected_reading(const uint8_t *b, size_t length)
{
    if (length != 11) return 20;
    if (b[0] != 'n' || b[1] != 'c' || b[2] != 'l' || b[3] != 'x') return 21;
    if (b[4] != 0 || b[6] != 0 || b[8] != 0) return 22;
    if (b[10] != 0 && b[10] != 0x80) return 23;
    return (b[10] ? 0x100 : 0) + b[5] * ((uint64_t)1 << 16) + b[7] * ((uint64_t)1 << 32) + b[9] * ((uint64_t)1 << 48);
}

static uint64_t expected_pick(const uint8_t *container, size_t container_length, const uint8_t *stream, size_t stream_length)
{
    uint64_t first = expected_reading(container, container_length) & 0xff, second = expected_reading(stream, stream_length) & 0xff;
    bool open = first == 0 && (container[5] == 2 || container[7] == 2 || container[9] == 2);
    if (first == 0 && !open) return 0;
    if (second == 0) return 0x100;
    return open ? 24 : first;
}

/* ---- the calls, each looked at */

static void try_read(const uint8_t *record, size_t length)
{
    uint64_t packed = cork_read_label(record, length).packed;
    tried++;
    given[packed & 0xff]++;
    must(packed == expected_reading(record, length), "a record is read wrong", packed);
}

static void try_pick(const uint8_t *container, size_t container_length, const uint8_t *stream, size_t stream_length)
{
    cork_answer a = cork_pick_label(container, container_length, stream, stream_length);
    uint64_t wanted = expected_pick(container, container_length, stream, stream_length);
    const uint8_t *part = cork_picked_part(a, container, stream);
    tried++;
    given[a.packed & 0xff]++;
    must(a.packed == wanted, "a pick is wrong", a.packed);
    must(part == (wanted == 0 ? container + 4 : wanted == 0x100 ? stream + 4 : NULL), "a part stands elsewhere", a.packed);
}

/* In a block with guards before and after, on two fills. */
static void try_write(cork_colour_label label, size_t length)
{
    static const uint8_t fills[] = {0x00, 0xa5};
    uint8_t *block = (uint8_t *)malloc(length + 2 * GUARD), *out = block + GUARD;
    const uint8_t record[LENGTH] = {'n', 'c', 'l', 'x', 0, label.primaries, 0, label.transfer, 0, label.matrix, label.full ? 0x80 : 0};
    if (!block) stop("no memory");
    for (int f = 0; f < 2; f++) {
        memset(block, fills[f], length + 2 * GUARD);
        uint64_t packed = cork_write_label(label, out, length).packed;
        tried++;
        given[packed & 0xff]++;
        must(packed == (length == LENGTH ? 0 : 20), "a record is written wrong", packed);
        for (size_t i = 0; i < length; i++) must(out[i] == (length == LENGTH ? record[i] : 0), "a byte that was written is wrong", i);
        for (size_t i = 0; i < GUARD; i++) must(block[i] == fills[f] && out[length + i] == fills[f], "a guard changed", i);
    }
    free(block);
}

/* ---- the cases */

static void read_in_pages(record r)
{
    for (int after = 0; after < 2; after++) {
        walled_bytes walled = new_walled_bytes(r.bytes, r.length, after != 0);
        try_read(walled.bytes, r.length);
        release_walled_bytes(walled);
    }
}

static void pick_in_pages(record container, record stream)
{
    for (int sides = 0; sides < 4; sides++) {
        walled_bytes first = new_walled_bytes(container.bytes, container.length, sides / 2 != 0);
        walled_bytes second = new_walled_bytes(stream.bytes, stream.length, sides % 2 != 0);
        try_pick(first.bytes, container.length, second.bytes, stream.length);
        release_walled_bytes(first);
        release_walled_bytes(second);
    }
}

static void try_case(char letter)
{
    if (letter == 'W') {
        cork_colour_label label = read_colour_label();
        try_write(label, LENGTH);
        try_write(label, (size_t)(label.primaries + label.matrix));
        return;
    }
    record first = read_record();
    if (letter == 'N') {
        read_in_pages(first);
    } else {
        record second = read_record();
        pick_in_pages(first, second);
        pick_in_pages(first, first); /* one record on both sides */
        free(second.bytes);
    }
    free(first.bytes);
}

/* ---- bytes and lengths */

static void try_every_byte(void)
{
    uint8_t record[LENGTH];
    for (int place = 0; place < LENGTH; place++)
        for (int byte = 0; byte < 256; byte++) {
            memcpy(record, WHOLE, LENGTH);
            record[place] = (uint8_t)byte;
            try_read(record, LENGTH);
            try_pick(record, LENGTH, WHOLE, LENGTH);
            try_pick(record, LENGTH, WHOLE, 0);
            try_pick(WHOLE, LENGTH - 1, record, LENGTH);
        }
}

static void try_lengths(void)
{
    static const size_t others[] = {75, 139, 267, 65547, ((size_t)1 << 24) + 11};
    const cork_colour_label label = {9, 16, 9, true};
    uint8_t room[ROOM] = {0};
    memcpy(room, WHOLE, LENGTH);
    for (size_t length = 0; length <= ROOM; length++) {
        try_read(room, length);
        for (size_t other = 0; other <= ROOM; other++) try_pick(room, length, room, other);
        try_write(label, length);
    }
    for (size_t i = 0; i < sizeof others / sizeof *others; i++) try_write(label, others[i]);
}

/* Pages of which only the first is ever written take no memory. */
static void try_long_records(void)
{
    const size_t most = ((size_t)1 << 32) + LENGTH, lengths[] = {267, 65547, most - LENGTH, most};
    void *pages = mmap(NULL, most, PROT_READ | PROT_WRITE, MAP_PRIVATE | MAP_ANONYMOUS | MAP_NORESERVE, -1, 0);
    if (pages == MAP_FAILED) {
        printf("skipped: records of 2^32 bytes, for which this machine has no addresses\n");
        return;
    }
    memcpy(pages, WHOLE, LENGTH);
    const uint8_t *record = (const uint8_t *)pages;
    for (size_t i = 0; i < sizeof lengths / sizeof *lengths; i++) {
        try_read(record, lengths[i]);
        try_pick(record, lengths[i], record, LENGTH);
        try_pick(record, LENGTH, record, lengths[i]);
        try_pick(record, lengths[i], record, lengths[i]);
    }
    munmap(pages, most);
}

static void on_fault(int number)
{
    printf("after %ld calls: signal %d, from a page that may not be touched or written\n", tried, number);
    fflush(stdout);
    _exit(1);
}

int main(void)
{
    signal(SIGSEGV, on_fault);
    for (char letter; (letter = next_case()) != 0;) try_case(letter);
    try_every_byte();
    try_lengths();
    try_long_records();
    printf("%ld calls, %ld accepted; refused with 20 to 24: %ld %ld %ld %ld %ld\n", tried, given[0], given[20], given[21], given[22],
           given[23], given[24]);
    return given[0] && given[20] && given[21] && given[22] && given[23] && given[24] ? 0 : 1;
}
