/* Runs every frame case twice, with two different fills of the output. Every plane stands in a larger block with guards on both
 * sides. What must hold: both runs give the same answer and the same planes, the sources are as they were, and no guard moved.
 *
 * A judgement writes to its count alone. Its six planes stand in pages that may only be read, and a page that may not be touched at all
 * follows each of them in the one run and goes before it in the other. */
#define _DEFAULT_SOURCE
#include "cases.h"
#include "pages.h"
#include <signal.h>

enum { GUARD = 64 };

/* A plane in the middle of its block, and the block as it was before the call. */
typedef struct guarded {
    uint16_t *block;
    uint16_t *before;
    size_t length;
} guarded;

static uint64_t state = 1;

static uint16_t noise(void)
{
    state = state * 6364136223846793005u + 1442695040888963407u;
    return (uint16_t)(state >> 48);
}

static size_t block_length(guarded g)
{
    return g.length + 2 * GUARD;
}

static guarded new_guarded(size_t length)
{
    guarded g = {NULL, NULL, length};
    g.block = (uint16_t *)malloc(block_length(g) * sizeof *g.block);
    g.before = (uint16_t *)malloc(block_length(g) * sizeof *g.before);
    if (!g.block || !g.before) stop("no memory");
    for (size_t i = 0; i < block_length(g); i++) g.block[i] = noise();
    memcpy(g.before, g.block, block_length(g) * sizeof *g.block);
    return g;
}

static uint16_t *plane_of(guarded g)
{
    return g.block + GUARD;
}

static bool is_same(const uint16_t *a, const uint16_t *b, size_t length)
{
    return memcmp(a, b, length * sizeof *a) == 0;
}

static bool guards_stand(guarded g)
{
    size_t after = GUARD + g.length;
    return is_same(g.block, g.before, GUARD) && is_same(g.block + after, g.before + after, GUARD);
}

static void release(guarded g)
{
    free(g.block);
    free(g.before);
}

static void must(bool holds, const char *what, long which)
{
    if (holds) return;
    printf("frame case %ld: %s\n", which, what);
    exit(1);
}

/* One run on fresh noise; the planes are left in `output` for the comparison. */
static cork_answer run(const frame_case *c, guarded output[3], long which)
{
    guarded source[3];
    cork_source from;
    cork_output to;
    from.stride = c->source.stride;
    to.stride = c->other.stride;
    for (int k = 0; k < 3; k++) {
        source[k] = new_guarded(c->source.length[k]);
        memcpy(plane_of(source[k]), c->source.plane[k], source[k].length * sizeof(uint16_t));
        memcpy(source[k].before, source[k].block, block_length(source[k]) * sizeof(uint16_t));
        output[k] = new_guarded(c->other.length[k]);
        from.plane[k] = plane_of(source[k]);
        from.length[k] = source[k].length;
        to.plane[k] = plane_of(output[k]);
        to.length[k] = output[k].length;
    }
    cork_answer a = c->letter == 'I' ? cork_image_check(c->setting, c->width, c->height, from) : convert_frame(c, from, to);
    for (int k = 0; k < 3; k++) {
        must(is_same(source[k].block, source[k].before, block_length(source[k])), "a source plane or its guard changed", which);
        must(guards_stand(output[k]), "a guard of an output plane changed", which);
        release(source[k]);
    }
    return a;
}

static cork_answer convert_twice(const frame_case *c, long which)
{
    guarded first[3], second[3];
    cork_answer one = run(c, first, which), two = run(c, second, which);
    must(one.packed == two.packed, "two fills give two answers", which);
    for (int k = 0; k < 3; k++) {
        must(is_same(plane_of(first[k]), plane_of(second[k]), first[k].length), "two fills give two pictures", which);
        release(first[k]);
        release(second[k]);
    }
    return one;
}

static cork_judgement judge_in_pages(const frame_case *c, bool fence_after, long which)
{
    fenced source = new_fenced(c->source, fence_after), claimed = new_fenced(c->other, fence_after);
    uint64_t guard = noise(), counts[3] = {guard, noise(), guard};
    cork_judgement found;
    found.answer.packed =
        judge_into(&counts[1], c->letter, cork_word_(c->setting), c->width, c->height, source.picture, claimed.picture);
    found.wrong = counts[1];
    must(counts[0] == guard && counts[2] == guard, "something beside the count changed", which);
    release_fenced(source);
    release_fenced(claimed);
    return found;
}

static cork_answer judge_twice(const frame_case *c, long which)
{
    cork_judgement one = judge_in_pages(c, true, which), two = judge_in_pages(c, false, which);
    must(one.answer.packed == two.answer.packed && one.wrong == two.wrong, "two places give two answers", which);
    return one.answer;
}

static long count;

static void on_fault(int number)
{
    printf("frame case %ld: signal %d, from a page that may not be touched or written\n", count, number);
    fflush(stdout);
    _exit(1);
}

int main(void)
{
    long accepted = 0;
    signal(SIGSEGV, on_fault);
    for (char letter; (letter = next_case()) != 0; count++) {
        frame_case c = read_frame_case(letter);
        accepted += cork_accepted(is_judgement(letter) ? judge_twice(&c, count) : convert_twice(&c, count));
        free_case(&c);
    }
    printf("%ld frames, %ld accepted\n", count, accepted);
    return accepted > 0 && accepted < count ? 0 : 1;
}
