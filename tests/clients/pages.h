/* Pictures and records in pages that may only be read, with a page before and after each that may not be touched at all: whoever writes to
 * a plane, or steps past the end that stands right at such a fence, is stopped. */
#ifndef PAGES_H
#define PAGES_H

#include "cases.h"

#include <sys/mman.h>
#include <unistd.h>

typedef struct walled_bytes {
    const unsigned char *bytes;
    unsigned char *pages;
    size_t mapped;
} walled_bytes;

/* A copy of which the last byte stands right before a fence, or the first right after one. One of no bytes stands in the fence. */
static inline walled_bytes new_walled_bytes(const void *copied, size_t used, bool fence_after)
{
    size_t page = (size_t)sysconf(_SC_PAGESIZE), room = (used + page - 1) / page * page;
    void *pages = mmap(NULL, page + room + page, PROT_NONE, MAP_PRIVATE | MAP_ANONYMOUS, -1, 0);
    if (pages == MAP_FAILED) stop("no pages");
    unsigned char *inside = (unsigned char *)pages + page, *bytes = fence_after ? inside + room - used : inside;
    walled_bytes walled = {bytes, (unsigned char *)pages, page + room + page};
    if (used == 0) return walled;
    if (mprotect(inside, room, PROT_READ | PROT_WRITE) != 0) stop("pages cannot be written");
    memcpy(bytes, copied, used);
    if (mprotect(inside, room, PROT_READ) != 0) stop("pages can be written");
    return walled;
}

static inline void release_walled_bytes(walled_bytes walled)
{
    munmap(walled.pages, walled.mapped);
}

typedef struct fenced {
    cork_source picture;
    walled_bytes planes[3];
} fenced;

static inline fenced new_fenced(cork_output copied, bool fence_after)
{
    fenced f;
    f.picture.stride = copied.stride;
    for (int k = 0; k < 3; k++) {
        f.planes[k] = new_walled_bytes(copied.plane[k], copied.length[k] * sizeof(uint16_t), fence_after);
        f.picture.plane[k] = (const uint16_t *)(const void *)f.planes[k].bytes;
        f.picture.length[k] = copied.length[k];
    }
    return f;
}

static inline void release_fenced(fenced f)
{
    for (int k = 0; k < 3; k++) release_walled_bytes(f.planes[k]);
}

#endif
