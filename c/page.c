/* What docs/page.html calls in its module, beside the proved code: buffers, one play, and memory that is taken anew for each play. tools/page
   compiles it. No proof speaks of this file. */
#include <stdint.h>

struct told { uint32_t made, rows, read; };
struct tried { uint64_t ok, at; }; /* `at` is never null */

void page_play(const uint8_t *, uint64_t, uint8_t *, uint64_t, uint8_t *, uint64_t, uint8_t *, uint64_t, uint8_t *, uint64_t, struct told *);

static uint8_t script[8 * 4096], answers[4096], image[65536], contents[35840], frames[524288];
static struct told told;
static _Alignas(16) uint8_t heap[2 << 20];
static uint64_t used;

uint8_t *page_buffer(uint32_t which) {
    return which == 0 ? script : which == 1 ? answers : which == 2 ? image : which == 3 ? contents : which == 4 ? frames : (uint8_t *)&told;
}

void page_run(uint32_t steps) {
    used = 0;
    page_play(script, 8 * (uint64_t)steps, answers, steps, image, sizeof image, contents, sizeof contents, frames, sizeof frames, &told);
}

/* Every alignment divides 16. Nothing is given back before the next play. */
struct tried rattle_alloc(uint64_t size, uint64_t alignment) {
    struct tried found;
    (void)alignment;
    found.ok = size <= sizeof heap - used;
    found.at = (uint64_t)(uintptr_t)(heap + used);
    if (found.ok)
        used += (size + 15) & ~(uint64_t)15;
    return found;
}

struct tried rattle_realloc(uint8_t *at, uint64_t kept, uint64_t size, uint64_t alignment) {
    struct tried found = rattle_alloc(size, alignment);
    if (found.ok)
        __builtin_memcpy((uint8_t *)(uintptr_t)found.at, at, kept);
    return found;
}

void rattle_dealloc(uint8_t *at) {
    (void)at;
}
