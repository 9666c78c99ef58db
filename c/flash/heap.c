/* The memory that the proved code asks for. A file of its own, since on a processor of 32 bits it
   has to be compiled as that code is: what is returned are two numbers of 64 bits. */
#include <stdint.h>

struct tried { uint64_t ok, at; }; /* `at` is never null */

uint8_t *norbd_more(uint8_t *block, uint64_t size); /* NULL where there is none */
void norbd_less(uint8_t *block);

static uint8_t nothing[16];

static struct tried tried(uint8_t *at) {
    struct tried found = {at != 0, (uint64_t)(uintptr_t)(at ? at : nothing)};
    return found;
}

struct tried rattle_alloc(uint64_t size, uint64_t alignment) {
    return tried(norbd_more(0, size ? size : alignment));
}

struct tried rattle_realloc(uint8_t *at, uint64_t kept, uint64_t size, uint64_t alignment) {
    (void)kept;
    return tried(norbd_more(at, size ? size : alignment));
}

void rattle_dealloc(uint8_t *at) {
    norbd_less(at);
}
