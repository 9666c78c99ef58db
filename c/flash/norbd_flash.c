/* The functions of norbd_flash.h over the proved code, which is one long function: it asks for its
   next request by calling `norbd_next`. It runs on a stack of its own, so a call of the disk goes
   over to it with a request and comes back at the next `norbd_next`.
   No proof speaks of this file; its imports and the export are declared in flash_c.rt.in. */
#define _GNU_SOURCE
#include "norbd_flash.h"
#include <stdbool.h>
#include <stdlib.h>
#include <string.h>
#include <ucontext.h>

#define STACK (128 * 1024)

enum operation { SECTORS = 1, READ, WRITE, ZERO, FLUSH, TIDY, RESTORE };

struct request {
    uint32_t operation, first, count; /* operation 0: there is no request any more */
};

struct norbd_disk {
    struct norbd_bus bus;
    ucontext_t caller, own;
    void *stack;
    struct request request;
    uint8_t bytes[512]; /* of a write's request, and of a read's answer */
    uint64_t status;    /* of the last answer, or with which the code ended; as enum norbd_answer */
    uint64_t number;    /* that the last answer told */
    bool format;
    bool ended;
};

void *(*norbd_resize)(void *block, size_t size) = realloc;
void (*norbd_release)(void *block) = free;

/* For heap.c. */
uint8_t *norbd_more(uint8_t *block, uint64_t size) {
    return size > SIZE_MAX ? NULL : norbd_resize(block, (size_t)size);
}

void norbd_less(uint8_t *block) {
    norbd_release(block);
}

/* The export: 0, or why there is no disk. */
uint64_t norbd_run(uint64_t disk, bool format);

static struct norbd_disk *disk_at(uint64_t at) {
    return (struct norbd_disk *)(uintptr_t)at;
}

/* The imports. Each gets the disk that was given to `norbd_run`. */
uint64_t norbd_exchange(uint64_t at, const uint8_t *tx, uint64_t n, uint8_t *rx, uint64_t m) {
    struct norbd_disk *disk = disk_at(at);
    return disk->bus.spi(disk->bus.ctx, tx, (size_t)n, rx, (size_t)m) != 0;
}

uint64_t norbd_next(uint64_t at, struct request *request, uint8_t *bytes, uint64_t n) {
    struct norbd_disk *disk = disk_at(at);
    swapcontext(&disk->own, &disk->caller);
    *request = disk->request;
    if (request->operation == WRITE)
        memcpy(bytes, disk->bytes, (size_t)n);
    return request->operation;
}

void norbd_hear(uint64_t at, uint64_t status, uint64_t number, const uint8_t *bytes, uint64_t n) {
    struct norbd_disk *disk = disk_at(at);
    disk->status = status;
    disk->number = number;
    memcpy(disk->bytes, bytes, (size_t)n);
}

static void run(unsigned high, unsigned low) {
    uint64_t at = (uint64_t)high << 32 | low;
    struct norbd_disk *disk = disk_at(at);
    disk->status = norbd_run(at, disk->format);
    disk->ended = true;
}

/* Runs the disk until it asks for its next request, or ends: what it answered. */
static int answer(struct norbd_disk *disk, struct request request) {
    disk->request = request;
    swapcontext(&disk->caller, &disk->own);
    return -(int)disk->status;
}

static int call(struct norbd_disk *disk, enum operation operation, uint32_t first, uint32_t count) {
    return answer(disk, (struct request){operation, first, count});
}

int norbd_mount(const struct norbd_bus *bus, int format, struct norbd_disk **made,
                uint32_t *sectors) {
    struct norbd_disk *disk = norbd_resize(NULL, sizeof *disk);
    void *stack = disk ? norbd_resize(NULL, STACK) : NULL;
    int status;
    *made = NULL;
    if (!stack) {
        if (disk)
            norbd_release(disk);
        return NORBD_NO_MEMORY;
    }
    memset(disk, 0, sizeof *disk);
    disk->bus = *bus;
    disk->format = format != 0;
    disk->stack = stack;
    getcontext(&disk->own);
    disk->own.uc_stack.ss_sp = stack;
    disk->own.uc_stack.ss_size = STACK;
    disk->own.uc_link = &disk->caller;
    makecontext(&disk->own, (void (*)(void))run, 2, (unsigned)((uint64_t)(uintptr_t)disk >> 32),
                (unsigned)(uintptr_t)disk);
    status = answer(disk, (struct request){0, 0, 0});
    if (disk->ended) {
        norbd_release(stack);
        norbd_release(disk);
        return status;
    }
    call(disk, SECTORS, 0, 0);
    *sectors = (uint32_t)disk->number;
    *made = disk;
    return NORBD_OK;
}

int norbd_read(struct norbd_disk *disk, uint32_t sector, uint8_t into[512]) {
    int status = call(disk, READ, sector, 0);
    if (status == NORBD_OK)
        memcpy(into, disk->bytes, 512);
    return status;
}

int norbd_write(struct norbd_disk *disk, uint32_t sector, const uint8_t from[512]) {
    memcpy(disk->bytes, from, 512);
    return call(disk, WRITE, sector, 0);
}

int norbd_zero(struct norbd_disk *disk, uint32_t first, uint32_t count) {
    return call(disk, ZERO, first, count);
}

int norbd_flush(struct norbd_disk *disk) {
    return call(disk, FLUSH, 0, 0);
}

int norbd_tidy(struct norbd_disk *disk) {
    int status = call(disk, TIDY, 0, 0);
    return status == NORBD_OK ? (int)disk->number : status;
}

int norbd_restore(struct norbd_disk *disk) {
    return call(disk, RESTORE, 0, 0);
}

void norbd_unmount(struct norbd_disk *disk) {
    call(disk, 0, 0, 0);
    norbd_release(disk->stack);
    norbd_release(disk);
}
