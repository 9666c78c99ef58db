#define _POSIX_C_SOURCE 200809L
#include "chip.h"
#include <fcntl.h>
#include <stdlib.h>
#include <string.h>
#include <sys/stat.h>
#include <unistd.h>

bool chip_open(struct chip *c, const char *path, uint32_t size) {
    struct stat stat;
    memset(c, 0, sizeof *c);
    c->file = open(path, O_RDWR | O_CREAT, 0644);
    if (c->file < 0 || fstat(c->file, &stat))
        return false;
    c->size = stat.st_size ? (uint32_t)stat.st_size : size;
    c->memory = malloc(c->size);
    if (!c->memory)
        return false;
    memset(c->memory, 0xFF, c->size);
    if (stat.st_size)
        return pread(c->file, c->memory, c->size, 0) == (ssize_t)c->size;
    return pwrite(c->file, c->memory, c->size, 0) == (ssize_t)c->size;
}

static void save(struct chip *c) {
    c->changes++;
    if (pwrite(c->file, c->memory + c->at, c->count, c->at) != (ssize_t)c->count)
        abort();
}

/* The bits of `to` where the mask has a 1, and those of `from` elsewhere. */
static uint8_t mixed(uint8_t from, uint8_t to, uint8_t mask) {
    return (uint8_t)((from & ~mask) | (to & mask));
}

/* What the operation in progress does: all of it, or what a loss of power leaves. */
static void end(struct chip *c, uint8_t mask) {
    uint8_t *at = c->memory + c->at;
    if (c->busy == PROGRAM) {
        for (uint32_t i = 0; i < c->count; i++)
            at[i] = mixed(at[i], at[i] & c->page[i], mask);
        save(c);
    } else if (c->busy == ERASE) {
        memset(at, mask, c->count);
        save(c);
    } else if (c->busy == STATUS) {
        c->protection = mixed(c->protection, c->page[0], mask) & 0xFC;
    }
    c->busy = IDLE;
    c->enabled = false;
}

/* Whether a byte of the range is protected, by BP, TB and SEC. */
static bool is_protected(const struct chip *c, uint32_t at, uint32_t count) {
    uint32_t bp = (c->protection >> 2) & 7, part = bp ? c->size >> (7 - bp) : 0;
    if (c->protection & 0x40 || bp == 7)
        return true;
    return c->protection & 0x20 ? at < part : at + count > c->size - part;
}

static void begin(struct chip *c, enum operation_of_chip what, uint32_t at, uint32_t count) {
    if (what != STATUS && is_protected(c, at, count)) {
        c->enabled = false;
        return;
    }
    c->busy = what;
    c->at = at;
    c->count = count;
    c->polled = false;
}

/* A byte of the table of parameters: the size, the page, and erases of 4 and 64 KiB. */
static uint8_t parameter(const struct chip *c, uint32_t at) {
    static const struct { uint8_t at, n, bytes[8]; } rows[] = {
        {0x00, 8, {0x53, 0x46, 0x44, 0x50, 6, 1, 0, 0xFF}},
        {0x08, 8, {0, 6, 1, 0x10, 0x80, 0, 0, 0xFF}},
        {0x80, 4, {0x01, 0x20, 0, 0}},
        {0x9C, 4, {0x0C, 0x20, 0x10, 0xD8}},
        {0xA0, 4, {0, 0xFF, 0, 0xFF}},
        {0xA8, 4, {0x80, 0, 0, 0}},
    };
    at %= 256;
    if (at >= 0x84 && at < 0x88)
        return (uint8_t)((8 * c->size - 1) >> (8 * (at - 0x84)));
    for (size_t i = 0; i < sizeof rows / sizeof rows[0]; i++)
        if (at >= rows[i].at && at < rows[i].at + (uint32_t)rows[i].n)
            return rows[i].bytes[at - rows[i].at];
    return 0xFF;
}

/* A byte of the id: EFh 40h, and the power of two of the size. */
static uint8_t identity(const struct chip *c, size_t i) {
    uint8_t power = 0;
    while ((1u << power) < c->size)
        power++;
    return i == 0 ? 0xEF : i == 1 ? 0x40 : i == 2 ? power : 0xFF;
}

static uint8_t read_status(struct chip *c) {
    if (c->busy && c->polled)
        end(c, 0xFF);
    c->polled = true;
    return (uint8_t)(c->protection | (c->enabled ? 2 : 0) | (c->busy ? 1 : 0));
}

static void command(struct chip *c, const uint8_t *tx, size_t n, uint8_t *rx, size_t m) {
    uint32_t at = n < 4 ? 0 : (uint32_t)(tx[1] << 16 | tx[2] << 8 | tx[3]);
    uint8_t code = n ? tx[0] : 0;
    memset(rx, n == 1 && code == 0x05 ? read_status(c) : 0xFF, m);
    if (n == 1 && (code == 0x35 || code == 0x15))
        memset(rx, 0, m);
    if (c->busy)
        return;
    if (n == 1 && (code == 0x06 || code == 0x04))
        c->enabled = code == 0x06;
    else if (n == 1 && code == 0x9F)
        for (size_t i = 0; i < m; i++)
            rx[i] = identity(c, i);
    else if (n == 5 && code == 0x5A)
        for (size_t i = 0; i < m; i++)
            rx[i] = parameter(c, at + (uint32_t)i);
    else if (n == 4 && code == 0x03)
        for (size_t i = 0; i < m; i++)
            rx[i] = c->memory[(at + i) % c->size];
    else if (c->enabled && n == 2 && code == 0x01) {
        c->page[0] = tx[1];
        begin(c, STATUS, 0, 0);
    } else if (c->enabled && n == 4 && code == 0x20)
        begin(c, ERASE, at % c->size / 4096 * 4096, 4096);
    else if (c->enabled && n == 4 && code == 0xD8)
        begin(c, ERASE, at % c->size / 65536 * 65536, 65536);
    else if (c->enabled && n >= 5 && code == 0x02) {
        memset(c->page, 0xFF, 256);
        for (size_t i = 4; i < n; i++)
            c->page[(at + i - 4) % 256] = tx[i];
        begin(c, PROGRAM, at % c->size / 256 * 256, 256);
    }
}

int chip_frame(void *ctx, const uint8_t *tx, size_t n, uint8_t *rx, size_t m) {
    struct chip *c = ctx;
    c->frames++;
    command(c, tx, n, rx, m);
    if (c->frames == c->kill)
        _exit(42);
    if (c->frames != c->loss)
        return 0;
    end(c, c->mask);
    return -1;
}
