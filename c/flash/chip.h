/* A SPI NOR flash chip in a file, by docs/CHIP.md: for tests, and as an example of
   norbd_bus.spi. */
#ifndef CHIP_H
#define CHIP_H
#include <stdbool.h>
#include <stddef.h>
#include <stdint.h>

enum operation_of_chip { IDLE, PROGRAM, ERASE, STATUS };

struct chip {
    int file;           /* which always has what is in `memory` */
    uint8_t *memory;
    uint32_t size;
    uint8_t protection; /* bits 2 to 7 of status register 1 */
    bool enabled;       /* WEL */
    enum operation_of_chip busy;
    uint32_t at, count; /* the bytes that it changes */
    uint8_t page[256];  /* that a program writes, or the new status register 1 */
    bool polled;        /* it ends at the second read of the status */
    uint64_t frames, changes;
    uint64_t loss;      /* in which frame the power goes, 0 in none; it comes again at once */
    uint8_t mask;       /* which bits of a page are new then; what an erased unit holds */
    uint64_t kill;      /* in which frame the process ends, with status 42; 0 in none */
};

/* Opens a chip in a file, which is made with so many bytes FFh if there is none. False with errno
   where it fails. */
bool chip_open(struct chip *chip, const char *path, uint32_t size);

/* As norbd_bus.spi, with a chip as `ctx`. */
int chip_frame(void *ctx, const uint8_t *tx, size_t n, uint8_t *rx, size_t m);
#endif
