/* A disk of 512-byte sectors on a SPI NOR flash chip of 64 KiB to 16 MiB, for a program in C.

   The logic of the disk is proved; `spi`, which is yours, is not. So nothing is assumed of it but
   that it returns, writes `rx` alone, and calls no function of the same disk: a copy of the chip in
   memory is led through the same frames, each answer is compared with it, and the first that
   differs counts as a loss of power. What is said below of a sector that was written therefore
   holds of each chip that shows what it holds.

   Link libnorbd_flash.a, which tools/release builds. A disk is used by one thread at a time; two
   disks by as many threads as you like. A call that can't be answered never waits: it takes as many
   frames as it needs, and returns. */
#ifndef NORBD_FLASH_H
#define NORBD_FLASH_H

#include <stddef.h>
#include <stdint.h>

struct norbd_disk;

struct norbd_bus {
    /* One frame: chip select low, the n bytes of tx out, m bytes into rx, chip select high. It
       returns 0 where that was done, and else another number: then nobody knows whether the chip
       took the frame. n is at most 260, and m at most 4,096. Each frame that begins with 05h has to
       take at least 6.1 us, and 30.5 us while the chip is formatted: an operation that is still
       busy after 65,535 of them counts as one that never ends. */
    int (*spi)(void *ctx, const uint8_t *tx, size_t n, uint8_t *rx, size_t m);
    void *ctx;
};

/* What a call returns. */
enum norbd_answer {
    NORBD_OK = 0,
    /* The power was lost, `spi` failed, or the chip answered otherwise than it should. Each call
       but norbd_restore and norbd_unmount returns it from then on. */
    NORBD_CUT = -1,
    /* An operation of the chip didn't end. Each call but norbd_flush, norbd_restore and
       norbd_unmount returns it from then on. */
    NORBD_SLOW = -2,
    /* Not all of the sectors are on the disk: nothing was done. */
    NORBD_REFUSED = -3,
    /* Of norbd_mount alone: */
    NORBD_WRONG_CHIP = -4,    /* its id or its table of parameters is none that is served */
    NORBD_PROTECTED = -5,     /* its memory is protected */
    NORBD_NO_MEMORY = -6,     /* `norbd_resize` returned NULL */
    NORBD_NOT_FORMATTED = -7, /* no disk was ever made on it */
    NORBD_CORRUPT = -8,       /* it holds what no disk leaves, or one of another size or layout */
    NORBD_NOT_ERASED = -9,    /* what reads as free isn't erased: another program wrote it */
};

/* Mounts the chip behind a bus, formatted first where `format` isn't 0: all that it holds is gone
   then, and each sector is zeros. Else what a lost write or erase left is ended, and each sector
   holds what was written into it last. The whole chip is read twice. On NORBD_OK `*disk` is the
   disk and `*sectors` the number of its sectors, which never changes (70 at 64 KiB, 1,540 at 1 MiB,
   25,060 at 16 MiB); else `*disk` is NULL. A format that was cut is to be made again. All memory is
   taken here: 128 KiB of stack, as many bytes as the chip has, and 1 more for each 55 of them. */
int norbd_mount(const struct norbd_bus *bus, int format, struct norbd_disk **disk,
                uint32_t *sectors);

/* Reads the sector, counted from 0. On NORBD_OK `into` holds what was written into it last, or
   zeros; else it is unchanged. */
int norbd_read(struct norbd_disk *disk, uint32_t sector, uint8_t into[512]);

/* Writes the sector. NORBD_OK: it is on the chip, and stays there through any loss of power or end
   of the program. NORBD_CUT: it holds the old bytes or the new ones, whole. Every other sector
   stays in both. After NORBD_SLOW nothing is said of any sector. */
int norbd_write(struct norbd_disk *disk, uint32_t sector, const uint8_t from[512]);

/* Writes zeros into `count` sectors from `first` on, which takes less of the chip. As norbd_write
   for each of them. */
int norbd_zero(struct norbd_disk *disk, uint32_t first, uint32_t count);

/* NORBD_CUT where that was returned and norbd_restore wasn't called since, and else NORBD_OK. It
   sends no frame: there is nothing to flush. */
int norbd_flush(struct norbd_disk *disk);

/* Does one step of the work that writes left, so that later ones take less time: call it when there
   is nothing else to do. 1: it was done, and there may be more. 0: there was none. No sector
   changes, also not after NORBD_CUT. */
int norbd_tidy(struct norbd_disk *disk);

/* Reads the whole chip, makes the interrupted change again, and mounts it anew. NORBD_OK: each
   sector is as the last call left it, and calls are answered again. NORBD_CUT: the chip can't be
   reached, or doesn't hold what it should; call it again once it may be back. */
int norbd_restore(struct norbd_disk *disk);

/* Lets the disk and its memory go. The chip stays as it is. */
void norbd_unmount(struct norbd_disk *disk);

/* Where the memory comes from: realloc and free, if you set no others before the first mount. A
   block is aligned to 16 bytes; `block` is NULL for a new one. */
extern void *(*norbd_resize)(void *block, size_t size);
extern void (*norbd_release)(void *block);

#endif
