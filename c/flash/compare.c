/* usage: compare IMAGE BYTES SEED COUNT [new] [loss=FRAME:MASK] [kill=FRAME]
   Makes COUNT requests by chance to a disk on a chip of so many BYTES, which is the file IMAGE, and
   compares each sector that is read with what was written last. Prints a line that is the same
   wherever the library is right, as IMAGE is then. The status is 1 where a sector differs. */
#include "chip.h"
#include "norbd_flash.h"
#include <stdio.h>
#include <stdlib.h>
#include <string.h>

struct held {
    bool known;
    uint8_t bytes[512];
};

static struct chip chip;
static struct norbd_disk *disk;
static struct held *held;
static uint32_t sectors, seed;
static unsigned losses, differ, others;

static uint32_t chance(uint32_t below) {
    seed = seed * 1664525u + 1013904223u;
    return (seed >> 8) % below;
}

static void see(int status) {
    if (status == NORBD_CUT) {
        losses++;
        if (norbd_restore(disk) != NORBD_OK)
            others++;
    } else if (status < 0) {
        others++;
    }
}

static void read_sector(uint32_t sector) {
    uint8_t bytes[512];
    int status = norbd_read(disk, sector, bytes);
    see(status);
    if (status != NORBD_OK)
        return;
    if (held[sector].known && memcmp(held[sector].bytes, bytes, 512))
        differ++;
    memcpy(held[sector].bytes, bytes, 512);
    held[sector].known = true;
}

/* Writes a sector; cut, it may hold either until it is read. */
static void write_sector(uint32_t sector, bool zeros) {
    uint8_t bytes[512] = {0};
    int status;
    for (int i = 0; i < 512 && !zeros; i++)
        bytes[i] = (uint8_t)chance(256);
    status = zeros ? norbd_zero(disk, sector, 1) : norbd_write(disk, sector, bytes);
    memcpy(held[sector].bytes, bytes, 512);
    held[sector].known = status == NORBD_OK;
    see(status);
}

static void make_request(void) {
    uint32_t kind = chance(16), sector = chance(sectors);
    if (kind < 9)
        write_sector(sector, false);
    else if (kind < 13)
        read_sector(sector);
    else if (kind < 14)
        write_sector(sector, true);
    else
        see(kind < 15 ? norbd_tidy(disk) : norbd_flush(disk));
}

static uint32_t hash_all(void) {
    uint32_t hash = 2166136261u;
    for (uint32_t i = 0; i < sectors; i++)
        for (int j = 0; j < 512; j++)
            hash = (hash ^ held[i].bytes[j]) * 16777619u;
    return hash;
}

int main(int argc, char **argv) {
    struct norbd_bus bus = {chip_frame, &chip};
    int format = 0, status;
    unsigned long long frame, mask;
    if (argc < 5 || !chip_open(&chip, argv[1], (uint32_t)strtoul(argv[2], NULL, 0)))
        return 2;
    seed = (uint32_t)strtoul(argv[3], NULL, 0);
    for (int i = 5; i < argc; i++) {
        format |= !strcmp(argv[i], "new");
        if (sscanf(argv[i], "loss=%llu:%llu", &frame, &mask) == 2) {
            chip.loss = frame;
            chip.mask = (uint8_t)mask;
        }
        if (sscanf(argv[i], "kill=%llu", &frame) == 1)
            chip.kill = frame;
    }
    status = norbd_mount(&bus, format, &disk, &sectors);
    if (status == NORBD_OK) {
        held = calloc(sectors, sizeof *held);
        for (unsigned long i = strtoul(argv[4], NULL, 0); held && i; i--)
            make_request();
        for (uint32_t sector = 0; held && sector < sectors; sector++)
            read_sector(sector);
        others += norbd_read(disk, sectors, held[0].bytes) != NORBD_REFUSED;
        norbd_unmount(disk);
    } else {
        sectors = 0;
    }
    printf("mount %d, %u sectors, %u losses, %u differ, %u others, %llu frames, %llu changes, "
           "%08x\n",
           status, (unsigned)sectors, losses, differ, others, (unsigned long long)chip.frames,
           (unsigned long long)chip.changes, (unsigned)hash_all());
    return differ || others;
}
