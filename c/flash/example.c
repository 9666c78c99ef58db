/* usage: example IMAGE
   Counts its own starts in a sector of a disk on a chip of 64 KiB, which is the file IMAGE. */
#include "chip.h"
#include "norbd_flash.h"
#include <stdio.h>
#include <string.h>

static int fails(const char *what, int status) {
    fprintf(stderr, "example: %s: %d\n", what, status);
    return 1;
}

/* Writes a sector, also where the power goes in it: then it is written again. */
static int write_surely(struct norbd_disk *disk, uint32_t sector, const uint8_t bytes[512]) {
    int status = norbd_write(disk, sector, bytes);
    while (status == NORBD_CUT) {
        status = norbd_restore(disk);
        if (status == NORBD_OK)
            status = norbd_write(disk, sector, bytes);
    }
    return status;
}

int main(int argc, char **argv) {
    struct chip chip;
    struct norbd_bus bus = {chip_frame, &chip};
    struct norbd_disk *disk;
    uint32_t sectors, starts;
    uint8_t bytes[512];
    int status;

    if (argc != 2 || !chip_open(&chip, argv[1], 64 * 1024))
        return fails("usage: example IMAGE", argc);
    status = norbd_mount(&bus, 0, &disk, &sectors);
    if (status == NORBD_NOT_FORMATTED)
        status = norbd_mount(&bus, 1, &disk, &sectors);
    if (status != NORBD_OK)
        return fails("mount", status);

    status = norbd_read(disk, sectors - 1, bytes);
    if (status != NORBD_OK)
        return fails("read", status);
    starts = (uint32_t)(bytes[0] | bytes[1] << 8) + 1;
    memset(bytes, 0, sizeof bytes);
    bytes[0] = (uint8_t)starts;
    bytes[1] = (uint8_t)(starts >> 8);
    status = write_surely(disk, sectors - 1, bytes);
    if (status != NORBD_OK)
        return fails("write", status);

    do
        status = norbd_tidy(disk);
    while (status > 0);
    if (status < 0)
        return fails("tidy", status);
    printf("%u sectors, start %u\n", (unsigned)sectors, (unsigned)starts);
    norbd_unmount(disk);
    return 0;
}
