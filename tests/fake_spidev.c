/* Stands in for the kernel below c/spidev-serprog.c, by --wrap of open, fopen and ioctl. Devices
   are files of the working folder. A frame goes, as an O_SPIOP of serprog, to what answers for a
   chip at the port FAKE_CHIP; so does each level of the GPIO line, as S_PIN_STATE. The file `log`
   has the other settings. Limits and errors are those of Linux 6.1, drivers/spi/spidev.c. While
   there is a file `fails`, a frame, or a change of the line, fails with the errno in it. */
#define _GNU_SOURCE
#include <arpa/inet.h>
#include <errno.h>
#include <fcntl.h>
#include <linux/gpio.h>
#include <linux/spi/spidev.h>
#include <stdarg.h>
#include <stdbool.h>
#include <stdint.h>
#include <stdio.h>
#include <stdlib.h>
#include <string.h>
#include <sys/ioctl.h>
#include <unistd.h>

int __real_open(const char *path, int flags, ...);
int __real_ioctl(int fd, unsigned long request, ...);
FILE *__real_fopen(const char *path, const char *mode);

static int device = -1, gpio = -1, line = -1, chip = -1;
static bool low;

static unsigned number_in(const char *path, unsigned otherwise) {
    unsigned number = otherwise;
    FILE *file = __real_fopen(path, "r");
    if (file) {
        if (fscanf(file, "%u", &number) != 1)
            abort();
        fclose(file);
    }
    return number;
}

static void note(const char *what, unsigned value) {
    FILE *log = __real_fopen("log", "a");
    fprintf(log, "%s %u\n", what, value);
    fclose(log);
}

static void receive(uint8_t *into, size_t count) {
    while (count > 0) {
        ssize_t done = read(chip, into, count);
        if (done <= 0)
            abort();
        into += done;
        count -= done;
    }
}

static int refused(int cause) {
    errno = cause;
    return -1;
}

int __wrap_open(const char *path, int flags, ...) {
    if (strncmp(path, "/dev/gpiochip", 13) == 0)
        return gpio = __real_open(path + 5, flags);
    if (strncmp(path, "/dev/spidev", 11) != 0)
        return __real_open(path, flags);
    struct sockaddr_in at = { .sin_family = AF_INET, .sin_port = htons(atoi(getenv("FAKE_CHIP"))),
                              .sin_addr.s_addr = htonl(INADDR_LOOPBACK) };
    device = __real_open(path + 5, flags);
    chip = socket(AF_INET, SOCK_STREAM, 0);
    if (device >= 0 && connect(chip, (struct sockaddr *)&at, sizeof at) != 0)
        abort();
    return device;
}

FILE *__wrap_fopen(const char *path, const char *mode) {
    bool asked = strcmp(path, "/sys/module/spidev/parameters/bufsiz") == 0;
    return __real_fopen(asked ? "bufsiz" : path, mode);
}

static void set_level(bool active) {
    uint8_t command[2] = { 0x15, active != low }, ack;
    if (write(chip, command, 2) != 2)
        abort();
    receive(&ack, 1);
}

/* All that is sent has to come before all that is received, with chip select held. */
static int frame(const struct spi_ioc_transfer *parts, unsigned count) {
    static uint8_t command[7 + 65536];
    uint32_t sends = 0, receives = 0, buffer = number_in("bufsiz", 4096);
    uint8_t *into = NULL, ack;
    for (unsigned k = 0; k < count; k++) {
        uint32_t whole = (parts[k].len + 127) / 128 * 128;
        if (whole > buffer)
            return refused(EMSGSIZE);
        if (!parts[k].tx_buf == !parts[k].rx_buf || into || parts[k].len == 0 || parts[k].cs_change
                || parts[k].speed_hz || (parts[k].bits_per_word && parts[k].bits_per_word != 8))
            return refused(EINVAL);
        if (parts[k].tx_buf) {
            memcpy(command + 7 + sends, (void *)(uintptr_t)parts[k].tx_buf, parts[k].len);
            sends += parts[k].len;
        } else {
            into = (void *)(uintptr_t)parts[k].rx_buf;
            receives = parts[k].len;
        }
    }
    int cause = number_in("fails", 0);
    if (cause)
        return refused(cause);
    for (int k = 0; k < 3; k++) {
        command[1 + k] = sends >> 8 * k;
        command[4 + k] = receives >> 8 * k;
    }
    command[0] = 0x13;
    if (write(chip, command, 7 + sends) != 7 + sends)
        abort();
    receive(&ack, 1);
    receive(into, receives);
    return ack == 0x06 ? (int)(sends + receives) : refused(EIO);
}

int __wrap_ioctl(int fd, unsigned long request, ...) {
    va_list more;
    va_start(more, request);
    void *what = va_arg(more, void *);
    va_end(more);
    if (fd == device && request == SPI_IOC_RD_MAX_SPEED_HZ)
        return *(uint32_t *)what = number_in("hz", 0), 0;
    if (fd == device && request == SPI_IOC_WR_MAX_SPEED_HZ)
        return *(uint32_t *)what < 1000 ? refused(EINVAL) : (note("hz", *(uint32_t *)what), 0);
    if (fd == device && request == SPI_IOC_WR_MODE)
        return note("mode", *(uint8_t *)what), 0;
    if (fd == device && request == SPI_IOC_WR_BITS_PER_WORD)
        return note("bits", *(uint8_t *)what), 0;
    if (fd == device && _IOC_TYPE(request) == SPI_IOC_MAGIC && _IOC_NR(request) == 0)
        return frame(what, _IOC_SIZE(request) / sizeof(struct spi_ioc_transfer));
    if (fd == gpio && request == GPIO_V2_GET_LINE_IOCTL) {
        struct gpio_v2_line_request *asked = what;
        struct gpio_v2_line_config *config = &asked->config;
        if (asked->num_lines != 1 || asked->offsets[0] >= 32 || config->num_attrs != 1
                || !(config->flags & GPIO_V2_LINE_FLAG_OUTPUT) || config->attrs[0].mask != 1
                || config->attrs[0].attr.id != GPIO_V2_LINE_ATTR_ID_OUTPUT_VALUES)
            return refused(EINVAL);
        note("line", asked->offsets[0]);
        low = config->flags & GPIO_V2_LINE_FLAG_ACTIVE_LOW;
        line = asked->fd = __real_open("/dev/null", O_RDWR);
        set_level(config->attrs[0].attr.values & 1);
        return 0;
    }
    if (fd == line && request == GPIO_V2_LINE_SET_VALUES_IOCTL) {
        struct gpio_v2_line_values *values = what;
        if (number_in("fails", 0))
            return refused(number_in("fails", 0));
        if (values->mask == 1)
            set_level(values->bits & 1);
        return 0;
    }
    return __real_ioctl(fd, request, what);
}
