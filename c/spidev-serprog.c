/* Answers flashrom's serprog protocol for the chip at a Linux spidev device, so that `norbd` and
   flashrom reach it over a socket. A frame (O_SPIOP) is one SPI_IOC_MESSAGE: chip select goes low,
   all is sent, all is received, chip select goes high. A frame that is too long, that the kernel
   refuses, or that comes while the supply is off, gets NAK, and the connection goes on.
   Sources: flashrom, serprog-protocol.txt, version 1; Linux, spidev.rst and <linux/gpio.h>.
   To build it: cc -O2 -o spidev-serprog spidev-serprog.c */
#define _GNU_SOURCE
#include <errno.h>
#include <fcntl.h>
#include <getopt.h>
#include <linux/gpio.h>
#include <linux/spi/spidev.h>
#include <netdb.h>
#include <netinet/tcp.h>
#include <poll.h>
#include <signal.h>
#include <stdbool.h>
#include <stdint.h>
#include <stdio.h>
#include <stdlib.h>
#include <string.h>
#include <sys/file.h>
#include <sys/ioctl.h>
#include <sys/signalfd.h>
#include <sys/un.h>
#include <unistd.h>

enum { ACK = 0x06, NAK = 0x15, MOST = 65536 };
enum { PORT, BIND, UNIX, HZ, POWER, HELP };

static const char *device;
static int spi, signals, supply = -1;  /* signals: the end has come; supply: its line, or -1 */
static bool powered = true;
static uint32_t limit = 4096, fastest; /* the most bytes of a frame, each way; Hz */
static uint8_t sent[MOST], answer[1 + MOST];

static void usage(int status) {
    fputs("usage: spidev-serprog [OPTIONS] --port PORT DEVICE\n"
          "       spidev-serprog [OPTIONS] --unix PATH DEVICE\n"
          "Answers flashrom's serprog protocol for the chip at DEVICE, as /dev/spidev0.0.\n"
          "  --bind ADDRESS  the port's IP address; 127.0.0.1 if left out. There is no password\n"
          "  --hz HZ         the fastest clock; the device tree's if left out\n"
          "  --power LINE    the supply's GPIO line: /dev/gpiochip0:17 (:17:low where low is on)\n",
          status ? stderr : stdout);
    exit(status);
}

/* Ends with a fault: what failed, its cause by errno, and what to do. */
static void fail(const char *what, const char *advice) {
    fprintf(stderr, "spidev-serprog: %s: %s: %s\n", what, strerror(errno), advice);
    exit(1);
}

static uint32_t number_of(const char *word, uint32_t most) {
    char *end;
    unsigned long long number = strtoull(word, &end, 10);
    if (*word < '0' || *word > '9' || *end != '\0' || number < 1 || number > most)
        usage(2);
    return number;
}

/* Waits for a socket; false where a signal ends the program. */
static bool ready(int fd, short event) {
    struct pollfd either[2] = { { signals, POLLIN, 0 }, { fd, event, 0 } };
    poll(either, 2, -1);
    return !either[0].revents;
}

/* Takes bytes from the client (POLLIN), or gives them (POLLOUT); false where the client is gone, or
   a signal ends the program. */
static bool move(int client, short event, uint8_t *bytes, size_t count) {
    while (count > 0 && ready(client, event)) {
        ssize_t done = event == POLLIN ? recv(client, bytes, count, MSG_DONTWAIT)
                                       : send(client, bytes, count, MSG_DONTWAIT | MSG_NOSIGNAL);
        if (done == 0 || (done < 0 && errno != EAGAIN))
            return false;
        bytes += done > 0 ? done : 0;
        count -= done > 0 ? done : 0;
    }
    return count == 0;
}

#define TAKE(into, count) move(client, POLLIN, into, count)
#define GIVE(...) \
    move(client, POLLOUT, (uint8_t[]){ __VA_ARGS__ }, sizeof (uint8_t[]){ __VA_ARGS__ })

static uint32_t little_endian(const uint8_t *bytes, int count) {
    return count == 0 ? 0 : bytes[0] | little_endian(bytes + 1, count - 1) << 8;
}

/* Sets the clock, to the fastest where more is asked for: what it is then, 0 if it is refused. */
static uint32_t set_clock(uint32_t hz) {
    hz = hz < fastest ? hz : fastest;
    return ioctl(spi, SPI_IOC_WR_MAX_SPEED_HZ, &hz) >= 0 ? hz : 0;
}

/* Switches the supply, and waits until capacitors are empty, or the chip takes writes. */
static bool set_supply(bool on) {
    struct gpio_v2_line_values values = { .bits = on, .mask = 1 };
    if (supply < 0 || on == powered)
        return true;
    if (ioctl(supply, GPIO_V2_LINE_SET_VALUES_IOCTL, &values) < 0)
        return perror("spidev-serprog: --power"), false;
    powered = on;
    poll(NULL, 0, 100);
    return true;
}

static bool answer_frame(int client) {
    uint8_t head[6];
    if (!TAKE(head, 6))
        return false;
    uint32_t sends = little_endian(head, 3), receives = little_endian(head + 3, 3);
    for (uint32_t left = sends; left > 0; left -= left < MOST ? left : MOST)
        if (!TAKE(sent, left < MOST ? left : MOST))
            return false;
    if (sends > limit || receives > limit || !powered)
        return GIVE(NAK);
    struct spi_ioc_transfer parts[2] = { { .tx_buf = (uintptr_t)sent, .len = sends },
                                         { .rx_buf = (uintptr_t)(answer + 1), .len = receives } };
    unsigned long message = sends > 0 && receives > 0 ? SPI_IOC_MESSAGE(2) : SPI_IOC_MESSAGE(1);
    if (sends + receives > 0 && ioctl(spi, message, parts + (sends == 0)) < 0) {
        fprintf(stderr, "spidev-serprog: %s: %s: a frame of %u and %u bytes got NAK\n", device,
                strerror(errno), sends, receives);
        return GIVE(NAK);
    }
    answer[0] = ACK;
    return move(client, POLLOUT, answer, 1 + receives);
}

/* Answers a command; false where the client is gone, or a signal ends the program. */
static bool answer_command(int client, uint8_t code) {
    uint8_t told[4], map[33] = { ACK, 0x3F, 0x01, supply < 0 ? 0x1F : 0x3F };
    uint32_t hz;
    switch (code) {
    case 0x00: return GIVE(ACK);                                          /* NOP */
    case 0x01: return GIVE(ACK, 1, 0);                                    /* Q_IFACE */
    case 0x02: return move(client, POLLOUT, map, 33);                     /* Q_CMDMAP */
    case 0x03: return move(client, POLLOUT, (uint8_t *)"\x06spidev-serprog\0", 17); /* Q_PGMNAME */
    case 0x04: return GIVE(ACK, 0xFF, 0xFF);                              /* Q_SERBUF */
    case 0x05: return GIVE(ACK, 0x08);                                    /* Q_BUSTYPE: SPI */
    case 0x08:                                                            /* Q_WRNMAXLEN */
    case 0x11: return GIVE(ACK, limit, limit >> 8, limit >> 16);          /* Q_RDNMAXLEN */
    case 0x10: return GIVE(NAK, ACK);                                     /* SYNCNOP */
    case 0x12: return TAKE(told, 1) && GIVE(told[0] & 0x08 ? ACK : NAK);  /* S_BUSTYPE */
    case 0x13: return answer_frame(client);                               /* O_SPIOP */
    case 0x14:                                                            /* S_SPI_FREQ */
        hz = TAKE(told, 4) ? set_clock(little_endian(told, 4)) : 0;
        return hz > 0 ? GIVE(ACK, hz, hz >> 8, hz >> 16, hz >> 24) : GIVE(NAK);
    case 0x15:                                                            /* S_PIN_STATE */
        return TAKE(told, 1) && GIVE(supply >= 0 && set_supply(told[0]) ? ACK : NAK);
    default: return GIVE(NAK);
    }
}

static void open_device(void) {
    uint8_t mode = SPI_MODE_0, bits = 8;
    FILE *file = fopen("/sys/module/spidev/parameters/bufsiz", "r");
    if (file && fscanf(file, "%u", &limit) == 1)
        fclose(file);
    /* The kernel rounds the bytes of a transfer up to whole cache lines, of 128 at most. */
    limit = (limit < MOST ? limit : MOST) / 128 * 128;
    spi = open(device, O_RDWR);
    if (spi < 0)
        fail(device, "is spidev bound to this chip select, and may this user open it?");
    if (flock(spi, LOCK_EX | LOCK_NB) < 0)
        fail(device, "another spidev-serprog has it");
    errno = EINVAL;
    if ((fastest == 0 && ioctl(spi, SPI_IOC_RD_MAX_SPEED_HZ, &fastest) < 0)
            || ioctl(spi, SPI_IOC_WR_MODE, &mode) < 0
            || ioctl(spi, SPI_IOC_WR_BITS_PER_WORD, &bits) < 0 || set_clock(fastest) == 0)
        fail(device, "it has to be a spidev that takes mode 0, 8 bits and a clock (--hz)");
}

/* Takes the line of --power as an output that is on. */
static void open_supply(const char *word) {
    struct gpio_v2_line_request request = { .num_lines = 1, .consumer = "spidev-serprog",
        .config = { .flags = GPIO_V2_LINE_FLAG_OUTPUT, .num_attrs = 1, .attrs = { { .mask = 1,
            .attr = { .id = GPIO_V2_LINE_ATTR_ID_OUTPUT_VALUES, .values = 1 } } } } };
    char path[64], rest[8];
    int found = sscanf(word, "%63[^:]:%u%7s", path, &request.offsets[0], rest);
    if (found != 2 && (found != 3 || strcmp(rest, ":low") != 0))
        usage(2);
    request.config.flags |= found == 3 ? GPIO_V2_LINE_FLAG_ACTIVE_LOW : 0;
    int chip = open(path, O_RDWR);
    if (chip < 0 || ioctl(chip, GPIO_V2_GET_LINE_IOCTL, &request) < 0)
        fail(word, "it has to be a free line of a GPIO chip that this user may open");
    supply = request.fd;
    poll(NULL, 0, 100);
}

static int listen_at(const char *port, const char *address, const char *path) {
    struct sockaddr_un file = { .sun_family = AF_UNIX };
    struct addrinfo own = { .ai_addr = (struct sockaddr *)&file, .ai_addrlen = sizeof file };
    struct addrinfo hints = { .ai_flags = AI_NUMERICHOST, .ai_socktype = SOCK_STREAM }, *at = &own;
    int one = 1;
    errno = EINVAL;
    if (path ? strlen(path) >= sizeof file.sun_path : getaddrinfo(address, port, &hints, &at))
        fail(path ? path : address, "take a shorter path, or an IP address");
    strcpy(file.sun_path, path ? path : "");
    int listener = socket(at->ai_addr->sa_family, SOCK_STREAM | SOCK_NONBLOCK, 0);
    if (listener < 0 || setsockopt(listener, SOL_SOCKET, SO_REUSEADDR, &one, sizeof one) < 0
            || bind(listener, at->ai_addr, at->ai_addrlen) < 0 || listen(listener, 8) < 0)
        fail(path ? path : port, "take another place to listen");
    return listener;
}

int main(int count, char **words) {
    static const struct option OPTIONS[] = {
        { "port", 1, NULL, PORT }, { "bind", 1, NULL, BIND }, { "unix", 1, NULL, UNIX },
        { "hz", 1, NULL, HZ }, { "power", 1, NULL, POWER }, { "help", 0, NULL, HELP }, { 0 } };
    char *given[HELP] = { NULL };
    sigset_t ends;
    int one = 1;
    for (int option; (option = getopt_long(count, words, "", OPTIONS, NULL)) != -1; ) {
        if (option >= HELP)
            usage(option == HELP ? 0 : 2);
        given[option] = optarg;
    }
    if (optind != count - 1 || !given[PORT] == !given[UNIX] || (given[UNIX] && given[BIND])
            || (given[PORT] && !number_of(given[PORT], 65535)))
        usage(2);
    device = words[optind];
    fastest = given[HZ] ? number_of(given[HZ], UINT32_MAX) : 0;
    sigemptyset(&ends);
    sigaddset(&ends, SIGINT), sigaddset(&ends, SIGTERM);
    sigprocmask(SIG_BLOCK, &ends, NULL);
    signals = signalfd(-1, &ends, 0);
    open_device();
    if (given[POWER])
        open_supply(given[POWER]);
    int listener = listen_at(given[PORT], given[BIND] ? given[BIND] : "127.0.0.1", given[UNIX]);
    dprintf(1, "%s on %s: at most %u bytes a frame, %u Hz\n", device,
            given[given[PORT] ? PORT : UNIX], limit, fastest);
    while (ready(listener, POLLIN)) {
        uint8_t code;
        int client = accept(listener, NULL, NULL);
        setsockopt(client, IPPROTO_TCP, TCP_NODELAY, &one, sizeof one);
        setsockopt(client, SOL_SOCKET, SO_KEEPALIVE, &one, sizeof one);
        set_clock(fastest);
        if (client >= 0 && set_supply(true))
            while (TAKE(&code, 1) && answer_command(client, code))
                continue;
        close(client);
    }
    set_supply(false);
    if (given[UNIX])
        unlink(given[UNIX]);
    return 0;
}
