/* A disk controller as a card of the bus, and the channel programs of examples/ that read and write its sectors: each byte
 * under a request of its own, two of them a word. */
#include "card_bus.h"

#include <stdio.h>
#include <stdlib.h>
#include <string.h>

/* The controller's ports, its commands, what its status says, and how it is made; a sector has an odd count of bytes, so that
 * the last of them moves alone. */
enum { STATUS = 0x60, COMMAND = 0x61, PARAMETER = 0x62, DATA = 0x64, PORTS = 5 };
enum { COMMAND_READ = 0x52, COMMAND_WRITE = 0x57, BUSY = 0x80 };
enum { SECTORS = 8, SECTOR = 31, SPIN = 3, PAUSE = 2 };

/* Where the image has the count, the sector's number and the program's mark of an error, and its buffer. */
enum { AT_COUNT = 0x18, AT_SECTOR = 0x1A, AT_ERROR = 0x1B, BUFFER = 0xC0, IMAGE = 256, IO = 256, ERROR_MARK = 0x45 };

/* The controller: its sectors, what it was told, how far it is, how often its status is still busy, how many steps it waits
 * before its next request, whether it gave up; and how often its ports were used. */
struct disk {
    uint8_t sector[SECTORS][SECTOR];
    uint8_t parameter, command;
    unsigned at, spin, pause;
    bool failed;
    unsigned status_reads, data_bytes;
};

/* The next byte of the sector; behind it the request is dropped for some steps. */
static uint8_t *next_byte(struct disk *d)
{
    static uint8_t none;
    d->data_bytes++;
    d->pause = PAUSE;
    return d->parameter < SECTORS && d->at < SECTOR ? &d->sector[d->parameter][d->at++] : &none;
}

static uint8_t read_port(void *own, uint32_t port)
{
    struct disk *d = own;
    if (port == DATA) return *next_byte(d);
    if (port != STATUS) return 0xFF;
    d->status_reads++;
    if (d->spin == 0) return 0;
    d->spin--;
    return BUSY;
}

static void store_port(void *own, uint32_t port, uint8_t byte)
{
    struct disk *d = own;
    if (port == PARAMETER) d->parameter = byte;
    if (port == DATA) *next_byte(d) = byte;
    if (port != COMMAND) return;
    d->command = byte;
    d->at = 0;
    d->pause = PAUSE;
    d->failed = d->parameter >= SECTORS;
}

/* The lines of channel 1 for the next step: a request while a command runs, and EXT where it cannot be done. */
static uint32_t lines_of(struct disk *d)
{
    bool runs = d->command != 0 && d->at < SECTOR;
    if (d->failed) return IOP89_EXT1;
    if (d->pause > 0) return d->pause--, 0u;
    return runs ? IOP89_DRQ1 : 0u;
}

/* Reads an image of examples/. */
static void load(const char *name, uint8_t *sys)
{
    FILE *file = fopen(name, "rb");
    if (file == NULL || fread(sys, 1, IMAGE, file) != IMAGE) {
        perror(name);
        exit(2);
    }
    fclose(file);
}

/* A machine on the bus, and what its steps came to. */
struct host {
    uint8_t state[IOP89_STATE_LENGTH], sys[IMAGE], io[IO];
    struct card controller;
    struct card_bus bus;
    unsigned steps, waits, halves;
};

/* Makes the machine of an image with the sector's number and bytes in its place, and gives it its attention. */
static void start(struct host *h, const char *name, struct disk *d, uint8_t number, const uint8_t *buffer)
{
    const struct card controller = {STATUS, PORTS, true, read_port, store_port, d};
    memset(h, 0, sizeof *h);
    load(name, h->sys);
    h->sys[AT_COUNT] = SECTOR;
    h->sys[AT_SECTOR] = number;
    memcpy(h->sys + BUFFER, buffer, SECTOR);
    h->controller = controller;
    struct card_bus bus = {.sys = h->sys, .io = h->io, .sys_len = IMAGE, .io_len = IO, .card = &h->controller, .cards = 1};
    h->bus = bus;
    d->command = 0;
    d->spin = SPIN;
    d->status_reads = d->data_bytes = 0;
    (void)iop89_fresh(h->state, sizeof h->state, 0);
    (void)bus_attention(&h->bus, h->state, 1);
}

/* Runs a program of the channel on one sector until it halts, the buffer's bytes handed in and back; says what happened, and
 * answers whether the program found no error. */
static bool run(const char *name, struct disk *d, uint8_t number, uint8_t *buffer)
{
    static struct host h;
    start(&h, name, d, number, buffer);
    while (iop89_get(h.state, 1, IOP89_MODE) == IOP89_RUNNING && h.steps + h.waits < 1000) {
        bool held = iop89_get(h.state, 1, IOP89_HELD) != 0;
        iop89_answer answer = bus_step(&h.bus, h.state, lines_of(d));
        if (IOP89_ANSWER_NUMBER(answer) == IOP89_DONE) h.steps++;
        else h.waits++;
        h.halves += !held && iop89_get(h.state, 1, IOP89_HELD) != 0;
    }
    bool good = h.sys[AT_ERROR] != ERROR_MARK;
    memcpy(buffer, h.sys + BUFFER, SECTOR);
    printf("%s, sector %u: %u steps, %u waits, status read %u times, %u bytes, %u held between halves%s\n", name, number,
           h.steps, h.waits, d->status_reads, d->data_bytes, h.halves, good ? "" : ", ended by the controller");
    return good;
}

int main(void)
{
    static struct disk disk;
    uint8_t buffer[SECTOR], written[SECTOR];
    for (unsigned i = 0; i < SECTORS; i++)
        for (unsigned k = 0; k < SECTOR; k++) disk.sector[i][k] = (uint8_t)(16 * i + k);
    bool good = run("examples/disk-read.bin", &disk, 5, buffer) && memcmp(buffer, disk.sector[5], SECTOR) == 0;
    for (unsigned k = 0; k < SECTOR; k++) buffer[k] = written[k] = (uint8_t)(buffer[k] ^ 0xFFu);
    good = run("examples/disk-write.bin", &disk, 2, buffer) && memcmp(written, disk.sector[2], SECTOR) == 0 && good;
    memset(buffer, 0, SECTOR);
    good = run("examples/disk-read.bin", &disk, 2, buffer) && memcmp(buffer, written, SECTOR) == 0 && good;
    good = !run("examples/disk-read.bin", &disk, SECTORS, buffer) && good;
    puts(good ? "every byte is where it belongs" : "a byte is not where it belongs");
    return good ? 0 : 1;
}
