/* A board's whole loop over the library. What a board has at its pins is a stub here: the bus is a short
 * script of events, the disk is an array of sectors with a few planned faults. One line is printed for
 * each event, with the accesses that it led to, the same ones in a row counted.
 *
 *   gcc -std=c11 -Wall -Wextra -Werror -O2 -Iinclude examples/board_loop.c \
 *       target/cross/x86_64-linux-gnu/libbumivondra.a -o target/board_loop
 *   target/board_loop | diff - examples/board_loop.expected
 */
#include <ctype.h>
#include <stdio.h>
#include <stdlib.h>
#include <string.h>

#include "bumivondra.h"

/* THE DISK */

static uint8_t disk[BV_SECTORS][BV_SECTOR_BYTES];

/* A planned fault: the accesses of one kind to one sector that it covers, and their answer, or that the power fails. */
struct fault {
    uint32_t sector;
    int write;
    int skip;  /* accesses that go well before it begins */
    int times; /* accesses that it covers then, or -1 for all */
    uint8_t answer;
};

enum { POWER_FAILS = 0xFF };

static struct fault faults[] = {
    {BV_TABLE_SECTOR, 0, 0, 1, BV_SURFACE_CRC},     /* the start has to read the table twice */
    {17, 0, 1, -1, BV_SURFACE_CRC},                 /* sector 17 is read once, then never again */
    {BV_FIRST_SPARE, 1, 0, 1, BV_SURFACE_TIMEOUT},  /* spare 0 cannot be written */
    {BV_TABLE_SECTOR, 1, 0, 1, BV_SURFACE_TIMEOUT}, /* the first store does not reach the disk */
    {300, 0, 0, 1, BV_SURFACE_TIMEOUT},             /* sector 300 needs a reread */
    {300, 1, 0, 1, POWER_FAILS},                    /* and is not written to its end */
};

/* The planned answer to this access, BV_SURFACE_GOOD if none is. */
static uint8_t planned(uint32_t sector, int write)
{
    for (size_t i = 0; i < sizeof faults / sizeof faults[0]; i++) {
        struct fault *fault = &faults[i];
        if (fault->sector != sector || fault->write != write)
            continue;
        if (fault->skip > 0) {
            fault->skip--;
        } else if (fault->times != 0) {
            fault->times -= fault->times > 0;
            return fault->answer;
        }
    }
    return BV_SURFACE_GOOD;
}

/* Reads a sector into 532 bytes. A board seeks, waits for the sector and checks its CRC here. */
static uint8_t read_sector(uint32_t sector, uint8_t *bytes)
{
    uint8_t answer = planned(sector, 0);
    if (answer == BV_SURFACE_GOOD || answer == BV_SURFACE_CRC)
        memcpy(bytes, disk[sector], BV_SECTOR_BYTES);
    if (answer == BV_SURFACE_CRC)
        bytes[100] ^= 0x40;
    return answer;
}

/* Writes 532 bytes to a sector. What the power leaves of it is the old bytes, the new ones or none that can be read;
 * here the new ones. */
static uint8_t write_sector(uint32_t sector, const uint8_t *bytes)
{
    uint8_t answer = planned(sector, 1);
    if (answer == BV_SURFACE_GOOD || answer == POWER_FAILS)
        memcpy(disk[sector], bytes, BV_SECTOR_BYTES);
    return answer;
}

/* Formats the disk: an empty table of form B in its sector. Its two lists would begin at 16, and the sum of its bytes is
 * 01E2 hex. */
static void format_disk(void)
{
    static const uint8_t head[] = {0xF0, 0x78, 0x3C, 0x1E, 0, 0, 0, 0, 0, 0, 0, 16, 0, 0, 0, 16};
    uint8_t *table = disk[BV_TABLE_SECTOR];
    memset(table, 0, BV_SECTOR_BYTES);
    memcpy(table, head, sizeof head);
    table[BV_FORM_B_SUM] = 0x01;
    table[BV_FORM_B_SUM + 1] = 0xE2;
}

/* THE BUS */

enum event_kind { POWER, RAISE, LOWER, COMMAND, DATA, RESET, END };

struct event {
    enum event_kind kind;
    uint8_t byte;                      /* LOWER */
    uint8_t command[BV_COMMAND_BYTES]; /* COMMAND */
    const char *data;                  /* DATA: a text, zeros to 532 bytes */
};

#define GO {LOWER, BV_GO_ON, {0}, NULL}
#define UP {RAISE, 0, {0}, NULL}
#define SAY(op, number, r, t) {COMMAND, 0, {op, (number) >> 16, (number) >> 8 & 0xFF, (number) & 0xFF, r, t}, NULL}
#define SEND(text) {DATA, 0, {0}, text}

static const struct event bus[] = {
    /* Power on. */
    {POWER, 0, {0}, NULL},
    /* Write block 17, and read it back: R 10, T 3. */
    UP, GO, SAY(BV_OP_WRITE, 17, 0, 0), UP, GO, SEND("SUMMER SALE, part 1"), UP, GO,
    UP, GO, SAY(BV_OP_READ, 17, 10, 3), UP, GO,
    /* A read that needs a reread stays below its threshold. */
    UP, GO, SAY(BV_OP_READ, 300, 2, 1), UP, GO,
    /* Write/verify block 17: its first verify fails, then the trial of its sector; spare 0 cannot be written,
     * spare 1 takes it. The table is stored before the command finishes; the store fails, and so does the command. */
    UP, GO, SAY(BV_OP_WRITE_VERIFY, 17, 0, 0), UP, GO, SEND("SUMMER SALE, part 2"), UP, GO,
    /* The next command for a block stores it again, and the one after that has nothing to store. */
    UP, GO, SAY(BV_OP_READ, 17, 10, 3), UP, GO,
    UP, GO, SAY(BV_OP_READ, 17, 10, 3), UP, GO,
    /* A host that breaks off, and a reset. */
    UP, {LOWER, 0xAA, {0}, NULL}, {RESET, 0, {0}, NULL},
    /* The power fails during a write and comes back. The table on the disk knows where block 17 is, and block 300 has
     * its bytes of before or those of the write. */
    UP, GO, SAY(BV_OP_WRITE, 300, 0, 0), UP, GO, SEND("AUTUMN FAIR"), UP, GO,
    {POWER, 0, {0}, NULL},
    UP, GO, SAY(BV_OP_READ, 17, 10, 3), UP, GO,
    UP, GO, SAY(BV_OP_READ, 300, 10, 3), UP, GO,
    /* A monitor reads the health block, with no access of the disk. */
    UP, GO, SAY(BV_OP_READ, BV_NUMBER_HEALTH, 10, 3), UP, GO,
    {END, 0, {0}, NULL},
};

/* The next event. A board waits for its pins here. */
static const struct event *next_event(void)
{
    static size_t place;
    return &bus[place++];
}

/* How many bytes were sent to the host, and how many of them it took. */
static unsigned sent, taken;

/* Sends a byte to the host with its parity bit. A board sets nine lines here. The stub is the host's card, which counts
 * the ones on them and takes the byte if they are odd. */
static void send(uint8_t byte)
{
    unsigned ones = 0;
    for (unsigned lines = byte + 256u * bv_parity(byte); lines != 0; lines /= 2)
        ones += lines % 2;
    sent++;
    taken += ones % 2;
}

/* Sends bytes to the host, one after the other. */
static void send_all(const uint8_t *bytes, size_t n)
{
    for (size_t i = 0; i < n; i++)
        send(bytes[i]);
}

/* THE LOOP */

static struct bv_drive drive;
static uint8_t buffer[BV_BUFFER_BYTES];

/* Set while the power is off: a board does not run then, and what it would do next is not done. */
static int power_is_off;

/* The last access, and how often it was made in a row. */
static char last[40];
static unsigned times;

/* Prints the last access. */
static void show_access(void)
{
    if (times > 1)
        printf(" %s %u times,", last, times);
    else if (times == 1)
        printf(" %s,", last);
    times = 0;
}

/* Takes note of an access: what was done to which sector, and how it went. */
static void note(const char *done, uint32_t sector, uint8_t answer)
{
    static const char *const words[] = {"good", "crc", "timeout", "no settle"};
    char text[sizeof last];
    snprintf(text, sizeof text, "%s %u %s", done, (unsigned)sector, answer == POWER_FAILS ? "cut off" : words[answer]);
    if (strcmp(text, last) != 0)
        show_access();
    memcpy(last, text, sizeof last);
    times++;
}

/* Does the access that a reply asks for, and tells the library how it went, unless the power fails. */
static struct bv_reply access_disk(struct bv_reply reply)
{
    uint8_t bytes[BV_SECTOR_BYTES];
    uint8_t answer;
    size_t brought = 0;
    switch (reply.kind) {
    case BV_READ:
        answer = read_sector(reply.value, bytes);
        if (answer == BV_SURFACE_GOOD || answer == BV_SURFACE_CRC)
            brought = BV_SECTOR_BYTES;
        note("read", reply.value, answer);
        break;
    case BV_WRITE:
        answer = write_sector(reply.value, buffer + BV_DATA);
        note("write", reply.value, answer);
        break;
    default: /* BV_STORE: the image is made in bytes of its own, since the buffer is the host's */
        if (bv_image(&drive, bytes, sizeof bytes).kind != BV_WAIT)
            abort();
        answer = write_sector(BV_TABLE_SECTOR, bytes);
        note("store", BV_TABLE_SECTOR, answer);
        break;
    }
    power_is_off = answer == POWER_FAILS;
    return power_is_off ? reply : bv_surface(&drive, buffer, sizeof buffer, answer, bytes, brought);
}

/* Tells the library of an event. */
static struct bv_reply call(const struct event *event)
{
    uint8_t bytes[BV_SECTOR_BYTES] = {0};
    switch (event->kind) {
    case POWER: /* whatever the record and the buffer hold */
        printf("power:");
        power_is_off = 0;
        return bv_start(&drive, buffer, sizeof buffer);
    case RAISE:
        printf("raise:");
        return bv_raise(&drive, buffer, sizeof buffer);
    case LOWER:
        printf("lower %02x:", event->byte);
        return bv_lower(&drive, buffer, sizeof buffer, event->byte);
    case COMMAND:
        printf("command");
        for (size_t i = 0; i < BV_COMMAND_BYTES; i++)
            printf(" %02x", event->command[i]);
        printf(":");
        return bv_feed(&drive, buffer, sizeof buffer, event->command, BV_COMMAND_BYTES);
    case DATA:
        printf("data \"%s\":", event->data);
        memcpy(bytes, event->data, strlen(event->data));
        return bv_feed(&drive, buffer, sizeof buffer, bytes, sizeof bytes);
    default:
        printf("reset:");
        return bv_reset(&drive, buffer, sizeof buffer);
    }
}

/* How much of the data part is text, up to 30 bytes. */
static int text_length(void)
{
    int length = 0;
    while (length < 30 && isprint(buffer[BV_DATA + length]))
        length++;
    return length;
}

/* Shows the host what became of its event: an offer, or the status, and after a read the block. */
static void show(struct bv_reply reply)
{
    static uint8_t offered;
    show_access();
    if (power_is_off) {
        printf(" the power fails\n");
        return;
    }
    switch (reply.kind) {
    case BV_WAIT:
        printf(" wait\n");
        break;
    case BV_OFFER:
        offered = (uint8_t)reply.value;
        send(offered);
        printf(" offer %02x\n", offered);
        break;
    case BV_FINISHED:
        send_all(buffer, BV_STATUS_BYTES);
        if (offered == BV_OFFER_READ)
            send_all(buffer + BV_DATA, BV_SECTOR_BYTES);
        printf(" finished, status %02x %02x %02x %02x, data \"%.*s\"\n", buffer[0], buffer[1], buffer[2],
               buffer[3], text_length(), (const char *)buffer + BV_DATA);
        break;
    default:
        printf(" refused %u\n", (unsigned)reply.value);
        break;
    }
}

/* Prints the run number, and the spare list as the table's image of form B has it, each spare with its cause. */
static void show_spares(void)
{
    static const char *const causes[] = {"unknown", "crc", "timeout", "no settle"};
    uint8_t image[BV_SECTOR_BYTES];
    if (bv_image(&drive, image, sizeof image).kind != BV_WAIT)
        abort();
    const uint8_t *end = image + (image[BV_FORM_B_BAD_OFFSET] << 8 | image[BV_FORM_B_BAD_OFFSET + 1]);
    printf("run %u, spares:", (unsigned)bv_run_number(&drive));
    for (const uint8_t *entry = image + BV_FORM_B_SPARES; entry < end; entry += 4) {
        uint32_t block = (uint32_t)entry[0] << 16 | entry[1] << 8 | entry[2];
        if (block == 0xFFFFFE)
            printf(" dead");
        else
            printf(" %u", (unsigned)block);
        printf(" (%s)", causes[entry[3]]);
    }
    printf("\n");
}

int main(void)
{
    format_disk();
    for (;;) {
        const struct event *event = next_event();
        if (event->kind == END)
            break;
        struct bv_reply reply = call(event);
        while (!power_is_off && (reply.kind == BV_READ || reply.kind == BV_WRITE || reply.kind == BV_STORE))
            reply = access_disk(reply);
        show(reply);
    }
    const uint8_t *health = buffer + BV_DATA;
    printf("health: %u spares unused, %u bad blocks, latch %u, unstored %u\n", health[BV_HEALTH_UNUSED],
           health[BV_HEALTH_BADS], health[BV_HEALTH_LATCH], health[BV_HEALTH_UNSTORED]);
    printf("table %d, unstored %d, latch %d\n", bv_has_table(&drive), bv_has_unstored(&drive), bv_is_latched(&drive));
    show_spares();
    printf("sent %u bytes, taken %u\n", sent, taken);
    return 0;
}
