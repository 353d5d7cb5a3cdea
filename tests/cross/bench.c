/* Makes clean read commands on drives with lists of given lengths, for a counter of instructions. It needs no C library
 * but memcpy and memset, as play.c does, and runs where that runs: its bytes come and go by port.h.
 *
 * A line of the input has three numbers: how many entries the spare list has, how many the bad list, and how many read
 * commands are made. Each command is six calls: raise, lower, feed, raise, lower, and surface with 532 good bytes. The
 * lists are those of tools/bench: random, from one seed. For each line the number of the calls is written.
 *
 * The commands stand between two calls of bench_mark, which the counter looks for. */
#include <stddef.h>
#include <stdint.h>

#include "bumivondra.h"
#include "port.h"

enum { SEED = 1, BLOCK = 4000, RETRIES = 255, THRESHOLD = 1, BYTE = 0x5A };
#define DEAD 0xFFFFFEu
#define LIST_END 0xFFFFFFu

void bench_mark(void);
__attribute__((noinline, section(".text.bench_mark"))) void bench_mark(void)
{
    __asm__ volatile("" ::: "memory");
}

/* WRITING AND READING */

static void say(const char *text)
{
    while (*text)
        port_put(*text++);
}

static void say_number(uint32_t value)
{
    if (value >= 10)
        say_number(value / 10);
    port_put('0' + value % 10);
}

/* Reads a number and the byte behind it; returns -1 if there is none. */
static int32_t read_number(void)
{
    int32_t value = -1;
    for (int c = port_get(); '0' <= c && c <= '9'; c = port_get())
        value = 10 * (value < 0 ? 0 : value) + c - '0';
    return value;
}

/* THE LISTS, as rust/reference makes them (Draft::of_size) */

static uint32_t drawn; /* how many numbers; no 64 bits are kept, which gcc would move by floating point registers */
static uint32_t spares[BV_SPARES], bads[BV_BADS];

/* Returns a random number below `limit`. */
static uint32_t below(uint32_t limit)
{
    uint64_t z = SEED + ++drawn * 0x9E3779B97F4A7C15u;
    z = (z ^ z >> 30) * 0xBF58476D1CE4E5B9u;
    z = (z ^ z >> 27) * 0x94D049BB133111EBu;
    z ^= z >> 31;
    return (uint32_t)(((z >> 32) * limit + ((z & 0xFFFFFFFFu) * limit >> 32)) >> 32);
}

static int contains(const uint32_t *list, int n, uint32_t number)
{
    for (int k = 0; k < n; k++)
        if (list[k] == number)
            return 1;
    return 0;
}

static void draw(uint32_t *list, int count)
{
    for (int n = 0; n < count;) {
        uint32_t block = below(BV_BLOCKS);
        if (!contains(list, n, block))
            list[n++] = block;
    }
}

/* Draws both lists. Some blocks are in both, and some spares are dead. */
static void make_lists(int spare_count, int bad_count)
{
    drawn = 0;
    draw(spares, spare_count);
    draw(bads, bad_count);
    for (int k = 0; k < spare_count && k < bad_count; k++)
        if (below(4) == 0 && !contains(bads, bad_count, spares[k]))
            bads[k] = spares[k];
    for (int k = 0; k < spare_count; k++)
        if (below(5) == 0)
            spares[k] = DEAD;
}

static uint8_t *put(uint8_t *at, uint32_t number)
{
    *at++ = (uint8_t)(number >> 16);
    *at++ = (uint8_t)(number >> 8);
    *at++ = (uint8_t)number;
    return at;
}

/* Lays out the table's image of form A. */
static void lay_out(uint8_t *image, int spare_count, int bad_count)
{
    static const uint8_t fixed[] = "PROFILE      \0\0\0\x03\x90\0\x26\0\x02\x14\x20";
    uint8_t *at = image + 26;
    memset(image, 0, BV_SECTOR_BYTES);
    memcpy(image, fixed, 24);
    image[24] = (uint8_t)spare_count;
    image[25] = (uint8_t)bad_count;
    for (int k = 0; k < spare_count; k++)
        at = put(at, spares[k]);
    at = put(at, LIST_END);
    for (int k = 0; k < bad_count; k++)
        at = put(at, bads[k]);
    put(at, LIST_END);
}

/* THE CALLS */

static struct bv_drive drive;
static uint8_t buffer[BV_BUFFER_BYTES];
static uint8_t bytes[BV_SECTOR_BYTES]; /* the table's image, then a sector's bytes */
static uint32_t wrong;                 /* how many replies were others than they should be */

static void expect(struct bv_reply reply, uint32_t kind, uint32_t value)
{
    wrong += reply.kind != kind || reply.value != value;
}

/* Starts the drive with a table that has these lists. */
static void start(int spare_count, int bad_count)
{
    make_lists(spare_count, bad_count);
    lay_out(bytes, spare_count, bad_count);
    expect(bv_start(&drive, buffer, sizeof buffer), BV_READ, BV_TABLE_SECTOR);
    expect(bv_surface(&drive, buffer, sizeof buffer, BV_SURFACE_GOOD, bytes, sizeof bytes), BV_WAIT, 0);
    wrong += !bv_has_table(&drive) || contains(spares, spare_count, BLOCK) || contains(bads, bad_count, BLOCK);
    memset(bytes, BYTE, sizeof bytes);
}

/* Reads the block. Returns how many calls that took. */
static uint32_t read_block(void)
{
    static const uint8_t command[BV_COMMAND_BYTES] = {BV_OP_READ, 0, BLOCK >> 8, BLOCK & 0xFF, RETRIES, THRESHOLD};
    expect(bv_raise(&drive, buffer, sizeof buffer), BV_OFFER, BV_OFFER_COMMAND);
    expect(bv_lower(&drive, buffer, sizeof buffer, BV_GO_ON), BV_WAIT, 0);
    expect(bv_feed(&drive, buffer, sizeof buffer, command, sizeof command), BV_WAIT, 0);
    expect(bv_raise(&drive, buffer, sizeof buffer), BV_OFFER, BV_OFFER_READ);
    expect(bv_lower(&drive, buffer, sizeof buffer, BV_GO_ON), BV_READ, BLOCK);
    expect(bv_surface(&drive, buffer, sizeof buffer, BV_SURFACE_GOOD, bytes, sizeof bytes), BV_FINISHED, 0);
    wrong += buffer[0] != 0 || buffer[BV_DATA] != BYTE || buffer[BV_BUFFER_BYTES - 1] != BYTE;
    return 6;
}

/* Makes the commands of each line. Returns null, or what was wrong. */
static const char *make_all(void)
{
    for (;;) {
        int32_t spare_count = read_number();
        if (spare_count < 0)
            return NULL;
        int32_t bad_count = read_number(), times = read_number();
        if (spare_count > BV_SPARES || bad_count < 0 || bad_count > BV_BADS || times < 1)
            return "a line is two lengths and how many commands\n";
        uint32_t calls = 0;
        start(spare_count, bad_count);
        bench_mark();
        while (times-- > 0)
            calls += read_block();
        bench_mark();
        if (wrong)
            return "a read was not clean\n";
        say_number(calls);
        port_put('\n');
    }
}

int main(void)
{
    const char *fault = make_all();
    if (fault)
        say(fault);
    return port_close(fault != NULL);
}
