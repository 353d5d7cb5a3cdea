/* Document 02, requests 2 and 6, through the library: a read of FFFFFF builds the table's image of form A in the
 * data part.
 *
 * With empty, half-full and full lists, read from either form, and over other bytes in every place of the part,
 * the part is then what bv_convert makes of what bv_image gives. The call runs on a stack that was painted before,
 * so that afterwards one can see how much of it was written, and that nowhere in it stands a copy of the image, in
 * either form. Link with -z now, or the dynamic linker looks for memcpy on that stack.
 *
 * "table_read SPARES BADS" makes one read of FFFFFF, for a counter of instructions: act() is to be counted. */
#define _XOPEN_SOURCE 700
#include <stdio.h>
#include <stdlib.h>
#include <string.h>
#include <ucontext.h>

#include "bumivondra.h"

#define EXPECT(fact) ((fact) ? (void)0 : failed(#fact, __LINE__))

static _Noreturn void failed(const char *fact, int line)
{
    fprintf(stderr, "tests/table_read.c:%d: not so: %s\n", line, fact);
    exit(1);
}

/* THE DRIVE */

static struct bv_drive drive;
static uint8_t buffer[BV_BUFFER_BYTES];

static int is(struct bv_reply reply, uint32_t kind, uint32_t value)
{
    return reply.kind == kind && reply.value == value;
}

static struct bv_reply up(void)
{
    return bv_raise(&drive, buffer, sizeof buffer);
}

static struct bv_reply go_on(void)
{
    return bv_lower(&drive, buffer, sizeof buffer, BV_GO_ON);
}

static struct bv_reply feed(const uint8_t *bytes, size_t n)
{
    return bv_feed(&drive, buffer, sizeof buffer, bytes, n);
}

static void start(const uint8_t *image)
{
    EXPECT(is(bv_start(&drive, buffer, sizeof buffer), BV_READ, BV_TABLE_SECTOR));
    EXPECT(is(bv_surface(&drive, buffer, sizeof buffer, BV_SURFACE_GOOD, image, BV_SECTOR_BYTES), BV_WAIT, 0));
}

/* From idle to the offer after a command. */
static void command(uint8_t opcode, uint32_t number, uint32_t offer)
{
    const uint8_t bytes[BV_COMMAND_BYTES] = {opcode, number >> 16, number >> 8 & 0xFF, number & 0xFF, 10, 3};
    EXPECT(is(up(), BV_OFFER, BV_OFFER_COMMAND));
    EXPECT(is(go_on(), BV_WAIT, 0));
    EXPECT(is(feed(bytes, sizeof bytes), BV_WAIT, 0));
    EXPECT(is(up(), BV_OFFER, offer));
}

/* A write to FFFFFE leaves these bytes in the data part. */
static void fill(const uint8_t *bytes)
{
    command(BV_OP_WRITE, BV_NUMBER_BUFFER, BV_OFFER_WRITE);
    EXPECT(is(go_on(), BV_WAIT, 0));
    EXPECT(is(feed(bytes, BV_SECTOR_BYTES), BV_WAIT, 0));
    EXPECT(is(up(), BV_OFFER, BV_OFFER_ACT));
    EXPECT(is(go_on(), BV_FINISHED, 0));
    EXPECT(memcmp(buffer + BV_DATA, bytes, BV_SECTOR_BYTES) == 0);
}

/* TABLES */

static uint8_t *entry(uint8_t *at, uint32_t number)
{
    *at++ = number >> 16;
    *at++ = number >> 8 & 0xFF;
    *at++ = number & 0xFF;
    return at;
}

/* An image of form A with so many entries, every fifth spare a dead one. */
static void lay_out(uint8_t *image, unsigned spares, unsigned bads)
{
    static const uint8_t fixed[] = "PROFILE      \0\0\0\x03\x90\0\x26\0\x02\x14\x20";
    uint8_t *at = image + 26;
    memset(image, 0, BV_SECTOR_BYTES);
    memcpy(image, fixed, 24);
    image[24] = spares;
    image[25] = bads;
    for (unsigned k = 0; k < spares; k++)
        at = entry(at, k % 5 == 4 ? 0xFFFFFE : 9727 - 11 * k);
    at = entry(at, 0xFFFFFF);
    for (unsigned k = 0; k < bads; k++)
        at = entry(at, 40 + 91 * k);
    entry(at, 0xFFFFFF);
}

/* Turns an image into its other form. */
static void turn(const uint8_t *image, uint8_t *other)
{
    memset(other, 0xEE, BV_SECTOR_BYTES);
    EXPECT(is(bv_convert(image, BV_SECTOR_BYTES, other, BV_SECTOR_BYTES), BV_WAIT, 0));
}

/* Turns an image of form A into one of form B with a past: run number 1020304 and causes of all kinds. */
static void lay_past(const uint8_t *image, unsigned spares, uint8_t *past)
{
    unsigned sum = 0;
    turn(image, past);
    for (int k = 0; k < 4; k++)
        past[BV_FORM_B_RUN + k] = k + 1;
    for (unsigned k = 0; k < spares; k++)
        past[BV_FORM_B_SPARES + 4 * k + 3] = k % 4;
    for (int k = 0; k < BV_FORM_B_SUM; k++)
        sum += past[k];
    past[BV_FORM_B_SUM] = sum >> 8 & 0xFF;
    past[BV_FORM_B_SUM + 1] = sum & 0xFF;
}

/* THE STACK */

enum { STACK = 1 << 16, PAINT = 0xA5 };
static _Alignas(16) uint8_t stack[STACK];
static ucontext_t here, there;

/* What a caller on that stack leaves: its own frame, and what it was answered. */
static uint8_t *frame;
static struct bv_reply reply;

/* The call that acts on the command. What is written below `frame` is the call's and a few bytes of act's own. */
static __attribute__((noinline)) void act(void)
{
    frame = __builtin_frame_address(0);
    reply = go_on();
}

/* The image by way of an array: what must be noticed. */
static __attribute__((noinline)) void act_by_copy(void)
{
    uint8_t stored[BV_SECTOR_BYTES], image[BV_SECTOR_BYTES];
    frame = __builtin_frame_address(0);
    reply = bv_image(&drive, stored, sizeof stored);
    turn(stored, image);
    memcpy(buffer + BV_DATA, image, sizeof image);
}

static void on_painted_stack(void (*work)(void))
{
    memset(stack, PAINT, sizeof stack);
    EXPECT(getcontext(&there) == 0);
    there.uc_stack.ss_sp = stack;
    there.uc_stack.ss_size = sizeof stack;
    there.uc_link = &here;
    makecontext(&there, work, 0);
    EXPECT(swapcontext(&here, &there) == 0);
}

/* The lowest byte that is not painted any more. */
static const uint8_t *deepest(void)
{
    const uint8_t *at = stack;
    while (at < frame && *at == PAINT)
        at++;
    return at;
}

/* Whether these 32 bytes stand in the stack from there on. */
static int stand(const uint8_t *row, const uint8_t *from)
{
    for (const uint8_t *at = from; at + 32 <= stack + STACK; at++)
        if (memcmp(at, row, 32) == 0)
            return 1;
    return 0;
}

/* Whether 32 bytes in a row of the first `used` ones of an image, or its first 32, stand anywhere in the stack that
 * was written. */
static int copied(const uint8_t *image, unsigned used)
{
    const uint8_t *low = deepest();
    unsigned k = 0;
    do
        if (stand(image + k, low))
            return 1;
    while (++k + 32 <= used);
    return 0;
}

/* How many bytes of an image are in front of its zeros: in form A and in form B. */
static unsigned used_of_a(unsigned spares, unsigned bads)
{
    return 32 + 3 * spares + 3 * bads;
}

static unsigned used_of_b(unsigned spares, unsigned bads)
{
    return BV_FORM_B_SPARES + 4 * spares + 3 * bads;
}

/* THE TEST */

enum { PARTS = 5 };

/* What the part holds before: in each place one of them at least is not the image. */
static void lay_part(uint8_t *part, int which, const uint8_t *image, const uint8_t *other)
{
    for (int k = 0; k < BV_SECTOR_BYTES; k++) {
        const uint8_t bytes[PARTS] = {0xFF, 0x00, k & 0xFF, other[k], image[k] ^ 0xFF};
        part[k] = bytes[which];
    }
}

/* The command is good, the image of form A stands in the data part, and bv_image gives the stored one. That is turned
 * into the image, and the image into one with run number 0 that is turned into the image again. */
static void expect_image(const uint8_t *image, const uint8_t *stored)
{
    static const uint8_t no_run[4];
    uint8_t lent[BV_SECTOR_BYTES], other[BV_SECTOR_BYTES];
    EXPECT(is(reply, BV_FINISHED, 0));
    EXPECT(buffer[0] == 0 && buffer[1] == 0 && (buffer[2] & ~BV_S3_FRESH) == 0 && buffer[3] == 0);
    memset(lent, 0xEE, sizeof lent);
    EXPECT(is(bv_image(&drive, lent, sizeof lent), BV_WAIT, 0));
    EXPECT(memcmp(lent, stored, sizeof lent) == 0);
    turn(lent, other);
    EXPECT(memcmp(buffer + BV_DATA, other, sizeof other) == 0);
    EXPECT(memcmp(other, image, sizeof other) == 0);
    turn(other, lent);
    EXPECT(memcmp(lent + BV_FORM_B_RUN, no_run, sizeof no_run) == 0);
    turn(lent, other);
    EXPECT(memcmp(other, image, sizeof other) == 0);
}

/* A drive with lists of these lengths, read from an image of either form; returns the most stack that a read of
 * FFFFFF wrote to. The table in form A is `image`, and `stored` in form B. */
static size_t try_start(const uint8_t *read, const uint8_t *image, const uint8_t *stored, unsigned spares,
                        unsigned bads)
{
    uint8_t other[BV_SECTOR_BYTES], part[BV_SECTOR_BYTES];
    size_t most = 0;
    lay_out(other, spares == BV_SPARES ? 0 : BV_SPARES, bads == BV_BADS ? 0 : BV_BADS);
    start(read);
    for (int which = 0; which < PARTS; which++) {
        lay_part(part, which, image, other);
        fill(part);
        command(BV_OP_READ, BV_NUMBER_TABLE, BV_OFFER_READ);
        on_painted_stack(act);
        EXPECT(!copied(image, used_of_a(spares, bads)) && !copied(stored, used_of_b(spares, bads)));
        if (most < (size_t)(frame - deepest()))
            most = frame - deepest();
        expect_image(image, stored);
    }
    on_painted_stack(act_by_copy);
    EXPECT(copied(image, used_of_a(spares, bads)) && copied(stored, used_of_b(spares, bads)));
    return most;
}

/* Drives with lists of these lengths, read from form A and from form B. */
static size_t try_lists(unsigned spares, unsigned bads)
{
    uint8_t image[BV_SECTOR_BYTES], plain[BV_SECTOR_BYTES], past[BV_SECTOR_BYTES];
    lay_out(image, spares, bads);
    turn(image, plain);
    lay_past(image, spares, past);
    size_t most = try_start(image, image, plain, spares, bads);
    size_t other = try_start(past, image, past, spares, bads);
    return most < other ? other : most;
}

/* One read of FFFFFF, over zeros. */
static void read_once(unsigned spares, unsigned bads)
{
    uint8_t image[BV_SECTOR_BYTES], stored[BV_SECTOR_BYTES];
    lay_out(image, spares, bads);
    turn(image, stored);
    start(image);
    command(BV_OP_READ, BV_NUMBER_TABLE, BV_OFFER_READ);
    act();
    expect_image(image, stored);
}

int main(int argc, char **argv)
{
    static const unsigned lists[][2] = {{0, 0}, {16, 50}, {32, 100}};
    if (argc == 3) {
        int spares = atoi(argv[1]), bads = atoi(argv[2]);
        EXPECT(0 <= spares && spares <= BV_SPARES && 0 <= bads && bads <= BV_BADS);
        read_once(spares, bads);
        return 0;
    }
    for (size_t k = 0; k < sizeof lists / sizeof lists[0]; k++) {
        unsigned spares = lists[k][0], bads = lists[k][1];
        size_t most = try_lists(spares, bads);
        printf("lists of %u and %u, from either form: the image over %d other parts, %zu bytes of stack written, no "
               "copy in them\n",
               spares, bads, PARTS, most);
    }
    return 0;
}
