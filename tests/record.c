/* The record in write-protected memory, through the library.
 *
 * Drives in every phase, sound ones and such as differ from them in one word, get calls with arguments of every
 * kind, each first where record and buffer may be written. A refused call is made again with both
 * write-protected: whatever it writes, were it the same bytes, ends the test. Where code 1 or 2 refused it, the buffer
 * can't even be read: such a call costs the same, however much is lent. A call that is taken must leave
 * what the same call leaves of a record that lies between pages without access. On the way run number, causes,
 * remembered failures, the ending that waits for its store and the place mark must stand in their words. Then
 * bv_convert turns images into their other form and refuses damaged ones, from bytes that are write-protected and,
 * where it refuses, into such bytes too. Last, bv_start must write BV_DRIVE_BYTES bytes: all of them, and not one
 * more.
 *
 * It prints how often each code was met. */
#define _DEFAULT_SOURCE
#include <signal.h>
#include <stdio.h>
#include <stdlib.h>
#include <string.h>
#include <sys/mman.h>
#include <unistd.h>

#include "bumivondra.h"

#define EXPECT(fact) ((fact) ? (void)0 : failed(#fact, __LINE__))

/* What is being tried, for the message. */
static const char *trying = "";

static _Noreturn void failed(const char *fact, int line)
{
    fprintf(stderr, "tests/record.c:%d: not so: %s (%s)\n", line, fact, trying);
    exit(1);
}

static void forbidden(int signal)
{
    static const char words[] = "tests/record.c: memory was touched that may not be: ";
    (void)signal;
    if (write(2, words, sizeof words - 1) < 0 || write(2, trying, strlen(trying)) < 0 || write(2, "\n", 1) < 0)
        _exit(2);
    _exit(1);
}

/* MEMORY: pages with bytes at their end, so that the byte behind them has no access, or at their start. */

static size_t page;

struct fence {
    uint8_t *bytes; /* those of one page */
    uint8_t *at;    /* the first that is used */
};

/* Makes a page between two without access, of which n bytes are used: the last, or the first. */
static struct fence fence(size_t n, int last)
{
    uint8_t *pages = mmap(NULL, 3 * page, PROT_NONE, MAP_PRIVATE | MAP_ANONYMOUS, -1, 0);
    EXPECT(pages != MAP_FAILED && n <= page);
    struct fence made = {pages + page, last ? pages + 2 * page - n : pages + page};
    EXPECT(mprotect(made.bytes, page, PROT_READ | PROT_WRITE) == 0);
    return made;
}

static void protect(struct fence made, int access)
{
    EXPECT(mprotect(made.bytes, page, access) == 0);
}

/* CALLS */

enum call_kind { START, RAISE, LOWER, FEED, SURFACE, RESET, IMAGE };

struct call {
    enum call_kind kind;
    uint8_t byte; /* LOWER, SURFACE */
    size_t n;     /* FEED, SURFACE */
    size_t len;
};

static const char *const words[] = {"start", "raise", "lower", "feed", "surface", "reset", "image"};
static uint8_t bytes[600];

static struct bv_reply make(struct bv_drive *drive, uint8_t *buf, const struct call *call)
{
    switch (call->kind) {
    case START:
        return bv_start(drive, buf, call->len);
    case RAISE:
        return bv_raise(drive, buf, call->len);
    case LOWER:
        return bv_lower(drive, buf, call->len, call->byte);
    case FEED:
        return bv_feed(drive, buf, call->len, bytes, call->n);
    case SURFACE:
        return bv_surface(drive, buf, call->len, call->byte, bytes, call->n);
    case RESET:
        return bv_reset(drive, buf, call->len);
    default:
        return bv_image(drive, buf, call->len);
    }
}

enum { B = BV_BUFFER_BYTES, S = BV_SECTOR_BYTES };

static const struct call calls[] = {
    {RAISE, 0, 0, B},      {LOWER, BV_GO_ON, 0, B}, {LOWER, 0xAA, 0, B}, {FEED, 0, 0, B},
    {FEED, 0, 6, B},       {FEED, 0, 600, B},       {SURFACE, 0, 0, B},  {SURFACE, 0, S, B},
    {SURFACE, 1, 0, B},    {SURFACE, 1, S, B},      {SURFACE, 2, 0, B},  {SURFACE, 2, 1, B},
    {SURFACE, 3, 0, B},    {SURFACE, 3, S, B},      {SURFACE, 4, 0, B},  {SURFACE, 255, S, B},
    {SURFACE, 0, S - 1, B}, {RESET, 0, 0, B},       {IMAGE, 0, 0, S},    {START, 0, 0, B},
    {RAISE, 0, 0, B - 1},  {LOWER, BV_GO_ON, 0, 0}, {FEED, 0, 6, S},     {SURFACE, 0, S, B + 1},
    {RESET, 0, 0, 0},      {IMAGE, 0, 0, B},        {START, 0, 0, B - 1},   {SURFACE, 0, S + 1, B + 1},
};

enum { CALLS = sizeof calls / sizeof calls[0] };

/* WORDS OF THE RECORD that no function of the header shows */

enum { MET_ERRORS = 7, MET_CRC = 12, MET_TIMEOUT = 13, REMEMBERED = 19, RUN = 20, PLACE = 22 };
enum { SPARE_COUNT = 23, BAD_COUNT = 24, SPARES = 25, BADS = 57, CAUSES = 157 };

/* The endings that wait for a store, by their numbers: some, and how many there are. */
enum { GOOD = 0, MOVED = 1, FAILED = 2, OVERRUN = 3, ENDINGS = 10 };

/* THE TRIAL */

static struct fence drives, buffers, far_drives;
static unsigned long codes[9], taken;

/* Makes one call on a record and a buffer of these contents. Returns what was replied. */
static struct bv_reply try_call(const struct bv_drive *drive, const uint8_t *content, const struct call *call)
{
    static uint8_t buffer[600], left[600];
    struct bv_drive copy = *drive;
    struct bv_drive *lent = (struct bv_drive *)(void *)drives.at;
    trying = words[call->kind];
    memcpy(buffer, content, sizeof buffer);
    struct bv_reply reply = make(&copy, buffer, call);
    EXPECT(reply.kind <= BV_REFUSED);
    if (reply.kind == BV_REFUSED) {
        EXPECT(1 <= reply.value && reply.value <= 5);
        EXPECT(memcmp(&copy, drive, sizeof copy) == 0 && memcmp(buffer, content, sizeof buffer) == 0);
        codes[reply.value]++;
        memcpy(lent, drive, sizeof copy);
        memcpy(buffers.at, content, sizeof buffer);
        protect(drives, PROT_READ);
        protect(buffers, reply.value <= BV_BAD_BUFFER ? PROT_NONE : PROT_READ);
        struct bv_reply again = make(lent, buffers.at, call);
        EXPECT(again.kind == reply.kind && again.value == reply.value);
        protect(drives, PROT_READ | PROT_WRITE);
        protect(buffers, PROT_READ | PROT_WRITE);
        return reply;
    }
    taken++;
    struct bv_drive *far = (struct bv_drive *)(void *)far_drives.at;
    memcpy(far, drive, sizeof copy);
    memcpy(left, content, sizeof left);
    if (call->kind == IMAGE)
        protect(far_drives, PROT_READ);
    struct bv_reply again = make(far, left, call);
    protect(far_drives, PROT_READ | PROT_WRITE);
    EXPECT(again.kind == reply.kind && again.value == reply.value);
    EXPECT(memcmp(far, &copy, sizeof copy) == 0 && memcmp(left, buffer, sizeof left) == 0);
    return reply;
}

static void try_calls(const struct bv_drive *drive, const uint8_t *content)
{
    for (size_t k = 0; k < CALLS; k++)
        try_call(drive, content, &calls[k]);
}

/* Tries a record with one word changed, to numbers at and beyond every bound. */
static void try_damaged(const struct bv_drive *drive, const uint8_t *content)
{
    static const uint16_t numbers[] = {0,    1,    2,    3,      4,      6,      7,      10,     11,     32,     33,     63,
                                       90,   100,  101,  255,    256,    533,    534,    1536,   4928,   9727,   9728,   9791,
                                       9792, 0x0501, 0x0905, 0x0A05, 0x0B04, 0x640A, 0x650A, 0x8000, 0xFFFE, 0xFFFF};
    for (size_t word = 0; word < BV_DRIVE_BYTES / 2; word++) {
        for (size_t k = 0; k < sizeof numbers / sizeof numbers[0]; k++) {
            struct bv_drive damaged = *drive;
            damaged.words[word] = numbers[k];
            for (size_t c = (word + k) % 5; c < CALLS; c += 5)
                try_call(&damaged, content, &calls[c]);
        }
    }
}

/* Whether a phase with this detail is one. */
static int is_phase(unsigned phase, unsigned detail)
{
    switch (phase) {
    case BV_AT_OFFER:
        return (detail >= 1 && detail <= 4) || detail == 6;
    case BV_AT_STORE:
        return detail < ENDINGS;
    default:
        return phase <= BV_AT_TRIAL_READ;
    }
}

/* Every phase, every offer and every ending that is none: code 1, but for bv_start. */
static void try_phases(const struct bv_drive *drive, const uint8_t *content)
{
    for (unsigned low = 0; low < 256; low++) {
        for (unsigned high = 0; high < 256; high += low == BV_AT_OFFER || low == BV_AT_STORE ? 1 : 85) {
            struct bv_drive damaged = *drive;
            damaged.words[4] = low | high << 8;
            if (is_phase(low, high))
                continue;
            for (size_t k = 0; k < CALLS; k++) {
                struct bv_reply reply = try_call(&damaged, content, &calls[k]);
                EXPECT(calls[k].kind == START || (reply.kind == BV_REFUSED && reply.value == BV_BAD_RECORD));
            }
        }
    }
}

/* Tries a record with two spares in use, a cause of one of them or of an unused one changed. Code 1 is for a cause
 * above 3 of one in use. */
static void try_causes(const struct bv_drive *drive, const uint8_t *content)
{
    static const uint16_t causes[] = {3, 4, 255, 256, 0xFFFF};
    EXPECT(drive->words[SPARE_COUNT] == 2);
    for (size_t spare = 0; spare < BV_SPARES; spare++) {
        for (size_t k = 0; k < sizeof causes / sizeof causes[0]; k++) {
            struct bv_drive damaged = *drive;
            int wrong = spare < 2 && causes[k] > 3;
            damaged.words[CAUSES + spare] = causes[k];
            for (size_t c = 0; c < CALLS; c++) {
                struct bv_reply reply = try_call(&damaged, content, &calls[c]);
                int refused = reply.kind == BV_REFUSED && reply.value == BV_BAD_RECORD;
                EXPECT(refused == (wrong && calls[c].kind != START));
            }
        }
    }
}

/* DRIVES IN EVERY PHASE */

static struct bv_drive drive;
static uint8_t buffer[600];
static unsigned phases;

/* The drive has come to a phase: tries what it is. */
static void here(unsigned phase)
{
    EXPECT(bv_phase(&drive) == phase);
    phases |= 1u << phase;
    try_calls(&drive, buffer);
    try_damaged(&drive, buffer);
}

static void up(uint32_t offer)
{
    struct bv_reply reply = bv_raise(&drive, buffer, B);
    EXPECT(reply.kind == BV_OFFER && reply.value == offer);
}

static void go_on(uint32_t kind)
{
    EXPECT(bv_lower(&drive, buffer, B, BV_GO_ON).kind == kind);
}

static void surface(uint8_t answer, const uint8_t *brought, size_t n, uint32_t kind)
{
    EXPECT(bv_surface(&drive, buffer, B, answer, brought, n).kind == kind);
}

/* From idle to the offer after a command for block 17. */
static void command(uint8_t opcode, uint32_t offer)
{
    const uint8_t said[BV_COMMAND_BYTES] = {opcode, 0, 0, 17, 2, 1};
    up(BV_OFFER_COMMAND);
    go_on(BV_WAIT);
    EXPECT(bv_feed(&drive, buffer, B, said, sizeof said).kind == BV_WAIT);
    up(offer);
}

/* From idle to the first access of a write or write/verify. */
static void write_block(uint8_t opcode, uint32_t offer)
{
    command(opcode, offer);
    go_on(BV_WAIT);
    EXPECT(bv_feed(&drive, buffer, B, bytes, S).kind == BV_WAIT);
    up(BV_OFFER_ACT);
    go_on(BV_WRITE);
}

/* The trial remembers these causes: its own last failure, the last before its spare, the last on the present
 * sector. */
static void remembers(unsigned last, unsigned before, unsigned present)
{
    EXPECT(drive.words[REMEMBERED] == last + 4 * before + 16 * present);
}

/* A command waits for its store: it has ended so, with this E and these errors met. */
static void waits(unsigned ending, unsigned errors, unsigned crc, unsigned timeout)
{
    here(BV_AT_STORE);
    remembers(0, 0, 0);
    EXPECT(drive.words[4] >> 8 == ending && drive.words[MET_ERRORS] == errors << 8);
    EXPECT(drive.words[MET_CRC] == crc && drive.words[MET_TIMEOUT] == timeout);
    EXPECT(bv_has_unstored(&drive) && bv_rereads(&drive) == 0 && bv_failures(&drive) == 0);
}

/* The status bytes are these. */
static void status_is(uint8_t one, uint8_t two, uint8_t three, uint8_t four)
{
    EXPECT(buffer[0] == one && buffer[1] == two && buffer[2] == three && buffer[3] == four);
}

/* Some block's place is unstored, or none is. */
static void place_is(unsigned mark)
{
    EXPECT(drive.words[PLACE] == mark);
    EXPECT((unsigned)bv_has_unstored_place(&drive) == mark);
}

/* The table has this run number. */
static void run_is(uint32_t run)
{
    EXPECT(drive.words[RUN] + 65536u * drive.words[RUN + 1] == run);
    EXPECT(bv_run_number(&drive) == run);
}

/* The trial of a sector, from its write on, with so many failures. The last reread is answered with `kind`. */
static void trial(unsigned failures, uint32_t kind)
{
    surface(BV_SURFACE_GOOD, bytes, 0, BV_READ);
    here(BV_AT_TRIAL_READ);
    for (unsigned reread = 1; reread < 100; reread++) {
        if (reread <= failures)
            surface(BV_SURFACE_TIMEOUT, bytes, 0, BV_READ);
        else
            surface(BV_SURFACE_GOOD, bytes, S, BV_READ);
        EXPECT(bv_rereads(&drive) == reread);
        EXPECT(bv_failures(&drive) == (reread < failures ? reread : failures));
    }
    EXPECT(drive.words[REMEMBERED] % 4 == BV_CAUSE_TIMEOUT);
    here(BV_AT_TRIAL_READ);
    surface(BV_SURFACE_GOOD, bytes, S, kind);
    EXPECT(bv_rereads(&drive) == 0 && bv_failures(&drive) == 0);
}

/* Lays out the image of form A of a table with two spares and a bad block. */
static void lay_form_a(uint8_t *image)
{
    static const uint8_t fixed[] =
        "PROFILE      \0\0\0\x03\x90\0\x26\0\x02\x14\x20\x02\x01\0\0\x05\xFF\xFF\xFE\xFF\xFF\xFF\0\0\x07\xFF\xFF\xFF";
    memset(image, 0, S);
    memcpy(image, fixed, sizeof fixed - 1);
}

/* Puts the right sum into an image of form B. */
static void sum_up(uint8_t *image)
{
    unsigned sum = 0;
    for (int k = 0; k < BV_FORM_B_SUM; k++)
        sum += image[k];
    image[BV_FORM_B_SUM] = sum >> 8 & 0xFF;
    image[BV_FORM_B_SUM + 1] = sum & 0xFF;
}

/* Lays out the image of form B of the same table, after so many stores and with these causes. */
static void lay_form_b(uint8_t *image, uint32_t run, uint8_t cause, uint8_t other)
{
    const uint8_t begin[] = {0xF0, 0x78, 0x3C, 0x1E, run >> 24, run >> 16 & 0xFF, run >> 8 & 0xFF, run & 0xFF,
                             0, 2, 0, 16, 0, 1, 0, 24, 0, 0, 5, cause, 0xFF, 0xFF, 0xFE, other, 0, 0, 7};
    memset(image, 0, S);
    memcpy(image, begin, sizeof begin);
    sum_up(image);
}

/* Starts with the table of an image, which has two spares and a bad block. */
static void start(const uint8_t *image)
{
    EXPECT(bv_start(&drive, buffer, B).kind == BV_READ);
    here(BV_AT_START);
    EXPECT(!bv_has_table(&drive));
    for (int word = REMEMBERED; word < BV_DRIVE_BYTES / 2; word++)
        EXPECT(drive.words[word] == 0);
    surface(BV_SURFACE_GOOD, image, S, BV_WAIT);
    EXPECT(bv_has_table(&drive) && !bv_has_unstored(&drive) && !bv_is_latched(&drive));
    EXPECT(drive.words[SPARE_COUNT] == 2 && drive.words[SPARES] == 5 && drive.words[SPARES + 1] == 0xFFFE);
    EXPECT(drive.words[BAD_COUNT] == 1 && drive.words[BADS] == 7);
}

/* The causes are these two, and of unused spares all 0. */
static void causes_are(unsigned cause, unsigned other)
{
    EXPECT(drive.words[CAUSES] == cause && drive.words[CAUSES + 1] == other);
    for (int spare = 2; spare < BV_SPARES; spare++)
        EXPECT(drive.words[CAUSES + spare] == 0);
}

/* bv_image gives these bytes. */
static void image_is(const uint8_t *wanted)
{
    uint8_t image[S];
    EXPECT(bv_image(&drive, image, S).kind == BV_WAIT);
    EXPECT(memcmp(image, wanted, S) == 0);
}

/* From idle to the store of a read of block 17 that is never good; both its rereads time out. */
static void read_in_vain(void)
{
    static const uint8_t lost[S] = {0};
    command(BV_OP_READ, BV_OFFER_READ);
    go_on(BV_READ);
    surface(BV_SURFACE_CRC, lost, S, BV_READ);
    for (unsigned reread = 0; reread < 2; reread++)
        surface(BV_SURFACE_TIMEOUT, lost, 0, BV_READ);
    for (unsigned further = 1; further < 10; further++)
        surface(BV_SURFACE_TIMEOUT, lost, 0, BV_READ);
    surface(BV_SURFACE_TIMEOUT, lost, 0, BV_STORE);
}

/* From a block that has moved, its store awaited, through the answers to stores up to the latch. */
static void store_travel(void)
{
    const uint8_t too_much[S + 1] = {0};
    waits(MOVED, 0, 1, 1);
    place_is(1);
    run_is(0x10003);
    status_is(0, 0, 0, 0);
    surface(BV_SURFACE_TIMEOUT, bytes, 0, BV_FINISHED);
    status_is(BV_S1_CRC | BV_S1_TIMEOUT | BV_S1_FAILED, BV_S2_MOVED, 0, 0);
    place_is(1);
    here(BV_AT_IDLE);
    write_block(BV_OP_WRITE, BV_OFFER_WRITE);
    surface(BV_SURFACE_GOOD, bytes, 0, BV_STORE);
    waits(GOOD, 0, 0, 0);
    surface(BV_SURFACE_GOOD, bytes, 0, BV_FINISHED);
    status_is(0, 0, 0, 0);
    place_is(0);
    EXPECT(!bv_has_unstored(&drive));
    read_in_vain();
    waits(FAILED, 2, 1, 1);
    place_is(0);
    surface(BV_SURFACE_TIMEOUT, bytes, 0, BV_FINISHED);
    command(BV_OP_WRITE, BV_OFFER_WRITE);
    go_on(BV_WAIT);
    EXPECT(bv_feed(&drive, buffer, B, too_much, sizeof too_much).kind == BV_WAIT);
    up(BV_OFFER_ACT);
    go_on(BV_STORE);
    waits(OVERRUN, 0, 0, 0);
    run_is(0x10006);
    surface(BV_SURFACE_NO_SETTLE, bytes, 0, BV_FINISHED);
    status_is(BV_S1_ABORTED | BV_S1_NO_SETTLE | BV_S1_FAILED, 0, 0, 0);
    EXPECT(bv_is_latched(&drive) && bv_has_unstored(&drive));
    place_is(0);
    here(BV_AT_IDLE);
}

/* From a drive that was never started to one that has started with a table of form B. */
static void start_travel(void)
{
    uint8_t image[S];
    here(BV_AT_IDLE);
    lay_form_a(image);
    start(image);
    run_is(0);
    causes_are(BV_CAUSE_UNKNOWN, BV_CAUSE_UNKNOWN);
    lay_form_b(image, 0, BV_CAUSE_UNKNOWN, BV_CAUSE_UNKNOWN);
    image_is(image);
    lay_form_b(image, 0x10002, BV_CAUSE_CRC, BV_CAUSE_NO_SETTLE);
    start(image);
    run_is(0x10002);
    causes_are(BV_CAUSE_CRC, BV_CAUSE_NO_SETTLE);
    image_is(image);
    try_causes(&drive, buffer);
    here(BV_AT_IDLE);
}

/* From idle through a handshake, a read and a write to idle. */
static void command_travel(void)
{
    static const uint8_t lost[S] = {0};
    up(BV_OFFER_COMMAND);
    here(BV_AT_OFFER);
    try_phases(&drive, buffer);
    go_on(BV_WAIT);
    here(BV_AT_COMMAND);
    EXPECT(bv_reset(&drive, buffer, B).kind == BV_WAIT);
    command(BV_OP_READ, BV_OFFER_READ);
    go_on(BV_READ);
    here(BV_AT_READ);
    surface(BV_SURFACE_CRC, lost, S, BV_READ);
    here(BV_AT_READ);
    surface(BV_SURFACE_GOOD, bytes, S, BV_READ);
    surface(BV_SURFACE_GOOD, bytes, S, BV_FINISHED);
    write_block(BV_OP_WRITE, BV_OFFER_WRITE);
    here(BV_AT_WRITE);
    surface(BV_SURFACE_GOOD, lost, 0, BV_FINISHED);
}

/* From idle through a write/verify whose block moves, up to its store. */
static void move_travel(void)
{
    static const uint8_t lost[S] = {0};
    command(BV_OP_WRITE_VERIFY, BV_OFFER_VERIFY);
    go_on(BV_WAIT);
    here(BV_AT_DATA);
    EXPECT(bv_feed(&drive, buffer, B, bytes, S).kind == BV_WAIT);
    up(BV_OFFER_ACT);
    here(BV_AT_OFFER);
    go_on(BV_WRITE);
    here(BV_AT_WRITE); /* which is read back */
    surface(BV_SURFACE_GOOD, lost, 0, BV_READ);
    here(BV_AT_VERIFY);
    surface(BV_SURFACE_GOOD, lost, S, BV_WRITE);
    here(BV_AT_TRIAL_WRITE);
    remembers(BV_CAUSE_UNKNOWN, BV_CAUSE_UNKNOWN, BV_CAUSE_UNKNOWN);
    trial(31, BV_WRITE);
    here(BV_AT_TRIAL_WRITE); /* on a spare */
    remembers(BV_CAUSE_UNKNOWN, BV_CAUSE_TIMEOUT, BV_CAUSE_TIMEOUT);
    place_is(0);
    run_is(0x10002);
    trial(30, BV_STORE);
    EXPECT(drive.words[SPARE_COUNT] == 3 && drive.words[SPARES + 2] == 17);
    EXPECT(drive.words[CAUSES + 2] == BV_CAUSE_TIMEOUT);
}

/* Goes through every phase. */
static void travel(void)
{
    start_travel();
    command_travel();
    move_travel();
    store_travel();
    EXPECT(phases == (1u << (BV_AT_TRIAL_READ + 1)) - 1);
}

/* IMAGES: bv_convert with both buffers at the end of a page, of which each other byte must stay. */

static struct fence froms, tos;

/* Turns `n` bytes into `len` others. Returns what was replied; the others are the last of `tos`. */
static struct bv_reply convert(const uint8_t *image, size_t n, size_t len)
{
    uint8_t *from = froms.bytes + page - n, *to = tos.bytes + page - len;
    trying = "convert";
    protect(froms, PROT_READ | PROT_WRITE);
    memcpy(from, image, n);
    protect(froms, PROT_READ);
    memset(tos.bytes, 0xEE, page);
    struct bv_reply reply = bv_convert(from, n, to, len);
    size_t kept = reply.kind == BV_REFUSED ? page : page - len;
    for (size_t k = 0; k < kept; k++)
        EXPECT(tos.bytes[k] == 0xEE);
    if (reply.kind != BV_REFUSED) {
        EXPECT(reply.kind == BV_WAIT && reply.value == 0);
        taken++;
        return reply;
    }
    EXPECT(reply.value == BV_BAD_BUFFER || (BV_BAD_FORM <= reply.value && reply.value <= BV_BAD_FIELD));
    codes[reply.value]++;
    protect(tos, PROT_READ);
    struct bv_reply again = bv_convert(from, n, to, len);
    EXPECT(again.kind == reply.kind && again.value == reply.value);
    protect(tos, PROT_READ | PROT_WRITE);
    return reply;
}

/* The image is turned into this one. */
static void turns_into(const uint8_t *image, const uint8_t *wanted)
{
    EXPECT(convert(image, S, S).kind == BV_WAIT);
    EXPECT(memcmp(tos.bytes + page - S, wanted, S) == 0);
}

static void refused(const uint8_t *image, size_t n, size_t len, uint32_t code)
{
    struct bv_reply reply = convert(image, n, len);
    EXPECT(reply.kind == BV_REFUSED && reply.value == code);
}

/* Each byte of form B that has a rule, changed: with the old sum and with the right one. */
static void refuse_fields(const uint8_t *image)
{
    static const struct {
        uint16_t at;
        uint8_t byte;
    } changes[] = {{8, 1},  {9, 33},  {9, 1},  {10, 1},    {11, 17}, {12, 1},   {13, 101}, {13, 0},  {14, 1}, {15, 23},
                   {16, 1}, {17, 38}, {19, 4}, {20, 0xFE}, {23, 4},  {23, 255}, {24, 0xFF}, {27, 1}, {529, 1}};
    uint8_t changed[S];
    for (size_t k = 0; k < sizeof changes / sizeof changes[0]; k++) {
        memcpy(changed, image, S);
        changed[changes[k].at] = changes[k].byte;
        refused(changed, S, S, BV_BAD_SUM);
        sum_up(changed);
        refused(changed, S, S, BV_BAD_FIELD);
    }
}

/* Each byte of form A that has a rule, and the four first of form B, changed. */
static void refuse_forms(const uint8_t *a, const uint8_t *b)
{
    uint8_t changed[S];
    for (int k = 0; k < S; k++) {
        /* In the place of a block's low byte another block may stand. */
        if (k == 28 || k == 37)
            continue;
        memcpy(changed, a, S);
        changed[k] ^= 0x80;
        refused(changed, S, S, BV_BAD_FORM);
    }
    for (int k = 0; k < 4; k++) {
        memcpy(changed, b, S);
        changed[k] ^= 1;
        refused(changed, S, S, BV_BAD_FORM);
        sum_up(changed);
        refused(changed, S, S, BV_BAD_FORM);
    }
}

/* Turns images into their other form, and refuses what is none. */
static void convert_images(void)
{
    static const uint8_t zeros[600];
    uint8_t a[S], b[S], past[S];
    lay_form_a(a);
    lay_form_b(b, 0, BV_CAUSE_UNKNOWN, BV_CAUSE_UNKNOWN);
    lay_form_b(past, 0xFFFFFFFF, BV_CAUSE_NO_SETTLE, BV_CAUSE_TIMEOUT);
    turns_into(a, b);
    turns_into(b, a);
    turns_into(past, a);
    refused(zeros, S, S, BV_BAD_FORM);
    refuse_forms(a, past);
    refuse_fields(past);
    for (size_t n = 0; n <= sizeof zeros; n += n == 0 || n >= S - 2 ? 1 : 106) {
        if (n == S)
            continue;
        refused(zeros, n, S, BV_BAD_BUFFER);
        refused(past, S, n, BV_BAD_BUFFER);
        refused(zeros, n, n, BV_BAD_BUFFER);
    }
}

/* bv_start writes every byte of the record, wherever it lies, and none beside it. */
static void start_writes_all(void)
{
    trying = "every byte";
    for (int last = 0; last < 2; last++) {
        struct fence one = fence(BV_DRIVE_BYTES, last), other = fence(BV_DRIVE_BYTES, last);
        struct bv_drive *zeros = (struct bv_drive *)(void *)one.at, *ones = (struct bv_drive *)(void *)other.at;
        EXPECT((size_t)one.at % BV_DRIVE_ALIGN == 0);
        memset(one.bytes, 0x00, page);
        memset(other.bytes, 0xFF, page);
        EXPECT(bv_start(zeros, buffer, B).kind == BV_READ);
        EXPECT(bv_start(ones, buffer, B).kind == BV_READ);
        EXPECT(memcmp(zeros, ones, BV_DRIVE_BYTES) == 0);
        for (size_t k = 0; k < page; k++) {
            int within = one.bytes + k >= one.at && one.bytes + k < one.at + BV_DRIVE_BYTES;
            EXPECT(within || (one.bytes[k] == 0x00 && other.bytes[k] == 0xFF));
        }
    }
}

int main(void)
{
    page = sysconf(_SC_PAGESIZE);
    struct sigaction action;
    memset(&action, 0, sizeof action);
    action.sa_handler = forbidden;
    EXPECT(sigaction(SIGSEGV, &action, NULL) == 0 && sigaction(SIGBUS, &action, NULL) == 0);
    drives = fence(BV_DRIVE_BYTES, 1);
    buffers = fence(sizeof buffer, 1);
    far_drives = fence(BV_DRIVE_BYTES, 0);
    memset(bytes, 0x5A, sizeof bytes);
    froms = fence(sizeof buffer, 1);
    tos = fence(sizeof buffer, 1);
    travel();
    convert_images();
    start_writes_all();
    printf("refused and written nothing:");
    for (int code = 1; code <= 8; code++) {
        EXPECT(codes[code] > 0);
        printf(" %lu with code %d%s", codes[code], code, code < 8 ? "," : "");
    }
    printf("; taken: %lu\n", taken);
    printf("bv_start writes each of the %d bytes, and none beside them\n", BV_DRIVE_BYTES);
    return 0;
}
