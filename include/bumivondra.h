/* The ProFile controller as a library for a board: seven calls over a record and a buffer that the
 * board holds, one with no record that turns a table's image into its other form, and the parity bit of a
 * byte on the bus. Link with libbumivondra.a of your target.
 *
 * WHAT IT NEEDS, and no other function: memcpy, memset.
 * On Cortex-M0 also __aeabi_lmul, of the compiler's own library.
 *
 * The board turns what happens on the host's bus and at the heads into calls, and does what each call
 * answers. docs/BOARD.md has the loop, examples/board_loop.c is one. Usable from C11 and from C++11.
 *
 * WHAT IS PROMISED. For every record, every buffer and every argument a call answers as docs/SPEC.md
 * says, changes the record and the buffer as it says, reads and writes nothing else, and ends. A refused call writes nothing at all, so that record and buffer may be
 * write-protected during it. No call waits, allocates, or keeps a pointer. For every byte bv_parity returns
 * the bit that it says.
 *
 * WHAT THE CALLER OWES, and no call can test:
 *   - `drive` points to a struct bv_drive, of any content, aligned as C aligns it;
 *   - `buf` points to at least `len` bytes that may be written, `bytes` to at least `n` bytes;
 *   - `to` points to at least `to_len` bytes that may be written, `from` to at least `from_len` bytes;
 *   - the record, the buffer and the bytes do not overlap, nor do `from` and `to`;
 *   - no pointer is null, but for one whose count is 0: it may be anything, and nothing is read or written there;
 *   - one call at a time on one record.
 * For the promise that each good read gives the right bytes it also hands record and buffer on
 * unaltered from call to call, from a bv_start on that was not refused: proved of every such list of calls
 * (crates/bumivondra/specs). Further starts may come anywhere in the list, each given any record and any
 * buffer, so that the promise outlives a power cut: see bv_start. */
#ifndef BUMIVONDRA_H
#define BUMIVONDRA_H

#include <stddef.h>
#include <stdint.h>

/* THE VERSION of this header and of the library that belongs to it. While BV_VERSION_MAJOR is 0, a record of one minor
 * version means nothing to another. */
#define BV_VERSION_MAJOR 0
#define BV_VERSION_MINOR 7
#define BV_VERSION_PATCH 0
#define BV_VERSION "0.7.0"
/* One number that grows with the version, for #if. */
#define BV_VERSION_NUMBER (BV_VERSION_MAJOR * 10000 + BV_VERSION_MINOR * 100 + BV_VERSION_PATCH)

/* THE TARGETS. A processor or system that no library is made for is refused here, since a linker may take the library of
 * another. */
#if defined __x86_64__ || defined __aarch64__
#if defined __ILP32__
#error "bumivondra.h: there is no library for pointers of 32 bits on this processor"
#endif
#elif defined __arm__
#if __ARM_ARCH < 7 && !defined __ARM_ARCH_6M__
#error "bumivondra.h: there is no library for an Arm processor before ARMv7, but for Cortex-M0, M0+ and M1"
#endif
#elif defined __riscv
#if !defined __riscv_mul || !defined __riscv_div || !defined __riscv_compressed || defined __riscv_32e || defined __riscv_64e
#error "bumivondra.h: the library for RISC-V needs the base I with the extensions M and C"
#endif
#elif !defined __wasm32__
#error "bumivondra.h: there is no library for this processor"
#endif
#if !defined __BYTE_ORDER__ || __BYTE_ORDER__ != __ORDER_LITTLE_ENDIAN__
#error "bumivondra.h: there is no library for a processor that has the high byte first"
#endif
#if defined _WIN32 || defined __CYGWIN__ || defined __APPLE__
#error "bumivondra.h: there is no library for this system's form of object files"
#endif

#ifdef __cplusplus
extern "C" {
#define BV_STATIC_ASSERT(test, text) static_assert(test, text)
#define BV_ALIGN_OF(type) alignof(type)
#else
#define BV_STATIC_ASSERT(test, text) _Static_assert(test, text)
#define BV_ALIGN_OF(type) _Alignof(type)
#endif

/* SIZES */

enum {
    BV_BUFFER_BYTES = 536,  /* the lent buffer: status and data */
    BV_STATUS_BYTES = 4,    /* its first four bytes are the status, set at each finish */
    BV_SECTOR_BYTES = 532,  /* the rest is the data part; a sector and a table image have as many */
    BV_DATA = 4,            /* where the data part begins */
    BV_COMMAND_BYTES = 6,   /* command bytes that are kept */
    BV_BLOCKS = 9728,       /* blocks are 0..9727 */
    BV_SECTORS = 9792,      /* sectors are 0..9791: cylinder * 64 + head * 16 + place on the track */
    BV_FIRST_SPARE = 4928,  /* spare k (0..31) is sector 4928 + k */
    BV_SPARES = 32,         /* the most entries of the spare list */
    BV_BADS = 100,          /* the most entries of the bad list */
    BV_TABLE_SECTOR = 4960, /* the sector of the table */
    BV_MOST_ACCESSES = 3680 /* a command is over after at most so many accesses, its store among them */
};

/* ON THE HOST'S BUS */

/* The first command byte. Three bytes of the number follow, high first, and for a read the retries
 * and the threshold. */
enum { BV_OP_READ = 0x00, BV_OP_WRITE = 0x01, BV_OP_WRITE_VERIFY = 0x02 };

/* Numbers of no block with a meaning: the buffer itself, and for reads only the table and the health block. */
enum { BV_NUMBER_BUFFER = 0xFFFFFE, BV_NUMBER_TABLE = 0xFFFFFF, BV_NUMBER_HEALTH = 0xFFFFFD };

/* What a good read of the health block leaves in the data part, at buf + BV_DATA; all other bytes of it are 0. */
enum {
    BV_HEALTH_UNUSED = 0,  /* how many spares are unused: a dead one is used */
    BV_HEALTH_BADS = 1,    /* how many entries the bad list has */
    BV_HEALTH_LATCH = 2,   /* 1 under the latch: after a no settle in a command, until the next start; else 0 */
    BV_HEALTH_UNSTORED = 3 /* 1 while the table has changes that are not stored, else 0: a store failed, or the
                              latch keeps it from being made */
};

/* The byte with which the host goes on; any other breaks off. */
enum { BV_GO_ON = 0x55 };

/* Response bytes: the value of BV_OFFER. */
enum {
    BV_OFFER_COMMAND = 0x01, /* to take a command */
    BV_OFFER_READ = 0x02,    /* to read a block */
    BV_OFFER_WRITE = 0x03,   /* to take a write's data */
    BV_OFFER_VERIFY = 0x04,  /* to take a write/verify's data */
    BV_OFFER_ACT = 0x06      /* to do the write */
};

/* The status bytes, buf[0] to buf[3] (document 01 counts them from 1). */
enum {
    /* buf[0] */
    BV_S1_BROKEN_OFF = 0x80, /* a wrong handshake byte; all else is 0 */
    BV_S1_ABORTED = 0x40,    /* more than 532 data bytes, or a write with no table */
    BV_S1_NO_SETTLE = 0x10,  /* no settle, now or since the last start */
    BV_S1_CRC = 0x08,        /* the command met a CRC error */
    BV_S1_TIMEOUT = 0x04,    /* the command met a timeout, of its store too */
    BV_S1_FAILED = 0x01,     /* the command failed, or the table could not be stored */
    /* buf[1] */
    BV_S2_NO_SPARE = 0x40,   /* no spare is unused */
    BV_S2_BADS_FULL = 0x10,  /* the bad list holds 100 */
    BV_S2_NO_TABLE = 0x08,   /* the start found no table */
    BV_S2_MOVED = 0x04,      /* the block was moved to a spare, stored or not */
    /* buf[2] */
    BV_S3_FRESH = 0x80,      /* the first finish after a start or a reset */
    BV_S3_NUMBER = 0x40      /* no such block */
    /* buf[3] is E: how many of a read's R rereads failed. */
};

/* THE TABLE'S IMAGE has two forms, each of BV_SECTOR_BYTES bytes. bv_start reads either, bv_image writes form B,
 * and so form B is what is stored; the host that reads BV_NUMBER_TABLE is shown form A, which has no run number
 * and no causes. */

/* Where an image of form B has its numbers, each with its high byte first. */
enum {
    BV_FORM_B_RUN = 4,           /* 4 bytes: one more per store asked for; stays at 0xFFFFFFFF */
    BV_FORM_B_SPARE_COUNT = 8,   /* 2 bytes, as the next three have */
    BV_FORM_B_SPARE_OFFSET = 10, /* 16 */
    BV_FORM_B_BAD_COUNT = 12,
    BV_FORM_B_BAD_OFFSET = 14,   /* 16 + 4 * spare count */
    BV_FORM_B_SPARES = 16,       /* spare entries: 3 bytes block, 0xFFFFFE if dead, and 1 byte cause; then the
                                    bad entries: 3 bytes block; then zeros */
    BV_FORM_B_SUM = 530          /* 2 bytes: the sum of all bytes before, modulo 65536 */
};

/* The cause of a spare entry: for a block the last failure before its spare was tried, for a dead spare the last
 * failure on it. */
enum {
    BV_CAUSE_UNKNOWN = 0,  /* read from form A */
    BV_CAUSE_CRC = 1,      /* a CRC error, or other bytes than were written */
    BV_CAUSE_TIMEOUT = 2,
    BV_CAUSE_NO_SETTLE = 3
};

/* AT THE HEADS: how an access went, the answer of bv_surface. */
enum {
    BV_SURFACE_GOOD = 0,     /* a read brings 532 bytes; a write, or the store, is done */
    BV_SURFACE_CRC = 1,      /* reads only: 532 bytes came, with a CRC error */
    BV_SURFACE_TIMEOUT = 2,  /* the sector was not found; brings no bytes */
    BV_SURFACE_NO_SETTLE = 3 /* the heads did not settle; brings no bytes */
};

/* WHAT A CALL ANSWERS */

struct bv_reply {
    uint32_t kind;  /* BV_WAIT to BV_REFUSED */
    uint32_t value; /* see there; 0 where nothing is said */
};

enum {
    BV_WAIT = 0,     /* nothing is to be done until the next event */
    BV_OFFER = 1,    /* put the response byte `value` on the bus and answer the handshake */
    BV_READ = 2,     /* read sector `value`, then call bv_surface with what came */
    BV_WRITE = 3,    /* write the data part, buf + BV_DATA, to sector `value`, then call bv_surface */
    BV_STORE = 4,    /* write bv_image's 532 bytes to BV_TABLE_SECTOR, then call bv_surface, which finishes the
                        command; from bv_surface and bv_lower alone */
    BV_FINISHED = 5, /* a command is over: the status bytes are in the buffer */
    BV_REFUSED = 6   /* the call is refused with code `value`; nothing was written */
};

/* Why a call is refused. They are tested in this order; of them bv_start knows BV_BAD_BUFFER alone, and bv_convert
 * BV_BAD_BUFFER and the last three, which no other call knows. */
enum {
    BV_BAD_RECORD = 1, /* no call returned this record */
    BV_BAD_BUFFER = 2, /* len is not BV_BUFFER_BYTES (bv_image and both of bv_convert: BV_SECTOR_BYTES) */
    BV_BAD_PLACE = 3,  /* out of place: an answer is awaited, or none is; the line is so already; no bytes
                          are taken now; bv_image with no table */
    BV_BAD_ANSWER = 4, /* bv_surface: an answer above 3, or BV_SURFACE_CRC to a write */
    BV_BAD_BYTES = 5,  /* bv_surface: n is not 532 with a read's answer 0 or 1, or not 0 otherwise */
    BV_BAD_FORM = 6,   /* neither a well-formed image of form A, nor the first four bytes of form B */
    BV_BAD_SUM = 7,    /* form B: its sum is wrong */
    BV_BAD_FIELD = 8   /* form B: an offset, count, entry, cause or zero is wrong */
};

/* THE RECORD. The board keeps it, aligned for uint16_t, and hands it to the calls. All of it is the library's
 * own: what a board may want to see, the functions below say. */

enum { BV_DRIVE_BYTES = 378, BV_DRIVE_ALIGN = 2 };

struct bv_drive {
    uint16_t words[BV_DRIVE_BYTES / 2];
};

/* Where the drive is: what bv_phase returns. */
enum {
    BV_AT_IDLE = 0,        /* CMD is low, nothing is under way */
    BV_AT_OFFER = 1,       /* CMD is high, an offer was made */
    BV_AT_COMMAND = 2,     /* command bytes are taken */
    BV_AT_DATA = 3,        /* data bytes are taken */
    BV_AT_START = 4,       /* the start's read is awaited */
    BV_AT_STORE = 5,       /* the store at the end of a command is awaited */
    BV_AT_READ = 6,        /* a read command's read is awaited */
    BV_AT_WRITE = 7,       /* a write command's write is awaited */
    BV_AT_VERIFY = 8,      /* the read that verifies it is awaited */
    BV_AT_TRIAL_WRITE = 9, /* the write of a sector trial is awaited */
    BV_AT_TRIAL_READ = 10  /* a reread of a sector trial is awaited */
};

/* Returns where the drive is. */
static inline unsigned bv_phase(const struct bv_drive *drive)
{
    return drive->words[4] & 0xFF;
}

/* Returns 1 if there is a table, else 0. */
static inline int bv_has_table(const struct bv_drive *drive)
{
    return drive->words[0] != 0;
}

/* Returns 1 while the table has changes that are not stored, else 0. */
static inline int bv_has_unstored(const struct bv_drive *drive)
{
    return drive->words[1] != 0;
}

/* Returns 1 while the place of a block that was moved is not stored, else 0: under the latch every command for a
 * block then fails. */
static inline int bv_has_unstored_place(const struct bv_drive *drive)
{
    return drive->words[22] != 0;
}

/* Returns 1 under the latch, after a no settle in a command and until the next start, else 0. */
static inline int bv_is_latched(const struct bv_drive *drive)
{
    return drive->words[2] != 0;
}

/* Returns how many rereads of the sector under trial were answered, 0 where no reread is awaited. */
static inline unsigned bv_rereads(const struct bv_drive *drive)
{
    return bv_phase(drive) == BV_AT_TRIAL_READ ? drive->words[4] >> 8 : 0;
}

/* Returns how many of them failed. With more than 30 of its 100 rereads failed the sector is given up. */
static inline unsigned bv_failures(const struct bv_drive *drive)
{
    return bv_phase(drive) == BV_AT_TRIAL_READ ? drive->words[8] & 0xFF : 0;
}

/* Returns the run number of the table: it goes up with each store that is asked for. */
static inline uint32_t bv_run_number(const struct bv_drive *drive)
{
    return drive->words[20] + 65536u * drive->words[21];
}

BV_STATIC_ASSERT(sizeof(size_t) == 4 || sizeof(size_t) == 8, "a length has 32 or 64 bits");
BV_STATIC_ASSERT(sizeof(struct bv_reply) == 8, "bv_reply");
BV_STATIC_ASSERT(BV_ALIGN_OF(struct bv_reply) == 4, "bv_reply is aligned to 4");
BV_STATIC_ASSERT(offsetof(struct bv_reply, kind) == 0, "bv_reply.kind");
BV_STATIC_ASSERT(offsetof(struct bv_reply, value) == 4, "bv_reply.value");
BV_STATIC_ASSERT(sizeof(struct bv_drive) == BV_DRIVE_BYTES, "bv_drive");
BV_STATIC_ASSERT(BV_ALIGN_OF(struct bv_drive) == BV_DRIVE_ALIGN, "bv_drive is aligned to 2");

/* THE CALLS. In each that has them, `buf` and `len` are the lent buffer. A refused call writes nothing. */

/* Power came on, or the drive is to be made anew. In place at any time, with any record and any buffer: whatever
 * they held, the record is made anew, with no table, no latch and nothing under way, and the buffer is zeroed.
 * Answers BV_READ of BV_TABLE_SECTOR, or refuses with BV_BAD_BUFFER. bv_surface then answers BV_READ again until a
 * well-formed table of either form came with answer 0, at most ten times in all, and BV_WAIT at the end of the
 * start: idle, with the table or with none. Form A has run number 0 and unknown causes. Answer 3 ends the start at
 * once and sets no latch. The table's bytes never enter the buffer.
 *
 * A start while an answer is awaited is a power cut: the command under way is over and was not reported. If that
 * access was a write or a store, its sector may hold what it held, what was to be written, or nothing that can be read;
 * all other sectors are as they were. Whichever access it was, each read of a block that is then reported good
 * gives the bytes of its last write reported good, or of a write after it that was reported failed or was cut
 * off. If the table's sector cannot be read any more, no command for a block is good. */
struct bv_reply bv_start(struct bv_drive *drive, uint8_t *buf, size_t len);

/* The host raised CMD. In idle: BV_OFFER of BV_OFFER_COMMAND, never a store. After command bytes: the offer of
 * their opcode, or BV_OFFER_COMMAND with the bytes dropped if they are fewer than 6 for a read or 4 for a write, or
 * there is no such opcode. After data bytes: BV_OFFER_ACT, and where fewer than 532 were fed, the rest of the data part
 * is zeroed, whatever number the command has. But for that the buffer stays as it is. Elsewhere BV_BAD_PLACE. */
struct bv_reply bv_raise(struct bv_drive *drive, uint8_t *buf, size_t len);

/* The host lowered CMD with `byte` on the bus, after an offer. With BV_GO_ON: after offer 01, 03 or 04
 * bytes are taken (BV_WAIT); after 02 or 06 the command is acted on, and the answer is its first BV_READ
 * or BV_WRITE, or BV_FINISHED where it is over without an access. A write of a block that was fed too much has none
 * but the store (BV_STORE), if there is something to store. Reads of BV_NUMBER_TABLE and BV_NUMBER_HEALTH have none,
 * and with a table the data part then has its image of form A, or the health block's bytes, whatever it held. With
 * any other byte the command is broken off: status 80 00 00 00, idle, BV_FINISHED. With no offer made
 * BV_BAD_PLACE. */
struct bv_reply bv_lower(struct bv_drive *drive, uint8_t *buf, size_t len, uint8_t byte);

/* The host sent `n` bytes, any number in a call. Command bytes: the first six are kept, later ones are
 * ignored. Data bytes fill the data part from its start; the rest of it is as it was until bv_raise zeroes
 * it, and those after the 532nd are dropped and make the command fail. Answers BV_WAIT, or BV_BAD_PLACE
 * where no bytes are taken. */
struct bv_reply bv_feed(struct bv_drive *drive, uint8_t *buf, size_t len, const uint8_t *bytes, size_t n);

/* The access that the last answer asked for is over: `answer` is one of BV_SURFACE_.., and `bytes` are
 * the 532 that a read brought with answer 0 or 1, else none (n is 0). Answers what comes next: another
 * access, BV_WAIT at the end of the start, or BV_FINISHED with the status bytes set and, for a good read, the block
 * in the data part. A command is over after at most BV_MOST_ACCESSES. With no access awaited BV_BAD_PLACE. Bytes of
 * a read that is no good are in the data part only until good ones come; bytes of a verify or of a reread of a
 * sector trial never are.
 *
 * A command for a block that ends with unstored changes of the table, its own or older ones, asks for BV_STORE in
 * place of BV_FINISHED, which raises the run number by one; the status bytes are set once the store was answered.
 * Answer 0 stores the changes. Answer 2 makes the command fail, with BV_S1_TIMEOUT, and the next such command asks
 * again. Answer 3 makes it fail, with BV_S1_NO_SETTLE, and latches. A moved block stays moved all the same. Under
 * the latch no store is asked for, and every command for a block fails while bv_has_unstored_place. */
struct bv_reply bv_surface(struct bv_drive *drive, uint8_t *buf, size_t len, uint8_t answer,
                           const uint8_t *bytes, size_t n);

/* The host's reset line. In idle or in a handshake: idle, with CMD taken as low; table, unstored changes,
 * latch and buffer stay, and the next finish shows BV_S3_FRESH. Answers BV_WAIT, or BV_BAD_PLACE while an
 * access is awaited (let the access end first). */
struct bv_reply bv_reset(struct bv_drive *drive, uint8_t *buf, size_t len);

/* Writes the table's image of form B into 532 bytes, which are not the buffer of the other calls but its own. In
 * place whenever there is a table, while an access is awaited too, since the board fetches the bytes of a
 * store with it. Writes nothing into the record. Answers BV_WAIT, or BV_BAD_PLACE with no table. */
struct bv_reply bv_image(const struct bv_drive *drive, uint8_t *image, size_t len);

/* Turns the table's image in `from` into the other form in `to`, and leaves `from`. Takes no record: it may be
 * called at any time, beside any call. Form B made of form A has run number 0 and unknown causes, and turned
 * back it is the first image; form A made of form B has neither. Answers BV_WAIT, or refuses with BV_BAD_BUFFER,
 * BV_BAD_FORM, BV_BAD_SUM or BV_BAD_FIELD. */
struct bv_reply bv_convert(const uint8_t *from, size_t from_len, uint8_t *to, size_t to_len);

/* PARITY ON THE BUS. bv_parity takes no record and no buffer: it may be called at any time, beside any call. */

/* Returns the bit of odd parity of the byte `v`: 1 if `v` has an even number of ones, else 0.
 *
 * To send a byte, put it on the eight data lines and its bit on the parity line. The nine lines then carry an
 * odd number of ones, whatever the byte is.
 *
 * To test a byte `v` that came with the bit `p`, which is 0 or 1: the nine lines carried an odd number of ones
 * exactly when p == bv_parity(v). If not, at least one of the nine lines came wrong. One wrong line, the parity
 * line too, is always noticed; two wrong lines cancel and are not noticed.
 *
 * Bytes and bits are what the lines mean: a line that is active low has the opposite level. A board that wants
 * no call finds the same bits as a table in bumivondra_parity.h. */
uint8_t bv_parity(uint8_t v);

#ifdef __cplusplus
}
#endif

#endif
