/* Makes the calls of bumivondra.h by the C calling convention of a target. tools/cross compiles this file beside the
 * proved module.
 *
 * The module has each call in one form for every target: pointers, lengths of 64 bits, and the reply's eight bytes as one
 * number of 64 bits. That is the C form on x86-64, AArch64 and 64-bit RISC-V. It is not on 32-bit Arm, where a length has
 * 32 bits and a struct of eight bytes comes back through memory: a caller of the bare module gets wrong replies there,
 * with no message. So tools/cross names the module's calls bv_module_start and so on, and each is called in its own form
 * here.
 *
 * A pointer whose count is 0 may be anything, null too: the module is given the address of a byte here in its place. */
#include "bumivondra.h"

uint64_t bv_module_start(struct bv_drive *drive, uint8_t *buf, uint64_t len);
uint64_t bv_module_raise(struct bv_drive *drive, uint8_t *buf, uint64_t len);
uint64_t bv_module_lower(struct bv_drive *drive, uint8_t *buf, uint64_t len, uint8_t byte);
uint64_t bv_module_feed(struct bv_drive *drive, uint8_t *buf, uint64_t len, const uint8_t *bytes, uint64_t n);
uint64_t bv_module_surface(struct bv_drive *drive, uint8_t *buf, uint64_t len, uint8_t answer, const uint8_t *bytes,
                           uint64_t n);
uint64_t bv_module_reset(struct bv_drive *drive, uint8_t *buf, uint64_t len);
uint64_t bv_module_image(const struct bv_drive *drive, uint8_t *image, uint64_t len);
uint64_t bv_module_convert(const uint8_t *from, uint64_t from_len, uint8_t *to, uint64_t to_len);
uint8_t bv_module_parity(uint8_t v);

/* Returns the reply whose eight bytes are these, in the order in which they are in memory. */
static inline struct bv_reply reply(uint64_t bytes)
{
    union {
        uint64_t bytes;
        struct bv_reply reply;
    } both;
    both.bytes = bytes;
    return both.reply;
}

struct bv_reply bv_start(struct bv_drive *drive, uint8_t *buf, size_t len)
{
    uint8_t none = 0;
    return reply(bv_module_start(drive, len ? buf : &none, len));
}

struct bv_reply bv_raise(struct bv_drive *drive, uint8_t *buf, size_t len)
{
    uint8_t none = 0;
    return reply(bv_module_raise(drive, len ? buf : &none, len));
}

struct bv_reply bv_lower(struct bv_drive *drive, uint8_t *buf, size_t len, uint8_t byte)
{
    uint8_t none = 0;
    return reply(bv_module_lower(drive, len ? buf : &none, len, byte));
}

struct bv_reply bv_feed(struct bv_drive *drive, uint8_t *buf, size_t len, const uint8_t *bytes, size_t n)
{
    uint8_t none = 0;
    return reply(bv_module_feed(drive, len ? buf : &none, len, n ? bytes : &none, n));
}

struct bv_reply bv_surface(struct bv_drive *drive, uint8_t *buf, size_t len, uint8_t answer, const uint8_t *bytes,
                           size_t n)
{
    uint8_t none = 0;
    return reply(bv_module_surface(drive, len ? buf : &none, len, answer, n ? bytes : &none, n));
}

struct bv_reply bv_reset(struct bv_drive *drive, uint8_t *buf, size_t len)
{
    uint8_t none = 0;
    return reply(bv_module_reset(drive, len ? buf : &none, len));
}

struct bv_reply bv_image(const struct bv_drive *drive, uint8_t *image, size_t len)
{
    uint8_t none = 0;
    return reply(bv_module_image(drive, len ? image : &none, len));
}

struct bv_reply bv_convert(const uint8_t *from, size_t from_len, uint8_t *to, size_t to_len)
{
    uint8_t none[2] = {0, 0}; /* two, so that what is lent does not overlap */
    return reply(bv_module_convert(from_len ? from : &none[0], from_len, to_len ? to : &none[1], to_len));
}

uint8_t bv_parity(uint8_t v)
{
    return bv_module_parity(v);
}
