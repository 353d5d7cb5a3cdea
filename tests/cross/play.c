/* Plays call scripts (docs/REPLAY.md) through the library of a target, and writes what the proved program writes of them,
 * byte for byte. It needs no C library but memcpy and memset: its bytes come and go by port.h. So it runs on a board with
 * 16 KB of memory.
 *
 * The input is a batch: a line "=== NAME" begins a script, with a drive that was never started, and is written as it is.
 * Around record and buffer are bytes that no call may change. Where a count is 0 the pointer that is lent is null. Below
 * each call the stack is painted, and looked at after it; the last line has the most that each call wrote there. */
#include <stddef.h>
#include <stdint.h>

#include "bumivondra.h"
#include "port.h"

enum { MOST_BYTES = 4096, MOST_LENT = 600, GUARD = 16, GUARD_BYTE = 0xC3, FILL = 0xEE };

enum call { START, RAISE, LOWER, FEED, SURFACE, RESET, IMAGE, CONVERT, CALLS };
static const char *const names[CALLS] = {"start", "raise", "lower", "feed", "surface", "reset", "image", "convert"};

/* WRITING */

static void say(const char *text)
{
    while (*text)
        port_put(*text++);
}

static void say_hex(uint32_t value, int digits)
{
    while (digits-- > 0)
        port_put("0123456789abcdef"[value >> 4 * digits & 15]);
}

static void say_number(uint32_t value)
{
    if (value >= 10)
        say_number(value / 10);
    port_put('0' + value % 10);
}

/* READING: one character ahead. A word ends at a space, a line at a newline or at the end of the input. */

static int ahead;
static const char *fault; /* the line's first from the left, or null */

static void advance(void)
{
    ahead = port_get();
}

static int at_line_end(void)
{
    return ahead == '\n' || ahead < 0;
}

static int at_word_end(void)
{
    return ahead == ' ' || at_line_end();
}

/* Goes to the next word, which is to be there; says whether nothing was wrong so far. */
static int next_word(void)
{
    if (ahead == ' ')
        advance();
    else
        fault = "wrong arguments";
    if (!fault && at_word_end())
        fault = "wrong arguments";
    return !fault;
}

/* Returns the decimal number that fills the rest of a word. */
static uint32_t read_number(uint32_t least, uint32_t most, const char *otherwise)
{
    uint32_t value = 0, digits = 0;
    for (; !at_word_end(); advance(), digits++) {
        if (ahead < '0' || '9' < ahead || (value = 10 * value + (uint32_t)(ahead - '0')) > most) {
            fault = otherwise;
            return 0;
        }
    }
    if (digits == 0 || value < least)
        fault = otherwise;
    return value;
}

static uint8_t read_digit(void)
{
    int c = ahead, letter = c | 32;
    int digit = '0' <= c && c <= '9' ? c - '0' : 'a' <= letter && letter <= 'f' ? letter - 'a' + 10 : -1;
    if (digit < 0)
        fault = "a byte is two hex digits";
    else
        advance();
    return (uint8_t)digit;
}

static uint8_t read_byte(void)
{
    uint8_t high = read_digit();
    return (uint8_t)(fault ? 0 : 16 * high + read_digit());
}

static uint8_t bytes[MOST_BYTES];
static uint32_t brought;

/* Reads all words that are left as bytes. */
static void read_bytes(void)
{
    while (!fault && !at_line_end() && next_word()) {
        uint32_t count = 1;
        uint8_t byte = read_byte();
        if (!fault && ahead == '*') {
            advance();
            count = read_number(1, MOST_BYTES, "a count is 1 to 4096");
        } else if (!fault && !at_word_end()) {
            fault = "a byte is two hex digits";
        }
        if (!fault && brought + count > MOST_BYTES)
            fault = "more than 4096 bytes";
        if (fault)
            return;
        memset(bytes + brought, byte, count);
        brought += count;
    }
}

/* Reads a word, of which so many letters are kept. */
static void read_name(char *name, int room)
{
    int n = 0;
    for (; !at_word_end(); advance())
        if (n < room - 1)
            name[n++] = (char)ahead;
    name[n] = 0;
}

static int is(const char *a, const char *b)
{
    while (*a && *a == *b)
        a++, b++;
    return *a == *b;
}

struct line {
    enum call call;
    int32_t lend; /* -1 where the line lends what the call wants */
    uint8_t byte; /* the handshake byte, or the surface's answer */
};

/* Reads what stands behind the name of a call. */
static void read_arguments(struct line *line)
{
    switch (line->call) {
    case LOWER:
        if (next_word())
            line->byte = read_byte();
        if (!fault && !at_word_end())
            fault = "a byte is two hex digits";
        break;
    case SURFACE:
        if (next_word())
            line->byte = (uint8_t)read_number(0, 255, "an answer is 0 to 255");
        read_bytes();
        break;
    case FEED:
    case CONVERT:
        read_bytes();
        break;
    case CALLS:
        fault = "no such call";
        break;
    default:
        break;
    }
    if (!fault && !at_line_end())
        fault = "wrong arguments";
}

static struct line read_line(void)
{
    struct line line = {CALLS, -1, 0};
    char name[10]; /* longer than any call's, so that a longer word is no call when it is cut */
    fault = NULL;
    brought = 0;
    read_name(name, sizeof name);
    if (is(name, "lend")) {
        if (next_word())
            line.lend = (int32_t)read_number(0, MOST_LENT, "a length is 0 to 600");
        if (!fault && next_word())
            read_name(name, sizeof name);
        if (fault)
            return line;
    }
    for (int k = 0; k < CALLS; k++)
        if (is(name, names[k]))
            line.call = (enum call)k;
    read_arguments(&line);
    return line;
}

/* THE STACK: a stretch below the caller is painted before a call, and looked at after it. */

enum { WORDS = STRETCH / 4 };
#define PAINT 0xA5A5A5A5u
static uint32_t most_stack[CALLS];

static __attribute__((noinline)) void paint(void)
{
    uint32_t stretch[WORDS];
    volatile uint32_t *at = stretch;
    for (int k = 0; k < WORDS; k++)
        at[k] = PAINT;
}

#if defined __GNUC__ && !defined __clang__
#pragma GCC diagnostic ignored "-Wuninitialized"
#pragma GCC diagnostic ignored "-Wmaybe-uninitialized"
#endif
/* Returns how many bytes of the stretch were written to, from its upper end. */
static __attribute__((noinline)) uint32_t written(void)
{
    uint32_t stretch[WORDS];
    const volatile uint32_t *at = stretch;
    uint32_t k = 0;
    while (k < WORDS && at[k] == PAINT)
        k++;
    return 4 * (WORDS - k);
}

/* PLAYING */

static struct {
    uint8_t before[GUARD];
    struct bv_drive drive;
    uint8_t after[GUARD];
} record;
static uint8_t buffer[BV_BUFFER_BYTES];
static uint8_t image[MOST_LENT]; /* what image and convert write */
static uint8_t lent[GUARD + MOST_LENT + GUARD];

static void guard(void)
{
    memset(record.before, GUARD_BYTE, GUARD);
    memset(record.after, GUARD_BYTE, GUARD);
    memset(lent, GUARD_BYTE, sizeof lent);
}

static int is_guarded(size_t length)
{
    int good = 1;
    for (int k = 0; k < GUARD; k++)
        good &= record.before[k] == GUARD_BYTE && record.after[k] == GUARD_BYTE && lent[k] == GUARD_BYTE;
    for (size_t k = GUARD + length; k < sizeof lent; k++)
        good &= lent[k] == GUARD_BYTE;
    return good;
}

static __attribute__((noinline)) struct bv_reply make(const struct line *line, uint8_t *buf, size_t length)
{
    struct bv_drive *drive = &record.drive;
    const uint8_t *with = brought ? bytes : NULL;
    switch (line->call) {
    case START: return bv_start(drive, buf, length);
    case RAISE: return bv_raise(drive, buf, length);
    case LOWER: return bv_lower(drive, buf, length, line->byte);
    case FEED: return bv_feed(drive, buf, length, with, brought);
    case SURFACE: return bv_surface(drive, buf, length, line->byte, with, brought);
    case RESET: return bv_reset(drive, buf, length);
    case IMAGE: return bv_image(drive, buf, length);
    default: return bv_convert(with, brought, buf, length);
    }
}

static uint32_t adler32(const uint8_t *at, size_t n)
{
    uint32_t low = 1, high = 0;
    for (size_t k = 0; k < n; k++) {
        low += at[k];
        low -= low >= 65521 ? 65521 : 0;
        high += low;
        high -= high >= 65521 ? 65521 : 0;
    }
    return high << 16 | low;
}

static void say_answer(struct bv_reply reply)
{
    static const char *const words[] = {"wait", "offer ", "read ", "write ", "store", "finished", "refused "};
    if (reply.kind > BV_REFUSED) {
        say("no answer: ");
        say_hex(reply.kind, 8);
        return;
    }
    say(words[reply.kind]);
    if (reply.kind == BV_OFFER)
        say_hex(reply.value, 2);
    else if (reply.kind == BV_READ || reply.kind == BV_WRITE || reply.kind == BV_REFUSED)
        say_number(reply.value);
    else if (reply.value != 0)
        say(" with a value that is not 0");
}

static void say_result(const struct line *line, struct bv_reply reply, size_t length)
{
    say_answer(reply);
    if (line->call == IMAGE || line->call == CONVERT) {
        say(" image ");
        say_hex(adler32(image, line->call == IMAGE ? BV_SECTOR_BYTES : length), 8);
    } else {
        say(" status ");
        for (int k = 0; k < BV_STATUS_BYTES; k++)
            say_hex(buffer[k], 2);
        say(" data ");
        say_hex(adler32(buffer + BV_DATA, BV_SECTOR_BYTES), 8);
    }
    port_put('\n');
}

/* Makes the call of a line. Returns null, or what was touched that may not be. */
static const char *play(const struct line *line)
{
    int in_image = line->call == IMAGE || line->call == CONVERT;
    uint8_t *whole = in_image ? image : buffer;
    size_t wanted = in_image ? BV_SECTOR_BYTES : BV_BUFFER_BYTES;
    size_t length = line->lend < 0 ? wanted : (size_t)line->lend;
    memset(image, FILL, sizeof image);
    guard();
    memset(lent + GUARD, line->call == CONVERT ? FILL : 0, length);
    memcpy(lent + GUARD, whole, length < wanted ? length : wanted);
    paint();
    struct bv_reply reply = make(line, length ? lent + GUARD : NULL, length);
    uint32_t stack = written();
    if (most_stack[line->call] < stack)
        most_stack[line->call] = stack;
    if (stack == 4 * WORDS)
        return "more stack was written than was painted";
    if (!is_guarded(length))
        return "a byte beside the record or the buffer was changed";
    if (length == wanted)
        memcpy(whole, lent + GUARD, wanted);
    else if (line->call == CONVERT)
        memcpy(image, lent + GUARD, length);
    say_result(line, reply, length);
    return NULL;
}

static void skip_line(void)
{
    while (!at_line_end())
        advance();
}

/* Begins a script, whose name is written as it stands. */
static void begin_script(void)
{
    memset(&record.drive, 0, sizeof record.drive);
    memset(buffer, 0, sizeof buffer);
    for (; !at_line_end(); advance())
        port_put(ahead);
    port_put('\n');
}

static int count_ones(unsigned v)
{
    int ones = 0;
    for (; v; v /= 2)
        ones += v % 2;
    return ones;
}

/* Plays the batch. Returns null, or what was wrong with the library. */
static const char *play_all(void)
{
    uint32_t number = 0;
    int over = 0; /* a wrong line ends its script */
    for (unsigned v = 0; v < 256; v++)
        if (bv_parity((uint8_t)v) != (count_ones(v) + 1) % 2)
            return "bv_parity is wrong";
    for (advance(); ahead >= 0; number++) {
        if (ahead == '=') {
            begin_script();
            number = 0;
            over = 0;
        } else if (ahead == '#' || over) {
            skip_line();
        } else if (!at_line_end()) {
            struct line line = read_line();
            const char *wrong = fault ? NULL : play(&line);
            if (wrong)
                return wrong;
            over = fault != NULL;
            if (over) {
                say("error: line ");
                say_number(number);
                say(": ");
                say(fault);
                port_put('\n');
                skip_line();
            }
        }
        if (ahead == '\n')
            advance();
    }
    return NULL;
}

int main(void)
{
    const char *wrong = play_all();
    if (wrong) {
        say(wrong);
        port_put('\n');
        return port_close(1);
    }
    say("stack:");
    for (int k = 0; k < CALLS; k++) {
        port_put(' ');
        say(names[k]);
        port_put(' ');
        say_number(most_stack[k]);
    }
    port_put('\n');
    return port_close(0);
}
