/* The parity bit through the library, and the table of bumivondra_parity.h, for every byte.
 *
 * Both are held against a count of the ones of each byte. Then each byte is sent with its bit over nine lines: as it is,
 * with each line wrong, and with each two lines wrong. What is sent has an odd number of ones. The test that the header
 * names takes it, notices one wrong line, and does not notice two.
 *
 * It prints how many calls of bv_parity were made. */
#include <stdio.h>
#include <stdlib.h>

#include "bumivondra.h"
#include "bumivondra_parity.h"

#define EXPECT(fact) ((fact) ? (void)0 : failed(#fact, __LINE__))

/* The byte that is being tried, for the message. */
static unsigned trying;

static _Noreturn void failed(const char *fact, int line)
{
    fprintf(stderr, "tests/parity.c:%d: not so: %s (byte %02x)\n", line, fact, trying);
    exit(1);
}

static unsigned calls;

/* Returns the library's parity bit, which is 0 or 1. */
static unsigned parity(unsigned byte)
{
    unsigned bit = bv_parity((uint8_t)byte);
    EXPECT(bit <= 1);
    calls++;
    return bit;
}

/* Counts the ones of a number. */
static unsigned ones(unsigned number)
{
    unsigned count = 0;
    for (; number != 0; number /= 2)
        count += number % 2;
    return count;
}

/* Tests nine lines that came, as the header says. */
static int is_taken(unsigned lines)
{
    return lines / 256 == parity(lines % 256);
}

int main(void)
{
    EXPECT(sizeof bv_parity_table == 256);
    for (trying = 0; trying < 256; trying++) {
        EXPECT(parity(trying) == (ones(trying) % 2 == 0));
        EXPECT(parity(trying) == bv_parity_table[trying]);
        unsigned lines = trying + 256 * parity(trying);
        EXPECT(ones(lines) % 2 == 1);
        EXPECT(is_taken(lines));
        for (unsigned line = 0; line < 9; line++) {
            EXPECT(!is_taken(lines ^ 1u << line));
            for (unsigned other = 0; other < line; other++)
                EXPECT(is_taken(lines ^ 1u << line ^ 1u << other));
        }
    }
    printf("bv_parity and its table agree with a count of ones for each byte, in %u calls\n", calls);
    return 0;
}
