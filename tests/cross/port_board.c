/* Runs play.c on a bare board under an emulator: start-up code, semihosting for the bytes, and the functions of the C
 * library that compilers call. Nothing else is linked. board.ld names the places. For Arm Cortex-M and RISC-V, in machine
 * mode, on one core. */
#include <stddef.h>
#include <stdint.h>

#include "port.h"

extern uint32_t __data_load[], __data_start[], __data_end[], __bss_start[], __bss_end[], __stack_top[];
int main(void);

/* SEMIHOSTING */

enum { SYS_OPEN = 1, SYS_WRITE = 5, SYS_READ = 6, SYS_GET_CMDLINE = 0x15, SYS_EXIT = 0x18 };

#if defined __riscv
/* The three instructions are uncompressed and on one page, as the emulator wants them. */
uintptr_t port_semihost(uintptr_t what, const void *with);
__asm__(".section .text.port_semihost,\"ax\"\n.balign 16\n.option push\n.option norvc\nport_semihost:\n"
        "slli zero, zero, 0x1f\nebreak\nsrai zero, zero, 7\nret\n.option pop\n.text\n");
#endif

static uintptr_t host(uintptr_t what, const void *with)
{
#if defined __arm__
    register uintptr_t r0 __asm__("r0") = what;
    register const void *r1 __asm__("r1") = with;
    __asm__ volatile("bkpt 0xab" : "+r"(r0) : "r"(r1) : "memory");
    return r0;
#elif defined __riscv
    return port_semihost(what, with);
#else
#error "no semihosting is written for this processor"
#endif
}

/* Ends the run with 0, or with 1 for any other status. */
static _Noreturn void leave(int status)
{
    uintptr_t reason = status ? 0x20024 : 0x20026; /* a run-time error; the program's end */
#if defined __arm__ || __riscv_xlen == 32
    host(SYS_EXIT, (const void *)reason);
#else
    uintptr_t block[2] = {reason, (uintptr_t)status};
    host(SYS_EXIT, block);
#endif
    for (;;)
        ;
}

static uintptr_t input, output;
static uint8_t in[128], out[128];
static uint32_t in_at, in_end, out_end;

static uintptr_t open_file(const char *name, uintptr_t mode)
{
    uintptr_t n = 0;
    while (name[n])
        n++;
    uintptr_t block[3] = {(uintptr_t)name, mode, n};
    return host(SYS_OPEN, block);
}

static void flush(void)
{
    uintptr_t block[3] = {output, (uintptr_t)out, out_end};
    if (out_end && host(SYS_WRITE, block) != 0)
        leave(1);
    out_end = 0;
}

void port_put(int byte)
{
    out[out_end++] = (uint8_t)byte;
    if (out_end == sizeof out)
        flush();
}

int port_get(void)
{
    if (in_at == in_end) {
        uintptr_t block[3] = {input, (uintptr_t)in, sizeof in};
        in_at = 0;
        in_end = (uint32_t)(sizeof in - host(SYS_READ, block));
        if (in_end == 0)
            return -1;
    }
    return in[in_at++];
}

/* Opens what the command line names: what is read, then what is written. */
static void open_files(void)
{
    static char line[160];
    uintptr_t block[2] = {(uintptr_t)line, sizeof line};
    char *end = line;
    if (host(SYS_GET_CMDLINE, block) != 0)
        leave(1);
    while (*end && *end != ' ')
        end++;
    if (*end == 0)
        leave(1);
    *end = 0;
    input = open_file(line, 1);
    output = open_file(end + 1, 5);
    if (input == (uintptr_t)-1 || output == (uintptr_t)-1)
        leave(1);
}

int port_close(int status)
{
    flush();
    return status;
}

/* START-UP */

void __attribute__((used)) port_begin(void);
void port_begin(void)
{
    uint32_t *from = __data_load;
    for (uint32_t *to = __data_start; to < __data_end; to++)
        *to = *from++;
    for (uint32_t *to = __bss_start; to < __bss_end; to++)
        *to = 0;
    open_files();
    leave(main());
}

void __attribute__((used)) port_trapped(void);
void port_trapped(void)
{
    leave(1);
}

#if defined __arm__
__attribute__((used, section(".vectors"))) static const void *const vectors[16] = {
    __stack_top, (const void *)port_begin, (const void *)port_trapped, (const void *)port_trapped,
    (const void *)port_trapped, (const void *)port_trapped, (const void *)port_trapped,
};
#else
__asm__(".section .vectors,\"ax\"\n.globl _start\n_start:\n"
        ".option push\n.option norelax\nla gp, __global_pointer$\n.option pop\n"
        "la sp, __stack_top\nla t0, trap_entry\n.option push\n.option arch, +zicsr\ncsrw mtvec, t0\n.option pop\n"
        "j port_begin\n.balign 4\ntrap_entry: j port_trapped\n.text\n");
#endif

/* WHAT COMPILERS CALL */

void *memcpy(void *to, const void *from, size_t n)
{
    uint8_t *t = to;
    const uint8_t *f = from;
    while (n--)
        *t++ = *f++;
    return to;
}

void *memset(void *to, int byte, size_t n)
{
    uint8_t *t = to;
    while (n--)
        *t++ = (uint8_t)byte;
    return to;
}
