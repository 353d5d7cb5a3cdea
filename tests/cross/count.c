/* Counts the library's instructions in a program that qemu runs: a plugin of qemu, for version 1 of its interface, which
 * is declared here since Debian has no header for it.
 *
 *     qemu-.. -plugin count.so,places=FILE,to=FILE ..
 *
 * `places` names a file of lines "KIND FROM END", each with two addresses in hex:
 *   library  instructions of the library
 *   helper   instructions of the compiler's own functions, which count as the library's when it calls them
 *   caller   instructions of the program that calls the library; when one is reached, the call is over
 *   mark     the function whose call begins another count
 *   only     the one function of the library whose calls count; without such a line all do
 * What a call executes elsewhere is memcpy's and memset's. What the program executes outside calls counts nowhere.
 *
 * `to` names a file that gets a line for each count, the first of which begins with the program: "CALLS LIBRARY ELSEWHERE".
 * An instruction that is skipped by its condition counts, and a repeated one counts each time. */
#include <inttypes.h>
#include <stddef.h>
#include <stdint.h>
#include <stdio.h>
#include <string.h>

/* QEMU'S INTERFACE */

typedef uint64_t qemu_plugin_id_t;
typedef struct qemu_info_t qemu_info_t;
struct qemu_plugin_tb;
struct qemu_plugin_insn;
enum qemu_plugin_cb_flags { QEMU_PLUGIN_CB_NO_REGS, QEMU_PLUGIN_CB_R_REGS, QEMU_PLUGIN_CB_RW_REGS };
typedef void (*executed_fn)(unsigned int cpu, void *with);
typedef void (*translated_fn)(qemu_plugin_id_t id, struct qemu_plugin_tb *block);
typedef void (*ended_fn)(qemu_plugin_id_t id, void *with);
size_t qemu_plugin_tb_n_insns(const struct qemu_plugin_tb *block);
struct qemu_plugin_insn *qemu_plugin_tb_get_insn(const struct qemu_plugin_tb *block, size_t k);
uint64_t qemu_plugin_insn_vaddr(const struct qemu_plugin_insn *insn);
void qemu_plugin_register_vcpu_insn_exec_cb(struct qemu_plugin_insn *insn, executed_fn fn, enum qemu_plugin_cb_flags flags,
                                            void *with);
void qemu_plugin_register_vcpu_tb_trans_cb(qemu_plugin_id_t id, translated_fn fn);
void qemu_plugin_register_atexit_cb(qemu_plugin_id_t id, ended_fn fn, void *with);

#define SHOWN __attribute__((visibility("default")))
SHOWN extern int qemu_plugin_version;
SHOWN int qemu_plugin_install(qemu_plugin_id_t id, const qemu_info_t *info, int argc, char **argv);
int qemu_plugin_version = 1;

/* THE PLACES */

enum kind { ELSEWHERE, LIBRARY, HELPER, CALLER, MARK, ONLY, KINDS };
static const char *const names[KINDS] = {"", "library", "helper", "caller", "mark", "only"};
enum { MOST_PLACES = 256 };
static struct place {
    enum kind kind;
    uint64_t from, end;
} places[MOST_PLACES];
static int place_count;
static int has_only;

static enum kind kind_named(const char *name)
{
    for (int k = 1; k < KINDS; k++)
        if (strcmp(name, names[k]) == 0)
            return (enum kind)k;
    return ELSEWHERE;
}

/* Says whether the address is in a place of this kind. */
static int is_in(enum kind kind, uint64_t at)
{
    for (int k = 0; k < place_count; k++)
        if (places[k].kind == kind && places[k].from <= at && at < places[k].end)
            return 1;
    return 0;
}

/* Says whether a function of this kind begins there. */
static int begins(enum kind kind, uint64_t at)
{
    for (int k = 0; k < place_count; k++)
        if (places[k].kind == kind && places[k].from == at)
            return 1;
    return 0;
}

/* Reads the places; says whether they are well written, with a library and a caller among them. */
static int read_places(const char *file)
{
    char name[16];
    struct place place;
    int good = 1, seen[KINDS] = {0};
    FILE *in = fopen(file, "r");
    if (!in)
        return 0;
    while (good && fscanf(in, "%15s %" SCNx64 " %" SCNx64, name, &place.from, &place.end) == 3) {
        place.kind = kind_named(name);
        good = place.kind != ELSEWHERE && place.from < place.end && place_count < MOST_PLACES;
        seen[place.kind] = 1;
        if (good)
            places[place_count++] = place;
    }
    good = good && feof(in) && seen[LIBRARY] && seen[CALLER];
    has_only = seen[ONLY];
    fclose(in);
    return good;
}

/* COUNTING */

enum { MOST_COUNTS = 32 };
static struct count {
    uint64_t calls, library, elsewhere;
} counts[MOST_COUNTS];
static int count_number;
static int too_many;
static const char *to;

static int inside;                    /* 1 from a call's first instruction to its caller's next */
static struct count *counting = NULL; /* where this call counts, or null */

static void in_library(unsigned int cpu, void *first)
{
    (void)cpu;
    if (!inside) {
        inside = 1;
        counting = has_only && !first ? NULL : &counts[count_number];
        if (counting)
            counting->calls++;
    }
    if (counting)
        counting->library++;
}

static void in_helper(unsigned int cpu, void *with)
{
    (void)cpu, (void)with;
    if (inside && counting)
        counting->library++;
}

static void in_elsewhere(unsigned int cpu, void *with)
{
    (void)cpu, (void)with;
    if (inside && counting)
        counting->elsewhere++;
}

static void in_caller(unsigned int cpu, void *mark)
{
    (void)cpu;
    inside = 0;
    if (mark && count_number + 1 < MOST_COUNTS)
        count_number++;
    else if (mark)
        too_many = 1;
}

/* Looks at a block of instructions before it is executed for the first time. */
static void translated(qemu_plugin_id_t id, struct qemu_plugin_tb *block)
{
    static char yes;
    (void)id;
    for (size_t k = 0; k < qemu_plugin_tb_n_insns(block); k++) {
        struct qemu_plugin_insn *insn = qemu_plugin_tb_get_insn(block, k);
        uint64_t at = qemu_plugin_insn_vaddr(insn);
        executed_fn fn = in_elsewhere;
        void *with = NULL;
        if (is_in(LIBRARY, at)) {
            fn = in_library;
            with = begins(ONLY, at) ? &yes : NULL;
        } else if (is_in(CALLER, at)) {
            fn = in_caller;
            with = begins(MARK, at) ? &yes : NULL;
        } else if (is_in(HELPER, at)) {
            fn = in_helper;
        }
        if (fn != in_caller || with || k == 0) /* a block of the caller ends a call with its first instruction */
            qemu_plugin_register_vcpu_insn_exec_cb(insn, fn, QEMU_PLUGIN_CB_NO_REGS, with);
    }
}

/* Writes the counts at the program's end. */
static void ended(qemu_plugin_id_t id, void *with)
{
    FILE *out = too_many ? NULL : fopen(to, "w");
    (void)id, (void)with;
    if (!out)
        return;
    for (int k = 0; k <= count_number; k++)
        fprintf(out, "%" PRIu64 " %" PRIu64 " %" PRIu64 "\n", counts[k].calls, counts[k].library, counts[k].elsewhere);
    fclose(out);
}

int qemu_plugin_install(qemu_plugin_id_t id, const qemu_info_t *info, int argc, char **argv)
{
    static char name[1024];
    int good = 0;
    (void)info;
    for (int k = 0; k < argc; k++) {
        if (strncmp(argv[k], "places=", 7) == 0) {
            good = read_places(argv[k] + 7);
        } else if (strncmp(argv[k], "to=", 3) == 0 && strlen(argv[k] + 3) < sizeof name) {
            strcpy(name, argv[k] + 3);
            to = name;
        }
    }
    if (!good || !to) {
        fprintf(stderr, "count.c: the places, or where to write, are wrong or missing\n");
        return 1;
    }
    qemu_plugin_register_vcpu_tb_trans_cb(id, translated);
    qemu_plugin_register_atexit_cb(id, ended, NULL);
    return 0;
}
