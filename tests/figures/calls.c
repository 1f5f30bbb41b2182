/* A plugin for the emulator, of a program or of a board: counts what calls of the archive execute. The argument symbols=FILE names a file of lines KIND ADDRESS SIZE
 * NAME, numbers in hex without 0x; KIND says what the place is:
 *   archive  a function of the archive: the instructions inside it are counted
 *   library  a function of the compiler's library that the archive asks for: calls and instructions
 *   beside   code that leads to such a function: instructions
 *   memory   a function that moves or clears memory: calls
 *   byte     the program comes there once for each byte that such a function moves or clears
 *   call     the program comes there before each call of the archive
 *   series   the program comes there behind the last call of a series
 * A line for each series is written to standard error: its number, how many calls, and mean and largest of the archive's instructions, of calls and bytes of the memory
 * functions, and of calls and instructions of the library. With profile=yes the functions of the archive follow, each with its mean, and with places=yes each of
 * its instructions that was executed, by address, with the mean and the largest number of times in one call. An instruction that a condition switches off counts too.
 * The emulator's functions are declared here as far as they are used, since its header is not in every package. */
#include <inttypes.h>
#include <stdio.h>
#include <stdlib.h>
#include <string.h>

struct qemu_plugin_tb;
struct qemu_plugin_insn;

void qemu_plugin_register_vcpu_tb_trans_cb(uint64_t id, void (*)(uint64_t, struct qemu_plugin_tb *));
void qemu_plugin_register_vcpu_tb_exec_inline(struct qemu_plugin_tb *, int op, void *, uint64_t);
void qemu_plugin_register_vcpu_tb_exec_cb(struct qemu_plugin_tb *, void (*)(unsigned int, void *), int flags, void *);
size_t qemu_plugin_tb_n_insns(const struct qemu_plugin_tb *);
uint64_t qemu_plugin_tb_vaddr(const struct qemu_plugin_tb *);
struct qemu_plugin_insn *qemu_plugin_tb_get_insn(const struct qemu_plugin_tb *, size_t);
uint64_t qemu_plugin_insn_vaddr(const struct qemu_plugin_insn *);
void qemu_plugin_register_vcpu_insn_exec_inline(struct qemu_plugin_insn *, int op, void *, uint64_t);

int qemu_plugin_version = 1;

enum { ARCHIVE, LIBRARY, BESIDE, MEMORY, BYTE, CALL, SERIES, KINDS };
static const char *const kinds[KINDS] = {"archive", "library", "beside", "memory", "byte", "call", "series"};

struct place {
    uint64_t ran, before_call, before_series, most;
};

/* A function, with its instructions by their distance from its begin where they are looked at one by one. */
struct symbol {
    int kind;
    uint64_t from, size;
    char name[400];
    struct place *places;
};
static struct symbol *symbols;
static size_t symbol_count;

enum { INSTRUCTIONS, MEMORY_CALLS, BYTES, LIBRARY_CALLS, LIBRARY_INSTRUCTIONS, FIGURES };
static uint64_t counted[FIGURES], before[FIGURES], sum[FIGURES], most[FIGURES], calls;
static int in_call, series, profile, each_place;

static void close_call(void)
{
    if (!in_call)
        return;
    for (int i = 0; i < FIGURES; i++) {
        uint64_t n = counted[i] - before[i];
        sum[i] += n;
        if (n > most[i])
            most[i] = n;
    }
    for (struct symbol *s = symbols; profile && s < symbols + symbol_count; s++)
        for (struct place *p = s->places; s->places && p < s->places + s->size; p++) {
            if (p->ran - p->before_call > p->most)
                p->most = p->ran - p->before_call;
            p->before_call = p->ran;
        }
    calls++;
    in_call = 0;
}

/* The archive runs in calls alone, so that nothing is executed between the end of one and the begin of the next. */
static void call_begins(unsigned int cpu, void *unused)
{
    (void)cpu;
    (void)unused;
    close_call();
    memcpy(before, counted, sizeof before);
    in_call = 1;
}

static void show_profile(void)
{
    for (struct symbol *s = symbols; s < symbols + symbol_count; s++) {
        uint64_t all = 0;
        for (uint64_t i = 0; s->places && i < s->size; i++) {
            struct place *p = &s->places[i];
            uint64_t ran = p->ran - p->before_series;
            all += ran;
            if (ran && each_place)
                fprintf(stderr, "place %d %" PRIx64 " %.2f %" PRIu64 "\n", series, s->from + i, (double)ran / (double)calls, p->most);
            p->before_series = p->ran;
            p->most = 0;
        }
        if (all)
            fprintf(stderr, "function %d %.1f %s\n", series, (double)all / (double)calls, s->name);
    }
}

static void series_ends(unsigned int cpu, void *unused)
{
    (void)cpu;
    (void)unused;
    close_call();
    fprintf(stderr, "series %d calls %" PRIu64, series, calls);
    for (int i = 0; i < FIGURES; i++)
        fprintf(stderr, " %.1f %" PRIu64, calls ? (double)sum[i] / (double)calls : 0.0, most[i]);
    fprintf(stderr, "\n");
    if (profile)
        show_profile();
    memset(sum, 0, sizeof sum);
    memset(most, 0, sizeof most);
    calls = 0;
    series++;
}

/* One by one: where an instruction of x86-64 lies across a boundary of pages the emulator ends the block before it, but numbers the instructions with it. */
static void count_instruction(struct symbol *s, struct qemu_plugin_insn *instruction)
{
    uint64_t at = (qemu_plugin_insn_vaddr(instruction) & ~UINT64_C(1)) - s->from;
    qemu_plugin_register_vcpu_insn_exec_inline(instruction, 0, &counted[s->kind == ARCHIVE ? INSTRUCTIONS : LIBRARY_INSTRUCTIONS], 1);
    if (!profile || s->kind != ARCHIVE)
        return;
    if (!s->places)
        s->places = calloc(s->size, sizeof *s->places);
    if (!s->places || at >= s->size)
        abort();
    qemu_plugin_register_vcpu_insn_exec_inline(instruction, 0, &s->places[at].ran, 1);
}

static void translated(uint64_t id, struct qemu_plugin_tb *tb)
{
    uint64_t here = qemu_plugin_tb_vaddr(tb) & ~UINT64_C(1);
    size_t count = qemu_plugin_tb_n_insns(tb);
    (void)id;
    for (size_t i = 0; i < symbol_count; i++) {
        struct symbol *s = &symbols[i];
        int first = here == s->from, inside = here >= s->from && here < s->from + s->size;
        if (first && s->kind == CALL)
            qemu_plugin_register_vcpu_tb_exec_cb(tb, call_begins, 0, NULL);
        if (first && s->kind == SERIES)
            qemu_plugin_register_vcpu_tb_exec_cb(tb, series_ends, 0, NULL);
        if (first && s->kind == MEMORY)
            qemu_plugin_register_vcpu_tb_exec_inline(tb, 0, &counted[MEMORY_CALLS], 1);
        if (first && s->kind == BYTE)
            qemu_plugin_register_vcpu_tb_exec_inline(tb, 0, &counted[BYTES], 1);
        if (first && s->kind == LIBRARY)
            qemu_plugin_register_vcpu_tb_exec_inline(tb, 0, &counted[LIBRARY_CALLS], 1);
        if (inside && s->kind <= BESIDE)
            for (size_t k = 0; k < count; k++)
                count_instruction(s, qemu_plugin_tb_get_insn(tb, k));
    }
}

static int read_symbols(const char *name)
{
    char kind[16];
    struct symbol s;
    FILE *file = fopen(name, "r");
    if (!file)
        return 0;
    memset(&s, 0, sizeof s);
    while (fscanf(file, "%15s %" SCNx64 " %" SCNx64 " %399s", kind, &s.from, &s.size, s.name) == 4) {
        for (s.kind = 0; s.kind < KINDS && strcmp(kind, kinds[s.kind]); s.kind++)
            ;
        s.from &= ~UINT64_C(1);
        symbols = realloc(symbols, (symbol_count + 1) * sizeof s);
        if (s.kind == KINDS || !symbols)
            return 0;
        symbols[symbol_count++] = s;
    }
    fclose(file);
    return symbol_count > 0;
}

int qemu_plugin_install(uint64_t id, const void *info, int count, char **arguments)
{
    int known = 0;
    (void)info;
    for (int i = 0; i < count; i++) {
        if (!strncmp(arguments[i], "symbols=", 8))
            known = read_symbols(arguments[i] + 8);
        profile |= !strcmp(arguments[i], "profile=yes") || !strcmp(arguments[i], "places=yes");
        each_place |= !strcmp(arguments[i], "places=yes");
    }
    if (!known) {
        fprintf(stderr, "calls: symbols=FILE is missing, or cannot be read\n");
        return 1;
    }
    qemu_plugin_register_vcpu_tb_trans_cb(id, translated);
    return 0;
}
