/* A plugin for qemu-x86_64 (7.2 to 8.x, plugin API 1) that counts the instructions of a program by phase.
 *     qemu-x86_64 -plugin libicount.so[,symbols=N] PROGRAM
 * A phase is what runs from one call of the function bench_mark to the next. At each call it prints to stderr `phase K: COUNT`,
 * and with symbols=N the N symbols with most instructions in that phase.
 * The prototypes are those of qemu-plugin.h (GPL-2.0-or-later), of which Debian has no package. */
#include <stdbool.h>
#include <stddef.h>
#include <stdint.h>
#include <stdio.h>
#include <stdlib.h>
#include <string.h>
typedef uint64_t qemu_plugin_id_t;
typedef struct { const char *target_name; struct { int min, cur; } version; bool system_emulation; union { struct { int smp_vcpus, max_vcpus; } system; }; } qemu_info_t;
struct qemu_plugin_tb;
struct qemu_plugin_insn;
void qemu_plugin_register_vcpu_tb_trans_cb(qemu_plugin_id_t, void (*)(qemu_plugin_id_t, struct qemu_plugin_tb *));
void qemu_plugin_register_vcpu_tb_exec_cb(struct qemu_plugin_tb *, void (*)(unsigned, void *), int, void *);
void qemu_plugin_register_vcpu_insn_exec_inline(struct qemu_plugin_insn *, int, void *, uint64_t);
size_t qemu_plugin_tb_n_insns(const struct qemu_plugin_tb *);
uint64_t qemu_plugin_tb_vaddr(const struct qemu_plugin_tb *);
struct qemu_plugin_insn *qemu_plugin_tb_get_insn(const struct qemu_plugin_tb *, size_t);
const char *qemu_plugin_insn_symbol(const struct qemu_plugin_insn *);
#define VISIBLE __attribute__((visibility("default")))
VISIBLE int qemu_plugin_version = 1;

struct symbol { char *name; uint64_t count, before; };
static struct symbol symbols[1 << 16];
static size_t met, shown;
static uint64_t total, before, marks, mark_address;

static struct symbol *symbol_of(const char *name) {
    for (size_t i = 0; i < met; i++)
        if (!strcmp(symbols[i].name, name)) return &symbols[i];
    symbols[met].name = strdup(name);
    return &symbols[met++];
}

static int by_count(const void *a, const void *b) {
    const struct symbol *x = *(struct symbol *const *)a, *y = *(struct symbol *const *)b;
    uint64_t p = x->count - x->before, q = y->count - y->before;
    return p < q ? 1 : p > q ? -1 : 0;
}

static void on_mark(unsigned cpu, void *unused) {
    fprintf(stderr, "phase %lu: %lu\n", (unsigned long)marks++, (unsigned long)(total - before));
    before = total;
    struct symbol **order = malloc((met + 1) * sizeof *order);
    for (size_t i = 0; i < met; i++) order[i] = &symbols[i];
    qsort(order, met, sizeof *order, by_count);
    for (size_t i = 0; i < met && i < shown && order[i]->count > order[i]->before; i++)
        fprintf(stderr, "%14lu %s\n", (unsigned long)(order[i]->count - order[i]->before), order[i]->name);
    free(order);
    for (size_t i = 0; i < met; i++) symbols[i].before = symbols[i].count;
}

static void on_block(qemu_plugin_id_t id, struct qemu_plugin_tb *block) {
    size_t n = qemu_plugin_tb_n_insns(block);
    const char *name = qemu_plugin_insn_symbol(qemu_plugin_tb_get_insn(block, 0));
    if (name && !strcmp(name, "bench_mark")) {
        uint64_t at = qemu_plugin_tb_vaddr(block);
        if (!mark_address) mark_address = at; /* the block that is met first is the function's entry */
        if (at == mark_address) qemu_plugin_register_vcpu_tb_exec_cb(block, on_mark, 0, NULL);
    }
    for (size_t k = 0; k < n; k++) {
        struct qemu_plugin_insn *insn = qemu_plugin_tb_get_insn(block, k);
        const char *of = shown ? qemu_plugin_insn_symbol(insn) : NULL;
        if (shown) qemu_plugin_register_vcpu_insn_exec_inline(insn, 0, &symbol_of(of && *of ? of : "libc")->count, 1);
        /* one by one: qemu 7.2 counts in a block's length also an instruction that it put off because it crosses a page */
        qemu_plugin_register_vcpu_insn_exec_inline(insn, 0, &total, 1);
    }
}

VISIBLE int qemu_plugin_install(qemu_plugin_id_t id, const qemu_info_t *info, int argc, char **argv) {
    for (int i = 0; i < argc; i++)
        if (!strncmp(argv[i], "symbols=", 8)) shown = (size_t)atoi(argv[i] + 8);
    qemu_plugin_register_vcpu_tb_trans_cb(id, on_block);
    return 0;
}
