/* A plugin of qemu-user that counts the instructions that a program runs, but for repeated string instructions, and prints them at its
 * end. Built and used by `run count` on machines that emulate x86-64, where a time says little. The declarations are those of qemu's plugin interface, version 1. */
#include <stddef.h>
#include <stdint.h>
#include <stdio.h>

struct qemu_plugin_tb;
struct qemu_plugin_insn;
typedef struct qemu_info_t qemu_info_t;

extern void qemu_plugin_register_vcpu_tb_trans_cb(uint64_t id, void (*call)(uint64_t, struct qemu_plugin_tb *));
extern size_t qemu_plugin_tb_n_insns(const struct qemu_plugin_tb *tb);
extern struct qemu_plugin_insn *qemu_plugin_tb_get_insn(const struct qemu_plugin_tb *tb, size_t at);
extern const void *qemu_plugin_insn_data(const struct qemu_plugin_insn *insn);
extern void qemu_plugin_register_vcpu_tb_exec_inline(struct qemu_plugin_tb *tb, int op, void *number, uint64_t add);
extern void qemu_plugin_register_atexit_cb(uint64_t id, void (*call)(uint64_t, void *), void *data);

int qemu_plugin_version = 1;

static uint64_t count;

/* A string instruction with a repeat prefix: the emulator translates it alone and runs it once for every unit, where a processor counts
 * one instruction. */
static int repeated(const struct qemu_plugin_tb *tb) {
    if (qemu_plugin_tb_n_insns(tb) != 1) return 0;
    const unsigned char *byte = qemu_plugin_insn_data(qemu_plugin_tb_get_insn(tb, 0));
    if (*byte != 0xF2 && *byte != 0xF3) return 0;
    byte++;
    if ((*byte & 0xF0) == 0x40) byte++;
    return *byte >= 0xA4 && *byte <= 0xAF && *byte != 0xA8 && *byte != 0xA9;
}

static void translated(uint64_t id, struct qemu_plugin_tb *tb) {
    (void)id;
    if (repeated(tb)) return;
    qemu_plugin_register_vcpu_tb_exec_inline(tb, 0 /* add */, &count, qemu_plugin_tb_n_insns(tb));
}

static void ended(uint64_t id, void *data) {
    (void)id;
    (void)data;
    fprintf(stderr, "%llu\n", (unsigned long long)count);
}

int qemu_plugin_install(uint64_t id, const qemu_info_t *info, int argc, char **argv) {
    (void)info;
    (void)argc;
    (void)argv;
    qemu_plugin_register_vcpu_tb_trans_cb(id, translated);
    qemu_plugin_register_atexit_cb(id, ended, NULL);
    return 0;
}
