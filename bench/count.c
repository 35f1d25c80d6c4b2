/* A plugin of qemu's user mode: counts the instructions that a program runs, and writes their number to standard error as it ends.
 *
 * Debian has no header for plugins, so the few functions of qemu's that are used are declared here. VERSION is the version of qemu's interface
 * that the plugin asks for: these functions are the same in all of them. */
#include <stdint.h>
#include <stdio.h>

struct block;
struct instruction;

void qemu_plugin_register_vcpu_tb_trans_cb(uint64_t plugin, void (*call)(uint64_t plugin, struct block *block));
size_t qemu_plugin_tb_n_insns(const struct block *block);
struct instruction *qemu_plugin_tb_get_insn(const struct block *block, size_t index);
void qemu_plugin_register_vcpu_insn_exec_cb(struct instruction *instruction, void (*call)(unsigned processor, void *data), int flags, void *data);
void qemu_plugin_register_atexit_cb(uint64_t plugin, void (*call)(uint64_t plugin, void *data), void *data);
int qemu_plugin_install(uint64_t plugin, const void *about, int count, char **words);

int qemu_plugin_version = VERSION;

static uint64_t instructions;

static void runs(unsigned processor, void *data) {
    (void)processor, (void)data;
    instructions++;
}

/* A block of the program is met for the first time. Each of its instructions is counted whenever it runs: a block may be left in the middle. */
static void meets(uint64_t plugin, struct block *block) {
    (void)plugin;
    for (size_t i = 0; i < qemu_plugin_tb_n_insns(block); i++)
        qemu_plugin_register_vcpu_insn_exec_cb(qemu_plugin_tb_get_insn(block, i), runs, 0, NULL);
}

static void ends(uint64_t plugin, void *data) {
    (void)plugin, (void)data;
    fprintf(stderr, "instructions %llu\n", (unsigned long long)instructions);
}

int qemu_plugin_install(uint64_t plugin, const void *about, int count, char **words) {
    (void)about, (void)count, (void)words;
    qemu_plugin_register_vcpu_tb_trans_cb(plugin, meets);
    qemu_plugin_register_atexit_cb(plugin, ends, NULL);
    return 0;
}
