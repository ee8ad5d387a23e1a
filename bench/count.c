/* A plugin of qemu's emulator that counts the instructions which a program executes, and prints their number to stderr at its exit.
 * Declared here is the part of qemu's plugin interface that it uses, since qemu's own header is not installed beside the emulator. */
#include <inttypes.h>
#include <stdio.h>
#include <stdlib.h>

struct qemu_plugin_tb;
struct qemu_plugin_insn;
struct qemu_info;

size_t qemu_plugin_tb_n_insns(const struct qemu_plugin_tb *block);
struct qemu_plugin_insn *qemu_plugin_tb_get_insn(const struct qemu_plugin_tb *block, size_t i);
uint64_t qemu_plugin_insn_vaddr(const struct qemu_plugin_insn *instruction);
void qemu_plugin_register_vcpu_tb_trans_cb(uint64_t plugin, void (*translated)(uint64_t plugin, struct qemu_plugin_tb *block));
void qemu_plugin_register_vcpu_tb_exec_cb(struct qemu_plugin_tb *block, void (*executed)(unsigned processor, void *data), int flags,
                                          void *data);
void qemu_plugin_register_atexit_cb(uint64_t plugin, void (*ended)(uint64_t plugin, void *data), void *data);

/* A block of instructions that are executed one after the other: their number and the addresses of the first and the last. */
struct block {
    uint64_t instructions;
    uint64_t first;
    uint64_t last;
};

/* The version of the interface, which qemu asks for. */
__attribute__((visibility("default"))) int qemu_plugin_version = PLUGIN_VERSION;

static uint64_t total;
static uint64_t last;

/* Counts a block. One that starts with the instruction the block before it ended with is a further round of a repeated string
 * instruction, which a processor counts once. */
static void count(unsigned processor, void *data)
{
    (void)processor;
    const struct block *block = data;
    total += block->instructions - (block->first == last);
    last = block->last;
}

/* Has each block counted whenever it is executed. */
static void translate(uint64_t plugin, struct qemu_plugin_tb *tb)
{
    (void)plugin;
    struct block *block = malloc(sizeof *block);
    if (block == NULL)
        abort();
    block->instructions = qemu_plugin_tb_n_insns(tb);
    block->first = qemu_plugin_insn_vaddr(qemu_plugin_tb_get_insn(tb, 0));
    block->last = qemu_plugin_insn_vaddr(qemu_plugin_tb_get_insn(tb, block->instructions - 1));
    qemu_plugin_register_vcpu_tb_exec_cb(tb, count, 0, block);
}

/* Prints the number at the program's exit. */
static void print_total(uint64_t plugin, void *data)
{
    (void)plugin;
    (void)data;
    fprintf(stderr, "%" PRIu64 "\n", total);
}

/* Called by qemu as it loads the plugin. */
__attribute__((visibility("default"))) int qemu_plugin_install(uint64_t plugin, const struct qemu_info *info, int argc, char **argv)
{
    (void)info;
    (void)argc;
    (void)argv;
    qemu_plugin_register_vcpu_tb_trans_cb(plugin, translate);
    qemu_plugin_register_atexit_cb(plugin, print_total, NULL);
    return 0;
}
