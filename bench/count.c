/* A plugin for qemu-user: counts the guest's instructions, a block at a time. The guest makes two system calls that no kernel has:
 *
 *     0x7a11          the count starts afresh
 *     0x7a13, file    the count, eight bytes, is written to that file descriptor of the guest's own
 *
 * A system call ends a block, so the count between two of them is exact. The few names of qemu's plugin interface, version 1, are
 * declared here, as not every package of qemu has its header. */
#include <stddef.h>
#include <stdint.h>
#include <stdio.h>
#include <unistd.h>

typedef uint64_t id;
struct qemu_plugin_tb;
struct qemu_plugin_insn;
struct qemu_info_t;
void qemu_plugin_register_vcpu_tb_trans_cb(id, void (*)(id, struct qemu_plugin_tb *));
void qemu_plugin_register_vcpu_tb_exec_inline(struct qemu_plugin_tb *, int operation, void *target, uint64_t number);
void qemu_plugin_register_vcpu_insn_exec_inline(struct qemu_plugin_insn *, int operation, void *target, uint64_t number);
size_t qemu_plugin_tb_n_insns(const struct qemu_plugin_tb *);
struct qemu_plugin_insn *qemu_plugin_tb_get_insn(const struct qemu_plugin_tb *, size_t);
void qemu_plugin_register_vcpu_syscall_cb(id, void (*)(id, unsigned, int64_t, uint64_t, uint64_t, uint64_t, uint64_t, uint64_t,
    uint64_t, uint64_t, uint64_t));

int qemu_plugin_version = 1;
static uint64_t count;

/* The last instruction of a block counts for itself: where it crosses the end of a page, qemu 7.2 names it here and then leaves it
 * to the next block, and it would count twice. */
static void translated(id plugin, struct qemu_plugin_tb *block)
{
    enum { ADD = 0 };
    size_t last = qemu_plugin_tb_n_insns(block) - 1;
    (void)plugin;
    qemu_plugin_register_vcpu_tb_exec_inline(block, ADD, &count, last);
    qemu_plugin_register_vcpu_insn_exec_inline(qemu_plugin_tb_get_insn(block, last), ADD, &count, 1);
}

static void called(id plugin, unsigned processor, int64_t number, uint64_t file, uint64_t b, uint64_t c, uint64_t d, uint64_t e,
    uint64_t f, uint64_t g, uint64_t h)
{
    (void)plugin, (void)processor, (void)b, (void)c, (void)d, (void)e, (void)f, (void)g, (void)h;
    if (number == 0x7a11)
        count = 0;
    if (number == 0x7a13 && write((int)file, &count, sizeof count) != sizeof count)
        perror("count");
}

int qemu_plugin_install(id plugin, const struct qemu_info_t *machine, int words, char **word)
{
    (void)machine, (void)words, (void)word;
    qemu_plugin_register_vcpu_tb_trans_cb(plugin, translated);
    qemu_plugin_register_vcpu_syscall_cb(plugin, called);
    return 0;
}
