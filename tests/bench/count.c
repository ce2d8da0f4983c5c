/* A plugin for qemu-user that counts executed instructions: each translated block adds its own number of instructions
 * every time it runs, and the sum is printed at the end. With an argument (`count.so,reads=on`) it is also printed whenever the
 * program reads its standard input: one that answers file after file can so be counted file by file without being started
 * anew. The count depends on the program and its input alone, so it is the same on every machine. The few declarations of
 * the emulator's plugin interface (version 1) that it needs stand here, since Debian ships no header for them. */
#include <inttypes.h>
#include <stddef.h>
#include <stdint.h>
#include <stdio.h>

typedef uint64_t plugin_id;
struct qemu_plugin_tb;
struct plugin_info;
enum { INLINE_ADD_U64, READ_CALL = 0, STANDARD_INPUT = 0, STANDARD_ERROR = 2 };
typedef void called(plugin_id, unsigned, int64_t, uint64_t, uint64_t, uint64_t, uint64_t, uint64_t, uint64_t, uint64_t, uint64_t);

extern void qemu_plugin_register_vcpu_tb_trans_cb(plugin_id id, void (*made)(plugin_id, struct qemu_plugin_tb *));
extern size_t qemu_plugin_tb_n_insns(const struct qemu_plugin_tb *block);
extern void qemu_plugin_register_vcpu_tb_exec_inline(struct qemu_plugin_tb *block, int op, void *counter, uint64_t by);
extern void qemu_plugin_register_vcpu_syscall_cb(plugin_id id, called *call);
extern void qemu_plugin_register_atexit_cb(plugin_id id, void (*done)(plugin_id, void *), void *data);

__attribute__((visibility("default"))) int qemu_plugin_version = 1;

static uint64_t executed;

static void made(plugin_id id, struct qemu_plugin_tb *block)
{
    (void)id;
    qemu_plugin_register_vcpu_tb_exec_inline(block, INLINE_ADD_U64, &executed, qemu_plugin_tb_n_insns(block));
}

/* The numbers of system calls are those of x86-64, for which both programs are compiled. */
static void call(plugin_id id, unsigned processor, int64_t number, uint64_t first, uint64_t a2, uint64_t a3, uint64_t a4,
                 uint64_t a5, uint64_t a6, uint64_t a7, uint64_t a8)
{
    (void)id, (void)processor, (void)a2, (void)a3, (void)a4, (void)a5, (void)a6, (void)a7, (void)a8;
    if (number == READ_CALL && first == STANDARD_INPUT)
        dprintf(STANDARD_ERROR, "%" PRIu64 "\n", executed);
}

static void done(plugin_id id, void *data)
{
    (void)id;
    (void)data;
    fprintf(stderr, "instructions %" PRIu64 "\n", executed);
}

__attribute__((visibility("default")))
int qemu_plugin_install(plugin_id id, const struct plugin_info *info, int argc, char **argv)
{
    (void)info;
    (void)argv;
    qemu_plugin_register_vcpu_tb_trans_cb(id, made);
    if (argc > 0)
        qemu_plugin_register_vcpu_syscall_cb(id, call);
    qemu_plugin_register_atexit_cb(id, done, NULL);
    return 0;
}
