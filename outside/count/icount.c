/* Counts the instructions that a guest executes: a plugin for qemu-user 7.2 (plugin API version 1), which no package has the header of,
 * so what is needed of it is declared here.
 *
 *   gcc -O2 -shared -fPIC -o icount.so icount.c
 *   qemu-x86_64 -plugin ./icount.so,out=FILE PROGRAM
 *
 * FILE gets a line `I N` for each mark that the guest made, N instructions having been executed, and at the end `end N`. A mark is a system
 * call of number 4096, which there is none of, with I as its first argument. An instruction with a repeat prefix counts once for each time. */
#include <inttypes.h>
#include <stddef.h>
#include <stdio.h>
#include <string.h>

#define MARK 4096

typedef uint64_t qemu_plugin_id_t;
struct qemu_plugin_tb;
struct qemu_plugin_insn;
struct qemu_info_t;
enum qemu_plugin_op { QEMU_PLUGIN_INLINE_ADD_U64 };
typedef void (*on_block_t)(qemu_plugin_id_t, struct qemu_plugin_tb *);
typedef void (*on_syscall_t)(qemu_plugin_id_t, unsigned, int64_t, uint64_t, uint64_t, uint64_t, uint64_t, uint64_t, uint64_t, uint64_t, uint64_t);
typedef void (*on_end_t)(qemu_plugin_id_t, void *);
extern void qemu_plugin_register_vcpu_tb_trans_cb(qemu_plugin_id_t, on_block_t);
extern void qemu_plugin_register_vcpu_syscall_cb(qemu_plugin_id_t, on_syscall_t);
extern void qemu_plugin_register_atexit_cb(qemu_plugin_id_t, on_end_t, void *);
extern void qemu_plugin_register_vcpu_insn_exec_inline(struct qemu_plugin_insn *, enum qemu_plugin_op, void *, uint64_t);
extern size_t qemu_plugin_tb_n_insns(const struct qemu_plugin_tb *);
extern struct qemu_plugin_insn *qemu_plugin_tb_get_insn(const struct qemu_plugin_tb *, size_t);

__attribute__((visibility("default"))) int qemu_plugin_version = 1;

static uint64_t executed;
static FILE *out;

static void on_block(qemu_plugin_id_t id, struct qemu_plugin_tb *tb) {
    (void)id;
    for (size_t i = 0; i < qemu_plugin_tb_n_insns(tb); i++)
        qemu_plugin_register_vcpu_insn_exec_inline(qemu_plugin_tb_get_insn(tb, i), QEMU_PLUGIN_INLINE_ADD_U64, &executed, 1);
}

static void on_syscall(qemu_plugin_id_t id, unsigned cpu, int64_t number, uint64_t a1, uint64_t a2, uint64_t a3, uint64_t a4, uint64_t a5, uint64_t a6,
                       uint64_t a7, uint64_t a8) {
    (void)id, (void)cpu, (void)a2, (void)a3, (void)a4, (void)a5, (void)a6, (void)a7, (void)a8;
    if (number == MARK) fprintf(out, "%" PRIu64 " %" PRIu64 "\n", a1, executed);
}

static void on_end(qemu_plugin_id_t id, void *nothing) {
    (void)id, (void)nothing;
    fprintf(out, "end %" PRIu64 "\n", executed);
    fclose(out);
}

__attribute__((visibility("default"))) int qemu_plugin_install(qemu_plugin_id_t id, const struct qemu_info_t *info, int argc, char **argv) {
    (void)info;
    if (argc != 1 || strncmp(argv[0], "out=", 4) != 0 || (out = fopen(argv[0] + 4, "w")) == NULL) return -1;
    qemu_plugin_register_vcpu_tb_trans_cb(id, on_block);
    qemu_plugin_register_vcpu_syscall_cb(id, on_syscall);
    qemu_plugin_register_atexit_cb(id, on_end, NULL);
    return 0;
}
