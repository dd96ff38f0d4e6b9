/* A plugin for qemu-user that counts the instructions between two marks of a program, and writes each count as a line to standard
 * error. A mark is a long nop with a displacement of its own (main.rs has them too). Debian ships no qemu-plugin.h: what is used of
 * its API 1 is declared here. */
#include <inttypes.h>
#include <stddef.h>
#include <stdio.h>
#include <string.h>

typedef uint64_t qemu_plugin_id_t;
struct qemu_plugin_tb;
struct qemu_plugin_insn;
typedef struct qemu_info_t qemu_info_t;
enum qemu_plugin_op { QEMU_PLUGIN_INLINE_ADD_U64 };
enum qemu_plugin_cb_flags { QEMU_PLUGIN_CB_NO_REGS };
extern void qemu_plugin_register_vcpu_tb_trans_cb(qemu_plugin_id_t, void (*)(qemu_plugin_id_t, struct qemu_plugin_tb *));
extern size_t qemu_plugin_tb_n_insns(const struct qemu_plugin_tb *);
extern struct qemu_plugin_insn *qemu_plugin_tb_get_insn(const struct qemu_plugin_tb *, size_t);
extern size_t qemu_plugin_insn_size(const struct qemu_plugin_insn *);
extern const void *qemu_plugin_insn_data(const struct qemu_plugin_insn *);
extern void qemu_plugin_register_vcpu_insn_exec_inline(struct qemu_plugin_insn *, enum qemu_plugin_op, void *, uint64_t);
extern void qemu_plugin_register_vcpu_insn_exec_cb(struct qemu_plugin_insn *, void (*)(unsigned, void *),
                                                   enum qemu_plugin_cb_flags, void *);

#define VISIBLE __attribute__((visibility("default")))
VISIBLE int qemu_plugin_version = 1;

static const unsigned char from[7] = {0x0f, 0x1f, 0x80, 'f', 'r', 'o', 'm'};
static const unsigned char upto[7] = {0x0f, 0x1f, 0x80, 'u', 'p', 't', 'o'};
static uint64_t count, start;

static void at_from(unsigned cpu, void *none) { (void)cpu, (void)none, start = count; }

static void at_upto(unsigned cpu, void *none) { (void)cpu, (void)none, fprintf(stderr, "%" PRIu64 "\n", count - start); }

static void translated(qemu_plugin_id_t id, struct qemu_plugin_tb *block) {
    (void)id;
    for (size_t i = 0; i < qemu_plugin_tb_n_insns(block); i++) {
        struct qemu_plugin_insn *insn = qemu_plugin_tb_get_insn(block, i);
        if (qemu_plugin_insn_size(insn) == sizeof from) {
            const void *bytes = qemu_plugin_insn_data(insn);
            if (memcmp(bytes, from, sizeof from) == 0)
                qemu_plugin_register_vcpu_insn_exec_cb(insn, at_from, QEMU_PLUGIN_CB_NO_REGS, NULL);
            if (memcmp(bytes, upto, sizeof upto) == 0)
                qemu_plugin_register_vcpu_insn_exec_cb(insn, at_upto, QEMU_PLUGIN_CB_NO_REGS, NULL);
        }
        qemu_plugin_register_vcpu_insn_exec_inline(insn, QEMU_PLUGIN_INLINE_ADD_U64, &count, 1);
    }
}

VISIBLE int qemu_plugin_install(qemu_plugin_id_t id, const qemu_info_t *info, int argc, char **argv) {
    (void)info, (void)argc, (void)argv;
    qemu_plugin_register_vcpu_tb_trans_cb(id, translated);
    return 0;
}
