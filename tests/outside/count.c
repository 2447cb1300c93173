/* A plugin of the emulator: counts the instructions that a program executes, and prints at its end, for each block of code that was executed,
   how many they were, where it stands, and in which function. The emulator's own header is in none of Debian's packages, so what is used of
   it is declared here. */
#include <inttypes.h>
#include <stddef.h>
#include <stdio.h>

struct qemu_plugin_tb;
struct qemu_plugin_insn;
typedef uint64_t plugin_id;

enum { NO_REGISTERS = 0, MOST_BLOCKS = 1 << 18 };

void qemu_plugin_register_vcpu_tb_trans_cb(plugin_id id, void (*found)(plugin_id, struct qemu_plugin_tb *));
void qemu_plugin_register_vcpu_tb_exec_cb(struct qemu_plugin_tb *block, void (*executed)(unsigned, void *), int registers, void *counted);
void qemu_plugin_register_atexit_cb(plugin_id id, void (*ended)(plugin_id, void *), void *unused);
size_t qemu_plugin_tb_n_insns(const struct qemu_plugin_tb *block);
struct qemu_plugin_insn *qemu_plugin_tb_get_insn(const struct qemu_plugin_tb *block, size_t place);
uint64_t qemu_plugin_insn_vaddr(const struct qemu_plugin_insn *instruction);
const char *qemu_plugin_insn_symbol(const struct qemu_plugin_insn *instruction);
void qemu_plugin_outs(const char *text);

__attribute__((visibility("default"))) int qemu_plugin_version = PLUGIN_VERSION;

struct block {
    uint64_t address, length, times;
    const char *function;
};

static struct block blocks[MOST_BLOCKS];
static size_t blocks_found;

static void executed(unsigned processor, void *counted)
{
    (void)processor;
    ((struct block *)counted)->times++;
}

static void found(plugin_id id, struct qemu_plugin_tb *tb)
{
    (void)id;
    if (blocks_found == MOST_BLOCKS)
        return;
    struct block *block = &blocks[blocks_found++];
    struct qemu_plugin_insn *first = qemu_plugin_tb_get_insn(tb, 0);
    block->address = qemu_plugin_insn_vaddr(first);
    block->length = qemu_plugin_tb_n_insns(tb);
    block->function = qemu_plugin_insn_symbol(first);
    qemu_plugin_register_vcpu_tb_exec_cb(tb, executed, NO_REGISTERS, block);
}

static void ended(plugin_id id, void *unused)
{
    char line[256];
    (void)id;
    (void)unused;
    for (size_t at = 0; at < blocks_found; at++) {
        const struct block *block = &blocks[at];
        snprintf(line, sizeof line, "executed\t%" PRIu64 "\t%" PRIx64 "\t%.160s\n", block->times * block->length, block->address,
                 block->function ? block->function : "");
        qemu_plugin_outs(line);
    }
}

__attribute__((visibility("default"))) int qemu_plugin_install(plugin_id id, const void *about, int words, char **given)
{
    (void)about;
    (void)words;
    (void)given;
    qemu_plugin_register_vcpu_tb_trans_cb(id, found);
    qemu_plugin_register_atexit_cb(id, ended, NULL);
    return 0;
}
