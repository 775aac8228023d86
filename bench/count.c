/* A plugin of Debian's qemu-user: counts the guest instructions of a whole run, and says at its end how many, in the words
   that valgrind's lackey uses. Debian has no header for plugins, so the few things that are used are declared here. */

#include <stdint.h>
#include <stdio.h>

typedef uint64_t plugin_id;
struct block;

extern size_t qemu_plugin_tb_n_insns(const struct block *block);
extern void qemu_plugin_register_vcpu_tb_trans_cb(plugin_id id, void (*translated)(plugin_id, struct block *));
extern void qemu_plugin_register_vcpu_tb_exec_inline(struct block *block, int operation, void *counter, uint64_t more);
extern void qemu_plugin_register_atexit_cb(plugin_id id, void (*ended)(plugin_id, void *), void *with);

/* The interface of qemu 7.2. */
__attribute__((visibility("default"))) int qemu_plugin_version = 1;

enum { ADD = 0 };

static uint64_t count;

/* Each time that a block of instructions runs, it adds as many as it has. */
static void translated(plugin_id id, struct block *block) {
    (void)id;
    qemu_plugin_register_vcpu_tb_exec_inline(block, ADD, &count, qemu_plugin_tb_n_insns(block));
}

static void ended(plugin_id id, void *with) {
    (void)id;
    (void)with;
    fprintf(stderr, "guest instrs: %llu\n", (unsigned long long)count);
}

__attribute__((visibility("default"))) int qemu_plugin_install(plugin_id id, const void *about, int words, char **word) {
    (void)about;
    (void)words;
    (void)word;
    qemu_plugin_register_vcpu_tb_trans_cb(id, translated);
    qemu_plugin_register_atexit_cb(id, ended, 0);
    return 0;
}
