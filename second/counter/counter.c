/* A plugin for the emulator qemu-x86_64: counts the instructions of the program
   that it runs.

     qemu-x86_64 -plugin counter.so,count=FILE PROGRAM ..

   The count lies in the file, a number of 64 bits. Whenever the program reads
   it there, it reads how many instructions it has run up to then.

   Only the first thread counts: what others run meanwhile is chance. */

#define _XOPEN_SOURCE 700
#include <fcntl.h>
#include <stddef.h>
#include <stdint.h>
#include <stdio.h>
#include <string.h>
#include <sys/mman.h>
#include <unistd.h>

/* Of qemu-plugin.h, which is not at hand everywhere. A block is a stretch of
   instructions that are translated together. */
struct qemu_plugin_tb;
struct qemu_plugin_insn;
enum { NO_REGISTERS };
void qemu_plugin_register_vcpu_tb_trans_cb(
    uint64_t plugin, void (*translated)(uint64_t plugin, struct qemu_plugin_tb *block));
size_t qemu_plugin_tb_n_insns(const struct qemu_plugin_tb *block);
struct qemu_plugin_insn *qemu_plugin_tb_get_insn(const struct qemu_plugin_tb *block, size_t place);
void qemu_plugin_register_vcpu_insn_exec_cb(
    struct qemu_plugin_insn *instruction, void (*runs)(unsigned thread, void *data), int registers,
    void *data);

/* What the emulator asks of a plugin: the interface's version, and a start. */
int qemu_plugin_version = 1;
int qemu_plugin_install(uint64_t plugin, const void *emulator, int count, char **arguments);

static uint64_t *counted;

static void instruction_runs(unsigned thread, void *data)
{
    (void)data;
    if (thread == 0)
        ++*counted;
}

/* One by one: the emulator may take one of them out of the block again (if it
   crosses a page), and then counts it in the block's number all the same. */
static void block_translated(uint64_t plugin, struct qemu_plugin_tb *block)
{
    (void)plugin;
    for (size_t place = 0; place < qemu_plugin_tb_n_insns(block); place++)
        qemu_plugin_register_vcpu_insn_exec_cb(
            qemu_plugin_tb_get_insn(block, place), instruction_runs, NO_REGISTERS, NULL);
}

/* The number in a file, for others to read as it changes; null if that cannot be. */
static uint64_t *shared_number(const char *path)
{
    int file = open(path, O_RDWR | O_CREAT | O_TRUNC, 0666);
    if (file < 0 || ftruncate(file, sizeof(uint64_t)) != 0)
        return NULL;
    void *number = mmap(NULL, sizeof(uint64_t), PROT_READ | PROT_WRITE, MAP_SHARED, file, 0);
    close(file);
    return number == MAP_FAILED ? NULL : number;
}

int qemu_plugin_install(uint64_t plugin, const void *emulator, int count, char **arguments)
{
    (void)emulator;
    if (count != 1 || strncmp(arguments[0], "count=", strlen("count=")) != 0) {
        fprintf(stderr, "counter: one argument, count=FILE\n");
        return 1;
    }
    const char *path = arguments[0] + strlen("count=");
    counted = shared_number(path);
    if (!counted) {
        perror(path);
        return 1;
    }
    qemu_plugin_register_vcpu_tb_trans_cb(plugin, block_translated);
    return 0;
}
