/* QEMU's account of the machine (the start information of the PVH entry), read once. */
#include "frames.h"
#include "account.h"
#include "machine.h"

/* QEMU's account (hvm_start_info, version 1) */
struct start_info {
    uint32_t magic, version, flags, modules;
    uint64_t module_list, command_line, rsdp, memory_map;
    uint32_t memory_entries, reserved;
};
struct memory {
    uint64_t from, size;
    uint32_t kind, reserved;
};
enum { MAGIC = 0x336ec578, RAM = 1 };

static uint64_t gibs[GIBS], rounds;
static unsigned found;

static void read_rounds(const char *text) {
    for (; text && *text; text++)
        if (*text >= '0' && *text <= '9') rounds = rounds * 10 + (uint64_t)(*text - '0');
}

void read_start_info(uint64_t at) {
    const struct start_info *info = (const struct start_info *)at;
    if (info->magic != MAGIC || info->version < 1) give_up("no account of the machine at %x", at);
    const struct memory *memory = (const struct memory *)info->memory_map;
    for (uint32_t n = 0; n < info->memory_entries; n++) {
        uint64_t from = (memory[n].from + GIB1 - 1) / GIB1 * GIB1, to = memory[n].from + memory[n].size;
        if (from == 0) from = GIB1;
        for (; memory[n].kind == RAM && from + GIB1 <= to && found < GIBS; from += GIB1) gibs[found++] = from;
    }
    if (found < GIBS) give_up("only %u whole GiB of memory beside the first", (uint64_t)found);
    read_rounds((const char *)info->command_line);
}

uint64_t gib(unsigned n) { return gibs[n]; }

uint64_t rounds_asked(uint64_t otherwise) { return rounds ? rounds : otherwise; }

int is_buffer(uint64_t frame) {
    for (unsigned n = 0; n < GIBS; n++)
        if (frame >= gibs[n] && frame < gibs[n] + GIB1) return 1;
    return 0;
}
