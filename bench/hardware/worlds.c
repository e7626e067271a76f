#include "worlds.h"

#include <inttypes.h>
#include <stdlib.h>
#include <string.h>

enum { REGION_MOST = 4096 };

const char *const REGISTER_NAMES[16] = { "rax", "rcx", "rdx", "rbx", "rsp", "rbp", "rsi", "rdi",
                                         "r8",  "r9",  "r10", "r11", "r12", "r13", "r14", "r15" };

static void put_hex(FILE *to, const uint8_t *bytes, size_t size) {
    static const char digits[] = "0123456789abcdef";
    for (size_t at = 0; at < size; at++) {
        putc(digits[bytes[at] >> 4], to);
        putc(digits[bytes[at] & 15], to);
    }
}

FILE *begin_world(const struct tool *tool, const struct state *start) {
    FILE *world = open_in(tool, "WORLD", "w");
    fprintf(world, "e9world 1\n");
    for (int reg = 0; reg < 16; reg++)
        fprintf(world, "%s %016" PRIx64 "\n", REGISTER_NAMES[reg], start->regs[reg]);
    fprintf(world, "flags %016" PRIx64 "\nfs %016" PRIx64 "\ngs %016" PRIx64 "\n", start->flags, start->fs, start->gs);
    return world;
}

void put_region(FILE *world, uint64_t begin, const uint8_t *bytes, size_t size, const char *permissions) {
    for (size_t at = 0; at < size; at += REGION_MOST) {
        size_t some = size - at < REGION_MOST ? size - at : REGION_MOST;
        fprintf(world, "bytes %016" PRIx64 " %s ", begin + at, permissions);
        put_hex(world, bytes + at, some);
        putc('\n', world);
    }
}

void put_zeros(FILE *world, uint64_t begin, uint64_t size) {
    fprintf(world, "zero %016" PRIx64 " %016" PRIx64 " rw-\n", begin, begin + size);
}

void put_question(FILE *world, const uint8_t *bytes, size_t size, const uint64_t *address) {
    fputs("ask ", world);
    put_hex(world, bytes, size);
    if (address)
        fprintf(world, " %016" PRIx64 "\n", *address);
    else
        fputs(" -\n", world);
}

void put_given(FILE *world, const char *name, uint64_t number) {
    fprintf(world, "set %s %016" PRIx64 "\n", name, number);
}

void put_written(FILE *world, uint64_t address, const uint8_t *bytes, size_t size) {
    fprintf(world, "mem %016" PRIx64 " ", address);
    put_hex(world, bytes, size);
    putc('\n', world);
}

void end_world(FILE *world) {
    fputs("end\n", world);
    close_written(world);
}

static const char *next_line(const char *at) {
    const char *end = strchr(at, '\n');
    return end ? end + 1 : at + strlen(at);
}

void read_ending(const char *printed, struct ending *end) {
    const char *at = printed;
    int right = sscanf(at, "steps %" SCNu64, &end->steps) == 1;
    at = next_line(at);
    end->at = 0;
    right = right && sscanf(at, "stop %15s %" SCNx64, end->stop, &end->at) >= 1;
    at = next_line(next_line(at));
    right = right && sscanf(at, "outside %" SCNu64, &end->outside) == 1;
    at = next_line(at);
    right = right && sscanf(at, "rip %" SCNx64, &end->state.rip) == 1;
    uint64_t *numbers[19];
    for (int reg = 0; reg < 16; reg++)
        numbers[reg] = &end->state.regs[reg];
    numbers[16] = &end->state.flags, numbers[17] = &end->state.fs, numbers[18] = &end->state.gs;
    for (int one = 0; one < 19; one++) {
        at = next_line(at);
        right = right && sscanf(at, "%*s %" SCNx64, numbers[one]) == 1;
    }
    at = next_line(at);
    right = right && sscanf(at, "world %" SCNu64, &end->left) == 1;
    if (!right) {
        fprintf(stderr, "hardware: step printed something else: %s\n", printed);
        exit(2);
    }
}
