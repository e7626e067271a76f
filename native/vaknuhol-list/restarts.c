#include "restarts.h"

#include <string.h>

#include "refusing.h"

/* The signature before an abort address, on x86, of those who don't choose another; flags of a sequence that were once in use. */
enum { SIGNATURE = 0x53053053, SIGNATURE_BYTES = 4, FLAGS = 7, LONGEST = 4096, MOST_BEFORE = 32 };

/* struct rseq_cs of linux/rseq.h. */
struct description {
    uint32_t version, flags;
    uint64_t start, length, abort;
};

static bool has_signature(const struct program *program, uint64_t addr) {
    uint32_t word = 0;
    const uint8_t *bytes = bytes_at(program, addr - sizeof word, sizeof word);
    if (bytes)
        memcpy(&word, bytes, sizeof word);
    return word == SIGNATURE;
}

static bool is_sequence(const struct program *program, const struct description *one) {
    return !one->version && one->flags <= FLAGS && one->length && one->length <= LONGEST && in_text(program, one->start)
           && in_text(program, one->start + one->length - 1) && in_text(program, one->abort) && one->abort - one->start >= one->length;
}

/* From what begins the sequence, as it tells the kernel of it, on. */
static uint32_t begin_of(const struct evidence *it, uint32_t start) {
    const struct instruction *one = one_before(it, start);
    for (int count = 0; one && one->kind == FALLS && count < MOST_BEFORE; count++, one = one_before(it, start))
        start = one->addr;
    return start;
}

static void take(struct evidence *it, const uint8_t *bytes, bool is_told) {
    struct description one;
    memcpy(&one, bytes, sizeof one);
    if (!is_sequence(it->program, &one) || !(is_told || has_signature(it->program, one.abort)))
        return;
    for (size_t at = 0; at < it->restart_count; at++)
        if (it->restarts[at].range.lo == one.start)
            return;
    it->restarts = room_for_one(it->restarts, it->restart_count, &it->restart_capacity, sizeof *it->restarts);
    it->restarts[it->restart_count++] = (struct restart){begin_of(it, (uint32_t)one.start),
                                                         {(uint32_t)one.start, (uint32_t)(one.start + one.length)},
                                                         {(uint32_t)one.abort - SIGNATURE_BYTES, (uint32_t)one.abort}};
}

static void take_section(struct evidence *it, const Elf64_Shdr *section) {
    const uint8_t *bytes = section_bytes(it->program, section);
    for (uint64_t at = 0; bytes && at + sizeof(struct description) <= section->sh_size; at += sizeof(struct description))
        take(it, bytes + at, true);
}

void find_restarts(struct evidence *it) {
    const struct program *program = it->program;
    for (int at = 0; at < program->elf.section_count; at++)
        if (!strcmp(section_name(program, program->elf.sections + at), "__rseq_cs"))
            take_section(it, program->elf.sections + at);
    for (int at = 0; at < program->segment_count; at++) {
        const struct segment *segment = program->segments + at;
        for (uint64_t place = -segment->addr & 7; place + sizeof(struct description) <= segment->in_file; place += 8)
            if (!in_text(program, segment->addr + place))
                take(it, segment->bytes + place, false);
    }
}

static bool meets(const struct instruction *one, uint32_t lo, uint32_t hi) { return one->addr < hi && one->addr + one->length > lo; }

bool is_restarted(const struct evidence *it, const struct instruction *one) {
    for (size_t at = 0; at < it->restart_count; at++) {
        const struct restart *restart = it->restarts + at;
        if (meets(one, restart->begin, restart->range.hi) || meets(one, restart->signature.lo, restart->signature.hi))
            return true;
    }
    return false;
}
