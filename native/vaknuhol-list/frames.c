#include "frames.h"

#include <string.h>

/* Encodings of pointers: the low four bits are the form, the next three what they are relative to. */
enum { ABSOLUTE = 0, UDATA2 = 2, UDATA4 = 3, UDATA8 = 4, SDATA2 = 10, SDATA4 = 11, SDATA8 = 12, RELATIVE = 0x10, OMITTED = 0xFF };

/* Bytes that are read from the front on; `ok` falls where more is read than there is. */
struct reader {
    const uint8_t *bytes;
    uint64_t left, addr;
    bool ok;
};

/* What a common information entry tells of its frames. */
struct common {
    uint64_t offset;
    int encoding;
    bool is_signal;
};

static const uint8_t *take(struct reader *from, uint64_t count) {
    const uint8_t *bytes = from->bytes;
    if (count > from->left) {
        from->ok = false;
        return NULL;
    }
    from->bytes += count;
    from->left -= count;
    from->addr += count;
    return bytes;
}

static uint32_t take_word(struct reader *from) {
    uint32_t word = 0;
    const uint8_t *bytes = take(from, 4);
    if (bytes)
        memcpy(&word, bytes, 4);
    return word;
}

static int take_byte(struct reader *from) {
    const uint8_t *bytes = take(from, 1);
    return bytes ? *bytes : 0;
}

static void skip_leb(struct reader *from) {
    while (from->ok && take_byte(from) & 0x80)
        continue;
}

static uint64_t take_pointer(struct reader *from, int encoding) {
    uint64_t base = encoding & RELATIVE ? from->addr : 0, value = 0;
    int form = encoding & 15, length = form == UDATA2 || form == SDATA2 ? 2 : form == UDATA4 || form == SDATA4 ? 4 : 8;
    const uint8_t *bytes = take(from, (uint64_t)length);
    if (!bytes || encoding == OMITTED)
        return 0;
    memcpy(&value, bytes, (size_t)length);
    if (form == SDATA2)
        value = (uint64_t)(int16_t)value;
    if (form == SDATA4)
        value = (uint64_t)(int32_t)value;
    return base + value;
}

/* The encoding of the frames' pointers, and whether they are frames of signal handlers. */
static struct common read_common(struct reader from, uint64_t offset) {
    struct common found = {offset, ABSOLUTE, false};
    take_byte(&from);
    const char *letter = (const char *)from.bytes;
    while (from.ok && take_byte(&from))
        continue;
    if (!from.ok || *letter != 'z')
        return found;
    skip_leb(&from); /* code alignment, data alignment, return address, length of what follows */
    skip_leb(&from);
    skip_leb(&from);
    skip_leb(&from);
    for (letter++; from.ok && *letter; letter++) {
        if (*letter == 'R')
            found.encoding = take_byte(&from);
        else if (*letter == 'S')
            found.is_signal = true;
        else if (*letter == 'L')
            take_byte(&from);
        else if (*letter == 'P')
            take_pointer(&from, take_byte(&from));
    }
    return found;
}

static void propose_frame(struct evidence *it, struct reader *from, const struct common *common) {
    uint64_t begin = take_pointer(from, common->encoding), length = take_pointer(from, common->encoding & 15);
    if (!from->ok)
        return;
    if (common->is_signal) { /* glibc has it begin one byte before the function, so that unwinders find it */
        begin++;
        length -= length > 0;
    }
    propose(it, begin, ENTRY);
    add_extent(it, begin, length);
    if (in_text(it->program, begin))
        it->names[begin - it->program->lo] |= FRAMED;
}

static void read_frames(struct evidence *it, const uint8_t *bytes, uint64_t addr, uint64_t length) {
    struct reader all = {bytes, length, addr, true};
    struct common common = {~0ull, 0, false};
    while (all.left >= 4) {
        uint32_t size = take_word(&all);
        uint64_t offset = length - all.left;
        const uint8_t *entry = size == ~0u ? NULL : take(&all, size);
        if (!entry)
            return;
        struct reader from = {entry, size, addr + offset, true};
        uint32_t back = size ? take_word(&from) : 0;
        if (!back || back > offset)
            continue;
        uint64_t place = offset - back; /* of the common entry, which begins with its length and a number */
        if (place != common.offset && place + 8 <= length)
            common = read_common((struct reader){bytes + place + 8, length - place - 8, addr + place + 8, true}, place);
        if (place == common.offset)
            propose_frame(it, &from, &common);
    }
}

void propose_frames(struct evidence *it) {
    const struct program *program = it->program;
    bool is_there = false;
    for (int at = 0; at < program->elf.section_count; at++) {
        const Elf64_Shdr *section = program->elf.sections + at;
        const uint8_t *bytes = section_bytes(program, section);
        if (!bytes || strcmp(section_name(program, section), ".eh_frame"))
            continue;
        read_frames(it, bytes, section->sh_addr, section->sh_size);
        is_there = true;
    }
    const uint8_t *header = program->frame_header ? bytes_at(program, program->frame_header, 8) : NULL;
    if (is_there || !header)
        return;
    struct reader from = {header + 4, 4, program->frame_header + 4, true};
    uint64_t addr = (header[1] & 15) == SDATA4 ? take_pointer(&from, header[1]) : 0;
    const struct segment *holder = segment_of(program, addr);
    if (holder && bytes_at(program, addr, 1))
        read_frames(it, bytes_at(program, addr, 1), addr, holder->addr + holder->in_file - addr);
}
