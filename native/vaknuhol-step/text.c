/* The listed bytes of a program, out of the file that vaknuhol-list wrote. */
#include <string.h>

#include "file.h"
#include "refusing.h"
#include "step.h"

enum { HEAD = 64, COUNT_AT = 12, OF_FOUR = 6, OF_TWO = 3 }; /* columns of four and of two bytes before that of lengths */

static uint64_t aligned(uint64_t place) { return (place + 7) & ~7ull; }

void read_text(struct text *text, const char *path) {
    struct file file;
    uint32_t count;
    if (!map_file(&file, path, HEAD))
        refuse(errno ? "%s: %m" : "%s is no list of instructions", path);
    const uint8_t *bytes = file.bytes;
    if (memcmp(bytes, "VAKLIST", 8) || bytes[8] != 1)
        refuse("%s is no list of instructions", path);
    memcpy(&count, bytes + COUNT_AT, 4);
    uint64_t place = HEAD;
    for (int column = 0; column < OF_FOUR; column++)
        place = aligned(place) + 4ull * count;
    for (int column = 0; column < OF_TWO; column++)
        place = aligned(place) + 2ull * count;
    place = aligned(place);
    if (!count || place + count > file.size)
        refuse("%s is cut off", path);
    const uint32_t *addrs = (const void *)(bytes + HEAD);
    text->lo = addrs[0];
    text->hi = addrs[count - 1] + bytes[place + count - 1];
    if (text->hi <= text->lo)
        refuse("%s has instructions out of order", path);
    text->listed = zeros(text->hi - text->lo + 16ull, 1);
    text->seen = zeros(text->hi - text->lo + 16ull, 1);
    for (uint32_t at = 0; at < count; at++) {
        if (addrs[at] < text->lo || addrs[at] >= text->hi)
            refuse("%s has instructions out of order", path);
        text->listed[addrs[at] - text->lo] |= START;
        for (uint32_t byte = 0; byte < bytes[place + at] && byte < 16; byte++)
            text->listed[addrs[at] - text->lo + byte] |= LISTED;
    }
}
