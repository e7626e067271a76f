/* Tables of bytes that grow, and how they are written. */
#include "tables.h"
#include "refusing.h"
#include <stdlib.h>
#include <string.h>

struct bytes {
    char *at;
    size_t length, room;
};

static struct bytes tables[TABLES];

void add_bytes(enum table table, const void *bytes, size_t size) {
    struct bytes *to = &tables[table];
    if (size > to->room - to->length) {
        size_t room = 2 * to->room + size + 4096;
        char *at = realloc(to->at, room);
        if (!at)
            refuse_memory(room);
        to->at = at;
        to->room = room;
    }
    memcpy(to->at + to->length, bytes, size);
    to->length += size;
}

void add(enum table table, uint64_t number, int size) {
    unsigned char bytes[8];
    for (int i = 0; i < size; i++)
        bytes[i] = (unsigned char)(number >> 8 * i);
    add_bytes(table, bytes, (size_t)size);
}

size_t length_of(enum table table) { return tables[table].length; }

const char *bytes_of(enum table table) { return tables[table].at; }

static bool write_word(uint64_t number, FILE *out) {
    for (int i = 0; i < 8; i++)
        if (putc((int)(number >> 8 * i & 255), out) == EOF)
            return false;
    return true;
}

bool write_tables(FILE *out) {
    static const char zeros[8];
    if (fwrite("VAKLINES", 1, 8, out) != 8 || !write_word(2, out))
        return false;
    for (int i = 0; i < TABLES; i++) {
        size_t length = tables[i].length, padding = -length % 8;
        if (!write_word(length, out) || (length && fwrite(tables[i].at, 1, length, out) != length) || fwrite(zeros, 1, padding, out) != padding)
            return false;
    }
    return fflush(out) == 0;
}
