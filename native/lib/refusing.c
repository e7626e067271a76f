#include "refusing.h"

#include <err.h>
#include <stdarg.h>
#include <stdlib.h>

void refuse(const char *format, ...) {
    va_list words;
    va_start(words, format);
    verrx(refusal.status, format, words);
}

void die(const char *what) { refuse(errno ? "%s: %m" : "%s", what); }

void refuse_memory(size_t bytes) { refuse(refusal.no_memory, bytes); }

void *zeros(size_t count, size_t size) {
    void *made = calloc(count ? count : 1, size);
    if (!made)
        refuse_memory(count * size);
    return made;
}

void *room_for_one(void *array, size_t count, size_t *capacity, size_t size) {
    if (count < *capacity)
        return array;
    size_t wanted = *capacity * 2 + 1024;
    void *made = reallocarray(array, wanted, size);
    if (!made)
        refuse_memory(wanted * size);
    *capacity = wanted;
    return made;
}
