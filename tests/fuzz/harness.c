#define _GNU_SOURCE
#include "harness.h"

#include <setjmp.h>
#include <stdarg.h>
#include <stdio.h>
#include <stdlib.h>
#include <string.h>
#include <sys/mman.h>
#include <unistd.h>

static jmp_buf way_out;
static void **kept; /* what an input took of memory, and hasn't given back */
static size_t count, room;

static void *keep(void *place) {
    if (count == room)
        kept = reallocarray(kept, room = 2 * room + 1024, sizeof *kept);
    return place ? kept[count++] = place : NULL;
}

static void leave(void *place) {
    for (size_t at = count; place && at-- > 0;)
        if (kept[at] == place) {
            kept[at] = kept[--count];
            return;
        }
}

void *fuzz_malloc(size_t size) { return keep(malloc(size)); }

void *fuzz_calloc(size_t number, size_t size) { return keep(calloc(number, size)); }

void *fuzz_reallocarray(void *place, size_t number, size_t size) {
    leave(place);
    return keep(reallocarray(place, number, size));
}

void *fuzz_realloc(void *place, size_t size) { return fuzz_reallocarray(place, size, 1); }

void fuzz_free(void *place) {
    leave(place);
    free(place);
}

int fuzz_asprintf(char **text, const char *format, ...) {
    va_list words;
    va_start(words, format);
    int length = vasprintf(text, format, words);
    va_end(words);
    keep(*text);
    return length;
}

/* Memory of the file's length, so that a read behind it is seen. */
void *fuzz_mmap(void *place, size_t length, int rights, int flags, int file, off_t from) {
    (void)place, (void)rights, (void)flags;
    void *bytes = fuzz_malloc(length);
    return bytes && pread(file, bytes, length, from) == (ssize_t)length ? bytes : MAP_FAILED;
}

_Noreturn void fuzz_verrx(int status, const char *format, va_list words) {
    (void)status, (void)format, (void)words;
    longjmp(way_out, 1);
}

_Noreturn void fuzz_errx(int status, const char *format, ...) {
    (void)status, (void)format;
    longjmp(way_out, 1);
}

_Noreturn void fuzz_err(int status, const char *format, ...) {
    (void)status, (void)format;
    longjmp(way_out, 1);
}

int LLVMFuzzerTestOneInput(const uint8_t *bytes, size_t size) {
    static int file;
    static char path[40];
    if (!file) {
        file = memfd_create("input", MFD_CLOEXEC);
        snprintf(path, sizeof path, "/proc/self/fd/%d", file);
    }
    if (ftruncate(file, 0) || pwrite(file, bytes, size, 0) != (ssize_t)size)
        abort();
    if (!setjmp(way_out))
        try_input(bytes, size, path);
    forget_input();
    while (count)
        free(kept[--count]);
    return 0;
}
