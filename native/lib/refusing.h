/* How a program ends where it can't go on: one line on standard error, its name first, and a status; and memory that grows. */
#ifndef REFUSING_H
#define REFUSING_H
#include <errno.h>
#include <stddef.h>

/* Each program has its own: the status, and what it says where there is no memory for so many bytes. */
extern const struct refusal {
    int status;
    const char *no_memory;
} refusal;

_Noreturn void refuse(const char *format, ...) __attribute__((format(printf, 1, 2)));

/* With what the system says of the call that failed last, if one did. */
_Noreturn void die(const char *what);

/* There is no memory for so many bytes. */
_Noreturn void refuse_memory(size_t bytes);

/* Memory of so many zero bytes; it refuses where there is none. */
void *zeros(size_t count, size_t size);

/* Makes room for one more element after `count` of them. */
void *room_for_one(void *array, size_t count, size_t *capacity, size_t size);
#endif
