/* A run file of vaknuhol-run, and what a traced program leaves in its record's memory. The target `run_file` takes any file; `record` takes one of those
   that FUZZ_RUN_FILES names by the input's first byte, and of the rest memory, registers and stack. */
#include "run.h"

#include <glob.h>

#include "harness.h"
#include "outside.c"
#include "record.c"

enum { MOST_LENGTH = 1 << 20, STACK = 512, NUMBERS = 16 };

static void write_all(struct space *space) {
    half = fopen("/dev/null", "w");
    TAILQ_INSERT_TAIL(&all_spaces, space, others);
    patch->kind == RING ? put_rings() : put_counts();
    TAILQ_REMOVE(&all_spaces, space, others);
    fclose(half);
    if (patch->kind == RING)
        keep_events(space);
    else
        add_counts(space);
}

/* A thread that stands anywhere, with a stack in this process, comes out of trampolines, and crashes. */
static void come_out(struct space *space, uint64_t numbers[NUMBERS]) {
    struct task task = {.tid = getpid(), .group = getpid(), .space = space};
    struct user_regs_struct regs;
    memcpy(&regs, numbers, sizeof regs < NUMBERS * sizeof *numbers ? sizeof regs : NUMBERS * sizeof *numbers);
    regs.rsp = (uint64_t)(numbers + NUMBERS + numbers[0] % 16), regs.rbp = regs.rsp + numbers[1] % STACK;
    for (unsigned n = 0; n < NUMBERS; n++) {
        const struct tramp *tramp = tramp_at(numbers[n]);
        regs.rip = numbers[n], regs.orig_rax = ~0ull;
        if (tramp && tramp->number != PLAIN)
            undo_event(space, task.tid, tramp->number, &regs, patch->undo[numbers[n] % LONGEST_EVENT]);
        if (patch->kind == RING)
            keep_ring(&task, SIGSEGV, numbers[n], n % 2 ? &regs : NULL);
        task.group++;
    }
}

static void use(const uint8_t *bytes, size_t size) {
    static uint64_t stack[NUMBERS + STACK];
    if (patch->private_length > MOST_LENGTH || patch->sites > MOST_LENGTH || patch->shown > MOST_LENGTH || !size)
        return;
    struct space space = {.number = 1, .is_shared = 1, .id = -1, .range = zeros(patch->private_length), .ended = "signal 11"};
    total = zeros(patch->sites * sizeof *total);
    for (size_t n = 0; n < SCRATCH + patch->data_length; n++)
        space.range[n] = bytes[n % size];
    for (size_t n = 0; n < sizeof stack; n++)
        ((uint8_t *)stack)[n] = bytes[(size + n) % size];
    for (unsigned n = 0; n < NUMBERS && patch->text_length; n++) /* half of them are addresses that the run file has */
        if (n % 2 && patch->row_count && patch->rows[stack[n] % patch->row_count].number != PLAIN)
            stack[n] = strtoull(row_text + patch->rows[stack[n] % patch->row_count].at, NULL, 16);
    come_out(&space, stack);
    write_all(&space);
    forget_rings(&space);
}

void forget_input(void) {
    events = NULL, total = NULL, patch = NULL;
    TAILQ_INIT(&all_spaces);
}

#ifdef RECORD
void try_input(const uint8_t *bytes, size_t size, const char *path) {
    static glob_t found;
    (void)path;
    if (!found.gl_pathc && glob(getenv("FUZZ_RUN_FILES"), 0, NULL, &found))
        abort();
    if (size > 1) {
        read_patch(found.gl_pathv[bytes[0] % found.gl_pathc]);
        use(bytes + 1, size - 1);
    }
}
#else
void try_input(const uint8_t *bytes, size_t size, const char *path) {
    read_patch(path);
    use(bytes, size);
}
#endif
