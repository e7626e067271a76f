#include "clones.h"

#include "refusing.h"

/* Of linux/sched.h: what libraries share among threads (VM, FS, FILES, SIGHAND, THREAD), and what no thread is made with (PTRACE, VFORK,
   PARENT, a signal). */
enum { OF_A_THREAD = 0x10F00, OF_NO_THREAD = 0xE0FF };
/* What a process in the same memory has, what one has whose parent waits, and its signal, of which there are 64. */
enum { CLONE_VM = 0x100, CLONE_VFORK = 0x4000, SIGNAL = 0xFF, MOST_SIGNALS = 64 };
/* The numbers of the calls, and how many instructions before a call what it is given is looked for. */
enum { CLONE = 56, CLONE3 = 435, NUMBER_BEFORE = 32, FLAGS_BEFORE = 64 };
enum { MOV_EAX = 0xB8, MOV_EDI = 0xBF, MOST_WRAPPERS = 64 };

struct clones {
    struct range *all;
    size_t count, capacity;
    uint32_t wrappers[MOST_WRAPPERS]; /* functions that call clone with flags that they are given */
    int wrapper_count;
    uint8_t *is_called;
};

/* Whether an instruction loads or pushes a number, or adds bits. */
static bool loads_number(const struct evidence *it, const struct instruction *one) {
    const uint8_t *bytes = bytes_at(it->program, one->addr, 2);
    if (!one->number || !bytes || segment_of(it->program, one->number))
        return false;
    uint8_t opcode = bytes[(bytes[0] & 0xF0) == 0x40];
    return opcode == 0x68 || (opcode & 0xF8) == 0xB8 || opcode == 0xC7 || opcode == 0x81 || opcode == 0x0D;
}

static bool is_for_thread(const struct evidence *it, const struct instruction *one) {
    return (one->number & (OF_A_THREAD | OF_NO_THREAD)) == OF_A_THREAD && loads_number(it, one);
}

static bool is_for_memory(const struct evidence *it, const struct instruction *one) {
    return (one->number & (CLONE_VM | CLONE_VFORK)) == CLONE_VM && (one->number & SIGNAL) <= MOST_SIGNALS && loads_number(it, one);
}

static void add(struct clones *to, const struct instruction *one) {
    for (size_t at = 0; at < to->count; at++)
        if (to->all[at].lo == one->addr)
            return;
    to->all = room_for_one(to->all, to->count, &to->capacity, sizeof *to->all);
    to->all[to->count++] = (struct range){one->addr, one->addr + one->length};
}

/* What a MOV of a number to a register of 32 bits has, with this opcode; 0 where it is none. */
static uint32_t moved(const struct evidence *it, const struct instruction *one, uint8_t opcode) {
    const uint8_t *bytes = bytes_at(it->program, one->addr, 5);
    return bytes && one->length == 5 && bytes[0] == opcode ? bytes[1] | (uint32_t)bytes[2] << 8 | (uint32_t)bytes[3] << 16 : 0;
}

static bool is_clone(uint32_t number) { return number == CLONE || number == CLONE3; }

/* Adds the nearest instruction before a call, in its function, that loads flags for a process in the same memory; whether there is one. */
static bool add_flags(struct clones *to, const struct evidence *it, size_t call) {
    for (size_t at = call; at-- > 0 && call - at < FLAGS_BEFORE && !ends(it->found[at].kind);)
        if (is_for_memory(it, it->found + at)) {
            add(to, it->found + at);
            return true;
        }
    return false;
}

/* The function of a call: the nearest instruction at or before it that is called or named. */
static void add_wrapper(struct clones *to, const struct evidence *it, size_t call) {
    size_t at = call;
    while (at > 0 && !to->is_called[it->found[at].addr - it->program->lo] && !it->names[it->found[at].addr - it->program->lo])
        at--;
    if (to->wrapper_count < MOST_WRAPPERS)
        to->wrappers[to->wrapper_count++] = it->found[at].addr;
}

/* A call of the kernel for a clone: its flags stand before it, or its function is given them. */
static void take_kernel_call(struct clones *to, const struct evidence *it, size_t call) {
    for (size_t at = call; at-- > 0 && call - at < NUMBER_BEFORE;)
        if (moved(it, it->found + at, MOV_EAX)) {
            if (is_clone(moved(it, it->found + at, MOV_EAX)) && !add_flags(to, it, call))
                add_wrapper(to, it, call);
            return;
        }
}

static bool is_wrapper(const struct clones *to, uint32_t function) {
    for (int at = 0; at < to->wrapper_count; at++)
        if (to->wrappers[at] == function)
            return true;
    return false;
}

/* Whether a call has the number of clone as its first argument, as the C library's function for any call of the kernel has. */
static bool has_number(const struct evidence *it, size_t call) {
    for (size_t at = call; at-- > 0 && call - at < NUMBER_BEFORE / 2 && it->found[at].kind == FALLS;)
        if (moved(it, it->found + at, MOV_EDI))
            return is_clone(moved(it, it->found + at, MOV_EDI));
    return false;
}

size_t find_clones(const struct evidence *it, struct range **found) {
    struct clones clones = {.is_called = zeros(it->program->hi - it->program->lo + 16, 1)};
    for (size_t at = 0; at < it->count; at++) {
        const struct instruction *one = it->found + at;
        if (one->kind == CALL && in_text(it->program, one->target))
            clones.is_called[one->target - it->program->lo] = 1;
        if (is_for_thread(it, one))
            add(&clones, one);
    }
    for (size_t at = 0; at < it->count; at++)
        if (it->found[at].kind == KERNEL)
            take_kernel_call(&clones, it, at);
    for (size_t at = 0; at < it->count; at++)
        if (it->found[at].kind == CALL && (is_wrapper(&clones, it->found[at].target) || has_number(it, at)))
            add_flags(&clones, it, at);
    *found = clones.all;
    return clones.count;
}
