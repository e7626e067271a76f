/* A thread that stands in a trampoline is put back to the site, as if it had not come there: the event is undone and taken out of the record.
   Where the displaced instruction has done its work, the thread is put to the one that follows. docs/reference/formats.md has the code byte by byte
   (Relocated code). No register is set by what can't be read: a thread of which the runner may not read the memory goes by single steps to the end of the
   event, where nothing is changed but the record, or behind the displaced instruction to the next one. */
#include "run.h"

enum { BELOW_STACK = 136, FLAGS_BELOW = 144, CALL_TARGET = 16, FLAGS_PLACE = 8, FLAGS = 0x8d5, AH_FLAGS = 0xd5, OVERFLOW = 0x800, BYTE = 0xff };
/* JMP through memory, before the address; JMP by a distance, a prefix for r8 and above, JMP by a register. */
enum { JUMP_THROUGH = 0x2524ff, JUMP = 0xe9, HIGH = 0x41, JUMP_BY = 0xe0ff, NO_REGISTER = 0xf8ff };

/* Whether the condition holds of registers before the event. */
static bool condition_holds(struct user_regs_struct *regs) {
    for (unsigned n = 0; n < patch->comparison_count; n++) {
        uint64_t a = *register_of(regs, patch->comparisons[n].reg), b = patch->comparisons[n].value;
        const bool answers[] = {a == b, a != b, a<b, a <= b, a> b, a >= b};
        if (!answers[patch->comparisons[n].sign])
            return false;
    }
    return true;
}

/* What was changed of the range is changed in the process, where the two don't share it. */
static void put_back(const struct space *space, pid_t tid, const void *from, size_t length) {
    if (!space->is_shared)
        write_memory(tid, patch->private_at + (uint64_t)((const uint8_t *)from - space->range), from, length);
}

/* The ring's position is taken back from behind a slot, where that was claimed last: other threads may claim at once, so it stays where the memory
   isn't shared. */
static bool goes_back(const struct space *space, unsigned slot) {
    uint32_t *ring = (uint32_t *)(space->range + SCRATCH), claims = __atomic_load_n(ring, __ATOMIC_SEQ_CST);
    return space->is_shared && (claims - 1) % patch->slots == slot
           && __atomic_compare_exchange_n(ring, &claims, claims - 1, false, __ATOMIC_SEQ_CST, __ATOMIC_SEQ_CST);
}

/* Of a ring for threads, a slot that was claimed and not filled: all is as before where no other thread has claimed since. Else the slot is empty,
   since what stands there is older than what stands around it. */
static void undo_claim(const struct space *space, pid_t tid, unsigned slot) {
    uint32_t *ring = (uint32_t *)(space->range + SCRATCH);
    if (goes_back(space, slot))
        return;
    __atomic_store_n(&ring[1 + slot], 0, __ATOMIC_SEQ_CST);
    put_back(space, tid, &ring[1 + slot], sizeof *ring);
}

/* Of a ring for threads, a slot that was filled by a site is empty, unless another event has filled it since; what it held before is gone. */
static void undo_fill(const struct space *space, pid_t tid, unsigned slot, unsigned number) {
    uint32_t *ring = (uint32_t *)(space->range + SCRATCH), filled = number + 1;
    if (!__atomic_compare_exchange_n(&ring[1 + slot], &filled, 0, false, __ATOMIC_SEQ_CST, __ATOMIC_SEQ_CST))
        return;
    put_back(space, tid, &ring[1 + slot], sizeof *ring);
    goes_back(space, slot);
}

/* Of a ring for threads, the slot that a site filled last, by the order of claims, or the one that is next. It may be of another thread's event
   of this site: then that counts as made where the undone one was. */
static unsigned last_slot(const uint32_t *ring, unsigned number) {
    uint32_t claims = __atomic_load_n(ring, __ATOMIC_SEQ_CST), back = 1;
    while (back < patch->slots && __atomic_load_n(&ring[1 + (claims - back) % patch->slots], __ATOMIC_SEQ_CST) != number + 1)
        back++;
    return (claims - back) % patch->slots;
}

/* What an event did to a ring for threads: `eax` leads to its slot where it is claimed, until the flags are loaded. */
static void undo_slot(const struct space *space, pid_t tid, unsigned number, uint32_t eax, unsigned undo) {
    const uint32_t *ring = (const uint32_t *)(space->range + SCRATCH);
    unsigned slot = undo & CLAIMED ? eax % patch->slots : last_slot(ring, number);
    if (undo & RECORDED)
        undo_fill(space, tid, slot, number);
    else
        undo_claim(space, tid, slot);
}

/* A ring's position goes back where it has moved, and the slot there is as if it was never used: what it held before is gone. A counter is changed
   in place, which other threads may do at once. A cover byte stays: it may have been 1 before. */
static void undo_record(const struct space *space, pid_t tid, unsigned number, struct user_regs_struct *regs, bool has_moved) {
    uint64_t *counter = (uint64_t *)(space->range + SCRATCH) + number;
    uint32_t *ring = (uint32_t *)(space->range + SCRATCH);
    if (patch->kind == RING) {
        if (has_moved)
            ring[0] = (ring[0] ? ring[0] : patch->slots) - 1;
        ring[1 + ring[0] % patch->slots] = 0;
        put_back(space, tid, ring, patch->data_length);
    } else if (patch->kind == COUNT && condition_holds(regs)) {
        __atomic_sub_fetch(counter, 1, __ATOMIC_SEQ_CST);
        put_back(space, tid, counter, sizeof *counter);
    }
}

/* Whether all that it takes was read; else nothing is changed. */
static bool undo_event(const struct space *space, pid_t tid, unsigned number, struct user_regs_struct *regs, unsigned undo) {
    const uint64_t *scratch = (const uint64_t *)space->range;
    uint64_t rax = *scratch, flags = scratch[FLAGS_PLACE / sizeof *scratch];
    uint32_t eax = (uint32_t)regs->rax, ax = eax;
    if (patch->for_threads
        && ((undo & FLAGS_IN_MEMORY && !read_word(tid, regs->rsp - FLAGS_BELOW, &flags))
            || (undo & RAX_IS_KEPT && !read_word(tid, regs->rsp - BELOW_STACK, &rax))))
        return false;
    if (undo & FLAGS_IN_MEMORY)
        ax = (uint32_t)flags;
    if (undo & FLAGS_ADDED)
        ax = (ax & 0xff00) | ((ax & BYTE) == 0x80);
    if (undo & FLAGS_CHANGED)
        regs->eflags = (regs->eflags & ~(unsigned long long)FLAGS) | ((ax >> 8) & AH_FLAGS) | (ax & 1 ? OVERFLOW : 0);
    if (undo & RAX_IS_KEPT)
        regs->rax = rax;
    if (patch->kind == RING && patch->for_threads && undo & (CLAIMED | RECORDED))
        undo_slot(space, tid, number, eax, undo);
    else if (undo & (RECORDED | SLOT_WRITTEN))
        undo_record(space, tid, number, regs, undo & RECORDED);
    return true;
}

void take_back(const struct space *space, pid_t tid, unsigned number, struct user_regs_struct *before) { undo_event(space, tid, number, before, RECORDED); }

/* Behind the instruction's own work: a jump, by a distance, or by a register where a thread's call has pushed its return address. */
static bool finish(pid_t tid, struct user_regs_struct *regs) {
    uint64_t code;
    if (!read_word(tid, regs->rip, &code))
        return false;
    unsigned is_high = (code & BYTE) == HIGH;
    uint64_t jump = code >> 8 * is_high;
    if ((code & BYTE) == JUMP)
        regs->rip += 5 + (uint64_t)(int64_t)(int32_t)(code >> 8);
    else if ((jump & NO_REGISTER) == JUMP_BY)
        regs->rip = *register_of(regs, 8 * is_high + (jump >> 8 & 7));
    else
        return false;
    return true;
}

/* Behind a displaced system call comes MOV of the next address to rcx, which a call has, too. */
static void set_behind_call(const struct tramp *it, struct user_regs_struct *regs) {
    regs->rcx = regs->rip = it->start + (regs->rip - it->place - event_of(it));
}

/* A thread inside of a trampoline, so that the registers are those outside of it; whether that could be worked out. With `keeps` an event that was made
   whole stays in the record. The code of an indirect call begins by saving rax at p, and up to its jump through p + 16 nothing is done that can't be
   undone. */
static bool set_outside(const struct space *space, pid_t tid, const struct tramp *it, struct user_regs_struct *regs, bool keeps) {
    uint64_t length = event_of(it), off = regs->rip - it->place, code = 0, before = 0;
    if (off > length && is_at_call(regs)) {
        set_behind_call(it, regs);
        return true;
    }
    if (off > length && !patch->for_threads && !(read_word(tid, it->place + length, &code) && read_word(tid, regs->rip - 1, &before)))
        return false;
    bool is_call = off > length && code == (patch->private_at << 32 | SAVE_RAX);
    if (off > length && !is_call)
        return finish(tid, regs);
    if (is_call && before >> 8 == ((patch->private_at + CALL_TARGET) << 24 | JUMP_THROUGH)) {
        memcpy(&regs->rip, space->range + CALL_TARGET, sizeof regs->rip);
        return true;
    }
    unsigned whole = (off > length ? RAX_IS_KEPT : 0) | (length && !keeps ? RECORDED : 0);
    if (!undo_event(space, tid, it->number, regs, off < length ? patch->undo[off] : whole))
        return false;
    regs->rip = it->start;
    return true;
}

/* Whether a thread stands in a trampoline where more is changed than the record. */
static bool is_amid(const struct user_regs_struct *regs) {
    const struct tramp *it = tramp_at(regs->rip);
    return it && regs->rip != it->place && regs->rip != it->place + event_of(it);
}

/* By steps: a fault on the way is of a displaced call, which reads its operand when all registers are yet as before it. */
static bool step_outside(const struct space *space, pid_t tid, struct user_regs_struct *regs, bool keeps) {
    const struct tramp *it;
    if (is_at_call(regs))
        return false;
    bool is_made = make_steps(tid, regs, is_amid);
    if (!(it = tramp_at(regs->rip)))
        return is_made;
    if (!is_made && regs->rip - it->place < event_of(it))
        return false;
    if (it->number != PLAIN && !keeps)
        undo_event(space, tid, it->number, regs, RECORDED);
    regs->rip = it->start;
    return true;
}

static bool is_fault(const siginfo_t *info) {
    const unsigned faults = 1 << SIGSEGV | 1 << SIGBUS | 1 << SIGFPE | 1 << SIGILL | 1 << SIGTRAP;
    return info->si_code > 0 && info->si_code != SI_KERNEL && info->si_signo < 32 && faults >> info->si_signo & 1;
}

/* Whether a handler of the program sees a signal: it is caught, and not blocked. Otherwise the kernel ends the process by a fault. */
static bool is_seen(pid_t tid, int number) { return is_signal_in(tid, "\nSigCgt:", number) && !is_signal_in(tid, "\nSigBlk:", number); }

/* A thread stands at an interrupted call where orig_rax is a call's number, which it never is in an event. Behind a relocated call the thread is put after the
   original's. An instruction at which the process ends by a fault keeps its event, as the last that the program came to. Of a range that can't be
   read nothing is undone. */
static void put_outside(const struct space *space, pid_t tid, struct user_regs_struct *regs, siginfo_t *info, bool keeps, bool is_read) {
    unsigned long long stood = regs->rip;
    const struct tramp *it = tramp_at(stood);
    if (!it)
        return;
    bool is_set = (is_read || is_at_call(regs) || !is_amid(regs)) && set_outside(space, tid, it, regs, keeps || !is_read);
    if ((!is_set && !step_outside(space, tid, regs, keeps || !is_read)) || ptrace(PTRACE_SETREGS, tid, 0, regs))
        return;
    if (is_fault(info) && (unsigned long long)info->si_addr == stood) {
        info->si_addr = (void *)regs->rip;
        ptrace(PTRACE_SETSIGINFO, tid, 0, info);
    }
}

/* Of a page of the patch's code that can't be executed: the program has mapped other memory there, or has taken it away. */
static void tell_lost_code(const struct task *it, const siginfo_t *info, unsigned long long stood) {
    static bool is_told;
    if (info->si_signo != SIGSEGV || info->si_code <= 0 || (unsigned long long)info->si_addr != stood || !tramp_at(stood) || is_told)
        return;
    is_told = true;
    warnx("warning: process %d has put other memory in the place of its patch, and can't go on at %llx: vaknuhol fit PROGRAM -- ARGUMENTS shows where",
          it->group, stood);
}

int before_delivery(const struct task *it, int number) {
    struct user_regs_struct regs;
    siginfo_t info = {0};
    if (number == SIGSTOP || ptrace(PTRACE_GETREGS, it->tid, 0, &regs))
        return number;
    wait_again(it->tid, number, &regs);
    if (!it->space)
        return number;
    unsigned long long stood = regs.rip;
    const struct tramp *within = is_unfinished(&regs) ? tramp_at(stood) : NULL;
    if (within && is_idle(it->tid, number))
        return number;
    bool is_read = read_range(it->space, it->tid);
    ptrace(PTRACE_GETSIGINFO, it->tid, 0, &info);
    tell_lost_code(it, &info, stood);
    bool is_last = is_read && is_crash(it->tid, number), is_own = is_last && is_of_thread(it->tid, &info);
    put_outside(it->space, it->tid, &regs, &info, is_own || (is_fault(&info) && !is_seen(it->tid, number)), is_read);
    if (is_last)
        keep_ring(it, number, stood, is_own ? &regs : NULL);
    bool may_undo = within && within->number != PLAIN && is_read && patch->kind != COVER && is_seen(it->tid, number);
    return may_undo ? deliver(it->space, it->tid, number, within, &regs) : number;
}

bool is_inner_step(const struct task *it, int number) {
    struct user_regs_struct regs;
    siginfo_t info;
    return it->space && number == SIGTRAP && !ptrace(PTRACE_GETSIGINFO, it->tid, 0, &info) && info.si_code == TRAP_TRACE
           && !ptrace(PTRACE_GETREGS, it->tid, 0, &regs) && regs.eflags & TRAP_FLAG && tramp_at(regs.rip);
}

void put_behind_call(pid_t tid) {
    struct user_regs_struct regs;
    const struct tramp *it = ptrace(PTRACE_GETREGS, tid, 0, &regs) ? NULL : tramp_at(regs.rip);
    if (!it || !is_at_call(&regs))
        return;
    set_behind_call(it, &regs);
    ptrace(PTRACE_SETREGS, tid, 0, &regs);
}
