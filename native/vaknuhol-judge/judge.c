#define _GNU_SOURCE
#include "judge.h"

#include <stdarg.h>
#include <stdio.h>
#include <string.h>
#include <ucontext.h>

enum { RED_ZONE = 128, WORD = 8 };

/* An instruction and what it touched. */
struct touched {
    enum work work;
    int count;
    struct access accesses[MOST_ACCESSES + MOST_READS];
};

static const char HERE[] = "before that step";
struct judged judged;

uint64_t saved_at(const struct user_regs_struct *regs) { return regs->rsp - RED_ZONE - saved_length(); }

uint64_t saved_length(void) { return every_event()->slots ? 2 * WORD : WORD; }

void limit_theorem(const char *limit) {
    if (!judged.limit)
        judged.limit = limit;
}

/* Where a thread stands, in the original's addresses but in relocated code. */
static uint64_t place_of(const struct thread *thread) { return thread->is_behind ? (uint64_t)thread->regs.rip : thread->projected; }

bool breaks(const struct thread *thread, const char *form, ...) {
    char what[160];
    va_list values;
    if (*judged.broken)
        return false;
    limit_theorem(HERE);
    va_start(values, form);
    vsnprintf(what, sizeof what, form, values);
    va_end(values);
    snprintf(judged.broken, sizeof judged.broken, "step %lu, of thread %d, at %08lx, %s", judged.steps, thread->number, place_of(thread), what);
    return false;
}

bool is_outside(const struct thread *thread) { return !thread->is_behind && thread->projected == thread->regs.rip && marks_of(thread->projected) & START; }

static const char *kind_of(uint64_t addr) { return marks_of(addr) & NEW ? "a new address, of the patch alone" : "a byte of a listed instruction"; }

static void note_unknown(int call) {
    for (int at = 0; at < judged.unknown_count; at++)
        if (judged.unknown[at] == call)
            return;
    if (judged.unknown_count < MOST_UNKNOWN)
        judged.unknown[judged.unknown_count++] = call;
}

/* What is read at a stale address. */
static const char *stale_kind(void) {
    return every_event()->slots ? "a stale byte: an event saved rax or flags there, and the program hasn't written it since"
                                : "a stale byte: an event saved rax there, and the program hasn't written it since";
}

/* A step of this number asks the world, and reads what the original may have otherwise: so the answer may be another one there. */
static void doubt(struct thread *thread, uint64_t step, uint64_t found, const char *kind) {
    char how[32] = "";
    if (thread->is_doubted)
        return;
    thread->is_doubted = true;
    limit_theorem(HERE);
    if (judged.doubts++)
        return;
    if (is_syscall(&thread->insn))
        snprintf(how, sizeof how, " by system call %d", (int)thread->call.regs.rax);
    snprintf(judged.doubt, sizeof judged.doubt, "step %lu, of thread %d, at %08lx, asks the world%s and reads %08lx, %s", step, thread->number,
             place_of(thread), how, found, kind);
}

void judge_call(struct thread *thread) {
    for (int at = 0; at < thread->call.read_count; at++) {
        const struct access *access = &thread->call.reads[at];
        uint64_t found = first_marked(access->lo, access->hi, LISTED | NEW | STALE);
        if (found < access->hi)
            doubt(thread, judged.steps + 1, found, marks_of(found) & STALE ? stale_kind() : kind_of(found));
    }
}

static struct touched touched_by(const struct decoded *insn, struct thread *thread, const struct user_regs_struct *after) {
    struct touched it = {.work = work_of(insn)};
    ZydisInstructionCategory category = insn->insn.meta.category;
    if (enters_kernel(insn)) {
        it.count = is_syscall(insn) ? answer_accesses(&thread->call, (int64_t)after->rax, it.accesses) : -1;
        if (it.count < 0)
            note_unknown(is_syscall(insn) ? (int)thread->call.regs.rax : -1), it.count = 0;
        for (int at = 0; is_syscall(insn) && at < thread->call.read_count; at++)
            it.accesses[it.count++] = thread->call.reads[at];
    } else if (category != ZYDIS_CATEGORY_NOP && category != ZYDIS_CATEGORY_WIDENOP)
        it.count = accesses_of(insn, &thread->regs, after, it.accesses);
    return it;
}

/* The thread that stands between save and restore, other than this one, of whose saved bytes one lies in a range. */
static const struct thread *other_saved(const struct thread *thread, uint64_t lo, uint64_t hi) {
    for (int at = 0; at < thread_count(); at++) {
        const struct thread *other = thread_number(at);
        uint64_t saved = saved_at(&other->regs);
        if (other != thread && other->state != GONE && marks_of(other->regs.rip) & HAS_SAVED && lo < saved + saved_length() && saved < hi)
            return other;
    }
    return 0;
}

/* The instruction of an effect step is of known length, and leaves listed instructions and new addresses alone. */
static bool is_quiet(struct thread *thread, const struct touched *it) {
    if (!(marks_of(thread->projected) & KNOWN))
        return breaks(thread, "is of no known length");
    if (it->work == ENDS)
        return breaks(thread, "is an instruction that ends a run");
    for (int at = 0; at < it->count; at++) {
        const struct access *access = &it->accesses[at];
        uint64_t found = first_marked(access->lo, access->hi, LISTED | NEW);
        if (found == access->hi)
            continue;
        if (access->writes || it->work == EXACT)
            return breaks(thread, "%s %08lx, %s", access->writes ? "writes" : "reads", found, kind_of(found));
        doubt(thread, judged.steps, found, kind_of(found));
    }
    return true;
}

/* A step outside an event reads no stale byte. */
static bool is_fresh(struct thread *thread, const struct touched *it) {
    for (int at = 0; at < it->count; at++) {
        const struct access *access = &it->accesses[at];
        uint64_t found = access->reads ? first_marked(access->lo, access->hi, STALE) : access->hi;
        if (found == access->hi)
            continue;
        if (it->work == EXACT)
            return breaks(thread, "reads %08lx, %s", found, stale_kind());
        doubt(thread, judged.steps, found, stale_kind());
    }
    return true;
}

/* A step leaves alone what other threads have saved. */
static bool is_apart(struct thread *thread, const struct touched *it) {
    for (int at = 0; at < it->count; at++) {
        const struct access *access = &it->accesses[at];
        const struct thread *other = other_saved(thread, access->lo, access->hi);
        if (other && (access->writes || it->work == EXACT))
            return breaks(thread, "%s saved bytes of thread %d, at %lx, while that stands in its event", access->writes ? "writes" : "reads", other->number,
                          saved_at(&other->regs));
    }
    return true;
}

static void set_stale(const struct thread *thread, unsigned here, const struct touched *it) {
    if (here & SAVES)
        for (int byte = 0; byte < (int)saved_length(); byte++)
            set_marks(saved_at(&thread->regs) + byte, STALE);
    else if (!(here & EVENT))
        for (int at = 0; at < it->count; at++)
            if (it->accesses[at].writes && it->accesses[at].surely)
                clear_marks(it->accesses[at].lo, it->accesses[at].hi, STALE);
}

/* Whether an event records a thread that comes to it with these registers. */
static bool is_recorded(struct user_regs_struct regs) {
    const struct event *event = every_event();
    for (int at = 0; at < event->comparison_count; at++) {
        uint64_t a = *register_of(&regs, event->comparisons[at].reg), b = event->comparisons[at].value;
        const bool answers[] = {a == b, a != b, a<b, a <= b, a> b, a >= b};
        if (!answers[event->comparisons[at].sign])
            return false;
    }
    return true;
}

/* The projection goes on; it stands at a listed start. */
static bool goes_on(struct thread *thread, bool is_kept, bool is_work, uint64_t to) {
    if (is_kept)
        thread->projected = to;
    thread->is_behind |= is_work;
    if (thread->is_behind && marks_of(to) & (EVENT | WORK))
        return breaks(thread, "leads to %08lx, a new address, of the patch alone", to);
    uint64_t from = thread->projected;
    if (thread->is_behind && !(marks_of(to) & NEW))
        thread->is_behind = false, thread->projected = to;
    if (thread->is_behind || marks_of(thread->projected) & START)
        return true;
    uint64_t led = thread->projected;
    thread->projected = is_kept ? thread->regs.rip : from;
    return breaks(thread, "leads to %08lx, which is no listed start", led);
}

bool judge_begin(struct thread *thread, bool is_behind) {
    thread->projected = thread->regs.rip;
    thread->is_behind = is_behind && marks_of(thread->regs.rip) & NEW;
    return thread->is_behind || marks_of(thread->projected) & START || breaks(thread, "begins, where no listed start is");
}

bool judge_step(struct thread *thread, struct user_regs_struct *after) {
    unsigned here = marks_of(thread->insn.rip);
    bool is_kept = here & START && !(here & SITE), is_work = (here & WORK) != 0, is_well = true;
    struct touched made = touched_by(&thread->insn, thread, after);
    judged.steps++;
    if (is_work) {
        struct decoded original;
        uint8_t bytes[LONGEST];
        struct site *site = site_at(thread->insn.rip);
        bool is_read = decode_bytes(&original, thread->projected, bytes, original_code(thread->projected, bytes));
        if (!is_read)
            return breaks(thread, "is no instruction");
        const struct touched asked = touched_by(&original, thread, after);
        is_well = is_quiet(thread, &asked);
        site->effects += is_recorded(thread->regs);
        judged.events += site->event != 0;
    } else if (is_kept)
        is_well = is_quiet(thread, &made);
    if (is_well && !(here & EVENT))
        is_well = is_fresh(thread, &made);
    if (here & EVENT && every_event()->slots)
        watch_ring(thread, site_at(thread->insn.rip));
    uint64_t saved = saved_at(&thread->regs);
    if (is_well && here & SAVES && first_marked(saved, saved + saved_length(), NEW) < saved + saved_length())
        is_well = breaks(thread, "comes to its event, whose saved bytes at %lx are new addresses, of the patch alone", saved);
    if (!is_well || !is_apart(thread, &made))
        return false;
    set_stale(thread, here, &made);
    if (!goes_on(thread, is_kept, is_work, after->rip))
        return false;
    if (!judged.limit)
        judged.covered = judged.steps;
    return true;
}

/* What a delivery or a thread's end writes leaves listed instructions, new addresses and other threads' saved bytes alone. */
static bool leaves(struct thread *thread, uint64_t lo, uint64_t hi, const char *what) {
    uint64_t found = first_marked(lo, hi, LISTED | NEW);
    const struct thread *other = other_saved(thread, lo, hi);
    if (found < hi)
        return breaks(thread, "%s writes %08lx, %s", what, found, kind_of(found));
    return !other || breaks(thread, "%s writes saved bytes of thread %d while that stands in its event", what, other->number);
}

/* The end of the frame of a handler: it lies on the alternate stack, or below the red zone. */
static uint64_t frame_end(pid_t tid, uint64_t stack_pointer, uint64_t frame) {
    stack_t stack;
    if (!read_memory(tid, frame + sizeof(void *) + offsetof(ucontext_t, uc_stack), &stack, sizeof stack))
        return stack_pointer - RED_ZONE;
    uint64_t lo = (uint64_t)stack.ss_sp, hi = lo + stack.ss_size;
    return lo <= frame && frame < hi && !(lo < stack_pointer && stack_pointer <= hi) ? hi : stack_pointer - RED_ZONE;
}

bool judge_entry(struct thread *thread, int number, uint64_t stack_pointer, const struct user_regs_struct *after) {
    char what[40];
    uint64_t frame = after->rsp;
    snprintf(what, sizeof what, "the handler of signal %d", number);
    judged.deliveries++;
    if (!(marks_of(after->rip) & START))
        return breaks(thread, "%s begins at %08lx, which is no listed start", what, (uint64_t)after->rip);
    if (!leaves(thread, frame, frame_end(thread->tid, stack_pointer, frame), what))
        return false;
    /* The frame's words that the kernel writes each time: up to the flags of the stack, from its size to the state's place, mask, info. */
    const uint64_t parts[][2] = {{0, 36}, {40, 240}, {304, 440}};
    for (size_t at = 0; at < sizeof parts / sizeof *parts; at++)
        clear_marks(frame + parts[at][0], frame + parts[at][1], STALE);
    thread->projected = after->rip;
    return true;
}

bool judge_return(struct thread *thread, const struct user_regs_struct *after) {
    judged.deliveries++;
    if (thread->is_behind)
        return breaks(thread, "comes back from a handler inside a trampoline");
    if (!(marks_of(after->rip) & START))
        return breaks(thread, "comes back from a handler to %08lx, which is no listed start", (uint64_t)after->rip);
    thread->projected = after->rip;
    return true;
}

bool judge_end(struct thread *thread) {
    if (marks_of(thread->insn.rip) & WORK)
        site_at(thread->insn.rip)->pending += is_recorded(thread->regs);
    if (!thread->clears || !leaves(thread, thread->clears, thread->clears + 4, "the end of it"))
        return !*judged.broken;
    clear_marks(thread->clears, thread->clears + 4, STALE);
    return true;
}

/* How many threads that are recorded stand at a site between what its event does and the effect step. Before the event's end rax is saved. */
static uint64_t standing_at(const struct site *site) {
    uint64_t found = 0, from = site->place + every_event()->recorded, end = site->place + site->event;
    for (int at = 0; at < thread_count(); at++) {
        const struct thread *thread = thread_number(at);
        struct user_regs_struct came = thread->regs;
        if (thread->state == GONE || came.rip < from || end < came.rip)
            continue;
        if (came.rip < end)
            read_memory(thread->tid, saved_at(&came), &came.rax, sizeof came.rax);
        found += is_recorded(came);
    }
    return found;
}

bool judge_counters(void) {
    if (every_event()->slots)
        return judge_ring(judged.broken, sizeof judged.broken);
    for (size_t at = 0; at < site_count(); at++) {
        const struct site *site = site_number(at);
        uint64_t told = 0, made = site->effects + site->pending + standing_at(site);
        if (!site->event)
            continue;
        if (!read_memory(living(), mark_address(site), &told, every_event()->size) || told != (every_event()->size > 1 ? made : made > 0)) {
            snprintf(judged.broken, sizeof judged.broken, "the record of the site at %08lx is %lu, but %lu came by it%s", site->addr, told, made,
                     every_event()->comparison_count ? " with the condition met" : "");
            return false;
        }
    }
    return true;
}
