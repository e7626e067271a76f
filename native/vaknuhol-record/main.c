/* Runs a static program one instruction after the other, and writes the run as a world script (docs/reference/formats.md).

   usage: vaknuhol-record WORLD STATES PATH EVERY LIMIT [--full] [--evex] [--keep=NUMBERS] PROGRAM [ARGUMENTS..]

   WORLD gets the registers at the entry point, the memory beside the file's, the answers of the first LIMIT steps, and the
   deliveries: an entry for each instruction that asks, and for each exact one that leaves flags undefined, with what it
   changed, and a delivery for each handler that is entered or left. STATES gets the processor's registers after each EVERY
   steps and at the end, in the lines that `step` prints, and how the run ended. PATH gets for each step eight bytes: the
   address, and in the highest bit whether it led elsewhere than to the next instruction; and eight for each register that
   --keep numbers, as it was before. With --full each asked instruction is compared in all memory, as system calls are;
   without it where its operands lie. CPUID hides AVX-512, unless --evex is there. */
#include <stdlib.h>
#include <string.h>
#include <sys/syscall.h>

#include "record.h"
#include "refusing.h"
#include "script.h"
#include "shadow.h"

enum { MOST_SCRIPT = 255 << 20 };

const struct refusal refusal = {1, "no memory: %m"};
static struct record record;
static FILE *states;
static bool is_full, keeps_evex;
static long written, delivered;

/* Why the run ends at a system call: it starts a thread, or another program in its place. */
static const char *ends_at_call(const struct user_regs_struct *regs) {
    uint64_t flags = regs->rdi, thread = 0x10000, shared = 0x100, waits = 0x4000;
    if (regs->rax == SYS_clone3 && !read_memory(tracee(), regs->rdi, &flags, 8))
        return 0;
    if ((regs->rax == SYS_clone || regs->rax == SYS_clone3) && (flags & thread || (flags & shared && !(flags & waits))))
        return "thread";
    return 0;
}

/* Makes an asked instruction and writes its entry. */
static enum outcome make_asked(const struct decoded *insn, struct user_regs_struct *before, struct user_regs_struct *after) {
    struct span spans[MOST_SPANS];
    bool all = enters_kernel(insn) || is_full;
    int count = all ? 0 : spans_of(insn, before, spans);
    if (is_syscall(insn)) {
        const char *why = ends_at_call(before);
        if (why)
            return ends_by(why);
        refuse_rseq(tracee(), before);
    }
    all ? take_all(0) : take_spans(spans, count, 0);
    enum outcome outcome = make_step(insn, after);
    if (outcome != MADE)
        return outcome;
    put_right(tracee(), insn, before, after, keeps_evex);
    write_question(record.entries, insn);
    write_changes(record.entries, before, after);
    all ? take_all(record.entries) : take_spans(spans, count, record.entries);
    record.asked++;
    return MADE;
}

static enum outcome make_exact(const struct decoded *insn, enum asking kind, struct user_regs_struct *after) {
    enum outcome outcome = make_step(insn, after);
    if (outcome == MADE && kind == FLAGS_ALONE) {
        write_question(record.entries, insn);
        fprintf(record.entries, "set flags %016llx\n", after->eflags);
        record.flags_alone++;
    }
    return outcome;
}

/* Makes one instruction and writes its entry, if it has one; or what comes before it. */
static enum outcome make(const struct decoded *insn, struct user_regs_struct *before, struct user_regs_struct *after) {
    if (is_return(insn, before))
        return make_return(&record, insn, before, after);
    enum asking kind = kind_now(insn, before);
    enum outcome outcome = kind == ASKED ? make_asked(insn, before, after) : make_exact(insn, kind, after);
    if (outcome == CAME)
        return deliver(&record, insn, before, after);
    if (outcome == MADE)
        count_step(&record, insn, before, after);
    return outcome;
}

/* Whether the script has room for what was written last; else it is as if that had not been made. */
static bool has_room(const struct record *before) {
    if (ftell(record.entries) + ftell(record.deliveries) > MOST_SCRIPT) {
        record = *before;
        return ends_by("script");
    }
    written = ftell(record.entries), delivered = ftell(record.deliveries);
    return true;
}

static void run(struct user_regs_struct *regs, uint64_t every, uint64_t limit) {
    struct user_regs_struct after;
    record.arrived = *regs;
    write_state(states, 0, regs);
    while (record.steps < limit) {
        const struct record before = record;
        const struct decoded *insn = decode(tracee(), regs->rip, is_own(regs->rip));
        if (insn ? make(insn, regs, &after) == ENDED || !has_room(&before) : !ends_by("unreadable"))
            break;
        if (record.steps > before.steps && record.steps % every == 0)
            write_state(states, record.steps, &record.arrived);
        *regs = after;
    }
    write_state(states, record.steps, &record.arrived);
}

/* The break goes to the next page where it lies in a page of the file. */
static void move_break(const struct user_regs_struct *regs) {
    uint64_t now = call(regs, SYS_brk, 0);
    if (is_own(now / PAGE * PAGE))
        call(regs, SYS_brk, (now + PAGE - 1) / PAGE * PAGE);
}

/* The registers that the path has. */
static void read_kept(const char *numbers) {
    for (char *end; *numbers && record.kept_count < MOST_KEPT; numbers = end + (*end == ','))
        record.kept[record.kept_count++] = strtol(numbers, &end, 10) & 15;
}

static int read_words(int count, char **words) {
    int at = 6;
    for (; at < count && !strncmp(words[at], "--", 2); at++) {
        is_full |= !strcmp(words[at], "--full");
        keeps_evex |= !strcmp(words[at], "--evex");
        if (!strncmp(words[at], "--keep=", 7))
            read_kept(words[at] + 7);
    }
    if (at >= count) {
        fprintf(stderr, "usage: vaknuhol-record WORLD STATES PATH EVERY LIMIT [--full] [--evex] [--keep=NUMBERS] PROGRAM [ARGUMENTS..]\n");
        exit(2);
    }
    return at;
}

int main(int count, char **words) {
    struct user_regs_struct first, regs;
    int program = read_words(count, words);
    FILE *world = fopen(words[1], "w");
    states = fopen(words[2], "w");
    record.path = fopen(words[3], "w");
    record.entries = tmpfile();
    record.deliveries = tmpfile();
    if (!world || !states || !record.path || !record.entries || !record.deliveries)
        die("the outputs can't be written");
    read_segments(words[program]);
    start(words + program);
    get_regs(tracee(), &first);
    first.orig_rax = -1;
    if (!change_vector(tracee(), first.rsp, &(struct told){0}, true))
        die("the program's memory can't be changed");
    move_break(&first);
    set_regs(tracee(), &first);
    struct stack stack = read_stack(first.rsp);
    regs = first;
    run(&regs, strtoull(words[4], 0, 10), strtoull(words[5], 0, 10));
    if (is_running())
        see_maps();
    end_started();
    write_world(world, &first, &stack, (struct part){record.deliveries, delivered}, (struct part){record.entries, written});
    fprintf(states, "asked %lu\nflags_alone %lu\nend %s\n", record.asked, record.flags_alone, ending());
    if (fclose(states) || fclose(record.path))
        die("the states can't be written");
    return 0;
}
