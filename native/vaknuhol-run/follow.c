#include "run.h"

#include <sched.h>
#include <stddef.h>
#include <time.h>

/* Seconds between two writings of the record, how many times as long as one takes, and after how many it is told that the program alone has ended. */
enum { PAUSE = 2, COSTS_AT_MOST = 20, TOLD_AFTER = 1 };
static const int PASSED_ON[] = {SIGINT, SIGQUIT, SIGTERM, SIGHUP, SIGUSR1, SIGUSR2};

struct tasks all_tasks = LIST_HEAD_INITIALIZER(all_tasks);
static struct run *run;
static int losses_told, rests_told;

/* The thread of that number, or one of that process, or nothing. */
static struct task *find_task(pid_t tid, pid_t group) {
    struct task *it;
    LIST_FOREACH(it, &all_tasks, others)
    if (it->tid == tid || it->group == group)
        break;
    return it;
}

static void add_task(pid_t tid, pid_t group, struct space *space) {
    struct task *it = zeros(sizeof *it);
    it->tid = tid, it->group = group, it->space = space;
    LIST_INSERT_HEAD(&all_tasks, it, others);
    if (space)
        space->members++, run->is_written = false;
}

void drop_task(struct task *it, const char *how, bool has_memory) {
    struct space *space = it->space;
    if (space && --space->members == 0) {
        if (!(has_memory ? read_range(space, it->tid) : space->is_shared) && !losses_told++)
            warnx("warning: the memory of process %d was its own, and could not be read as it ended, or began another program (exec): its record has "
                  "too few events, what was read up to two seconds before, or none",
                  it->group);
        snprintf(space->ended, sizeof space->ended, "%s", how);
        drop_space(space);
    }
    LIST_REMOVE(it, others);
    free(it);
}

/* Whether the process runs the patched file. */
static bool is_ours(pid_t pid) {
    struct stat now;
    char path[40];
    snprintf(path, sizeof path, "/proc/%d/exe", pid);
    return !stat(path, &now) && now.st_dev == run->image.st_dev && now.st_ino == run->image.st_ino;
}

/* The flags of clone with which a thread at its first stop was made: it has the registers of the call. Of clone3 they are in memory; where that can't be read,
   it is taken for the call of posix_spawn, since fork makes clone. */
static unsigned long birth_flags(pid_t tid) {
    long number = ptrace(PTRACE_PEEKUSER, tid, offsetof(struct user, regs.orig_rax), 0);
    unsigned long first = (unsigned long)ptrace(PTRACE_PEEKUSER, tid, offsetof(struct user, regs.rdi), 0);
    uint64_t flags = CLONE_VM | CLONE_VFORK;
    if (number == SYS_clone3)
        read_word(tid, first, &flags);
    return number == SYS_clone ? first : number == SYS_clone3 || number == SYS_vfork ? flags : 0;
}

/* A thread, or a process that runs at once with its parent in the same memory. */
static bool is_beside(pid_t tid, pid_t group) { return group != tid || (birth_flags(tid) & (CLONE_VM | CLONE_VFORK)) == CLONE_VM; }

/* A thread or a process at its first stop. Its parent hasn't gone on yet, but may have been killed. */
static void born(pid_t tid) {
    pid_t group = atoi(status_of(tid, "\nTgid:"));
    const struct task *parent = find_task(0, group == tid ? atoi(status_of(tid, "\nPPid:")) : group);
    struct space *space = parent ? parent->space : NULL;
    bool has_program = parent ? space != NULL : is_ours(tid);
    if (space && is_beside(tid, group) && !run->threads++ && patch->warning[0])
        warnx("%s", patch->warning);
    if (has_program && !(birth_flags(tid) & CLONE_VM)) {
        run->processes++;
        space = space_of_child(tid, space);
        run->unrecorded += !space;
    }
    add_task(tid, group, space);
    ptrace(PTRACE_CONT, tid, 0, 0);
}

/* A parent goes on, and perhaps to another program, once its child has been seen. */
static void await_child(pid_t tid) {
    siginfo_t info;
    if (!find_task(tid, 0) && !TEMP_FAILURE_RETRY(waitid(P_PID, (id_t)tid, &info, WEXITED | WSTOPPED | WNOWAIT | __WALL)) && info.si_code == CLD_TRAPPED)
        born(tid);
}

/* A stand-in's runner is then done with the program's errors; who called another one waits for it. */
static void first_ends(void) {
    if (!run->processes)
        errx(REFUSED, "%s can't be started: is it a whole program, and may it be executed?", run->patched);
    run->is_over = true;
    write_record(run, TAILQ_EMPTY(&all_spaces));
    if (run->is_stand_in)
        dup2(0, 2);
    else
        alarm(TOLD_AFTER);
}

/* That the program has ended, and what it left has not. */
static void tell_rest(void) {
    const struct task *it;
    int others = 0;
    LIST_FOREACH(it, &all_tasks, others)
    others += it == find_task(0, it->group);
    pid_t group = others ? LIST_FIRST(&all_tasks)->group : 0;
    if (others && !run->is_stand_in && !rests_told++)
        warnx("the program has ended, and process %d, which it left%s, is waited for: kill %d ends it, vaknuhol dump --detach %d lets it run on", group,
              others > 1 ? " with others" : "", group, group);
}

/* A program learns from the kernel where its table of program headers is loaded, how many entries that has, and where the program starts. The patched
   file's table is another, longer one, and a loader form starts at its stub. The C library of a static program reads the table, so it would do other
   work than in the original. The original's table is loaded too, where the original has it, and as it was: the process is told of that. */
static void tell_original(pid_t tid) {
    struct user_regs_struct regs;
    if (ptrace(PTRACE_GETREGS, tid, 0, &regs))
        return;
    know_file(tid, regs.rip);
    if (patch->told.header_count)
        change_vector(tid, regs.rsp, &patch->told, false);
}

/* At exec's stop the other threads are gone, and the process may run the patched program, or again. */
static void replaced(pid_t pid) {
    struct task *it = find_task(0, pid);
    run->execs += it && it->space;
    for (; it; it = find_task(0, pid))
        drop_task(it, "exec", false);
    bool has_program = is_ours(pid);
    run->processes += has_program && !run->processes;
    if (has_program)
        tell_original(pid);
    if (has_program || !run->is_stand_in)
        add_task(pid, pid, has_program && to_call_stop(pid) ? space_of(pid) : NULL);
    else if (pid == run->first)
        first_ends();
    ptrace(has_program || !run->is_stand_in ? PTRACE_CONT : PTRACE_DETACH, pid, 0, 0);
}

static void ended(pid_t tid, int status, bool has_memory) {
    char how[24];
    struct task *it = find_task(tid, 0);
    snprintf(how, sizeof how, WIFEXITED(status) ? "exit %d" : "signal %d", WIFEXITED(status) ? WEXITSTATUS(status) : WTERMSIG(status));
    if (it && has_memory && it->space && it->space->members == 1 && is_lost(it->space, it->tid, it->group))
        run->lost++;
    if (it)
        drop_task(it, how, has_memory);
}

/* A thread stops as it ends, and has its memory yet. */
static void stopped(pid_t tid, int number, int event) {
    const struct task *it = find_task(tid, 0);
    unsigned long told = 0;
    if (event == PTRACE_EVENT_EXEC) {
        replaced(tid);
    } else if (!it) {
        born(tid);
    } else if (event == PTRACE_EVENT_STOP && number != SIGTRAP) { /* a stop of job control */
        ptrace(PTRACE_LISTEN, tid, 0, 0);
    } else {
        ptrace(PTRACE_GETEVENTMSG, tid, 0, &told);
        if (event == PTRACE_EVENT_FORK || event == PTRACE_EVENT_VFORK || event == PTRACE_EVENT_CLONE)
            await_child((pid_t)told);
        else if (event == PTRACE_EVENT_EXIT)
            ended(tid, (int)told, true);
        else if (!event && is_inner_step(it, number))
            number = 0;
        else if (!event)
            number = before_delivery(it, number);
        if (number != AWAY)
            ptrace(PTRACE_CONT, tid, 0, event ? 0 : number);
    }
}

/* A stop is waited for before anything is asked of the process: the kernel answers no call of ptrace on one that another thread than the first has replaced
   (exec) until that is done. Nothing is there to wait for where the thread was killed meanwhile. */
static void take_stop(pid_t tid) {
    siginfo_t info = {0};
    if (!waitid(P_PID, (id_t)tid, &info, WSTOPPED | WNOHANG | __WALL) && info.si_pid)
        stopped(tid, info.si_status & 0xff, info.si_status >> 8);
}

/* Everything that the kernel tells by now; whether a process is left. Nobody sees the end of a process before it is waited for: the record is there by
   then. */
static bool take_stops(void) {
    for (;;) {
        siginfo_t info = {0};
        int none = waitid(P_ALL, 0, &info, WEXITED | WSTOPPED | WNOWAIT | WNOHANG | __WALL);
        bool is_stop = info.si_code == CLD_TRAPPED;
        int status = info.si_code == CLD_EXITED ? info.si_status << 8 : info.si_status;
        if (is_stop)
            take_stop(info.si_pid);
        else if (info.si_pid)
            ended(info.si_pid, status, false);
        if (info.si_pid == run->first)
            run->status = status;
        if (!run->is_over && !find_task(0, run->first))
            first_ends();
        if (none || !info.si_pid)
            return !none;
        if (!is_stop)
            waitid(P_PID, (id_t)info.si_pid, &info, WEXITED | __WALL);
    }
}

/* A signal that someone sent to the runner is for the program, or once that has ended for all others; what a terminal sends to all, or the program
   itself, it has got. */
static void pass_on(const siginfo_t *info) {
    const struct task *it;
    if (info->si_code == SI_KERNEL || find_task(info->si_pid, 0))
        return;
    LIST_FOREACH(it, &all_tasks, others)
    if ((run->is_over || it->group == run->first) && it == find_task(0, it->group))
        kill(it->group, info->si_signo);
}

/* The record as far as the program has come. */
static void write_so_far(void) {
    const struct task *it;
    clock_t begun = clock();
    LIST_FOREACH(it, &all_tasks, others)
    if (it->space)
        read_range(it->space, it->tid);
    write_record(run, false);
    if (run->is_over)
        tell_rest();
    alarm(PAUSE + (unsigned)(COSTS_AT_MOST * (clock() - begun) / CLOCKS_PER_SEC));
}

void follow(struct run *given) {
    sigset_t watched;
    siginfo_t info;
    run = given;
    sigemptyset(&watched);
    sigaddset(&watched, SIGCHLD), sigaddset(&watched, SIGALRM), sigaddset(&watched, LET_GO_SIGNAL);
    for (size_t n = 0; n < sizeof PASSED_ON / sizeof *PASSED_ON; n++)
        sigaddset(&watched, PASSED_ON[n]);
    sigprocmask(SIG_BLOCK, &watched, NULL);
    signal(SIGXFSZ, SIG_IGN), signal(SIGPIPE, SIG_IGN);
    add_task(run->first, run->first, NULL);
    alarm(PAUSE);
    while (take_stops()) {
        int number = sigwaitinfo(&watched, &info);
        if (number == SIGALRM)
            write_so_far();
        else if (number == LET_GO_SIGNAL)
            let_go(info.si_code == SI_QUEUE ? info.si_value.sival_int : 0);
        else if (number > 0 && number != SIGCHLD)
            pass_on(&info);
    }
    if (!run->is_written)
        write_record(run, true);
}
