/* The private range of a traced process is memory that it shares with the runner: as the process begins a program, and as a forked child begins,
   it is made to attach a segment of its own there, before it executes anything. So the record outlives exec and every kind of end, nothing is
   read as a process ends, and the runner can take an event back. Where that can't be done, the range is the process's own, and is read as it
   ends. */
#include "run.h"

#include <sys/mman.h>
#include <sys/resource.h>
#include <sys/shm.h>

struct spaces all_spaces = TAILQ_HEAD_INITIALIZER(all_spaces), ended_spaces = TAILQ_HEAD_INITIALIZER(ended_spaces);

/* Its segment goes with the last process that has it. */
static struct space *new_space(void) {
    static int begun;
    struct space *it = zeros(sizeof *it);
    int id = shmget(IPC_PRIVATE, patch->private_length, 0600);
    void *range = shmat(id, NULL, 0);
    shmctl(id, IPC_RMID, NULL);
    it->number = ++begun;
    it->id = range == (void *)-1 ? -1 : id;
    it->range = it->id < 0 ? zeros(patch->private_length) : range;
    strcpy(it->ended, "running");
    TAILQ_INSERT_TAIL(&all_spaces, it, others);
    return it;
}

/* Whether a process may be made to make calls: one with a filter that the runner hasn't may be ended by a call that it never makes, unless the runner may put
   the filter off (CAP_SYS_ADMIN). That lasts until its options are set again. */
static bool may_call(pid_t tid) {
    int filters = atoi(status_of(tid, "\nSeccomp_filters:"));
    return filters == atoi(status_of(getpid(), "\nSeccomp_filters:")) || !ptrace(PTRACE_SETOPTIONS, tid, 0, FOLLOWED | PTRACE_O_SUSPEND_SECCOMP);
}

/* Whether a call maps the range: a limit of the process's own on its memory is not for the record, and is raised meanwhile as far as it may be. */
static bool maps(pid_t tid, long number, uint64_t a, uint64_t b, uint64_t c, uint64_t d) {
    struct rlimit limit, none = {RLIM_INFINITY, RLIM_INFINITY};
    int64_t at = (int64_t)patch->private_at, answer = make_call(tid, number, a, b, c, d);
    if (answer == at || prlimit(tid, RLIMIT_AS, NULL, &limit) || limit.rlim_cur == RLIM_INFINITY)
        return answer == at;
    if (prlimit(tid, RLIMIT_AS, &none, NULL))
        prlimit(tid, RLIMIT_AS, &(struct rlimit){limit.rlim_max, limit.rlim_max}, NULL);
    answer = make_call(tid, number, a, b, c, d);
    prlimit(tid, RLIMIT_AS, &limit, NULL);
    return answer == at;
}

/* Where the process has segments of its own by such numbers (a namespace), another one is found there: ours says which process attached it last. */
static bool share(struct space *it, pid_t tid) {
    struct shmid_ds state;
    it->is_shared =
        it->id >= 0 && maps(tid, SYS_shmat, (uint64_t)it->id, patch->private_at, SHM_REMAP, 0) && !shmctl(it->id, IPC_STAT, &state) && state.shm_lpid == tid;
    return it->is_shared;
}

static bool map_own(pid_t tid) {
    return maps(tid, SYS_mmap, patch->private_at, patch->private_length, PROT_READ | PROT_WRITE, MAP_PRIVATE | MAP_FIXED | MAP_ANONYMOUS);
}

static bool fill(const struct space *it, pid_t tid) { return write_memory(tid, patch->private_at, it->range, SCRATCH + patch->data_length); }

bool make_own(struct space *it, pid_t tid) {
    uint64_t word;
    return read_word(tid, patch->private_at, &word) && map_own(tid) && fill(it, tid);
}

/* The memory with which a program begins is its own, and empty. A foreign segment is covered by memory of its own. */
struct space *space_of(pid_t tid) {
    struct space *it = new_space();
    bool may = may_call(tid), is_shared = may && share(it, tid);
    if (may && !is_shared)
        map_own(tid);
    ptrace(PTRACE_SETOPTIONS, tid, 0, FOLLOWED);
    return it;
}

/* Whether the original's code stands in a process's memory again, in which nothing is recorded from then on. */
static bool restore(pid_t tid) {
    uint32_t n = 0;
    while (n < patch->covered_count && write_code(tid, covered[n].at, covered[n].bytes, covered[n].length))
        n++;
    if (n < patch->covered_count)
        return false;
    put_behind_call(tid);
    return true;
}

/* A child for which no memory can be mapped goes on in its parent's where nothing is saved there, else as the original. */
static struct space *without_own(pid_t tid, struct space *parent) {
    static int told[3];
    int way = parent && is_shareable(tid) ? 0 : restore(tid) ? 1 : 2;
    const char *const ways[] = {"its events are recorded among its parent's",
                                "it goes on as the original, and is not recorded; patched by --threads, it would be",
                                "it goes on in its parent's, where both save registers, so both may go wrong; --threads is meant for such a program"};
    if (!told[way]++)
        warnx("warning: no memory can be mapped for the record of process %d: %s", tid, ways[way]);
    return way == 1 ? NULL : parent;
}

static void forget_space(struct space *it) {
    TAILQ_REMOVE(&all_spaces, it, others);
    if (it->id >= 0)
        shmdt(it->range);
    else
        free(it->range);
    free(it);
}

/* A child's ring tells what it comes from; counts are its own. A parent's own memory is copied to its child; a new mapping holds zeros, so where it can't be
   written that is a ring without what came before. */
struct space *space_of_child(pid_t tid, struct space *parent) {
    struct space *it = new_space();
    bool may = may_call(tid), has_copy = parent && !parent->is_shared;
    if (patch->kind == RING && !read_memory(tid, patch->private_at, it->range, SCRATCH + patch->data_length) && parent && parent->is_shared)
        memcpy(it->range, parent->range, SCRATCH + patch->data_length);
    bool is_shared = may && share(it, tid), is_own = !is_shared && ((may && map_own(tid)) || has_copy);
    ptrace(PTRACE_SETOPTIONS, tid, 0, FOLLOWED);
    if (is_own)
        fill(it, tid);
    if (is_shared || is_own)
        return it;
    forget_space(it);
    return without_own(tid, parent);
}

bool read_range(struct space *it, pid_t tid) { return it->is_shared || read_memory(tid, patch->private_at, it->range, SCRATCH + patch->data_length); }

void drop_space(struct space *it) {
    if (patch->kind != RING) {
        add_counts(it);
        forget_space(it);
        return;
    }
    TAILQ_REMOVE(&all_spaces, it, others);
    keep_events(it);
    forget_rings(it);
    if (it->id >= 0)
        shmdt(it->range);
    else
        free(it->range);
    it->range = NULL;
    TAILQ_INSERT_TAIL(&ended_spaces, it, others);
}
