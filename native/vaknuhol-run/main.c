/* vaknuhol-run: runs a patched program, delivers its signals outside of trampolines, and writes what it recorded. A copy of it with names written into its
   `names` is a stand-in (standin.c). Else vaknuhol calls it: NAME is what its messages begin with. It ends with the program's status, or 128
   and the number of the signal that ended it; with 125 where it refuses something. With --detach, the runner of a process lets it go. */
#include "run.h"

#include <sys/prctl.h>
#include <sys/resource.h>
#include <sys/socket.h>

/* A program waits, before it becomes the patched file, until its runner traces it. The two speak by a socket: a stand-in's runner says its number, the
   program gives it leave to trace, and the runner says by an empty line that it does, or else why it can't. */
bool is_traced(int socket, pid_t runner, char line[ANSWER]) {
    ssize_t length = -1;
    if (runner || read(socket, &runner, sizeof runner) == sizeof runner) {
        prctl(PR_SET_PTRACER, runner, 0, 0, 0); /* where the kernel knows no such leave, none is needed */
        if (send(socket, "x", 1, MSG_NOSIGNAL) == 1)
            length = read(socket, line, ANSWER - 1);
    }
    close(socket);
    if (length > 0)
        line[length - 1] = 0;
    return length == 1;
}

/* Limits on files and on memory are for the program, and not for its record, as far as they may be raised. */
static void lift_limits(void) {
    static const int LIMITS[] = {RLIMIT_FSIZE, RLIMIT_AS, RLIMIT_DATA};
    struct rlimit limit;
    for (size_t n = 0; n < sizeof LIMITS / sizeof *LIMITS; n++) {
        getrlimit(LIMITS[n], &limit);
        limit.rlim_cur = limit.rlim_max;
        setrlimit(LIMITS[n], &limit);
    }
}

/* What is refused before a stand-in is traced is told to that, which runs on and tells it. */
void trace(struct run *run, int socket) {
    FILE *errors = stderr, *program = fdopen(socket, "w");
    pid_t self = getpid();
    char leave;
    if (!program || (run->is_stand_in && write(socket, &self, sizeof self) != sizeof self) || read(socket, &leave, 1) != 1)
        errx(REFUSED, "the program doesn't wait for its runner");
    setlinebuf(program);
    stderr = run->is_stand_in ? program : errors;
    lift_limits();
    read_patch(run->run_file);
    if (stat(run->patched, &run->image))
        err(REFUSED, "%s", run->patched);
    open_record(run);
    if (ptrace(PTRACE_SEIZE, run->first, 0, FOLLOWED))
        err(REFUSED, "%s can't be traced: ptrace is not allowed here", run->patched);
    fputs("\n", program);
    fclose(program);
    stderr = errors;
}

/* The program is a child of the runner. */
static void start(struct run *run, char **words) {
    int ends[2] = {-1, -1};
    char line[ANSWER];
    socketpair(AF_UNIX, SOCK_SEQPACKET | SOCK_CLOEXEC, 0, ends);
    run->first = fork();
    if (run->first < 0)
        err(REFUSED, "no process");
    if (run->first == 0) {
        close(ends[1]);
        if (is_traced(ends[0], getppid(), line))
            execv(run->patched, words);
        _exit(NOT_STARTED);
    }
    close(ends[0]);
    trace(run, ends[1]);
}

int main(int count, char **given) {
    program_invocation_short_name = "vaknuhol";
    setlinebuf(stderr); /* so that a message is one write, and stays whole among those of other processes */
    stand_in(given);
    if (count == 3 && !strcmp(given[1], "--detach"))
        return make_runner_let_go(atoi(given[2])), 0;
    if (count < 6)
        errx(REFUSED, "usage: vaknuhol-run NAME RUNFILE RECORD PATCHED WORD0 [WORDS...], or vaknuhol-run --detach PID");
    struct run run = {.run_file = given[2], .record = given[3], .patched = given[4]};
    program_invocation_short_name = given[1];
    start(&run, given + 5);
    follow(&run);
    return WIFEXITED(run.status) ? WEXITSTATUS(run.status) : 128 + WTERMSIG(run.status);
}
