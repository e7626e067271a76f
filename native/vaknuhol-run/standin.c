/* A stand-in becomes the patched program itself, so that its number, parent, input, output, status and signals are the program's. Its runner is the
   child of a child that has ended, in a session of its own, with no file of the program's open but its errors: nobody waits for it. */
#include "run.h"

#include <limits.h>
#include <sys/prctl.h>
#include <sys/socket.h>
#include <time.h>

/* What a stand-in runs: `vaknuhol wrap` writes these into a copy of this program, where it finds the mark. The paths are absolute. */
struct {
    char mark[16], patched[PATH_MAX], run_file[PATH_MAX], records[PATH_MAX];
    uint32_t keep;
} names = {.mark = "vakstandin 2"};
enum { SPOKEN_BY = 3 };

/* Nothing of the program's stays open or keeps a folder in use, but for its errors, until it has ended; no signal ends the runner before. The socket may be
   one of the three files that a program has by custom, where that was closed. */
static void stand_apart(int socket) {
    sigset_t all;
    sigfillset(&all);
    sigprocmask(SIG_BLOCK, &all, NULL);
    signal(SIGCHLD, SIG_DFL);
    if (socket != SPOKEN_BY && dup3(socket, SPOKEN_BY, O_CLOEXEC) >= 0)
        close(socket);
    close(0), close(1);
    if (open("/dev/null", O_RDWR) == 0)
        dup2(0, 1);
    if (fcntl(2, F_GETFD) < 0)
        dup2(0, 2);
    syscall(SYS_close_range, SPOKEN_BY + 1, ~0u, 0u);
    prctl(PR_SET_NAME, "vaknuhol-run");
    if (chdir("/"))
        return; /* then the folder stays in use until the end */
}

/* The runner is started as the child of a child that ends at once, and that sends no signal as it does; whether it traces this process. If not, why,
   in a line. */
static bool has_runner(char line[ANSWER]) {
    int ends[2];
    char record[PATH_MAX + 64];
    struct timespec now;
    struct run run = {.run_file = names.run_file,
                      .patched = names.patched,
                      .record = record,
                      .folder = names.records,
                      .keep = names.keep,
                      .is_stand_in = true,
                      .first = getpid()};
    if (socketpair(AF_UNIX, SOCK_SEQPACKET | SOCK_CLOEXEC, 0, ends))
        return false;
    pid_t child = (pid_t)syscall(SYS_clone, 0, 0, 0, 0, 0);
    if (child == 0) {
        setsid();
        if (fork())
            _exit(0);
        close(ends[0]);
        stand_apart(ends[1]);
        clock_gettime(CLOCK_REALTIME, &now); /* so that records sort by the times at which they were begun */
        snprintf(record, sizeof record, "%s/%lld.%09ld-%d.record", names.records, (long long)now.tv_sec, now.tv_nsec, getpid());
        trace(&run, SPOKEN_BY);
        follow(&run);
        exit(0);
    }
    close(ends[1]);
    if (child > 0)
        TEMP_FAILURE_RETRY(waitpid(child, NULL, __WALL));
    return is_traced(ends[0], 0, line);
}

/* In the folder of records a file tells how many runs were not recorded; the first of them says so. */
static void say_once(const char *why) {
    char path[PATH_MAX + 16];
    snprintf(path, sizeof path, "%s/unrecorded", names.records);
    int file = open(path, O_WRONLY | O_CREAT | O_APPEND | O_CLOEXEC, 0666);
    if (file < 0 || lseek(file, 0, SEEK_END) == 0)
        warnx("%s runs, but nothing is recorded: %s", names.patched, why);
    if (file >= 0) {
        dprintf(file, "%d %s\n", getpid(), why);
        close(file);
    }
}

void stand_in(char **words) {
    if (!names.patched[0])
        return;
    char line[ANSWER] = "its runner ended, or none could be started";
    bool is_alone = !has_runner(line);
    if (is_alone)
        say_once(strncmp(line, "vaknuhol: ", 10) ? line : line + 10);
    execv(names.patched, words);
    if (is_alone)
        warn("%s can't be started", names.patched);
    _exit(NOT_STARTED);
}
