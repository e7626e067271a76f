"""Calls vaknuhol-run, which follows the patched program: signals that are sent to this process are for the program."""
import ctypes
import os
import signal
import subprocess

from vaknuhol.messages import script_name
from vaknuhol.native import program

PASSED_ON = (signal.SIGINT, signal.SIGQUIT, signal.SIGTERM, signal.SIGHUP, signal.SIGUSR1, signal.SIGUSR2)
WATCHED = (signal.SIGCHLD, *PASSED_ON)
TO_END = {signal.SIGTERM, signal.SIGHUP}
BY_KERNEL, SET_DEATH_SIGNAL = 0x80, 1  # linux/signal.h SI_KERNEL, linux/prctl.h PR_SET_PDEATHSIG
LIBC = ctypes.CDLL(None, use_errno=True)


def tracer_of(pid: int) -> int:
    """The process that traces another one; 0 where there is none."""
    try:
        with open(f"/proc/{pid}/status", encoding="ascii", errors="replace") as file:
            return next((int(line.split()[1]) for line in file if line.startswith("TracerPid:")), 0)
    except OSError:
        return 0


def pass_on(runner: int, info: signal.struct_siginfo) -> None:
    """What a terminal sends, or the program itself, the program has got; else the runner hands it on."""
    if info.si_code != BY_KERNEL and tracer_of(info.si_pid) != runner:
        os.kill(runner, info.si_signo)


def wait_for(runner: "subprocess.Popen[bytes]") -> set[int]:
    """To its end, with signals passed on; which came. Each end of a child wakes this process, so no time is set: after
    a stop (Ctrl-Z) that is longer, Python 3.11's sigtimedwait answers with what isn't a signal."""
    came: set[int] = set()
    while runner.poll() is None:
        info = signal.sigwaitinfo(WATCHED)
        if info.si_signo != signal.SIGCHLD:
            came.add(info.si_signo)
            pass_on(runner.pid, info)
    return came


def supervise(words: list[str]) -> int:
    """The status with which vaknuhol-run ends; it ends, and the program with it, where this process is killed. A
    request to end that came for the program, as by `timeout`, which sends it twice, ends this process neither then nor
    later: it shows what was recorded."""
    mask, former = signal.pthread_sigmask(signal.SIG_BLOCK, WATCHED), signal.signal(signal.SIGCHLD, signal.SIG_DFL)
    came: set[int] = set()

    def prepare() -> None:
        LIBC.prctl(SET_DEATH_SIGNAL, signal.SIGKILL, 0, 0, 0)
        signal.pthread_sigmask(signal.SIG_SETMASK, mask)

    try:
        runner = subprocess.Popen(words, preexec_fn=prepare)
        came = wait_for(runner)
        return runner.returncode if runner.returncode >= 0 else 128 - runner.returncode
    finally:
        while signal.sigpending() & set(WATCHED):
            signal.sigwaitinfo(WATCHED)  # what came as the program ended, as Ctrl-C, was for the program
        for number in came & TO_END:
            signal.signal(number, signal.SIG_IGN)
        signal.signal(signal.SIGCHLD, former)
        signal.pthread_sigmask(signal.SIG_SETMASK, mask)


def state_of(record: str) -> tuple[int, int] | None:
    """What tells one record at a path from another."""
    try:
        state = os.stat(record)
        return state.st_ino, state.st_mtime_ns
    except OSError:
        return None


def run_recorded(table: str, path: str, command: list[str], record: str) -> tuple[int, bool]:
    """Runs a patched file; the status, and whether a record was written. Where not, the runner has told why."""
    before = state_of(record)
    status = supervise([program("vaknuhol-run"), script_name(), table, os.path.realpath(record), path, *command])
    return status, state_of(record) not in (before, None)
