"""Linux's ptrace, for tests that step through programs: a program started under it, its registers."""
import ctypes
import errno
import os
import signal

from vaknuhol.arguments import Refusal

# linux/ptrace.h
PEEKUSER, CONT, SINGLESTEP, SEIZE = 3, 7, 9, 0x4206
EVENT_EXEC, EVENT_EXIT = 4, 6
FOLLOWED = 1 << EVENT_EXEC | 1 << EVENT_EXIT
EXIT_KILL, WAIT_ALL = 0x100000, 0x40000000
RIP = 16 * 8  # its place in struct user, sys/user.h
NOT_STARTED = 126

LIBC = ctypes.CDLL(None, use_errno=True)
LIBC.ptrace.argtypes = [ctypes.c_long, ctypes.c_long, ctypes.c_void_p, ctypes.c_void_p]
LIBC.ptrace.restype = ctypes.c_long


def go_on(pid, with_signal=0, request=CONT):
    """Lets a stopped process go on; one that was killed meanwhile is waited for like any other."""
    LIBC.ptrace(request, pid, None, with_signal)


def register(pid, place):
    return LIBC.ptrace(PEEKUSER, pid, place, None) & (1 << 64) - 1


def become(path, command, told, mask):
    """The child's part of `start`: the program in its place, once it is traced, as if no Python had been before."""
    try:
        if os.read(told, 1):
            for number in (signal.SIGPIPE, signal.SIGXFSZ):
                signal.signal(number, signal.SIG_DFL)
            signal.pthread_sigmask(signal.SIG_SETMASK, mask)
            os.execv(path, command)
    finally:
        os._exit(NOT_STARTED)


def start(path, command, mask=()):
    """The process, which waits at its first instruction; its signal mask is the given one."""
    told, tell = os.pipe()
    pid = os.fork()
    if pid == 0:
        os.close(tell)
        become(path, command, told, mask)
    os.close(told)
    if LIBC.ptrace(SEIZE, pid, None, FOLLOWED | EXIT_KILL):
        why = os.strerror(ctypes.get_errno())
        os.close(tell)
        os.waitpid(pid, 0)
        raise Refusal(f"{path} can't be traced: ptrace is not allowed here ({why})")
    os.write(tell, b"x")
    os.close(tell)
    while True:
        _, status = os.waitpid(pid, WAIT_ALL)
        if os.WIFEXITED(status) or os.WIFSIGNALED(status):
            raise Refusal(f"{path} can't be started: is it a whole program, and may it be executed?")
        if status >> 16 == EVENT_EXEC:
            return pid
        go_on(pid, 0 if status >> 16 else os.WSTOPSIG(status))


def can_trace():
    """Whether ptrace is allowed: a child that waits is traced, and ended."""
    pid = os.fork()
    if pid == 0:
        signal.pause()
    allowed = LIBC.ptrace(SEIZE, pid, None, EXIT_KILL) == 0 or ctypes.get_errno() not in (errno.EPERM, errno.ENOSYS)
    os.kill(pid, signal.SIGKILL)
    os.waitpid(pid, WAIT_ALL)
    return allowed
