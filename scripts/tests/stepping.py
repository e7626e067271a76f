"""Programs run instruction by instruction, and their registers meanwhile."""
import collections
import ctypes
import os
import signal
import struct

from tests.tracing import EVENT_EXIT, LIBC, RIP, SINGLESTEP, WAIT_ALL, go_on, register, start

GETREGS = 12  # sys/ptrace.h; the words of struct user_regs_struct, sys/user.h
USER = (
    "r15 r14 r13 r12 rbp rbx r11 r10 r9 r8 rax rcx rdx rsi rdi orig_rax rip cs eflags rsp ss fs_base gs_base "
    "ds es fs gs"
).split()


def single_steps(command, seen, at_end=lambda pid: None, status=0, signalled=lambda pid: None):
    """Runs a program instruction by instruction: `seen` is called with its pid before each, `signalled` where a signal
    comes before the instruction is made, and `at_end` as it ends."""
    kept, null = os.dup(1), os.open(os.devnull, os.O_WRONLY)
    stopped: int | None = None
    os.dup2(null, 1)
    pid = start(command[0], command)
    os.dup2(kept, 1)
    os.close(kept)
    os.close(null)
    while stopped is None or os.WIFSTOPPED(stopped):
        number, event = (os.WSTOPSIG(stopped), stopped >> 16) if stopped is not None else (0, 0)
        if event == EVENT_EXIT:
            at_end(pid)
        elif number == signal.SIGTRAP and not event:  # the first step ends the exec, before the first instruction
            seen(pid)
        elif not event and stopped is not None:
            signalled(pid)
        go_on(pid, 0 if event or number == signal.SIGTRAP else number, request=SINGLESTEP)
        _, stopped = os.waitpid(pid, WAIT_ALL)
    ended = os.waitstatus_to_exitcode(stopped)
    assert ended == status, f"{' '.join(command)} ended with {ended} under single steps"


def visits_of(path, status, at_end=lambda pid: None):
    """How often the program stands at each address, and what at_end reads as it ends."""
    visits: collections.Counter[int] = collections.Counter()
    read = []

    def seen(pid):
        visits[register(pid, RIP)] += 1

    single_steps([path], seen, lambda pid: read.append(at_end(pid)), status=status)
    return visits, read[0]


def registers_of(pid):
    """The registers of a process that is stopped, by their names."""
    data = ctypes.create_string_buffer(8 * len(USER))
    LIBC.ptrace(GETREGS, pid, None, data)
    return dict(zip(USER, struct.unpack(f"<{len(USER)}Q", data)))
