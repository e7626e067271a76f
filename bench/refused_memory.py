#!/usr/bin/env python3
"""refused_memory.py E9TOOL [ROW..]: the rows of tests/rows (those of `unpatch`, where none is named) are run with one request for memory
refused: the first, the second, and so on until none is left to refuse; each with the outputs missing before, and with other files in
their place. Of a run with a refusal either all is as the row says, or the status is 6, nothing but a beginning of the row's text is
printed, and the outputs, in the order of the words, are whole, then one may be a beginning, and the others stand as before. Every other
file is as before, and standard error is empty. Needs cc, and a program that takes its memory from the C library's malloc."""
import os
import subprocess
import sys
import tempfile
from collections import Counter
from typing import Any

HERE = os.path.dirname(os.path.realpath(__file__))
sys.path.insert(0, os.path.join(HERE, "..", "tests"))
from rows import TESTS, read_row  # noqa: E402

STOOD = b"what stood here\n" * 2000
LIBRARY = r"""
#include <errno.h>
#include <fcntl.h>
#include <stdlib.h>
#include <unistd.h>
void *__libc_malloc(size_t), *__libc_calloc(size_t, size_t), *__libc_realloc(void *, size_t), *__libc_memalign(size_t, size_t);
static long left;
static char *told;
__attribute__((constructor)) static void begin(void) { told = getenv("REFUSED_FILE"); left = atol(getenv("REFUSED_AT")); }
static int refused(void) {
    if (left == 0 || --left > 0) return 0;
    close(open(told, O_CREAT | O_WRONLY, 0600));
    errno = ENOMEM;
    return 1;
}
void *malloc(size_t n) { return refused() ? NULL : __libc_malloc(n); }
void *calloc(size_t n, size_t m) { return refused() ? NULL : __libc_calloc(n, m); }
void *realloc(void *p, size_t n) { return refused() ? NULL : __libc_realloc(p, n); }
void *memalign(size_t a, size_t n) { return refused() ? NULL : __libc_memalign(a, n); }
void *aligned_alloc(size_t a, size_t n) { return memalign(a, n); }
int posix_memalign(void **to, size_t a, size_t n) { return (*to = memalign(a, n)) ? 0 : ENOMEM; }
"""

Row = Any  # of tests/rows.py
Files = dict[str, bytes]
Answer = tuple[int, bytes, bytes]


def run(tool: str, library: str, row: Row, before: Files, at: int) -> tuple[Answer, Files, bool]:
    """What a run with its at-th request refused answers, what it leaves, and whether there was such a request."""
    with tempfile.TemporaryDirectory() as folder:
        work, told = os.path.join(folder, "work"), os.path.join(folder, "told")
        os.mkdir(work)
        for name, data in before.items():
            with open(os.path.join(work, name), "wb") as file:
                file.write(data)
        environment = {"LD_PRELOAD": library, "REFUSED_AT": str(at), "REFUSED_FILE": told}
        done = subprocess.run([tool, *row.words], cwd=work, env=environment, capture_output=True, timeout=120)
        files = {}
        for name in os.listdir(work):
            with open(os.path.join(work, name), "rb") as file:
                files[name] = file.read()
        return (done.returncode, done.stdout, done.stderr), files, os.path.exists(told)


def kind(row: Row, before: Files, answer: Answer, files: Files) -> str | None:
    """Which of the allowed ends a run came to; none where it came to another one."""
    status, text, errors = answer
    if errors or any(files.get(name) != data for name, data in before.items() if name not in row.outputs):
        return None
    if set(files) - set(before) - set(row.outputs):
        return None
    if (status, text) == (row.status, row.stdout) and files == {**before, **row.outputs}:
        return "as without"
    if status != 6 or not row.stdout.startswith(text):
        return None
    told, over = [], False
    for name in (word.decode() for word in row.words if word.decode() in row.outputs):
        if files.get(name) == row.outputs[name] and not over:
            told.append(f"{name} whole")
        elif files.get(name) == before.get(name):
            over = True
        elif row.outputs[name].startswith(files.get(name, b"?")) and not over:
            told.append(f"{name} a beginning")
            over = True
        else:
            return None
    return "6, " + (", ".join(told) or "nothing begun")


def try_row(tool: str, library: str, row: Row, stood: bool) -> Counter[str] | None:
    """How often each end came, over all requests; none where another one did."""
    before = {**{name: STOOD for name in row.outputs if stood}, **row.inputs}
    ends: Counter[str] = Counter()
    at = 0
    while True:
        at += 1
        answer, files, was_refused = run(tool, library, row, before, at)
        end = kind(row, before, answer, files)
        if end is None or (not was_refused and end != "as without"):
            print(f"{row.name}, request {at}: status {answer[0]}, {answer[1]!r} {answer[2]!r}")
            return None
        if not was_refused:
            return ends
        ends[end] += 1


def main() -> bool:
    tool = os.path.realpath(sys.argv[1])
    names = sys.argv[2:] or sorted(it for it in os.listdir(os.path.join(TESTS, "rows")) if it.startswith("unpatch"))
    bad = 0
    with tempfile.TemporaryDirectory() as folder:
        library = os.path.join(folder, "refusing.so")
        subprocess.run(["cc", "-shared", "-fPIC", "-x", "c", "-", "-o", library], input=LIBRARY.encode(), check=True)
        for row in map(read_row, names):
            for stood in (False, True):
                ends = try_row(tool, library, row, stood)
                if not ends:
                    bad += 1
                    print(f"{row.name}: " + ("no request of it comes to malloc" if ends is not None else "FAILS"))
                    continue
                told = "; ".join(f"{end}: {count}" for end, count in sorted(ends.items()))
                print(f"{row.name}, {'with' if stood else 'without'} files under its outputs: {ends.total()} requests; {told}", flush=True)
    return bad != 0


if __name__ == "__main__":
    sys.exit(main())
