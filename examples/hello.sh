#!/bin/sh
# Builds a small C program, puts a cover event on the `mov` before its `return 7`, runs the patched program, and shows the byte that
# the event set: the last line ends with 0x01. If there is no e9tool yet, it is built first, which takes some minutes.
needs=gdb
. "$(dirname "$0")/begin.sh"

cat > hello.c <<'C'
int puts(const char *);
int main(void) { puts("hello"); return 7; }
C
gcc -O1 -static -no-pie -o hello hello.c

# STARTS: the address of every instruction. SITES: the last five-byte mov of main.
objdump -dw hello | sed -nE 's/^ +([0-9a-f]+):\t.*/\1/p' > starts
objdump -dw hello | sed -nE '/<main>:/,/^$/s/^ +([0-9a-f]+):\tb[89a-f] .*/\1/p' | tail -n 1 > sites
test -s sites || { echo "main has no five-byte mov with this gcc" >&2; exit 1; }

"$E9TOOL" patch hello starts sites cover patched report

stage "the report"
cat report
stage "the patched program"
chmod +x patched
./hello > hello.out && before=0 || before=$?
./patched && after=0 || after=$?
echo "it ended with $after, and the original with $before"
stage "the event's byte, as the patched program ends"
gdb -q -batch -ex 'catch syscall exit_group' -ex run -ex 'x/1xb 0x20040' patched 2> /dev/null | tail -n 1
