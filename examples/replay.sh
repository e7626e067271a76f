#!/bin/sh
# Checks on a real run what the theorem requires, and what it promises: records the run on this processor, instruction by
# instruction, and repeats it by the step relation, with the original and with the patched file. The last three lines say that the
# premises held at each step, that processor and model agree, and that both files look alike. In a checkout it also needs libzydis-dev.
. "$(dirname "$0")/begin.sh"

cat > small.c <<'C'
#include <stdio.h>
int main(void) {
  puts("hello");
  return 7;
}
C
gcc -O1 -static -no-pie -o small small.c

"$scripts/replay_run.py" --functions --count ./small
