#!/bin/sh
# Compares the program's model of the processor with this processor: run.sh SEED COUNT [JOBS].
# COUNT byte sequences for lengths, as many exact instructions for meanings and asked ones, and a hundredth as many single
# steps of exact ones that may fault. The program is $E9TOOL, or crates/e9tool/out/e9tool, which the gate leaves. $BUILT may
# name a folder with what build.sh builds, and $CPUINFO a file that tells, as /proc/cpuinfo does, what the processor has. The
# status is 0 where nothing differs but by the rules that the tables name, 1 where something does, and 2 where it can't be run.
set -eu
here=$(cd "$(dirname "$0")" && pwd)
seed=${1:?run.sh SEED COUNT [JOBS]}
count=${2:?run.sh SEED COUNT [JOBS]}
jobs=${3:-$(($(getconf _NPROCESSORS_ONLN) / 2 + 1))}
tool=$(realpath -m "${E9TOOL:-$here/../../crates/e9tool/out/e9tool}")
fail() { echo "run.sh: $*" >&2; exit 2; }
[ "$(uname -m)" = x86_64 ] || fail "this is no x86-64 processor"
[ -x "$tool" ] || fail "$tool is not here: the gate leaves it (rt ci); \$E9TOOL may name another"
command -v "${CC:-gcc}" > /dev/null || fail "needs gcc"
cpuinfo=${CPUINFO:-/proc/cpuinfo}
grep -qw lahf_lm "$cpuinfo" || fail "this processor has no LAHF in 64-bit mode, which the guest's own code uses"

told() { sed -n "s/^$1[[:space:]]*: //p" "$cpuinfo" | head -n 1; }
echo "processor $(told 'model name') (family $(told 'cpu family'), model $(told model), stepping $(told stepping)), microcode $(told microcode), Linux $(uname -r)"
for name in avx avx2 fma bmi1 bmi2; do
    grep -qw "$name" "$cpuinfo" || echo "no $name here: its sequences are refused by the processor, and tell nothing"
done

built=${BUILT:-}
if [ -z "$built" ]; then
    built=$(mktemp -d)
    trap 'rm -rf "$built"' EXIT
    "$here/build.sh" "$built"
fi
status=0
try() {
    echo
    echo "== $1"
    got=0
    "$built/$1" "$tool" "$seed" "$2" "$jobs" || got=$?
    [ "$got" -le "$status" ] || status=$got
}
try lengths "$count"
try meanings "$count"
try asked "$count"
try singles $((count / 100))
exit "$status"
