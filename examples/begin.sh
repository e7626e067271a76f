# Sourced by the examples beside it. What they need, and in a checkout what builds the command vaknuhol, is installed where it is missing
# and that may be done (by root), and else named, with the line that installs it; $needs has what one of them needs besides. Finds
# e9tool ($E9TOOL, or the proved one of this repository, which `rt run` in crates/e9tool or the gate leaves, or the installed one);
# if there is none, builds one that isn't proved, once for all examples. Goes on in a folder of its own, which is removed at the end.
# $vaknuhol and $scripts are the repository's or the package's. `stage` says what is done next.
set -e
stage() { echo "--- $*"; }
needs="gcc /usr/lib/x86_64-linux-gnu/libc.a objdump ${needs:-}"
tool= top=$(cd "$(dirname "$0")/.." && pwd)
vaknuhol=$top/bin/vaknuhol scripts=$top/scripts
for found in "${E9TOOL:-}" "$top/crates/e9tool/out/e9tool" "$(command -v e9tool || true)"; do
    [ -n "$tool" ] || [ ! -x "$found" ] || tool=$(realpath "$found")
done
if [ -x "$vaknuhol" ]; then
    [ -n "$tool" ] || command -v rt > /dev/null ||
        { echo "$(basename "$0") needs rt of the Rattle kit, which is not here, to build e9tool" >&2; exit 1; }
    needs="$needs python3 /usr/include/Zydis/Zydis.h /usr/include/elfutils/libdw.h"
else
    vaknuhol=$(command -v vaknuhol) scripts=/usr/lib/vaknuhol/scripts
fi
stage "looks for what $(basename "$0") needs"
"$scripts/needed_tools.sh" --install $needs
if [ -z "$tool" ]; then
    stage "builds e9tool, unless that is done"
    tool=$("$top/scripts/build_unproved.sh")
fi
E9TOOL=$tool
export E9TOOL
folder=$(mktemp -d)
trap 'rm -rf "$folder"' EXIT
cd "$folder"
