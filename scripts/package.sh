#!/bin/sh
# Makes the Debian package of vaknuhol: package.sh [--source] [E9TOOL [FOLDER]]. E9TOOL is the program that the gate proved and left,
# crates/e9tool/out/e9tool; the package vaknuhol_VERSION_amd64.deb goes to FOLDER, without one to the folder of E9TOOL, and with
# --source what an upload has besides: .dsc, .tar.xz, .buildinfo, .changes. It is built by debian/ in a copy of the repository. Who makes
# it is its maintainer, by $DEBFULLNAME and $DEBEMAIL as for Debian's own tools. The same sources, e9tool and tools give the same bytes:
# times are that of debian/changelog.
set -eu
kind=binary crates= left='*_amd64.deb'
[ "${1:-}" != --source ] || { kind=full crates=crates left='*.*'; shift; }
top=$(cd "$(dirname "$0")/.." && pwd)
tool=$(realpath -m "${1:-$top/crates/e9tool/out/e9tool}")
folder=$(realpath -m "${2:-$(dirname "$tool")}")
fail() { echo "package.sh: $*" >&2; exit 1; }
[ -x "$tool" ] || fail "$tool is not here: the gate leaves it (rt ci), or rt run -- check in crates/e9tool"
for name in dpkg-buildpackage dh dh_python3 help2man register-python-argcomplete; do
    command -v "$name" > /dev/null || fail "needs $name (packages dpkg-dev, debhelper, dh-python, help2man, python3-argcomplete)"
done

built=$(mktemp -d)
trap 'rm -rf "$built"' EXIT
umask 022
mkdir -p "$built/vaknuhol" "$folder"
for name in bin $crates debian docs examples native scripts CHANGELOG.md README.md SECURITY.md; do
    cp -R "$top/$name" "$built/vaknuhol/"
done
find "$built" \( -name __pycache__ -o -name out -o -path '*/scripts/tests' -o -path '*/debian/made' \) -prune -exec rm -rf {} +
install -D -m 755 "$tool" "$built/vaknuhol/crates/e9tool/out/e9tool"
cd "$built/vaknuhol"
if [ -n "${DEBEMAIL:-}" ]; then
    who="${DEBFULLNAME:-$DEBEMAIL} <$DEBEMAIL>"
    sed -i "s/^Maintainer: .*/Maintainer: $who/" debian/control
    sed -i "s/^ -- .* <.*>  / -- $who  /" debian/changelog
fi
PATH=/usr/sbin:/usr/bin:/sbin:/bin dpkg-buildpackage --build="$kind" -us -uc > "$built/log" 2>&1 ||
    { cat "$built/log" >&2; fail "dpkg-buildpackage failed"; }
cp "$built"/vaknuhol_$left "$folder/"
echo "$folder/$(basename "$built"/vaknuhol_*_amd64.deb)"
