#!/bin/sh
# Tries the package in a bare Debian 12, where nothing else of this system is: package_in_bare_debian.sh [E9TOOL]. The package and its
# source are built (package.sh) and read by lintian; then debian/tests run in a root folder that debootstrap makes, where apt installs
# the package with what it depends on. Root alone can do that; the status is 0 where all of it goes well.
set -eu
needs="autopkgtest lintian"
. "$(dirname "$0")/bare_debian.sh"

root=$folder/root
deb=$("$top/scripts/package.sh" --source "${1:-$top/crates/e9tool/out/e9tool}" "$folder/built")
lintian --allow-root --fail-on error,warning "$folder"/built/*.changes
echo "lintian finds no error and no warning in $(cd "$folder/built" && echo *)"

bare_debian "$root"
mount -t proc proc "$root/proc"
mkdir "$folder/tree"
cp -R "$top/debian" "$folder/tree/"
env --unset=E9TOOL autopkgtest --no-built-binaries "$deb" "$folder/tree/" -- chroot "$root"
echo "the package passes its tests in Debian $(cat "$root/etc/debian_version"), of $(ls "$root"/var/lib/dpkg/info/*.list | wc -l) packages"
