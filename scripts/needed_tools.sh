#!/bin/sh
# Whether the tools that this repository needs are here: needed_tools.sh [--install] [NAME...]. needed_tools.txt lists them, each with the
# Debian package that has it; without a NAME all are looked for. Where some are missing, the status is 1, and one line names them and
# the command that installs them. With --install root has apt-get install them first, after apt-get update where apt has no list of these
# packages, or can't install by the list that it has.
set -eu
name=$(basename "$0") list=$(dirname "$0")/needed_tools.txt install=
[ "${1:-}" != --install ] || { install=yes; shift; }
wanted=$*
for tool in "$@"; do
    grep -qF " $tool " "$list" || { echo "$name: $list has no $tool" >&2; exit 2; }
done

is_here() { # KIND NAME
    case $1 in
        command) command -v "$2" > /dev/null ;;
        file) ls -d $2 > /dev/null 2>&1 ;;
        module) /usr/bin/python3 -c "import importlib.util; exit(importlib.util.find_spec('$2') is None)" 2> /dev/null ;;
        *) echo "$name: $list has a kind $1" >&2; exit 2 ;;
    esac
}

look() { # what is missing goes to $missing, the packages that have it to $packages
    missing= packages=
    while read -r kind tool package; do
        case $kind in '' | '#'*) continue ;; esac
        case " $wanted " in '  ' | *" $tool "*) ;; *) continue ;; esac
        is_here "$kind" "$tool" && continue
        missing="$missing${missing:+, }$tool"
        case " $packages " in *" $package "*) ;; *) packages="$packages${packages:+ }$package" ;; esac
    done < "$list"
}

get() { # apt-get with these words, which is waited for; what it says is shown where it fails
    apt-get "$@" > "$said" 2>&1 || { tail -n 5 "$said" >&2; return 1; }
}
update() {
    echo "$name: apt-get update" >&2
    get update
}

look
[ -n "$missing" ] || exit 0
words="install --yes --no-install-recommends"
can_install() { apt-get --simulate $words $packages > /dev/null 2>&1; }
if [ -n "$install" ] && [ "$(id -u)" = 0 ] && command -v apt-get > /dev/null; then
    said=$(mktemp)
    trap 'rm -f "$said"' EXIT
    trap 'exit 1' HUP INT TERM
    export DEBIAN_FRONTEND=noninteractive
    can_install || update || true
    echo "$name: apt-get $words $packages" >&2
    get -o DPkg::Lock::Timeout=600 $words $packages || { update && get -o DPkg::Lock::Timeout=600 $words $packages; } || true
    look
    [ -n "$missing" ] || exit 0
fi
before=
can_install || before="apt-get update && "
echo "$name: missing: $missing. As root, this installs it: ${before}apt-get $words $packages" >&2
exit 1
