# Sourced by what tries something in a bare Debian 12, where nothing else of this system is; $needs has the commands that it needs. The
# script is called again with mounts and process numbers of its own: when that ends, however it does, none of its mounts and
# processes is left. $folder is removed by the first call, which sees none of these mounts, so that nothing below them is removed.
name=$(basename "$0") top=$(cd "$(dirname "$0")/.." && pwd)
fail() { echo "$name: $*" >&2; exit 1; }
if [ -z "${BARE_FOLDER:-}" ]; then
    [ "$(id -u)" = 0 ] || fail "root alone can install a system"
    for command in debootstrap unshare $needs; do
        command -v "$command" > /dev/null || fail "needs $command (package $command, unshare is in util-linux)"
    done
    BARE_FOLDER=$(mktemp -d) inside=
    trap '[ -z "$inside" ] || kill -KILL "$inside" 2> /dev/null || true; wait; rm -rf "$BARE_FOLDER"' EXIT
    trap 'exit 1' HUP INT TERM
    chmod 755 "$BARE_FOLDER"
    export BARE_FOLDER
    unshare --mount --mount-proc --propagation private --pid --fork --kill-child sh "$0" "$@" &
    inside=$!
    wait "$inside" && ended=0 || ended=$?
    inside=
    exit "$ended"
fi
folder=$BARE_FOLDER
unset BARE_FOLDER

# bare_debian ROOT: makes the system, from the mirror that apt is configured with here, or $MIRROR.
bare_debian() {
    [ -n "${MIRROR:-}" ] || MIRROR=$(apt-get indextargets --format '$(SITE)' 'Created-By: Packages' 'Release: bookworm' 'Component: main' |
        head -n 1)
    [ -n "$MIRROR" ] || fail "apt is configured with no mirror of bookworm here: name one as MIRROR"
    echo "$name: debootstrap, from $MIRROR" >&2
    debootstrap --variant=minbase bookworm "$1" "$MIRROR" > "$folder/log" 2>&1 || { tail "$folder/log" >&2; fail "debootstrap failed"; }
}
