#!/bin/sh
# Tries README's two commands in a bare Debian 12 with the Rattle kit, where nothing else of this system is: start_in_bare_debian.sh. First
# a user calls them: each names in one line what is missing, and works once root has done what its line says. Then, in another such
# system, root's calls do all of it. .ci/run is ended as soon as its `rt ci`, which takes hours, is at work. The repository is a clone of
# what is committed here. Root alone can do that; it takes a quarter of an hour and more, mostly to build e9tool twice.
set -eu
needs="git rt"
. "$(dirname "$0")/bare_debian.sh"
kit=$(dirname "$(dirname "$(realpath "$(command -v rt)")")") said=$folder/said

# machine OWNER: a system at $root, without lists of packages, as images have none, with the kit to be read, and with OWNER's clone.
machine() {
    root=$folder/$1
    cp -a "$folder/made" "$root"
    mount -t proc proc "$root/proc"
    mkdir -p "$root$kit"
    mount --bind --options ro "$kit" "$root$kit"
    ln -s "$kit/bin/rt" "$root/usr/local/bin/rt"
    git clone --quiet --no-hardlinks "$top" "$root/vaknuhol"
    chroot "$root" chown -R "$1:" /vaknuhol
}

# as USER COMMAND: calls it in the clone, as process $called; what it says goes to $said.
as() {
    echo "$name: $1 calls $2" >&2
    home=/home/$1 path=/usr/local/bin:/usr/bin:/bin
    [ "$1" != root ] || home=/root path=/usr/local/sbin:/usr/local/bin:/usr/sbin:/usr/bin:/sbin:/bin
    unshare --pid --fork --kill-child --root="$root" --mount-proc chroot --userspec="$1:" / \
        env --ignore-environment --chdir=/vaknuhol HOME="$home" PATH="$path" sh -c "$2" > "$said" 2>&1 & called=$!
}
ends() { # STATUS: what was called has to end with it, and its last lines are shown
    wait "$called" && ended=0 || ended=$?
    tail -n 30 "$said"
    [ "$ended" = "$1" ] || fail "it ended with $ended, not with $1"
}
names_one_line() { # what was called names what is missing, and does nothing else; root's command goes to $line
    ends 1
    [ "$(grep -cv '^--- looks for ' "$said")" = 1 ] || fail "it says more than what is missing"
    line=$(sed -n 's/.* missing: .* As root, this installs it: //p' "$said")
    [ -n "$line" ] || fail "it names no line that installs what is missing"
}
counts() {
    ends 0
    grep -q '465  fib  numbers.c:2$' "$said" && [ "$(tail -n 1 "$said")" = 465 ] || fail "it shows no count of 465"
}
comes_to_the_gate() { # the kit's prover is at work, for the called `rt ci`
    until grep -qsx rattle "$root"/proc/[0-9]*/comm; do
        kill -0 "$called" 2> /dev/null || { tail -n 30 "$said"; fail "it ended before it proved anything"; }
        sleep 1
    done
    pkill -KILL -P "$called" # the first process there, with which all end: --kill-child forgets one that has become a user
    wait "$called" || true
    tail -n 30 "$said"
    echo "$name: rt ci was at work, and was ended" >&2
}

bare_debian "$folder/made"
rm -rf "$folder"/made/var/lib/apt/lists/*
chroot "$folder/made" useradd --create-home user

machine user
as user examples/count.sh
names_one_line
first=$line
as user .ci/run
names_one_line
as root "$first"
ends 0
as user examples/count.sh
counts
as root "$line"
ends 0
as user .ci/run
comes_to_the_gate

machine root
as root examples/count.sh
counts
as root .ci/run
comes_to_the_gate
echo "README's two commands work in Debian $(cat "$root/etc/debian_version"), by a user, who is told what root has to install, and by root"
