#!/bin/sh
# Builds the programs of this folder: build.sh FOLDER.
set -eu
here=$(cd "$(dirname "$0")" && pwd)
into=$(realpath "${1:?build.sh FOLDER}")
compiler=${CC:-gcc}
# fs may be anything while a guest's code runs or a signal is handled, so no function may look for a canary there.
flags="-std=gnu11 -O2 -Wall -Wextra -Werror -fno-stack-protector ${CFLAGS:-}"
objects=$(mktemp -d)
trap 'rm -rf "$objects"' EXIT
cd "$objects"
# shellcheck disable=SC2086
"$compiler" $flags -c "$here"/*.c
common="jobs.o bases.o draws.o sift.o sequences.o tool.o worlds.o"
guest="forms.o instructions.o guest.o harness.o native.o"
bulk="bulk.o mutants.o"
# shellcheck disable=SC2086
{
    "$compiler" $flags -o "$into/lengths" lengths.o probes.o refused.o rules.o $common
    "$compiler" $flags -o "$into/meanings" meanings.o $bulk $guest $common
    "$compiler" $flags -o "$into/asked" asked.o asked_forms.o states.o $bulk $guest $common
    "$compiler" $flags -o "$into/singles" singles.o $guest $common
}
