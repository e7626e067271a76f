#!/bin/sh
# What the package puts in PATH as e9tool: the proved program has neither --help nor --version, so they are answered here.
here=$(dirname "$(realpath "$0")")
case ${1-} in
--version)
    echo "e9tool, of vaknuhol @VERSION@"
    exit
    ;;
--help | -h)
    "$here/e9tool" | sed 's/^usage: //; s/ | /\n/g' | sed 's/^/e9tool /; 1s/^/usage: /; 2,$s/^/       /'
    echo "man e9tool describes each."
    exit
    ;;
esac
exec "$here/e9tool" "$@"
