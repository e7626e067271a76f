#!/usr/bin/env python3
"""Builds C programs of the command, the folders of native/, and prints their paths: build_native.py NAME..."""
import sys

from vaknuhol.native import program

if __name__ == "__main__":
    for name in sys.argv[1:]:
        print(program(name))
