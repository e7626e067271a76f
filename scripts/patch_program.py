#!/usr/bin/env python3
"""Patches a static program so that it records which of its blocks are executed. --help says more."""
from vaknuhol.arguments import run_command
from vaknuhol.commands.patch_program import main

if __name__ == "__main__":
    run_command(main)
