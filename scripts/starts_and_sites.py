#!/usr/bin/env python3
"""Writes the lists STARTS and SITES of a static program. --help says more."""
from vaknuhol.arguments import run_command
from vaknuhol.commands.starts_and_sites import main

if __name__ == "__main__":
    run_command(main)
