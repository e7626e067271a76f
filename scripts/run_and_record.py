#!/usr/bin/env python3
"""Runs a patched program and writes its record. --help says more."""
from vaknuhol.arguments import run_command
from vaknuhol.commands.run_and_record import REFUSED, main

if __name__ == "__main__":
    run_command(main, REFUSED)
