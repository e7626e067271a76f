#!/usr/bin/env python3
"""Shows a record. --help says more."""
from vaknuhol.arguments import run_command
from vaknuhol.commands.show_coverage import main

if __name__ == "__main__":
    run_command(main)
