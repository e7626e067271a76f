#!/usr/bin/env python3
"""Records a run of a static program, and lets e9tool's `step` make it again. --help says more."""
from vaknuhol.arguments import run_command
from vaknuhol.commands.replay_run import main

if __name__ == "__main__":
    run_command(main)
