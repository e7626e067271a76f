"""How must-fail edits are tried several in one check (scripts/more_edits.py)."""
