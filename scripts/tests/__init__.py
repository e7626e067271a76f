"""The tests of the scripts, of the command vaknuhol and of the proved program as they call it: python3 -m pytest
scripts/tests."""
