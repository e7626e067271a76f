"""What stands in a test for something of the command, and has only what is asked of it."""
from types import SimpleNamespace
from typing import Any


def double(**attributes: Any) -> Any:
    """An object with these attributes, in the place of any other."""
    return SimpleNamespace(**attributes)
