"""The package is made again with the same bytes, of the same sources, e9tool and tools."""
import pytest

from tests.debian_package import made

pytestmark = pytest.mark.xdist_group("package bytes")


def test_two_builds_are_the_same_bytes(shared: str, e9tool: str, place: str) -> None:
    again = made(f"{place}/again", e9tool)  # while another worker makes the one of all tests
    with open(again, "rb") as one, open(made(f"{shared}/package", e9tool), "rb") as other:
        assert one.read() == other.read()
