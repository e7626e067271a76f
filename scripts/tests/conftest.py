"""What all tests share: the program under test, surroundings that are alike everywhere, a working folder of each test's
own."""
import glob
import os
import shutil
import tempfile
from collections.abc import Iterator

import pytest
from _pytest.terminal import TerminalReporter
from hypothesis import settings

from tests.calls import SOURCES, TOP
from tests.needs import left_out, need
from tests.programs import Programs
from tests.real_files import Cases
from tests.sanitizing import sanitized_program
from tests.surroundings import forget_test_name, settle
from tests.tracing import can_trace
from vaknuhol.native import NEEDS
from vaknuhol.program.kernel import FEW, MOST, takes

PROVED = f"{TOP}/crates/e9tool/out/e9tool"
TOOLS = ("gcc", "g++", "gcov", "objdump", "readelf", "nm", "strip", "objcopy", "c++filt")
# Each run tries the same examples, leaves no file, and asks nothing of a busy machine
settings.register_profile("suite", derandomize=True, database=None, deadline=None, max_examples=60)
settings.load_profile("suite")


def pytest_addoption(parser: pytest.Parser) -> None:
    parser.addoption(
        "--e9tool",
        default=os.environ.get("E9TOOL") or PROVED,
        help="the program under test (the one that rt ci leaves)",
    )
    parser.addoption(
        "--sanitize", action="store_true", help="the C programs with AddressSanitizer and UndefinedBehaviorSanitizer"
    )


@pytest.hookimpl(tryfirst=True)
def pytest_collection_modifyitems(items: list[pytest.Item]) -> None:
    """Tests that stay on one worker, since they share what takes long to make (--dist loadgroup), are begun first."""
    items.sort(key=lambda item: item.get_closest_marker("xdist_group") is None)


@pytest.hookimpl(hookwrapper=True)
def pytest_fixture_setup() -> Iterator[None]:
    forget_test_name()
    yield


@pytest.hookimpl(hookwrapper=True)
def pytest_pyfunc_call() -> Iterator[None]:
    forget_test_name()
    yield


def pytest_terminal_summary(terminalreporter: TerminalReporter) -> None:
    """How many tests passed, failed (errors are failures) and were skipped."""
    count = {name: len(terminalreporter.getreports(name)) for name in ("passed", "failed", "error", "skipped")}
    terminalreporter.write_line(
        f"passed {count['passed']}, failed {count['failed'] + count['error']}, skipped {count['skipped']}"
    )


@pytest.fixture(scope="session")
def shared(request: pytest.FixtureRequest, tmp_path_factory: pytest.TempPathFactory) -> str:
    """A folder that all workers of a run share, and nobody else."""
    base = tmp_path_factory.getbasetemp()
    folder = (base.parent if hasattr(request.config, "workerinput") else base) / "shared"
    folder.mkdir(exist_ok=True)
    return str(folder)


@pytest.fixture(scope="session", autouse=True)
def e9tool(request: pytest.FixtureRequest, shared: str) -> Iterator[str]:
    """The program under test, which each command finds; where something that all tests need is missing, all fail."""
    tool = os.path.realpath(request.config.getoption("--e9tool"))
    settle()
    need(*TOOLS)
    if not os.path.isfile(tool):
        left_out(f"{tool} is not here, which rt ci leaves (--e9tool names another)")
    if not can_trace():
        left_out("ptrace is not allowed")
    if not takes(MOST, shared):
        left_out(f"this kernel takes {FEW} program headers at most, which the scripts don't ask (docs/use/programs.md)")
    with tempfile.TemporaryDirectory() as folder:
        os.chmod(folder, 0o755)
        os.environ["E9TOOL"] = f"{folder}/e9tool"
        shutil.copyfile(tool, f"{folder}/e9tool")
        os.chmod(f"{folder}/e9tool", 0o755)
        yield f"{folder}/e9tool"


@pytest.fixture(scope="session", autouse=True)
def sanitized(request: pytest.FixtureRequest, e9tool: str, shared: str) -> str:
    """Where the sanitizers of the C programs write, if these are built with them; the command takes those from then
    on."""
    if not request.config.getoption("--sanitize"):
        return ""
    found = f"{shared}/found.{os.getpid()}"
    os.environ.update({name.upper().replace("-", "_"): sanitized_program(name, shared) for name in NEEDS})
    os.environ.update(ASAN_OPTIONS=f"log_path={found}a:detect_leaks=0", UBSAN_OPTIONS=f"log_path={found}u")
    return found


@pytest.fixture(autouse=True)
def nothing_found(sanitized: str) -> Iterator[None]:
    """A test fails where a sanitizer found something."""
    yield
    for path in glob.glob(f"{sanitized}?.*") if sanitized else []:
        with open(path, encoding="utf-8", errors="replace") as file:
            text = file.read()
        os.remove(path)
        pytest.fail(text, pytrace=False)


@pytest.fixture(autouse=True)
def place(e9tool: str) -> Iterator[str]:
    """The working folder of a test, into which other users may look."""
    with tempfile.TemporaryDirectory() as folder:
        folder = os.path.realpath(folder)
        os.chmod(folder, 0o755)
        os.chdir(folder)
        yield folder
        os.chdir("/")


@pytest.fixture(scope="module")
def module_place(e9tool: str) -> Iterator[str]:
    """A folder that the tests of a module share, for what none of them changes."""
    with tempfile.TemporaryDirectory() as folder:
        yield os.path.realpath(folder)


@pytest.fixture(scope="session")
def programs(e9tool: str, shared: str) -> Programs:
    return Programs(shared)


@pytest.fixture
def tour(programs: Programs) -> str:
    """The program `tour` in the working folder, and its source; the folder in which it was built."""
    home = programs.bring("tour", "tour.cc", compiler="g++")
    shutil.copyfile(f"{SOURCES}/tour.cc", "tour.cc")
    return home


@pytest.fixture
def counted_tour(tour: str, programs: Programs) -> str:
    """`tour` with the patched file that `vaknuhol count tour` runs."""
    programs.patch("tour", "count", "PROGRAM")
    return tour


@pytest.fixture
def cases(e9tool: str, place: str) -> Cases:
    """The proved program on real files."""
    return Cases(e9tool, place)
