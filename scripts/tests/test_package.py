"""The Debian package: installed it patches, runs and reports, has its manual pages, pages and completion, and goes
without a trace."""
import gzip
import os
import re
import shutil

import pytest

from tests.calls import TOP, run
from tests.command import STEP, count_of
from tests.debian_package import made, over_this_system
from tests.needs import need
from tests.programs import Programs

pytestmark = pytest.mark.xdist_group("package")
DOC = "usr/share/doc/vaknuhol"
COMPLETE = (
    "source /usr/share/bash-completion/completions/vaknuhol; COMP_LINE='{line}'; COMP_POINT=${{#COMP_LINE}}; "
    '_python_argcomplete vaknuhol; echo "${{COMPREPLY[@]}}"'
)


@pytest.fixture(scope="module")
def package(shared, e9tool):
    return made(f"{shared}/package", e9tool)


@pytest.fixture(scope="module")
def system(package, programs: Programs, module_place):
    """This system with the package installed, and the program `tour` in the folder of its commands."""
    os.mkdir(f"{module_place}/layer")
    with over_this_system(f"{module_place}/layer") as system:
        tried = f"{system.root}/root/tried"
        shutil.copyfile(package, f"{tried}/package.deb")
        home = programs.home("tour", "tour.cc", compiler="g++")
        for name in ("tour", "tour.cc"):
            shutil.copy(f"{home}/{name}", tried)
        system.run("dpkg", "--install", "package.deb")
        yield system


def test_who_makes_the_package_is_its_maintainer(package):
    assert run("dpkg-deb", "--field", package, "Maintainer") == "A. Maker <maker@example.org>\n"


def test_its_version_is_that_of_the_command(package):
    (name,) = re.findall(r"vaknuhol_([0-9.]+)_amd64\.deb$", package)
    assert run(f"{TOP}/bin/vaknuhol", "--version") == f"vaknuhol {name}\n"
    with open(f"{TOP}/debian/changelog", encoding="utf-8") as file:
        assert file.readline().startswith(f"vaknuhol ({name}) ")


def test_lintian_finds_no_error_and_no_warning(package):
    need("lintian")
    run("lintian", "--allow-root", "--fail-on", "error,warning", package)


def test_the_installed_command_counts(system):
    printed = system.run("vaknuhol", "count", "tour", "--into", "packed", "--", "walk", "42", status=(4,))
    assert printed.startswith("sum 861\n") or "\nsum 861\n" in printed, printed
    assert count_of(printed, f"{STEP}  tour.cc:11") == 42, printed


def test_its_own_test_passes(system):
    """What a Debian system runs of the installed package."""
    assert system.run(
        "sh", "-c", f"cp {TOP}/debian/tests/patch-run-report . && AUTOPKGTEST_TMP=$PWD ./patch-run-report"
    ).endswith("vaknuhol patches, runs and reports a program\n")


@pytest.mark.parametrize("name", ["vaknuhol", "vaknuhol-count", "vaknuhol-report", "vaknuhol-unpatch", "e9tool"])
def test_a_manual_page_is_read_without_a_warning(system, name):
    need("man")
    told = system.run("man", "--warnings", name, MANWIDTH="100")
    assert re.match(rf".*\n\nNAME\n +{name} +- .*\n\nSYNOPSIS\n +\w", told, re.S), told
    assert "EXIT STATUS" in " ".join(told.upper().split()) or name in ("vaknuhol-report", "vaknuhol-unpatch"), told
    assert "warning" not in told, told


def test_each_command_has_a_manual_page(system):
    commands = re.findall(r"^    ([a-z]+)  ", system.run("vaknuhol", "--help", COLUMNS="200"), re.M)
    pages = {
        f"usr/share/man/man1/{name}.1.gz" for name in ("vaknuhol", "e9tool", *(f"vaknuhol-{it}" for it in commands))
    }
    assert len(commands) > 10 and pages <= set(system.files())


@pytest.mark.parametrize("line, found", [("vaknuhol co", ["count", "cover"]), ("vaknuhol report --l", ["--lcov"])])
def test_arguments_are_completed(system, line, found):
    assert sorted(system.run("bash", "-c", COMPLETE.format(line=line)).split()) == found


def test_names_of_programs_are_completed(system):
    assert "tour.cc" in system.run("bash", "-c", COMPLETE.format(line="vaknuhol count tou")).split()


def test_the_pages_lead_to_what_is_there(system):
    pages = [name for name in system.files(DOC) if name.endswith(".md")]
    assert f"{DOC}/README.md" in pages and len(pages) > 8, pages
    for page in pages:
        with open(f"{system.written}/{page}", encoding="utf-8") as file:
            links = [it for it in re.findall(r"\]\(([^)#]+)", file.read()) if "://" not in it]
        missing = [it for it in links if not os.path.exists(f"{system.written}/{os.path.dirname(page)}/{it}")]
        assert not missing and (links or page != f"{DOC}/README.md"), f"{page}: {missing}"


def test_the_copyright_says_that_no_licence_is_granted_yet(system):
    with open(f"{system.written}/{DOC}/copyright", encoding="utf-8") as file:
        assert "No licence has been granted yet" in file.read()
    with gzip.open(f"{system.written}/{DOC}/changelog.gz", "rt") as file:
        assert file.read().startswith("vaknuhol (")


def elf_programs(system):
    """The paths of those that aren't scripts."""
    return [
        f"{system.written}/{name}"
        for name in system.files("usr/lib/vaknuhol/bin")
        if b"\x7fELF" in open(f"{system.written}/{name}", "rb").read(4)
    ]


def test_programs_are_stripped(system):
    programs = elf_programs(system)
    assert len(programs) >= 5 and not [it for it in programs if ".symtab" in run("readelf", "-SW", it)]


def test_c_programs_are_hardened(system):
    """With all that dpkg-buildflags knows, but for what needs a dynamic linker where a program is static."""
    names = ["vaknuhol-judge", "vaknuhol-lines", "vaknuhol-list", "vaknuhol-record", "vaknuhol-run", "vaknuhol-step"]
    programs = {os.path.basename(it): it for it in elf_programs(system) if "vaknuhol-" in os.path.basename(it)}
    assert sorted(programs) == names
    for name, path in programs.items():
        assert "GNU_RELRO" in run("readelf", "-lW", path), name
        if name != "vaknuhol-run":
            assert "Flags: NOW PIE" in run("readelf", "-dW", path), name
            assert "__stack_chk_fail" in run("readelf", "-W", "--dyn-syms", path), name


def test_e9tool_tells_of_itself(system):
    told = system.run("e9tool", "--help")
    assert told.startswith("usage: e9tool patch FILE") and "e9tool unpatch PATCHED" in told, told
    assert system.run("vaknuhol", "--version").split()[1] in system.run("e9tool", "--version")


def test_an_example_runs_on_what_is_installed(system):
    assert system.run("sh", f"/{DOC}/examples/count.sh").endswith("465\n")


def test_purged_it_leaves_nothing(system, module_place):
    """Python's compiled modules, which stand there once it is installed, go too."""
    os.mkdir(f"{module_place}/purged")
    with over_this_system(f"{module_place}/purged", like=system) as purged:
        assert [it for it in purged.files("usr/lib/vaknuhol") if it.endswith(".pyc")], "its modules are compiled"
        purged.run("dpkg", "--purge", "vaknuhol")
        left = [it for it in purged.files() if os.path.lexists(f"{purged.root}/{it}") and not os.path.lexists(f"/{it}")]
        assert not left and not os.path.exists(f"{purged.root}/usr/lib/vaknuhol"), left
