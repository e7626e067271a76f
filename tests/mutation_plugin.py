"""What pytest is given by tests/mutants.py, in a copy of the repository: to note which test reaches which line, in its
own process and in those that it starts, or to make chosen tests alone, the quickest first.

FOLDER is beside the copy. `context` there names the test that runs; each process writes to `reached` which lines of
which module it came by, in a line of JSON. A fixture that several tests share is on behalf of all of its module.
"""
import json
import os
import shutil
import sys
import time

import coverage
import pytest

FOLDER = os.environ.get("MUTANTS_FOLDER", "")
IS_NOTED, CHOSEN = os.environ.get("MUTANTS_NOTE") == "1", os.environ.get("MUTANTS_CHOSEN", "")
SHARING, ALL = ("module", "session"), "*"
LIBRARY = os.path.dirname(os.path.dirname(coverage.__file__))  # of which commands that tests start may not know
# Stands at the end of vaknuhol/__init__.py of the copy: a process that a test starts notes its lines, too
HOOK = '''
import sys as _sys
if "coverage" not in _sys.modules:
    import atexit as _atexit, json as _json, os as _os, uuid as _uuid
    _sys.path.append({library!r})
    import coverage as _coverage
    _lines = _coverage.Coverage(data_file=None, config_file=False, source=[{package!r}])
    with open({folder!r} + "/context", encoding="utf-8") as _file:
        _context = _file.read()

    def _note():
        try:
            _lines.stop()
            _data = _lines.get_data()
            _text = _json.dumps([[_context, path, _data.lines(path)] for path in _data.measured_files()])
            with open(f"{folder}/reached/{{_uuid.uuid4().hex}}", "w", encoding="utf-8") as _file:
                _file.write(_text)
        except OSError:
            pass

    _atexit.register(_note)
    _lines.start()
'''


class Noting:
    """The lines that each test reaches, and how long it takes."""

    def __init__(self, package: str) -> None:
        self.lines = coverage.Coverage(data_file=None, config_file=False, source=[package])
        self.now, self.seconds = "", {}
        self.begin("")
        self.lines.start()

    def begin(self, context: str) -> str:
        before, self.now = self.now, context
        with open(f"{FOLDER}/context", "w", encoding="utf-8") as file:
            file.write(context)
        if self.lines._started:  # pylint: disable=protected-access; nothing else tells
            self.lines.switch_context(context)
        return before

    @pytest.hookimpl(hookwrapper=True)
    def pytest_runtest_protocol(self, item):
        begun = time.monotonic()
        self.begin(item.nodeid)
        yield
        self.begin("")
        self.seconds[item.nodeid] = time.monotonic() - begun

    @pytest.hookimpl(hookwrapper=True)
    def pytest_fixture_setup(self, fixturedef, request):
        before = self.now
        if fixturedef.scope in SHARING:
            self.begin(f"{request.node.nodeid.partition('::')[0] or before.partition('::')[0]}::{ALL}")
        yield
        self.begin(before)

    def pytest_sessionfinish(self):
        self.lines.stop()
        data, found = self.lines.get_data(), []
        for path in data.measured_files():
            by_context = {}
            for line, contexts in data.contexts_by_lineno(path).items():
                for context in contexts:
                    by_context.setdefault(context, []).append(line)
            found += [[context, path, lines] for context, lines in by_context.items()]
        for name, value in (("reached/own", found), ("seconds", self.seconds)):
            with open(f"{FOLDER}/{name}", "w", encoding="utf-8") as file:
                json.dump(value, file)


class Choosing:
    """The tests of a list, in its order."""

    def __init__(self, path: str) -> None:
        with open(path, encoding="utf-8") as file:
            self.order = {name: at for at, name in enumerate(json.load(file))}

    @pytest.hookimpl(trylast=True)
    def pytest_collection_modifyitems(self, items):
        items[:] = sorted((item for item in items if item.nodeid in self.order), key=lambda it: self.order[it.nodeid])


def keep_built_programs() -> None:
    """What compilers make of the tests' own programs is the same for each mutant: it is built once, and copied. What
    the command patches is not kept."""
    from tests.programs import Programs  # pylint: disable=import-error
    home, patch = Programs.home, Programs.patch

    def kept_home(self, name, source, *flags, compiler="gcc"):
        here, kept = f"{self.folder}/{name}", f"{FOLDER}/built/{name}"
        if os.path.isdir(kept) and not os.path.isdir(here):
            shutil.copytree(kept, here)
        made = home(self, name, source, *flags, compiler=compiler)
        if not os.path.isdir(kept):
            os.makedirs(kept)
            for file in (name, os.path.basename(source)):
                shutil.copy2(f"{here}/{file}", kept)
        return made

    def patch_again(self, name, *words):
        for file in os.listdir(f"{self.folder}/{name}"):
            if file.endswith(".made"):
                os.remove(f"{self.folder}/{name}/{file}")
        patch(self, name, *words)

    Programs.home = kept_home
    if IS_NOTED:
        Programs.patch = patch_again


def pytest_configure(config):
    if IS_NOTED:
        config.pluginmanager.register(Noting(f"{os.getcwd()}/scripts/vaknuhol"))
    if CHOSEN:
        config.pluginmanager.register(Choosing(CHOSEN))


def pytest_sessionstart():
    sys.path.insert(0, f"{os.getcwd()}/scripts")
    keep_built_programs()
