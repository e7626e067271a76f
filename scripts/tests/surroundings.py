"""The surroundings of the tests: alike whoever calls them, so that nothing that is printed, built or found depends on
what the caller has set."""
import os
import resource
import signal

from tests.needs import MAY

# What stays of the environment: where programs and files are found, and what the tests are given. All else may change
# languages, widths, colours or words of compilers, and lengthens the stack that a program starts with.
KEPT = {"PATH", "LD_LIBRARY_PATH", "PYENV_ROOT", "PYENV_VERSION", "HOME", "TMPDIR", "CC", "CI", "E9TOOL", MAY}
NAME_OF_TEST = "PYTEST_CURRENT_TEST"
MASK = 0o022
IGNORED = (
    signal.SIGHUP,
    signal.SIGINT,
    signal.SIGQUIT,
)  # as nohup and a shell's background leave them to their children


def forget_test_name() -> None:
    """pytest writes the name of a test to the environment before each; it goes, as all else that lengthens the
    stack."""
    os.environ.pop(NAME_OF_TEST, None)


def settle() -> None:
    """From now on this process and those that it starts have little of an environment, no terminal as input, and no
    core files."""
    for name in os.environ.keys() - KEPT:
        del os.environ[name]
    os.environ["LC_ALL"] = "C.UTF-8"
    os.umask(MASK)
    for number in IGNORED:
        if signal.getsignal(number) == signal.SIG_IGN:
            signal.signal(number, signal.SIG_DFL)
    signal.pthread_sigmask(signal.SIG_SETMASK, ())
    resource.setrlimit(resource.RLIMIT_CORE, (0, resource.getrlimit(resource.RLIMIT_CORE)[1]))
    os.dup2(os.open(os.devnull, os.O_RDONLY), 0)
