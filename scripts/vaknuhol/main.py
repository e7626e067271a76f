"""The command line: vaknuhol COMMAND and its words, each level with --help and --version."""
import argparse
import gc
import importlib
import os
import sys
from types import ModuleType

from vaknuhol.arguments import OutputName, Refusal, nearest, run_command
from vaknuhol.levels import Level, parted
from vaknuhol.messages import manner

# The modules of the commands with the names of these, as --help lists them: a command imports its own alone
MODULES = {"run": ("cover", "count", "ring"), "fit": ("fit",), "wrap": ("wrap",), "report": ("report",),
           "annotate": ("annotate",), "merge": ("merge",), "diff": ("diff",), "clean": ("clean",),
           "dump": ("dump",), "check": ("check",), "unpatch": ("unpatch",), "gen": ("gen",), "help": ("help",)}
OF_ALL = "help"
REFUSED, REFUSED_IN_RUN = 2, 125
ABOUT = """Coverage, counts and traces of static x86-64 executables, with or without source: vaknuhol patches a program,
runs it, and shows what it recorded.

vaknuhol count ./prog -- ARGUMENTS patches the program, runs it with these arguments, and shows a summary."""
STATUSES = """exit status:
  cover, count, ring   the program's own, or 128 and the number of the signal that ended it; 125 if it is refused
  diff                 0 if the same blocks were executed, else 1; 2 if something is refused
  check                0 if each kept patched file is sound, else 1; 2 if something is refused
  fit                  0 if no obstacle to patching is seen, else 1; 2 if something is refused
  gen                  that of `e9tool gen`
  the others           0 if all is done, 2 if something is refused

An output's name may be -, which is standard output. vaknuhol help COMMAND lists the options of each command."""


def modules_for(given: list[str]) -> list[ModuleType]:
    """The module of the command that the first word names; of all commands, where there is none, or all are told of."""
    named = [module for module, names in MODULES.items() if given and given[0] != OF_ALL and given[0] in names]
    return [importlib.import_module(f"vaknuhol.commands.{module}") for module in named or MODULES]


def command_parser(given: list[str]) -> Level:
    top = Level("vaknuhol", ABOUT, STATUSES)
    levels = top.add_subparsers(dest="command", metavar="COMMAND", parser_class=Level)
    for module in modules_for(given):
        for name, about in module.NAMES.items():
            level = levels.add_parser(name, help=about,
                                      description=f"{about[0].upper()}{about[1:]}.\n\n{module.__doc__}",
                                      epilog=getattr(module, "STATUS", None))
            module.add_words(level, name)
            level.set_defaults(do=module.do, command=name, top=top)
            top.levels[name] = level
    return top


def complete() -> None:
    """Answers a shell that asks by what a word goes on (package python3-argcomplete)."""
    import argcomplete
    argcomplete.autocomplete(command_parser([]))


def read_words(top: Level, given: list[str]) -> argparse.Namespace | None:
    """The words of the command that the first word names; none where there is only help to show."""
    if not given:
        top.print_help()
        return None
    if given[0].startswith("-"):
        words = top.parse_args(given)
        if not words.command:
            raise Refusal(f"a command is needed: one of {' '.join(top.levels)}")
        return words
    if given[0] not in top.levels:
        like = nearest(given[0], top.levels)
        raise Refusal(f"{given[0]} is no command ({like}vaknuhol help lists them)")
    return top.levels[given[0]].parse_args(given[1:])


def keep_program(words: argparse.Namespace) -> None:
    """Refuses an output that would take the place of the program."""
    program = getattr(words, "program", None)
    for name in vars(words).values():
        if program and isinstance(name, OutputName) and os.path.exists(name) and os.path.exists(program):
            if os.path.samefile(name, program):
                raise Refusal(f"{name} is the original, which reports need: name another file, or move it first, as to "
                              f"{program}.original")


def main() -> None:
    gc.disable()  # what a command makes is needed until its end
    if "_ARGCOMPLETE" in os.environ:
        complete()
    given, own = parted(sys.argv[1:])

    def do() -> int:
        words = read_words(command_parser(given), given)
        if words is None:
            return 0
        words.own_words = own
        manner.color, manner.is_quiet = getattr(words, "color", "auto"), getattr(words, "quiet", False)
        keep_program(words)
        return int(words.do(words))

    command = next((word for word in given if any(word in names for names in MODULES.values())), "")
    run_command(do, REFUSED_IN_RUN if command in MODULES["run"] else REFUSED)
