"""The instructions of a run that callgrind counted, by function and all that it called, and how often it was called."""
import re

NAME = re.compile(r"\((\d+)\)(?: (.*))?")


class Profile:
    """What a file of callgrind says; of functions that call themselves, a call within another counts again."""

    def __init__(self, path: str) -> None:
        self.own: dict[str, int] = {}
        self.called: dict[str, int] = {}
        self.calls: dict[str, int] = {}
        self.numbers: dict[str, str] = {}
        with open(path, encoding="utf-8", errors="replace") as file:
            self.read(file.read().splitlines())

    def name(self, text: str) -> str:
        """A function's name, which stands in full where it comes first."""
        found = NAME.match(text)
        if not found:
            return text
        if found.group(2):
            self.numbers[found.group(1)] = found.group(2)
        return self.numbers[found.group(1)]

    def read(self, lines: list[str]) -> None:
        function, callee, is_call = "", "", False
        for line in lines:
            key, _, value = line.partition("=")
            if key == "fn":
                function = self.name(value)
            elif key == "cfn":
                callee = self.name(value)
            elif key == "calls":
                is_call = True
                self.calls[callee] = self.calls.get(callee, 0) + int(value.split()[0])
            elif function and line and line[0] in "0123456789+-*":
                _, *costs = line.split()
                cost = int(costs[0]) if costs else 0  # none is left out
                totals, of = (self.called, callee) if is_call else (self.own, function)
                totals[of] = totals.get(of, 0) + cost
                is_call = False

    def whole(self, ending: str) -> int:
        """The instructions of the functions whose name ends so, with what they called."""
        return sum(cost for name, cost in self.called.items() if without_hash(name).endswith(ending))

    def times(self, ending: str) -> int:
        """How often functions were called whose name ends so."""
        return sum(calls for name, calls in self.calls.items() if without_hash(name).endswith(ending))


def without_hash(name: str) -> str:
    """A name without what a compiler adds to it."""
    return re.sub(r"(::)?<#[0-9a-f]+>$|::h[0-9a-f]{16}$|'\d+$", "", name)
