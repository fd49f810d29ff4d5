"""No regular expression of the packages is worse than linear: a text of a user would hold up a client for as long as it likes."""

import ast
import importlib
import re
import sys
import time
import unittest
import warnings
from collections.abc import Iterator
from pathlib import Path
from typing import Any, NamedTuple

import trial

with warnings.catch_warnings():
    warnings.simplefilter("ignore", DeprecationWarning)
    if sys.version_info >= (3, 11):
        from re import _constants as constants, _parser as parser
    else:
        import sre_constants as constants
        import sre_parse as parser

PACKAGES = ["abc2midi_live", "abc2midi_live_clients", "abc2midi_live_archive"]
SIZES = [10, 15, 20, 25, 50, 200, 1_000, 20_000]  # repetitions: the first ones end the test early if the time doubles, or grows with the cube
SECONDS = 0.25  # of the processor, for any of them: what grows with the square takes many seconds for the last one
SEARCHES = {"search", "sub", "subn", "split", "findall", "finditer"}
MATCHES = {"match", "fullmatch"}
MOST_SAMPLES = 8  # of the characters of a set
ENDS = ["\0", "!", "\n\n"]


class Expression(NamedTuple):
    """A regular expression: where it is, and whether a text is searched for it."""

    place: str
    pattern: Any
    is_searched: bool


def modules() -> Iterator[tuple[str, Path]]:
    """The modules of the packages that can be imported, and their files."""
    for package in PACKAGES:
        top = trial.PACKAGES / package
        for path in sorted(top.rglob("*.py")):
            name = ".".join(path.relative_to(trial.PACKAGES).with_suffix("").parts).removesuffix(".__init__")
            yield name, path


def patterns_in(value: object) -> Iterator[Any]:
    """The compiled expressions in a value of a module."""
    if isinstance(value, re.Pattern):
        yield value
    elif isinstance(value, (list, tuple)):
        for one in value:
            yield from patterns_in(one)
    elif isinstance(value, dict):
        for one in value.values():
            yield from patterns_in(one)


def expressions() -> list[Expression]:
    """All regular expressions of the packages: those that modules compile, and those that calls name."""
    found = []
    text = "\n".join(path.read_text() for _, path in modules())
    for name, path in modules():
        source = path.read_text()
        if "import re\n" not in source:
            continue
        module = importlib.import_module(name)
        for variable, value in vars(module).items():
            is_searched = bool(re.search(rf"\b{variable}\.({'|'.join(SEARCHES)})\b", text))
            found += [Expression(f"{name}.{variable}", pattern, is_searched) for pattern in patterns_in(value)]
        for node in ast.walk(ast.parse(source)):
            if isinstance(node, ast.Call) and isinstance(node.func, ast.Attribute) and ast.unparse(node.func.value) == "re":
                if node.func.attr in SEARCHES | MATCHES:
                    pattern = eval(ast.unparse(node.args[0]), vars(module))
                    place = f"{name}:{node.lineno}"
                    found.append(Expression(place, re.compile(pattern), node.func.attr in SEARCHES))
    return found


def characters(of_set: Any) -> list[str]:
    """Some characters of a set."""
    wanted = []
    inside = re.compile(parser_text(of_set))
    for code in [32, 9, *range(48, 58), *range(33, 127), 0x85, 0xA0, 0x2028, 0xDC85, 0]:
        if inside.fullmatch(chr(code)):
            wanted.append(chr(code))
    return list(dict.fromkeys([*wanted[:3], *wanted[-MOST_SAMPLES + 3 :]])) or ["x"]


def parser_text(of_set: Any) -> str:
    """The expression of a set."""
    words = {constants.CATEGORY_DIGIT: r"\d", constants.CATEGORY_SPACE: r"\s", constants.CATEGORY_WORD: r"\w"}
    words |= {constants.CATEGORY_NOT_DIGIT: r"\D", constants.CATEGORY_NOT_SPACE: r"\S", constants.CATEGORY_NOT_WORD: r"\W"}
    text = ""
    for kind, value in of_set:
        if kind is constants.NEGATE:
            text += "^"
        elif kind is constants.LITERAL:
            text += re.escape(chr(value))
        elif kind is constants.RANGE:
            text += f"{re.escape(chr(value[0]))}-{re.escape(chr(value[1]))}"
        else:
            text += words[value]
    return f"[{text}]"


def samples(tree: Any) -> list[str]:
    """Some texts that a part of an expression takes, the shortest first."""
    texts = [""]
    for node in tree:
        texts = [before + one for one in samples_of(node)[:MOST_SAMPLES] for before in texts[:2]][: 2 * MOST_SAMPLES]
    return texts


def samples_of(node: Any) -> list[str]:
    """Some texts that a node takes."""
    kind, value = node
    if kind is constants.LITERAL:
        return [chr(value)]
    if kind is constants.NOT_LITERAL:
        return [one for one in " ax1" if ord(one) != value]
    if kind is constants.ANY:
        return ["a", " ", "%", "\\"]
    if kind is constants.IN:
        return characters(value)
    if kind is constants.SUBPATTERN:
        return samples(value[-1])
    if kind is constants.BRANCH:
        return [text for tree in value[1] for text in samples(tree)]
    if kind in (constants.MAX_REPEAT, constants.MIN_REPEAT):
        least, _, tree = value
        return [one * least for one in samples(tree)] if least else ["", *samples(tree)]
    return [""]  # a place


def repeats(tree: Any, before: str = "") -> Iterator[tuple[str, list[str]]]:
    """What may come before each part that repeats, and what it repeats."""
    for at, (kind, value) in enumerate(tree):
        start = before + (samples(tree[:at]) or [""])[0]
        if kind is constants.SUBPATTERN:
            yield from repeats(value[-1], start)
        elif kind is constants.BRANCH:
            for branch in value[1]:
                yield from repeats(branch, start)
        elif kind in (constants.MAX_REPEAT, constants.MIN_REPEAT):
            yield start, [one for one in samples(value[2]) if one]
            yield from repeats(value[2], start)


def attacks(expression: Expression) -> Iterator[tuple[str, str, str]]:
    """What begins a text, what is repeated in it, and what ends it."""
    tree = parser.parse(expression.pattern.pattern if isinstance(expression.pattern.pattern, str) else expression.pattern.pattern.decode("latin-1"))
    for before, repeated in repeats(tree):
        for one in dict.fromkeys([*repeated, " ", before or " ", before + " ", before + (repeated or [""])[0]]):
            for end in ENDS:
                yield before, one, end


def slowest(expression: Expression) -> tuple[float, str]:
    """How many seconds the slowest attack takes, and what it is."""
    worst, name = 0.0, ""
    pattern = expression.pattern
    calls = [pattern.match, pattern.fullmatch] + ([lambda text: pattern.sub(text[:0], text)] if expression.is_searched else [])
    for before, repeated, end in dict.fromkeys(attacks(expression)):
        for size in SIZES:
            text: Any = before + repeated * size + end
            text = text if isinstance(pattern.pattern, str) else text.encode("utf-8", "surrogatepass")
            since = time.process_time()
            for call in calls:
                call(text)
            took = time.process_time() - since
            if took > worst:
                worst, name = took, f"{before!r} + {repeated!r} * {size} + {end!r}"
            if took > SECONDS:
                return worst, name
    return worst, name


class Expressions(unittest.TestCase):
    """Each is tried with texts that repeat what it repeats, also where none of it is found."""

    def test_each(self) -> None:
        found = expressions()
        self.assertGreater(len(found), 60)
        slow = [f"{one.place} {one.pattern.pattern!r}: {took:.1f} s for {name}" for one in found for took, name in [slowest(one)] if took > SECONDS]
        self.assertEqual(slow, [])

    def test_the_trial_itself(self) -> None:
        """It finds what grows with the square and with the cube."""
        for slow in (r"\s*(?:none|[\d\s]*)\s*", r"a*a*b", r"(?:\s*x\(\)\s*)*y"):
            self.assertGreater(slowest(Expression("", re.compile(slow), False))[0], SECONDS, slow)
        self.assertGreater(slowest(Expression("", re.compile(r"(?:a| )+x"), True))[0], SECONDS)
        self.assertLess(slowest(Expression("", re.compile(r" +x"), False))[0], SECONDS)
