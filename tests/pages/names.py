"""Looks up the names of functions, types, definitions and clauses in the pages on the proof, and the clauses that pages quote."""

from __future__ import annotations

import re
from collections import defaultdict
from functools import lru_cache
from pathlib import Path
from typing import Iterator, NamedTuple, Optional

from .markdown import FENCED, TOP, fenced_blocks, text_of
from .outcome import Outcome, Outcomes

DOCUMENTS = ("architecture", "DECISIONS", "glossary", "library", "promises", "verification")
PAGES = ("README.md", "CONTRIBUTING.md", *(f"docs/{name}.md" for name in DOCUMENTS))
WITH_CLAUSES = ("docs/promises.md", "docs/verification.md")  # in these a word in brackets is a clause
WITH_CODE = ("README.md", "docs/verification.md")  # in these a block of code is a clause or a definition
# Names of std, of the kit's crates, of the system and of languages, which the sources do not declare.
OTHERS = frozenset(
    """Clone Debug Display Drop Err Global IfErr IfOk MatchResult None Ok OnErr Option Ord Rc Result Some Vec VecDeque
    copy fields_with ptr split_once_str std std_alloc std_collections std_heap EDIT_SECONDS LD_PRELOAD RANDOM_EDITS""".split()
)
DECLARED = re.compile(r"\b(?:fn|struct|enum|trait|type|const|mod|data|record|abbrev|ghost|class|def)\s+(?:pub\s+)?(\w+)")
VARIANT = re.compile(r"^ {4,}([A-Z]\w*)(?:[({,]| =|$)", re.M)
MEMBER = re.compile(r"^\s+(?:pub\s+)?(\w+)\s*:", re.M)
EQUATION = re.compile(r"^(\w+) ", re.M)
FUNCTION = re.compile(r"\bfn (\w+)(.*?)(?=\bfn \w|\Z)", re.S)
CLAUSE = re.compile(r"^\s+ensures (\w+) \{", re.M)
RECORD = re.compile(r"^(?:pub )?record (?:pub )?(\w+)[^\n]*\n((?:  [^\n]*\n|--[^\n]*\n|\n)*)", re.M)
SPAN = re.compile(r"`([^`\n]+)`")
NAME = re.compile(r"[A-Za-z]\w*(?:::\w+)*")
LABELS = re.compile(r"\(((?:`[a-z_]+`(?:, | and | or )?)+)\)")
SOURCES = ("crates/*/src/**/*.rt", "crates/*/specs/**/*.antt", "python/**/*.py", "tests/pages/*.py")


class Sources(NamedTuple):
    """What the sources declare: their names, the clauses of each function and record, and their words without comments."""

    names: frozenset[str]
    clauses: dict[str, set[str]]
    words: str


def names_of(path: Path, text: str) -> Iterator[str]:
    """The names that a source declares, those of its crate and its module among them."""
    yield from (path.relative_to(TOP).parts[1], path.stem)
    for pattern in (DECLARED, VARIANT, MEMBER):
        yield from pattern.findall(text)
    if path.suffix == ".antt":
        yield from EQUATION.findall(text)


@lru_cache(maxsize=1)
def sources() -> Sources:
    """Reads the sources."""
    names: set[str] = set(OTHERS)
    clauses: dict[str, set[str]] = defaultdict(set)
    texts = []
    for path in (path for pattern in SOURCES for path in TOP.glob(pattern)):
        text = re.sub(r"//[^\n]*|^--[^\n]*", "", path.read_text("utf-8"), flags=re.M)
        names.update(names_of(path, text))
        for function, contract in FUNCTION.findall(text):
            clauses[function].update(CLAUSE.findall(contract))
            names.update(clauses[function])
        for record, members in RECORD.findall(text):
            clauses[record].update(MEMBER.findall(members))
        texts.append(" ".join(text.split()))
    return Sources(frozenset(names), clauses, "\n".join(texts))


def is_item(span: str) -> bool:
    """Whether a text in code font looks like a name of the sources."""
    return bool(NAME.fullmatch(span)) and bool(re.search(r"_|::|^[A-Z][a-z]", span) or span in sources().clauses)


def unknown(span: str) -> Optional[str]:
    """What is wrong with a name that nothing declares, or None. A transcript, a script and a folder of tests are named by their files."""
    is_known = all(part in sources().names for part in span.split("::"))
    files = (f"*/{span}", f"scripts/*/{span}", f"tests/**/{span}.*")
    return None if is_known or any(any(TOP.glob(pattern)) for pattern in files) else "nothing declares this name"


def paragraphs(text: str) -> Iterator[str]:
    """The paragraphs, list items and rows of a page, without headings."""
    for paragraph in re.split(r"\n\s*\n|\n(?=\s*(?:[-*]|\d+\.) )|\n(?=\|)", FENCED.sub("", text)):
        if not paragraph.startswith("#"):
            yield paragraph


def wrong_label(label: str, paragraph: str) -> Optional[str]:
    """What is wrong with a clause that is named in brackets, or None: some function or record of the paragraph has it."""
    mentioned = {part for span in SPAN.findall(paragraph) for part in span.split("::")}
    if any(label in sources().clauses.get(name, ()) for name in mentioned) or "_" in label and label in sources().names:
        return None
    return f"nothing that '{paragraph.strip()[:60]}' names has this clause"


def names() -> Outcomes:
    """Each name of a function, type or definition of the pages on the proof, and each label of a clause in brackets."""
    for page in (name for name in PAGES if (TOP / name).exists()):
        for paragraph in paragraphs(text_of(TOP / page)):
            for span in filter(is_item, SPAN.findall(paragraph)):
                yield Outcome(f"{page}: {span}", unknown(span))
            groups = LABELS.findall(paragraph) if page in WITH_CLAUSES else []
            for label in (label for group in groups for label in SPAN.findall(group)):
                yield Outcome(f"{page}: ({label})", wrong_label(label, paragraph))


def clauses() -> Outcomes:
    """Each piece of code that a page quotes word for word: its paragraphs are in the sources, but for the blanks."""
    for page in WITH_CODE:
        for block in (block for block in fenced_blocks(TOP / page) if block.kind == "rust"):
            for piece in re.split(r"^\.\.$|\n\s*(?=ensures|requires|pub )", block.text, flags=re.M):
                words = " ".join(piece.split())
                if words:
                    is_there = words in sources().words
                    yield Outcome(f"{page}: {words[:80]}", None if is_there else "the sources have no such clause")
