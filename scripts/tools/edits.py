"""Wrong bodies, crates/NAME/tried/*.edit: how they are read, and which of them may be tried together."""

from __future__ import annotations

import re
from pathlib import Path
from typing import Iterator, NamedTuple

from tools.words import Refused


class Function(NamedTuple):
    """A function of a crate: the path of its module, and its name."""

    module: tuple[str, ...]
    name: str

    def is_named(self, path: str) -> bool:
        """Whether a path that a check prints, as `crate::module::Type::name`, is that of this function, or of a part of it."""
        parts = path.split("::")[1:]
        rest = parts[len(self.module) :]
        if rest and rest[0][:1].isupper():
            rest = rest[1:]
        return tuple(parts[: len(self.module)]) == self.module and rest[:1] == [self.name]


class Change(NamedTuple):
    """A text that stands once in a file, and the text in its place."""

    file: str
    old: str
    new: str


class Edit(NamedTuple):
    """A wrong body: its changes, and the functions in which they stand, or none where one stands outside of all functions."""

    name: str
    changes: tuple[Change, ...]
    functions: frozenset[Function]


FUNCTION = re.compile(r"( *)(?:pub(?:\([^)]*\))? )?(?:const )?(?:unsafe )?fn (\w+)")


def spans_of(text: str) -> Iterator[tuple[int, int, str]]:
    """The first and the last line of each function of a text that `rt fmt` has laid out, and its name."""
    lines = text.split("\n")
    for first, line in enumerate(lines):
        head = FUNCTION.match(line)
        if head:
            last = next((at for at in range(first, len(lines)) if lines[at].startswith(head[1] + "}")), first)
            yield first, last, head[2]


def function_at(file: str, text: str, place: int) -> Function | None:
    """The innermost function of a source in which a place of its text lies."""
    line = text.count("\n", 0, place)
    around = [span for span in spans_of(text) if span[0] <= line <= span[1]]
    module = tuple(part for part in Path(file).with_suffix("").parts[1:] if part not in ("lib", "main"))
    return Function(module, max(around)[2]) if around else None


def changes_of(edit: Path) -> Iterator[Change]:
    """The changes of an edit: lines `file:`, and below each pairs of lines `old:` and `new:`."""
    file = old = ""
    for line in edit.read_text(encoding="utf-8").split("\n"):
        if line.startswith("file: "):
            file = line.removeprefix("file: ").strip()
        elif line.startswith("old: "):
            old = line.removeprefix("old: ")
        elif line.startswith("new:"):
            yield Change(file, old, line.removeprefix("new:").removeprefix(" "))


def read_edit(crate: Path, edit: Path) -> Edit:
    """Reads an edit of a crate, and finds its functions in the sources as they stand."""
    texts: dict[str, str] = {}
    changes = tuple(changes_of(edit))
    functions = set()
    for file, old, new in changes:
        text = texts.get(file) or (crate / file).read_text(encoding="utf-8")
        if text.count(old) != 1:
            raise Refused(f"{edit}: its text stands {text.count(old)} times in {crate / file}")
        functions.add(function_at(file, text, text.index(old)) if file.startswith("src/") else None)
        texts[file] = text.replace(old, new)
    return Edit(edit.name, changes, frozenset() if None in functions else frozenset(functions))


def edits_of(crate: Path) -> list[Edit]:
    """The edits of a crate that the gate leaves out, by name."""
    return [read_edit(crate, path) for path in sorted(crate.glob("tried/*.edit"))]


def meet(one: Edit, other: Edit) -> bool:
    """Whether two edits change one function, or a text in which the other one's text stands."""
    return bool(one.functions & other.functions) or any(
        a.file == b.file and any(x in y or y in x for x in (a.old, a.new) for y in (b.old, b.new) if x and y) for a in one.changes for b in other.changes
    )


def groups_of(edits: list[Edit]) -> list[list[Edit]]:
    """Groups in which no two edits meet."""
    groups: list[list[Edit]] = []
    for edit in edits:
        free = next((group for group in groups if not any(meet(edit, other) for other in group)), None)
        if free is None:
            groups.append([edit])
        else:
            free.append(edit)
    return groups
