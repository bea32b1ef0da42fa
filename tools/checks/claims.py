"""That docs/CLAIMS.md names what is there: each name in it stands in the crates, the tools or the documents, and each
edit of `must-fail` in it."""

import functools
import re

from theorem_sources import CRATES, TOP

CLAIMS = TOP / "docs/CLAIMS.md"
NAMED = re.compile(r"`([^`]+)`")


def edits():
    """The edits of all crates, by their names."""
    return {path.stem for path in CRATES.glob("*/must-fail/*.edit")}


@functools.cache
def words():
    """The words that stand in the crates' files, in the names of files and folders, and in the tools."""
    found = edits()
    for pattern in ("*/src/**/*.rt", "*/specs/**/*.antt"):
        for path in CRATES.glob(pattern):
            found.update(re.findall(r"\w+", path.read_text()), path.relative_to(CRATES).parts, [path.stem])
    for path in [*(TOP / "tools").rglob("*"), *(TOP / "docs").iterdir()]:
        found.update([path.name, path.stem])
        if path.is_file() and "tools" in path.parts and not path.name.startswith("test_"):
            found.update(re.findall(r"\w+", path.read_text(errors="replace")))
    for path in CRATES.glob("*/data/*"):
        found.update([path.name])
    return found


def missing(text):
    """The names of a text that stand nowhere, and the edits that it doesn't name."""
    named = NAMED.findall(text)
    for name in named:
        if name.startswith("-") or " " in name:
            continue
        parts = re.findall(r"\w+", name)
        for part in parts:
            if part not in words():
                yield f"docs/CLAIMS.md names {name}, and {part} isn't there"
    for edit in sorted(edits() - set(named)):
        yield f"docs/CLAIMS.md doesn't name {edit}"
