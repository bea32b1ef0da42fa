"""The files of the crates: what each defines and promises, and what the words in it stand for.

An item is a triple: its crate, its module and its name. A module of the code begins with `src.`. A file of definitions
is a `Specs`, a file of the code a `Source`."""

import pathlib
import re
import textwrap

TOP = pathlib.Path(__file__).resolve().parent.parent.parent
CRATES = TOP / "crates"

# Names of the code that aren't of the crates are Rust's and std's. Types of std, as `String`, are followed nowhere.
ITEM = re.compile(r"^(?:pub(?:\([^)]*\))? )?(?:const |unsafe )*(fn|struct|enum|trait|type|const|union|impl)\b\s*(\w+)?")
BEGINS = re.compile(r"^(?:(?:abbrev|unfoldable|pub|record|data) )*([^\s:(){}]+)(?=[\s:(])")
IMPORT = re.compile(r"^(?:ghost )?(?:pub )?use Rattle\.(\w+)\.(?:specs\.)?([\w.«»]+?)(?:\.\{([^}]*)\}| as (\w+));?$")
SOME_IMPORT = re.compile(r"^(?:pub )?use (?!std::|crate::|super::|\w+::)|^\s*ghost (?:pub )?use ")
WORD = re.compile(r"[^\s(){};,.→×≡λ=|⊎¬]+(?:\.[^\s(){};,.→×≡λ=|⊎¬]+)*")
QUOTED = re.compile(r'"(?:[^"\\]|\\.)*"')
TOKEN = re.compile(r"[^\s(){};,]+")
CODE_WORD = re.compile(r"[A-Z]\w*")
MEMBER = re.compile(r"^\s+(?:pub )?([^\s:(){}]+) :(?: |$)")


def is_test(crate):
    return crate.startswith("test_")


def imports_of(lines):
    """The names that imports bring, each with its crate, module and own name; the modules that they name; and the
    imports that can't be read."""
    names, modules, unread = {}, {}, []
    for line in lines:
        found = IMPORT.match(line.strip())
        if not found:
            if SOME_IMPORT.match(line):
                unread.append(line.strip())
            continue
        crate, module, items, alias = found.groups()
        if alias:
            modules[alias] = (crate, module)
        for item in (items or "").split(", "):
            own, _, given = item.partition(" as ")
            if own:
                names[given or own] = (crate, module, own)
    return names, modules, unread


USE = re.compile(r"^(?:pub(?:\([^)]*\))? )?use ([^;]*);", re.M)
USED = re.compile(r"([\w:]+)::(?:\{([^{}]*)\}|(\w+)(?: as (\w+))?)")


def uses_of(lines):
    """The names that the code's own imports bring, each with the path of its module and its own name there, and those of
    them that it hands on; and the imports that can't be read."""
    names, handed_on, unread = {}, {}, []
    text = re.sub(r"//.*", "", "\n".join(lines))
    for found in USE.finditer(text):
        used = USED.fullmatch(found[1].strip())
        if not used:
            unread.append(f"use {found[1]}")
            continue
        path, items, one, alias = used.groups()
        for item in (re.split(r",\s*", items.strip()) if items else [f"{one} as {alias}" if alias else one]):
            own, _, given = item.strip().partition(" as ")
            if own:
                names[given or own] = (path, own)
                if found[0].startswith("pub "):
                    handed_on[given or own] = (path, own)
    return names, handed_on, unread


def head_of(lines, mark):
    """The comment that a file begins with, as one text."""
    head = []
    for line in lines:
        if not line.startswith(mark):
            break
        head.append(line.removeprefix(mark).strip())
    return " ".join(head)


class Specs:
    """A file of specs: its definitions, each with its comment and its lines, and what its words stand for."""

    mark, language = "--", "antt"

    def __init__(self, crate, module, text):
        self.crate, self.module, self.blocks, self.comments, self.owners = crate, module, {}, {}, {}
        lines = text.splitlines()
        self.fixities = [line for line in lines if line.startswith("infix")]
        self.head = head_of(lines, self.mark)
        self.imports, self.aliases, self.unread = imports_of(lines)
        name, comment, is_inner, opened = None, [], False, []
        for line in lines:
            if not line.strip():
                comment = []
                continue
            if line.startswith(("use ", "pub use ", "pub mod ", "mod ", "infix")):
                name, comment = None, []
                continue
            # Definitions that speak of one another, or of the same variables, stand indented behind one line.
            if line in ("mutual", "abbrev mutual") or line.startswith("module "):
                is_inner, opened, name, comment = True, [*comment, line], None, []
                continue
            is_inner = is_inner and line.startswith(" ")
            opened = opened if is_inner else []
            text = line[2:] if is_inner else line
            if text.startswith("--"):
                comment.append(line)
                continue
            begins = BEGINS.match(text)
            if begins and not text.startswith((" ", "unfolding")):
                if begins.group(1) not in self.blocks:
                    self.comments[begins.group(1)] = opened + comment
                    opened = [line for line in opened if line.startswith("module ")]
                name, comment = begins.group(1), []
            if name is not None:
                # A comment within a definition, as before a field of a record.
                self.blocks.setdefault(name, []).extend([*comment, line])
                comment = []
        for name, lines in self.blocks.items():
            if re.match(r"\s*(?:pub )?(?:record|data) ", lines[0]):
                for member in filter(None, map(MEMBER.match, lines[1:])):
                    self.owners.setdefault(member[1], name)

    def meaning(self, word):
        """What a word stands for here: an item of this file, of an import, or of a module that one names."""
        front, _, rest = word.partition(".")
        if front in self.blocks:
            return self.crate, self.module, front
        if front in self.imports:
            return self.imports[front]
        if front in self.aliases and rest:
            return *self.aliases[front], rest.split(".")[0]
        return None

    def words(self, name):
        """The words of a definition in their order, without its comments, and the operators whose signs stand in it."""
        lines = [line.split(" -- ")[0] for line in self.blocks[name] if not line.strip().startswith("--")]
        lines += [line for line in self.comments[name] if line.startswith("module ")]
        yield from words_in(lines, [*self.imports, *self.blocks])

    def text(self, name):
        return textwrap.dedent("\n".join(self.comments[name] + self.blocks[name])).splitlines()


def words_in(lines, names):
    """The words of some lines, and those of the names that are operators and whose signs stand in them."""
    tokens = set()
    for line in (QUOTED.sub("", line) for line in lines):
        tokens |= {token.strip(".") for token in TOKEN.findall(line)} | set(TOKEN.findall(line))
        yield from WORD.findall(line)
    for name in names:
        if "◌" in name or not WORD.fullmatch(name):
            if all(sign in tokens for sign in name.split("◌") if sign):
                yield name


class Source:
    """A file of the code: its types and constants, and its contracts, each with its comment and without its body."""

    mark, language = "//!", "rust"

    def __init__(self, crate, module, text):
        self.crate, self.module = crate, module
        self.blocks, self.comments, self.owners, self.kinds = {}, {}, {}, {}
        self.whole = text
        lines = text.splitlines()
        self.head = head_of(lines, self.mark)
        self.imports, self.aliases, self.unread = imports_of(lines)
        self.uses, self.handed_on, others = uses_of(lines)
        self.unread += others
        comment, item = [], None
        for line in lines:
            if item is None:
                begins = ITEM.match(line)
                if line.startswith("///"):
                    comment.append(line)
                elif begins:
                    item = begins, [line]
                elif line.startswith("#[") and not PASSED_OVER.match(line):
                    comment.append(line)
                elif not line.startswith(("#[", "//")) or line.startswith("//!"):
                    comment = []
            else:
                item[1].append(line)
            if item and is_whole(item[0][1], item[1]):
                self.add(*item, comment)
                item, comment = None, []

    def add(self, begins, lines, comment):
        kind, name = begins[1], begins[2]
        if kind == "impl":
            name = re.match(r"(impl(?:<.*?>)? .*?) \{", f"{lines[0]} {{").group(1)
            name += "" if name not in self.blocks else f" {len(self.blocks)}"
        self.kinds[name] = kind
        self.comments[name] = comment
        self.blocks[name] = contracts_of(lines) if kind in ("fn", "impl", "trait") else without_attributes(lines)

    def meaning(self, word):
        front, _, rest = word.partition(".")
        if front in self.imports:
            return self.imports[front]
        if front in self.aliases and rest:
            return *self.aliases[front], rest.split(".")[0]
        return None

    def words(self, name, lines=None):
        lines = [line.split("//")[0] for line in lines or self.blocks[name]]
        yield from words_in(lines, self.imports)

    def code_words(self, name, lines=None):
        """The types and constants of code that an item names."""
        for line in lines or self.blocks[name]:
            yield from CODE_WORD.findall(line.split("//")[0])

    def text(self, name):
        return self.comments[name] + self.blocks[name]


def is_whole(kind, lines):
    if kind in ("const", "type") or kind == "struct" and "{" not in lines[0]:
        return lines[-1].endswith(";")
    return lines[-1] in ("}", "{}") or len(lines) == 1 and lines[-1].endswith("}")


# What these say of a function or a type isn't said in a contract. Another attribute stays in the text.
PASSED_OVER = re.compile(r"\s*#\[(tactic|derive|inline|error|rattlefmt)\b")


def without_attributes(lines):
    return [line for line in lines if not PASSED_OVER.match(line)]


def contracts_of(lines):
    """Functions without their bodies. A private one without a contract, in an `impl`, is left out."""
    kept, waiting, own, indent = [], [], None, None
    for line in without_attributes(lines):
        begins = re.match(r"(\s*)(?:pub(?:\([^)]*\))? )?(?:const |unsafe )*fn \w", line)
        if own is None and begins:
            own, indent, is_body = [], begins[1], False
        if own is None:
            if line.strip().startswith("//"):
                waiting.append(line)
            elif line.strip():
                kept += [*waiting, line]
                waiting = []
            else:
                kept, waiting = kept + waiting, []
            continue
        if line in (f"{indent}{{", f"{indent}{{}}"):
            is_body = True
        if not is_body:
            own.append(line.removesuffix(" {") if line.startswith(f"{indent}") and line.endswith(" {")
                       and not re.match(rf"{indent} ", line) and "ensures" not in line and "requires" not in line else line)
            is_body = line.endswith(" {") and own[-1] != line
        if line in (f"{indent}}}", f"{indent}{{}}") or line.endswith(";") and not is_body or line.endswith("}") and len(own) == 1:
            is_contract = any(re.match(r"\s*(ensures|requires)\b", line) for line in own)
            if is_contract or re.match(r"\s*pub ", own[0]) or line.endswith(";"):
                kept += waiting + own + ([] if indent == "" else [""])
            own, waiting = None, []
    # No empty line stands before a brace, and none at the end.
    text = re.sub(r"\n\n+", "\n\n", "\n".join(kept))
    return re.sub(r"\n+(\n\})", r"\1", text).strip("\n").splitlines()


def file_of(name, text):
    """A file by its name in `crates`: its crate and module, and what is in it."""
    crate, *parts = pathlib.PurePath(name).with_suffix("").parts
    kind = Source if parts[0] == "src" else Specs
    module = ".".join(parts if kind is Source else parts[1:])
    return (crate, module), kind(crate, module, text)


def all_files():
    """Each file of specs and of code, by its crate and module."""
    paths = [path for pattern in ("*/specs/**/*.antt", "*/src/**/*.rt") for path in sorted(CRATES.glob(pattern))]
    names = [path.relative_to(CRATES) for path in paths]
    return dict(file_of(name, (CRATES / name).read_text()) for name in names
                if not {"out", "tests"} & set(name.parts) and name.name != "Lib.antt" and not is_test(name.parts[0]))
