"""How the theorem is printed: docs/THEOREM.md, and what differs between two of them."""

import collections
import difflib
import re
import textwrap

from theorem import TABLE
from theorem_sources import TOP, Specs, head_of, is_test

# What a part is about.
ABOUT = {
    "The contract": """\
`main` gives the words of the command line and the system as a host to `carry_out`, which is proved to meet its contract
for all words and every host; so is all that it calls. These definitions say what it ends with; what they cite follows.""",
    "The headline": """\
{headline}

`Headline` says that of `rvgprof profile ELF GMON` where its status is 0. These are the records that it is made of; the
parts that follow, up to the next that isn't called "The headline", have what they rest on.""",
    "What else `profile` leaves": """\
The bytes of GMON, the runtime's memory, the printed reports, the exact times, and the line at the end.""",
    "All other answers": """\
What the contract rests on beyond the headline: what each command leaves, what is owed after each fault, and what a host
is.""",
    "What follows for the program": """\
Functions that do nothing and are proved: what follows from the contract in other words.""",
    "The system": """\
The contract is over any host. This is the host that the program runs on, over any system; that system, over any folder;
and what the calls on a folder leave, at once and after a crash.""",
    "Hosts that tell": """\
The system tells no contents. These hosts, systems and folders in memory do, so that what is said where a host tells
isn't said of nothing.""",
    "What follows in the layers below": """\
Laws of the crates below: that definitions which can be read in one way only mean what their names say.""",
}
TRUSTED = """\
No clause says that these do what they should: the calls on std, and what `main` does around the contract."""
STANDS_ON = """\
Each crate, and the libraries that it stands on: those of this list, and those of the kit."""
STD = """\
Each is the one of this module, unless it is said otherwise where it stands; `Prelude` here is also what it hands on:
`Bool`, `Fmt`, `List`, `Option`, `Result` and `Str`."""

INTRODUCTION = """\
# The theorem

All that the proofs show, in one text: every contract that the program is proved to meet, and every definition behind it,
once. It is made by `tools/checks/reading --renew`, and the gate refuses another text: **a change of this file is a change
of what is proved**, and is read word by word. What isn't here are proofs, bodies, and std's words (listed at the end).

In a contract `x.old` and `x.new` are what stands at `x` before and after the call, `x.now` what stands there all the
time, `result` is what the call answers, and `result ≡ ..` says that. `H.outside host.old` is all that contracts see of a
host. `(a : A) × B` says that there is an `a` of `A` for which `B` holds, and `(a : A) → B` that `B` holds for each; a
record says that each of its lines holds. `⊤` is said of everything, `⊥` of nothing. `abbrev` and `unfoldable` say how
proofs open a definition, and nothing of what it means. A file of definitions stands behind those that cite it; in it what
is used stands first, so that it is read from its last definition up. What stands under a heading in an earlier part
isn't said again.
"""


def sentences(text):
    """The first sentence of a text, and the others."""
    found = re.match(r"(.*?)[.:](?: |$)(.*)", text)
    first, rest = found.groups() if found else (text, "")
    return first, rest[:1].upper() + rest[1:]


def filled(text):
    return textwrap.fill(text, 120, break_long_words=False, break_on_hyphens=False) + "\n"


def order_of_files(theorem, items):
    """The files of some items, each behind those that cite it, and else in the order in which they are cited."""
    edges, inside = collections.defaultdict(dict), set(items)
    for item in items:
        for cited in theorem.cited(item):
            if cited in inside and cited[:2] != item[:2]:
                edges[item[:2]][cited[:2]] = None
    done, order = {}, []

    def visit(file):
        done[file] = True
        for other in reversed(edges[file]):
            if other not in done:
                visit(other)
        order.append(file)

    for file in reversed(list(dict.fromkeys(item[:2] for item in items))):
        if file not in done:
            visit(file)
    return list(reversed(order))


def headline():
    """The sentence that README quotes."""
    return re.search(r"^> .*", (TOP / "README.md").read_text(), re.M)[0]


def text_of(theorem):
    """The whole text."""
    return "\n".join([INTRODUCTION, body_of(theorem), f"## What is trusted\n\n{TRUSTED}\n", *trusted(theorem),
                      f"## The crates\n\n{STANDS_ON}\n", crates()])


def body_of(theorem):
    """The parts of the text, and the words of std in them."""
    senses = collections.defaultdict(set)
    for item in theorem.needed:
        for word, sense in theorem.meanings(item):
            senses[word].add(sense)
    out, told_of, table = [], set(), []
    for (title, begins), items in zip(theorem.parts, theorem.order):
        part = part_of(theorem, title, begins, items, senses, told_of)
        if title == TABLE:
            table = part
        else:
            out += part + table
            table = []
    return "\n".join([*out, f"## Words of std and of the kit\n\n{STD}\n", *words_of_std(senses)]) + "\n"


def part_of(theorem, title, begins, items, senses, told_of):
    """A part of the text: what it is about, and the items of each file behind its name and its place."""
    about = ABOUT.get(title, "")
    if title == "The headline":
        about = about.format(headline=headline())
    out, inside = ["\n\n".join(filter(None, [f"## {title}", about, figures(theorem, items)])) + "\n"], set(items)
    for key in order_of_files(theorem, items):
        file = theorem.files[key]
        own = [(*key, name) for name in file.blocks if (*key, name) in inside]
        # What a part begins with stands first.
        own = sorted(own, key=begins.index) if title == "The headline" else own
        first, rest = sentences(file.head)
        out.append(f"### {first}\n")
        out.append(f"<!-- {key[0]} {key[1].removeprefix('src.')}{'.rt' if key[1].startswith('src.') else ''} -->\n")
        if rest and key not in told_of:
            out.append(filled(rest))
        told_of.add(key)
        notes = sorted({(word, sense) for item in own for word, sense in theorem.meanings(item)
                        if is_told(word, sense, senses)})
        if notes:
            out.append(filled(f"Here {', '.join(note_of(*note) for note in notes)}."))
        blocks = "\n\n".join([*getattr(file, "fixities", []), *("\n".join(theorem.lines(item)) for item in own)])
        out.append(f"```{file.language}\n{blocks}\n```\n")
    return out


def note_of(word, sense):
    """What a word stands for in a file, in words."""
    name, _, place = sense.partition(" of ")
    return f'`{word}` is that of "{sentences(place)[0]}"' if place else f"`{word}` is `{name}`"


def words_of_std(senses):
    """The words of std and of the kit that the text has, by their modules."""
    words = collections.defaultdict(set)
    for sense in set().union(*senses.values()):
        if sense[0].islower() and "." in sense and " of " not in sense:
            words[sense.removeprefix("std.").rpartition(".")[0]].add(sense.rpartition(".")[2])
    for module, names in sorted(words.items()):
        yield textwrap.fill(f"- `{module}`: " + " ".join(f"`{name}`" for name in sorted(names)), 120,
                            subsequent_indent="  ", break_long_words=False, break_on_hyphens=False)


def crates():
    """What each crate of the program stands on."""
    lines = [line for line in (TOP / "crates.txt").read_text().splitlines()
             if line and not line.startswith("#") and not is_test(line)]
    return "```\n" + "\n".join(lines) + "\n```\n"


def figures(theorem, items):
    """How much there is to read in a part."""
    own = [item for item in items if isinstance(theorem.file(item), Specs)]
    lines = sum(len(theorem.file(item).blocks[item[2]]) for item in own)
    others = len(items) - len(own)
    return f"{len(own)} definitions of {lines:,} lines, and {others} contracts, types and constants of the code."


def is_told(word, sense, senses):
    """Whether it must be said what a word stands for: it has another name there, or another meaning elsewhere."""
    return sense != word and (len(senses[word]) > 1 or sense.rpartition(".")[2] != word)


def trusted(theorem):
    """The code that has no contract to be held to, as it stands."""
    for name in ("main", "real_folder"):
        lines = theorem.files["rvgprof_main", f"src.{name}"].whole.splitlines()
        head = head_of(lines, "//!")
        lines = [line for line in lines if not line.startswith(("//!", "ghost use", "#!["))]
        text = "\n".join(lines).strip("\n")
        yield f"### {sentences(head)[0]}\n\n```rust\n{text}\n```\n"


def name_of(piece):
    """The name of a definition or a contract, by its first line of its own."""
    lines = [line.strip() for line in piece.splitlines()]
    first = next((line for line in lines if not re.match(r"--|//|(abbrev )?mutual$|module ", line)), piece)
    if first.startswith("impl"):
        return first.removesuffix(" {")
    return re.match(r"(?:(?:abbrev|unfoldable|pub|record|data|fn|struct|enum|trait|type|const) )*([^\s:(<]*)", first)[1]


def pieces_of(text):
    """The definitions of a text, each under its name."""
    pieces = collections.defaultdict(list)
    for block in re.findall(r"^```\w+\n(.*?)^```", text, re.M | re.S):
        for piece in re.split(r"\n\n(?=[^\s}])", block.strip("\n")):
            pieces[name_of(piece)].append(piece)
    return pieces


def changes(old, new):
    """The lines that two texts differ in, by definition, wherever it stands; and whether all else is the same."""
    before, after = pieces_of(old), pieces_of(new)
    for name in sorted(before.keys() | after.keys()):
        gone = [piece for piece in before.get(name, []) if piece not in after.get(name, [])]
        come = [piece for piece in after.get(name, []) if piece not in before.get(name, [])]
        if gone or come:
            lines = difflib.unified_diff("\n".join(gone).splitlines(), "\n".join(come).splitlines(), n=0, lineterm="")
            yield f"{name}:", [line for line in lines if not line.startswith(("---", "+++", "@@"))]
    frame = lambda text: [line for line in re.sub(r"^```\w+\n(.*?)^```", "", text, flags=re.M | re.S).splitlines() if line]
    lines = [line for line in difflib.unified_diff(frame(old), frame(new), n=0, lineterm="")
             if not line.startswith(("---", "+++", "@@"))]
    if lines:
        yield "headings, words and places:", lines
