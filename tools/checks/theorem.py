"""What the theorem is, and what stands behind it.

It begins with contracts (`parts_of`), the first of which is that of the whole program, and goes on with each name in them
and in what they name."""

import collections
import functools
import re

from theorem_sources import Source, Specs, all_files

# The modules of std whose words its Prelude hands on.
HANDED_ON = {"Bool", "Fmt", "List", "Option", "Result", "Str"}
# What the code may define besides functions.
TYPES = ("struct", "enum", "trait", "type", "const", "union")
LAW = re.compile(r"pub fn \w+\(\)$")


def laws_of(files, is_of):
    """The laws of some crates: functions of nothing."""
    return [(crate, module, name) for (crate, module), file in files.items() if isinstance(file, Source) and is_of(crate)
            for name, lines in file.blocks.items()
            if lines and LAW.match(lines[0]) and file.kinds[name] == "fn"]


def contracts_in(files, crate, module, names=None):
    """The named contracts of a file, or all that others can call."""
    file = files[crate, module]
    for name, lines in file.blocks.items():
        is_public = lines and (file.kinds[name] in ("impl",) or lines[0].startswith("pub"))
        if name in names if names else file.kinds[name] in ("fn", "impl", "trait") and is_public:
            yield crate, module, name


# Parts that have what they begin with, and not what that cites.
ALONE = {"The contract", "The headline"}
SYSTEM = ("system_host", "folder_system")
# A table to look things up in, which is printed behind the part that cites it.
TABLE = "The headline: the instructions"
# The records that say the headline, by their modules.
RECORDS = ("Headline", "Asked", "Runs", "GmonSaysRun", "NamesDiffer", "TimeIsShared", "ArcIsInProportion", "CallersGetAll",
           "run_sources")
RUN_RECORDS = ("SaysRun",)


def parts_of(files):
    """The parts of the text, each with the items that it begins with."""
    def specs(module, *names):
        return [(home_of(files, module, names[0]), module, name) for name in names]

    def code(module, item, names=None):
        return list(contracts_in(files, home_of(files, module, item), module, names))

    return [
        ("The contract", [
            *code("src.main", "carry_out", ["carry_out", "status_of", "status_without_words"]),
            *code("src.top", "rvgprof", ["rvgprof"]), *code("src.outcome", "Fault"),
            *specs("Exit", "EndsWith", "status_of_answer", "status_without_words"), *specs("Statuses", "status_of"),
            *specs("Headline", "Answered", "Leaves")]),
        ("The headline", specs("Headline", *RECORDS) + specs("RunFile", *RUN_RECORDS)),
        ("The headline: the time in the report", specs("Headline", "TimeIsShared")),
        (TABLE, specs("Table", "row_of")),
        ("The headline: a program is accepted, and its run starts", specs("Headline", "Runs")),
        ("The headline: the run", specs("RunFile", "end_world", "text_sizes")),
        ("The headline: its file", specs("Headline", "GmonSaysRun")),
        ("The headline: the profile that is reported", specs("Headline", "run_sources")),
        ("What else `profile` leaves", specs("Headline", "ProfileLeaves")),
        ("All other answers", None),
        ("What follows for the program", laws_of(files, lambda crate: crate == "rvgprof")),
        ("The system", [
            *code("src.system", "System"), *code("src.host", "SystemHost"), *code("src.folder", "Folder"),
            *code("src.place", "begin"), *code("src.beside", "Beside"), *code("src.system", "FolderSystem"),
            *laws_of(files, lambda crate: crate in SYSTEM)]),
        ("Hosts that tell", [
            *impls_of(files, "src.mem_host", "MemHost"), *impls_of(files, "src.one_file", "OneFile"),
            *impls_of(files, "src.mem_folder", "MemFolder")]),
        ("What follows in the layers below",
         laws_of(files, lambda crate: crate not in (*SYSTEM, "rvgprof", "rvgprof_main"))),
    ]


def impls_of(files, module, name):
    """What the impls of a type promise."""
    crate = home_of(files, module, name)
    file = files[crate, module]
    return [(crate, module, impl) for impl in file.blocks
            if file.kinds.get(impl) == "impl" and re.search(rf"\b{name}$", impl) and "Model for" not in impl]


def home_of(files, module, name):
    """The one crate in which a module of this name has that item, so that it may move."""
    crates = [crate for (crate, own), file in files.items() if own == module and name in file.blocks]
    if len(crates) != 1:
        raise LookupError(f"{name} stands in {len(crates)} modules {module}")
    return crates[0]


class Theorem:
    """What the theorem rests on."""

    def __init__(self, files=None, parts=None):
        self.files = files or all_files()
        self.parts = parts or parts_of(self.files)
        self.needed, self.followed, self.lost = set(), set(), set()
        self.order = []
        for title, begins in self.parts:
            if title in ALONE:
                self.order.append(list(begins))
                self.needed |= set(begins)
            elif begins is None:
                self.order.append(self.closure([cited for item in self.order[0] for cited in self.cited(item)]))
            else:
                self.order.append(self.closure(begins))

        for key in {item[:2] for item in self.needed}:
            self.lost |= {(*key, line) for line in self.files[key].unread}

    def closure(self, begins):
        """What some items rest on, and nothing had rested on before."""
        new, todo = [], [item for item in reversed(begins)]
        while todo:
            item = todo.pop()
            if item in self.followed:
                continue
            self.followed.add(item)
            if item not in self.needed:
                self.needed.add(item)
                new.append(item)
            todo += reversed(self.cited(item))
        return new

    @functools.cache
    def homes(self):
        """The names that definitions of more than one file have."""
        homes = collections.defaultdict(list)
        for crate, module, name in sorted(self.needed):
            if not module.startswith("src."):
                homes[name].append(f"{crate}/{module}")
        return {name: where for name, where in sorted(homes.items()) if len(where) > 1}

    def item(self, found):
        """The item that an import names: a definition, or a type or constant of the code; of a constructor or a field
        that of its type. None of std."""
        crate, module, name = found
        if crate == "std":
            return None
        file = self.files.get((crate, module))
        if file and name in file.blocks:
            return found
        if file and name in file.imports:
            return self.item(file.imports[name])
        if file and name in file.owners:
            return crate, module, file.owners[name]
        if module.startswith("declared."):
            parts = module.split(".")[1:]
            parts = parts[:-1] + [name] if parts[-1] == "TheConstants" else parts
            for end in range(len(parts) - 1, -1, -1):
                source = self.files.get((crate, "src." + (".".join(parts[:end]) or "lib")))
                if source and parts[end] in source.blocks:
                    return source.crate, source.module, parts[end]
        self.lost.add(found)
        return None

    def item_of_code(self, file, word):
        """The type, trait or constant of the crates that a word of the code names."""
        if word in file.blocks and file.kinds[word] in TYPES:
            return file.crate, file.module, word
        return self.home_of_use(file, word, file.uses) if word in file.uses else None

    def home_of_use(self, file, word, uses):
        """Where the item stands that an import names. None of std and of the kit."""
        path, own = uses[word]
        front = path.split("::")[0]
        crate = file.crate if front in ("crate", "super", "self") else front
        sources = [source for source in self.files.values() if source.crate == crate and isinstance(source, Source)]
        homes = [source for source in sources if source.kinds.get(own) in TYPES]
        # A name that a crate hands on under another name, or from another crate, is that of where it comes from.
        others = [source for source in sources if own in source.handed_on
                  and (source.handed_on[own][1] != own or self.is_of_others(source, own))]
        if len(homes) + len(others) > 1:
            self.lost.add((crate, own, "stands in several places"))
        if others:
            return self.home_of_use(others[0], own, others[0].handed_on)
        return (crate, homes[0].module, own) if homes else None

    def is_of_others(self, source, own):
        """Whether a name that a file hands on is of another crate of the repository."""
        front = source.handed_on[own][0].split("::")[0]
        return front != source.crate and any(crate == front for crate, _ in self.files)

    def file(self, item):
        return self.files[item[0], item[1]]

    def lines(self, item):
        """The lines of an item, and for a type of the code those that say what contracts see of it."""
        file = self.file(item)
        lines = file.text(item[2])
        if isinstance(file, Source) and file.kinds[item[2]] in ("struct", "enum"):
            for name, impl in file.blocks.items():
                if re.fullmatch(rf"impl(?:<.*>)? Model for {item[2]}(?:<.*>)?", name):
                    lines = [*lines, *(line for line in impl if "use Rattle" not in line)]
        return lines

    @functools.cache
    def cited(self, item):
        """What an item names, in the order of its words."""
        return list(dict.fromkeys(self.named(item)))

    def named(self, item):
        file, name = self.file(item), item[2]
        code = isinstance(file, Source)
        lines = self.lines(item) if code else None
        for word in file.words(name, lines) if code else file.words(name):
            found = file.meaning(word)
            if found and (home := self.item(found)):
                yield home
        for word in file.code_words(name, lines) if code else ():
            if home := self.item_of_code(file, word):
                yield home

    @functools.cache
    def meanings(self, item):
        """What the words of an item stand for, each with how that is written."""
        return set(self.stand_for(item))

    def stand_for(self, item):
        file = self.file(item)
        words = file.words(item[2], self.lines(item)) if isinstance(file, Source) else file.words(item[2])
        for word in words:
            found, front = file.meaning(word), word.split(".")[0]
            if not found:
                continue
            if front not in file.imports and front not in file.blocks:
                yield front, self.shown(file.aliases[front] + ("",))
            else:
                yield front, self.shown(found, [item[:2]])
        for word in file.code_words(item[2], self.lines(item)) if isinstance(file, Source) else ():
            path, own = file.uses.get(word, (None, word))
            if path and not self.item_of_code(file, word):
                yield word, f"{path.replace('::', '.')}.{own}"
            elif own != word:
                yield word, own

    def shown(self, found, near=()):
        """How a meaning is written: by its name, behind that of its type or its module of std. Of a name that stands in
        several files it is said which it is, but in the file itself."""
        crate, module, name = found
        file = self.files.get((crate, module))
        if file and name in file.imports and name not in file.blocks:
            return self.shown(file.imports[name])
        if crate == "std":
            return f"std.{'Prelude' if module in HANDED_ON else module}.{name}".rstrip(".")
        parts = [part for part in module.split(".") if part not in ("TheVariants", "TheConstants")]
        home = self.item(found) if name else None
        if home and home[2] != name:
            return f"{home[2]}.{name}"
        if home and home[:2] not in near and len(self.homes().get(name, ())) > 1:
            return f"{name} of {self.file(home).head}"
        return name or parts[-1]
