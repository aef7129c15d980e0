"""Reads .antt: whole files, and all that the believed crates have of them. The believed definitions are the paper
here.
"""
import collections
import itertools
import os
import re

from wrong_rules.expressions import Expressions, blocks, split, tokens_of

TOP = os.path.dirname(os.path.dirname(os.path.dirname(os.path.abspath(__file__))))
CRATES = ["rules_json", "rules", "rules_plan"]  # the believed ones, each behind those that it stands on

Clause = collections.namedtuple("Clause", "patterns body start end")
Home = collections.namedtuple("Home", "module word")  # where a word is defined
# A list of rows, and whether one theorem holds them all, or one theorem each.
Table = collections.namedtuple("Table", "module word in_one")


def specs_path(crate):
    """How a `use` names a crate's definition files."""
    return f"Rattle.{crate}.specs."


def operator(word):
    """How a `use` and a definition name an operator: ▷ is ◌▷◌, and its operands stand where the marks do."""
    return "◌if◌then◌" if word == "if" else f"◌{word}◌"


def file_of(name):
    """A module's name without the crate."""
    return name.split("/")[-1]


def is_relation(types):
    """A rule of the grammar, which has texts or has not: a type, and nothing that is computed."""
    return types[-1] == "Rule" or types[-1].startswith("Type ")


class Definition:
    """Its types are of its parameters and of its result. Before them come the parameters of a module around it."""

    def __init__(self, name, types, before):
        self.name, self.types, self.before, self.clauses = name, types, before, []

    @property
    def arity(self):
        return len(self.before) + (len(self.clauses[0].patterns) if self.clauses else 0)


class Module:
    """One file: its `use` words, definitions, data types and records, and the names of its theorems.

    Its name is the file's, and where two crates have a file of that name the crate stands before it: rules_plan/Words.
    """

    def __init__(self, name, text):
        self.name, self.text = name, text
        self.used, self.definitions, self.data, self.records, self.theorems = {}, {}, {}, {}, set()
        for path, words in re.findall(r"^use (\S+)\.\{([^}]*)\}", text, re.M):
            for word in re.split(r",\s*", words.strip()):
                self.used[word] = path
        self.read(blocks(tokens_of(text)), [])

    def read(self, items, before):
        self.latest = None
        for item in items:
            while item[0].text in ("pub", "abbrev", "unfoldable"):
                item = item[1:]
            first = item[0].text
            if first in ("mod", "unfolding") or first.startswith("infix"):
                continue
            if first in ("module", "data", "record"):
                self.read_group(item, before)
            elif len(item) > 1 and item[1].text == ":":
                self.read_type(first, item[2:], before)
            else:
                self.read_clause(item)

    def read_group(self, item, before):
        words = [token.text for token in item]
        where = words.index("where")
        lines = blocks(item[where + 1:])
        if words[0] == "module":
            parameters = [words[at + 1] for at in range(where) if words[at] == "("]
            self.read(lines, before + parameters)
        elif words[0] == "data":
            self.data[words[1]] = self.read_data(lines)
        else:
            self.records[words[1]] = [line[1 if line[0].text == "pub" else 0].text for line in lines]

    @staticmethod
    def read_data(lines):
        """How many parts each constructor has."""
        constructors = {}
        for line in lines:
            names, kind = split(line, ":")
            for name in names:
                constructors[name.text] = len(split(kind, "→")) - 1
        return constructors

    def read_type(self, name, tokens, before):
        if any(token.text == "≡" for token in tokens):
            self.theorems.add(name)
        types = [" ".join(token.text for token in part) for part in split(tokens, "→")]
        types = [kind for kind in types if not kind.startswith("{")]  # what is not written where it is called
        self.latest = None if is_relation(types) else Definition(name, types, before)
        if self.latest:
            self.definitions[name] = self.latest

    def read_clause(self, item):
        if self.latest is None:
            return
        left = split(item, "=")[0]
        right = item[len(left) + 1:]
        parts = self.latest.name.split("◌")  # ◌▷◌ is written between its operands
        if len(parts) > 1:
            patterns = [Expressions([token]).atom() for token in left if token.text not in parts]
        else:
            reader, patterns = Expressions(left[1:]), []
            while not reader.ended():
                patterns.append(reader.atom())
        self.latest.clauses.append(Clause(patterns, Expressions(right).whole(), item[0].start, item[-1].end))


def structs_of(text):
    """The fields of each struct of lib.rt, each with its type."""
    found = []
    for body in re.findall(r"pub struct \w+ \{(.*?)\}", text, re.S):
        found.append({field: logic_type(kind) for field, kind in re.findall(r"pub (\w+): ([^,]+),", body)})
    for kind in re.findall(r"pub struct \w+\(pub (\w+)\);", text):
        found.append({"0": logic_type(kind)})
    return found


def logic_type(kind):
    """Numbers of any width are ℕ."""
    if re.fullmatch(r"u\d+|usize", kind):
        return "ℕ"
    return "Bool" if kind == "bool" else kind


def text_of(crate, *path):
    with open(os.path.join(TOP, "crates", crate, *path), encoding="utf-8") as file:
        return file.read()


def modules_named(crate, *path):
    return re.findall(r"^pub mod (\w+)", text_of(crate, *path), re.M)


def has_rows(crate):
    return "rows" in modules_named(crate, "specs", "Lib.antt")


def crate_of_rows(crate):
    """The crate whose rows try a crate's definitions: itself, or where it has no rows the next that has."""
    return next(filter(has_rows, CRATES[CRATES.index(crate):]))


def files_of(crate):
    """The definition files of a crate and its row files, as a `use` names them."""
    files = [name for name in modules_named(crate, "specs", "Lib.antt") if name != "rows"]
    rows = modules_named(crate, "specs", "rows.antt") if has_rows(crate) else []
    return files + ["rows." + name for name in rows]


class Paper:
    """Everything that is read: definition files, row files, the tables that the proofs compute, the structs."""

    def __init__(self):
        structs = (structs_of(text_of(crate, "src", "lib.rt")) for crate in CRATES)
        self.structs = dict(zip(CRATES, itertools.accumulate(structs)))  # of each crate and those that it stands on
        self.modules, self.crates = {}, {}  # each file by its name, and its crate
        self.paths = {}  # what a `use` says, and the name of the file
        files = [(crate, file) for crate in CRATES for file in files_of(crate)]
        often = collections.Counter(file for _, file in files)
        for crate, file in files:
            name = file if often[file] == 1 else f"{crate}/{file}"
            self.modules[name] = Module(name, text_of(crate, "specs", file.replace(".", "/") + ".antt"))
            self.crates[name] = crate
            self.paths[specs_path(crate) + file] = name
        self.order = [name for name in self.modules if not file_of(name).startswith("rows.")]
        self.tables = {}  # by proof file: no two crates have one of the same name
        for crate in filter(has_rows, CRATES):
            self.tables.update(self.tables_of(crate))

    def tables_of(self, crate):
        """The table that each proof file of a crate computes, by the file's name."""
        found = {}
        for name in modules_named(crate, "proofs", "Lib.antt"):
            proof = Module(name, text_of(crate, "proofs", name + ".antt"))
            for word, path in proof.used.items():
                if path in self.paths and self.is_table(Home(self.paths[path], word)):
                    found[name] = Table(self.paths[path], word, "rows" in proof.theorems)
        return found

    def path_of(self, other):
        """How a `use` names a definition file."""
        return specs_path(self.crates[other]) + file_of(other)

    def is_table(self, home):
        definition = self.definition(home)
        return definition is not None and definition.types == ["List Row"]

    def home(self, module, word):
        """Where a word that a module says is defined; None for a word of the library or a type of lib.rt."""
        for spelling in (word, operator(word)):
            if spelling in module.definitions or any(spelling in words for words in module.data.values()):
                return Home(module.name, spelling)
            path = module.used.get(spelling)
            if path in self.paths:
                return Home(self.paths[path], spelling)
        return None

    def definition(self, home):
        """None where the word is a constructor or a type."""
        return self.modules[home.module].definitions.get(home.word)

    def constructors(self, home):
        """The constructors of the word's data type, where it is one itself, each with the number of its parts."""
        if home is not None:
            for constructors in self.modules[home.module].data.values():
                if home.word in constructors:
                    return constructors
        return {}
