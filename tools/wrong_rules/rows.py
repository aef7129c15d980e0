"""Computes the rows, by the right definitions and by a wrong one.

The tables of rows are computed in parts, each by itself. Of a wrong rule only those parts are computed that can reach
its definition.
"""
import collections
import functools
import signal
import sys
import time

from wrong_rules.expressions import Node
from wrong_rules.paper import Home, Module, crate_of_rows
from wrong_rules.python_code import FUNCTIONS, Coder, function_name

SECONDS = 3  # of the processor at most, for one part of a table, which takes a tenth of a second by the right rules
MUCH = 8  # seconds of the processor, after which the rows that refuse a wrong rule are enough
MACHINE = Home("rows.Machine", "ours")  # what the row files with a parameter are given for it

# A part of the table of a crate's proof file: its Python, and the homes of all that it can reach.
Part = collections.namedtuple("Part", "crate proof code reached")


class TooLong(Exception):
    pass


def too_long(*_):
    raise TooLong


def pieces(node):
    """What stands between the ++ and the ∷ of a table, each a list of rows."""
    if node.is_op("++"):
        return pieces(node.parts[0]) + pieces(node.parts[1])
    if node.is_op("∷"):
        row, rest = node.parts
        return [Node("op", 0, 0, "∷", [row, Node("name", 0, 0, "[]")])] + pieces(rest)
    return [] if node.word == "[]" else [node]


class Rows:
    """The rows in parts, and the Python functions by which they are computed."""

    def __init__(self, paper):
        self.paper, self.coder = paper, Coder(paper)
        self.kept = []  # the functions that remember what they gave
        self.space = dict(FUNCTIONS, remembered=self.remembered, **self.coder.record_types())
        for module in paper.modules.values():
            for definition in module.definitions.values():
                exec(self.coder.definition(module, definition), self.space)
        self.parts = [part for proof, table in paper.tables.items() for part in self.parts_of(proof, table)]
        sys.setrecursionlimit(1000000)
        signal.signal(signal.SIGVTALRM, too_long)

    def remembered(self, function):
        """What a constant is, and what a station becomes by a tick, is computed once for each wrong rule."""
        keeper = functools.lru_cache(None)(function)
        self.kept.append(keeper)
        return keeper

    # ---- parts

    def parts_of(self, proof, table):
        module = self.paper.modules[table.module]
        definition = module.definitions[table.word]
        machines = [MACHINE] * len(definition.before)
        self.coder.enter(module, definition.before, [f"({function_name(home)}())" for home in machines])
        for node in pieces(definition.clauses[0].body):
            code = compile(self.coder.code(node), proof, "eval")
            yield Part(self.paper.crates[table.module], proof, code, self.reach(self.homes(module, node) + machines))

    def homes(self, module, node):
        """Where the words of an expression are defined."""
        words = ["if" if part.kind == "test" else part.word for part in node.walk()]
        homes = [self.paper.home(module, word) for word in words if word]
        return [home for home in homes if home]

    def reach(self, homes):
        """Every definition that these words can lead to."""
        seen, todo = set(), list(homes)
        while todo:
            home = todo.pop()
            definition = self.paper.definition(home)
            if home not in seen and definition is not None:
                seen.add(home)
                for clause in definition.clauses:
                    todo += self.homes(self.paper.modules[home.module], clause.body)
        return seen

    # ---- computing

    def refusing(self, wrong=None):
        """The rows that come out wrong, and how many parts could not be computed in time."""
        if wrong is None:
            return self.computed(self.parts)
        home, crate = Home(wrong.file, wrong.name), crate_of_rows(wrong.crate)
        name, module = function_name(home), Module(wrong.file, wrong.text)
        right, kept = self.space[name], list(self.kept)
        try:
            exec(self.coder.definition(module, module.definitions[wrong.name]), self.space)
            return self.computed([part for part in self.parts if part.crate == crate and home in part.reached])
        finally:
            self.space[name], self.kept = right, kept

    def computed(self, parts):
        """The same of some parts. Where rows refuse and much time has gone, the other parts are let be."""
        for keeper in self.kept:
            keeper.cache_clear()
        wrong, untold, began = set(), 0, time.process_time()
        for part in parts:
            try:
                if wrong and time.process_time() - began > MUCH:
                    raise TooLong
                wrong |= {(part.proof, row.f_name) for row in self.rows_of(part) if row.f_got != row.f_due}
            except Exception:  # too long, too deep, or a clause that is missing: the other parts tell, or the prover
                untold += 1
        return sorted(wrong), untold

    def rows_of(self, part):
        signal.setitimer(signal.ITIMER_VIRTUAL, SECONDS)
        try:
            return eval(part.code, self.space)
        finally:
            signal.setitimer(signal.ITIMER_VIRTUAL, 0)

    def names(self):
        """The names of the rows, by proof file, in their order."""
        names = {}
        for part in self.parts:
            for row in eval(part.code, self.space):
                names.setdefault(part.proof, {})[row.f_name] = True
        return names
