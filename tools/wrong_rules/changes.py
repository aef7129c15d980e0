"""The kinds of change: which wrong rules are made of a definition, by the kind of expression.

A change is a pair: its kind in words, and its edits. An edit puts a text in the place of a span. A change without edits
is none.
"""
import collections
import itertools
import json
import re

Edit = collections.namedtuple("Edit", "start end text")

# What each operator of numbers is exchanged for.
OPERATORS = {"+": "-*", "-": "+", "*": "+/", "/": "%*", "%": "/", "^": "*"}
# Words that ask whether a test holds of any: how many arguments the test has.
PREDICATES = {"any": 1, "any_island": 2, "any_with": 2}
COMPARISONS = ("eqb", "leb", "ltb")
# What is said of the operands of the operators that write lists and groups of tests.
SEQUENCES = {"∷": "elements of a list", "++": "parts of a list", "▷": "groups of tests"}
# Words of the library that give what an argument of theirs is: the types of the arguments, and of what they give.
LIBRARY_TYPES = {
    "take": ["ℕ", "List", "List"],
    "drop": ["ℕ", "List", "List"],
    "set": ["List", "ℕ", "Element", "List"],
    "map": ["Function", "List", "List"],
    "get_or": ["List", "ℕ", "Element", "Element"],
    "suc": ["ℕ", "ℕ"],
    "min": ["ℕ", "ℕ", "ℕ"],
    "max": ["ℕ", "ℕ", "ℕ"],
}


def bracketed(text):
    """A text as one argument: what stands in brackets and has fields read of it, as (f x).y, needs no more of them."""
    bare, inner = None, text
    while bare != inner:
        bare, inner = inner, re.sub(r"\([^()]*\)", "", inner)
    return f"({text})" if re.search(r"\s", bare) else text


def put(node, text):
    """A text in the place of a part."""
    return Edit(node.start, node.end, text if node.free else bracketed(text))


class Changes:
    """The changes of one definition."""

    def __init__(self, paper, module, definition):
        self.paper, self.module, self.definition = paper, module, definition
        self.structs = paper.structs[paper.crates[module.name]]
        self.elsewhere = {}  # words of other files that a change may say, and the file
        self.by_kind = {
            "number": self.of_number,
            "text": self.of_text,
            "field": self.of_field,
            "record": self.of_record,
            "test": self.of_test,
            "op": self.of_operator,
            "app": self.of_application,
        }

    def all(self):
        clauses = self.definition.clauses
        for one, other in zip(clauses, clauses[1:]):
            yield "a clause's result exchanged with its neighbour's", self.exchanged(one.body, other.body)
        for clause in clauses:
            for node in clause.body.walk():
                if node.kind == "name":
                    yield from self.of_name(node, clause)
                elif node.kind in self.by_kind:
                    yield from self.by_kind[node.kind](node)

    # ---- parts of the text

    def text(self, node):
        return self.module.text[node.start:node.end]

    def argument(self, node):
        """The part's text as it stands in an application."""
        return bracketed(self.text(node))

    def instead(self, node, part):
        """A part of the node in the place of the whole of it."""
        return [put(node, self.text(part))]

    def exchanged(self, one, other):
        if self.text(one) == self.text(other):
            return []
        return [put(one, self.text(other)), put(other, self.text(one))]

    # ---- numbers, texts and names

    def of_number(self, node):
        number, write = int(node.word, 0), "0x{:02X}".format if node.word.startswith("0x") else str
        yield "a number one more", [put(node, write(number + 1))]
        if number > 0:
            yield "a number one less", [put(node, write(number - 1))]
        if number in (0, 1, 3, 4):
            yield "an island of the other side", [put(node, write(4 - number))]

    def of_text(self, node):
        text = json.loads(node.word)  # of ASCII: its escapes are JSON's too
        for shorter in dict.fromkeys([text[1:], text[:-1]]):
            yield "a letter of a text left out", [put(node, json.dumps(shorter))]
        other = text[:-1] + chr(ord(text[-1]) + 1)
        yield "a letter of a text another", [put(node, json.dumps(other))]
        if text != text[::-1]:
            yield "a text backwards", [put(node, json.dumps(text[::-1]))]

    def of_name(self, node, clause):
        if node.word in ("true", "false"):
            yield "true for false", [put(node, "false" if node.word == "true" else "true")]
        for word in self.like_constructors(node.word):
            yield "another constructor", [put(node, word)]
        for word in self.like_parameters(node.word, clause):
            yield "another argument read", [put(node, word)]
        for word in self.neighbours(node.word, clause):
            yield "a neighbouring word of the same type", [put(node, word)]

    def like_constructors(self, word):
        """The other constructors of its data type; of more than three, the one before it and the one after."""
        home = self.paper.home(self.module, word)
        constructors = self.paper.constructors(home)
        alike = [other for other, parts in constructors.items() if parts == constructors[word]]
        if len(alike) > 3:
            at = alike.index(word)
            alike = [alike[at - 1], alike[(at + 1) % len(alike)]]
        self.note(home, alike)
        return [other for other in alike if other != word]

    def like_parameters(self, word, clause):
        """The other parameters of its type, where the word is a parameter."""
        types = {}
        for pattern, kind in zip(clause.patterns, self.definition.types):
            if pattern.kind == "name":
                types[pattern.word] = kind
        if word not in types:
            return []
        return [other for other, kind in types.items() if other != word and kind == types[word]]

    def neighbours(self, word, clause):
        """The definition before it and the one after it of the same type in its file."""
        home = self.paper.home(self.module, word)
        if home is None or self.paper.definition(home) is None or "◌" in home.word:
            return []
        if any(part.word == word for pattern in clause.patterns for part in pattern.walk()):  # it is a parameter here
            return []
        types = self.paper.definition(home).types
        there = self.paper.modules[home.module].definitions.values()
        alike = [each.name for each in there if each.types == types and each.name != self.definition.name]
        if home.word not in alike:
            return []
        at = alike.index(home.word)
        near = alike[max(at - 1, 0):at] + alike[at + 1:at + 2]
        self.note(home, near)
        return near

    def note(self, home, words):
        """These words stand in the file of that one."""
        for word in words:
            self.elsewhere[word] = self.paper.path_of(home.module)

    # ---- fields and records

    def of_field(self, node):
        for fields in self.structs:
            for other, kind in fields.items():
                if node.word in fields and other != node.word and kind == fields[node.word]:
                    yield "another field", [Edit(node.mark.start, node.mark.end, "." + other)]

    def of_record(self, node):
        types = {}
        for fields in self.structs:
            if set(fields) == set(node.names):
                types = fields
                break
        for (name, value), (other, second) in itertools.combinations(zip(node.names, node.parts), 2):
            if types.get(name) == types.get(other):
                yield "two fields exchanged", self.exchanged(value, second)

    # ---- tests and operators

    def of_test(self, node):
        result, test, rest = node.parts
        yield "a line left out", self.instead(node, rest)
        yield "a line taken always", self.instead(node, result)
        yield from self.turned(test)
        if rest.kind == "test":
            end = rest.parts[1].end
            line, next_line = self.module.text[result.start:test.end], self.module.text[rest.start:end]
            edits = [Edit(result.start, test.end, next_line), Edit(rest.start, end, line)]
            yield "two tests in the other order", edits

    def turned(self, test):
        if not self.text(test).startswith("not "):
            yield "a test turned", [put(test, "not " + self.argument(test))]

    def of_operator(self, node):
        left, right = node.parts
        if node.word in SEQUENCES:
            yield from self.of_sequence(node)
        elif node.word in ("&&", "||"):
            other = "||" if node.word == "&&" else "&&"
            yield f"{other} for {node.word}", [Edit(node.mark.start, node.mark.end, other)]
            yield "a part of a test dropped", self.instead(node, left)
            yield "a part of a test dropped", self.instead(node, right)
            yield from self.turned(left)
            yield from self.turned(right)
        else:
            for other in OPERATORS[node.word]:
                text = f"{self.argument(left)} {other} {self.argument(right)}"
                yield f"{other} for {node.word}", [put(node, text)]
            yield "a number of a sum dropped", self.instead(node, left)
            yield "a number of a sum dropped", self.instead(node, right)

    def of_sequence(self, node):
        """Neighbours exchanged, one left out."""
        what = SEQUENCES[node.word]
        left, right = node.parts
        before = left.parts[1] if left.is_op(node.word) and not left.free else left
        after = right.parts[0] if right.is_op(node.word) and not right.free else right
        if self.text(after) != "[]":
            yield f"two {what} exchanged", self.exchanged(before, after)
        yield f"one of the {what} left out", self.instead(node, right)
        if self.text(right) != "[]" and node.word != "∷":
            yield f"one of the {what} left out", self.instead(node, left)

    # ---- applications

    def of_application(self, node):
        head, arguments = node.parts[0], node.parts[1:]
        if head.kind != "name":
            return
        word = head.word
        if word in COMPARISONS and len(arguments) == 2:
            yield from self.of_comparison(node)
        if word == "not":
            yield "a not dropped", self.instead(node, arguments[0])
        if word == "cond":
            yield "the branches of a cond exchanged", self.exchanged(arguments[1], arguments[2])
            yield "a branch of a cond taken always", self.instead(node, arguments[1])
            yield "a branch of a cond taken always", self.instead(node, arguments[2])
            yield from self.turned(arguments[0])
        for one, other in (("min", "max"), ("take", "drop")):
            if word in (one, other):
                yield f"{one} and {other} exchanged", [put(head, other if word == one else one)]
        if word in PREDICATES and len(arguments) >= 2:
            yield "all for any", [put(node, self.for_all(word, arguments))]
        yield from self.by_type(node, word, arguments)

    def of_comparison(self, node):
        head, left, right = node.parts
        one, other = self.argument(left), self.argument(right)
        if head.word == "eqb":
            yield "an equality turned", [put(node, f"not (eqb {one} {other})")]
            if other not in ("0", "done", "understood"):  # no number is below 0
                yield "an equality loosened", [put(node, f"leb {one} {other}")]
            yield "an equality loosened", [put(node, f"leb {other} {one}")]
        else:
            yield "a comparison loosened or tightened", [put(head, "ltb" if head.word == "leb" else "leb")]
            yield "a comparison turned", [put(node, f"{head.word} {other} {one}")]
            yield "a comparison for an equality", [put(node, f"eqb {one} {other}")]

    def for_all(self, word, arguments):
        """Of all, where it was of any: not any of which it does not hold."""
        test, rest = arguments[0], " ".join(map(self.argument, arguments[1:]))
        if test.kind == "function":
            opposite = f"λ {' '.join(test.parameters)}. not ({self.text(test.parts[0])})"
        else:
            names = " ".join(("one", "two")[:PREDICATES[word]])
            opposite = f"λ {names}. not ({self.argument(test)} {names})"
        return f"not ({word} ({opposite}) {rest})"

    def by_type(self, node, word, arguments):
        """Two arguments of one type exchanged; a step left out: an argument of the type of the whole in its place."""
        types = self.types_of(word)
        if len(types) != len(arguments) + 1:
            return
        for (one, kind), (other, second) in itertools.combinations(zip(arguments, types), 2):
            if kind == second and word not in ("min", "max"):  # of which the order says nothing
                yield "two arguments exchanged", self.exchanged(one, other)
        for argument, kind in zip(arguments, types):
            if kind == types[-1]:
                yield "a step left out", self.instead(node, argument)

    def types_of(self, word):
        home = self.paper.home(self.module, word)
        definition = self.paper.definition(home) if home else None
        return definition.types if definition else LIBRARY_TYPES.get(word, [])
