"""Writes a definition as a Python function, so that the rows can be computed in a second.

A number is an int, a list a tuple, a record a named tuple, a constructor its name, or a tuple of name and parts.
All is computed at once, but for the operands of an operator such as ▷ that it does not always ask for.
"""
import collections

from wrong_rules.paper import CRATES, Home

# The library's words: how many arguments they take, and the Python for them.
WORDS = {
    "true": (0, "True"),
    "false": (0, "False"),
    "not": (1, "(not {})"),
    "cond": (3, "({1} if {0} else {2})"),
    "eqb": (2, "({} == {})"),
    "leb": (2, "({} <= {})"),
    "ltb": (2, "({} < {})"),
    "zero": (0, "0"),
    "suc": (1, "({} + 1)"),
    "min": (2, "min({}, {})"),
    "max": (2, "max({}, {})"),
    "[]": (0, "()"),
    "length": (1, "len({})"),
    "map": (2, "each({}, {})"),
    "get_or": (3, "element({}, {}, {})"),
    "set": (3, "replaced({}, {}, {})"),
    "take": (2, "first({}, {})"),
    "drop": (2, "past({}, {})"),
    "replicate": (2, "times({}, {})"),
    "len": (1, "len({})"),
    "char_at": (2, "letter({}, {})"),
    "code": (1, "ord({})"),
}
# The library's constructors, and how many parts they have.
CONSTRUCTORS = {"none": 0, "some": 1}
OPERATORS = {
    "&&": "({} and {})",
    "||": "({} or {})",
    "+": "({} + {})",
    "-": "max({} - {}, 0)",
    "*": "({} * {})",
    "/": "quotient({}, {})",
    "%": "remainder({}, {})",
    "^": "({} ** {})",
    "++": "({} + {})",
}
# The Python for a pattern that is one of these words.
PATTERNS = {"zero": "{} == 0", "[]": "not {}", "true": "{}", "false": "not {}"}


def later(compute):
    """An operand that is computed when it is first asked for.

    It is no class, because a call of one takes room on the machine's own stack, which is small.
    """
    found = []

    def value():
        if not found:
            found.append(compute())
        return found[0]
    return value


# What the Python for a definition calls.
FUNCTIONS = {
    "later": later,
    "each": lambda function, items: tuple(map(function, items)),
    "element": lambda items, at, default: items[at] if at < len(items) else default,
    "replaced": lambda items, at, item: items[:at] + (item,) + items[at + 1:] if at < len(items) else items,
    "first": lambda number, items: items[:number],
    "past": lambda number, items: items[number:],
    "times": lambda number, item: (item,) * number,
    "quotient": lambda number, divisor: number // divisor if divisor else 0,
    "remainder": lambda number, divisor: number % divisor if divisor else number,
    "letter": lambda text, at: text[at] if at < len(text) else "\0",
}
# Sizes in a text that are asked for again and again.
SIZES = ["blanks", "digits", "number_size", "string_size", "name_size", "value_size", "text_size"]
REMEMBERED = {Home("Reader", word) for word in SIZES}


def python_name(word):
    return "".join(letter if letter.isascii() and letter.isalnum() else f"_{ord(letter):x}_" for letter in word)


def function_name(home):
    return f"D_{python_name(home.module)}__{python_name(home.word)}"


def field_name(field):
    return "f_" + python_name(field)


def record_name(fields):
    return "R_" + "_".join(map(python_name, fields))


def local_name(word):
    return "v_" + python_name(word)


def partly(arity, arguments, write):
    """A call, or where arguments are missing a function of those; arguments beyond the arity go to what it gives."""
    missing = [f"m{at}" for at in range(arity - len(arguments))]
    if missing:
        return f"(lambda {', '.join(missing)}: {write(arguments + missing)})"
    beyond = arguments[arity:]
    return write(arguments[:arity]) + (f"({', '.join(beyond)})" if beyond else "")


class Coder:
    """Writes definitions and expressions. It keeps the module that it is in, and the Python for each local word."""

    def __init__(self, paper):
        self.paper = paper
        self.module, self.before, self.locals = None, [], {}
        records = [list(fields) for fields in paper.structs[CRATES[-1]]]
        for module in paper.modules.values():
            records += module.records.values()
        self.records = {frozenset(fields): fields for fields in records}
        self.by_kind = {
            "number": lambda node: node.word,
            "text": lambda node: node.word,
            "name": lambda node: self.call(node, []),
            "app": lambda node: self.call(node.parts[0], list(map(self.code, node.parts[1:]))),
            "field": lambda node: f"{self.code(node.parts[0])}.{field_name(node.word)}",
            "op": self.operator,
            "test": lambda node: self.applied(self.paper.home(self.module, "if"), list(map(self.code, node.parts))),
            "function": lambda node: self.function(node.parameters, node.parts[0]),
            "let": lambda node: f"{self.function([node.word], node.parts[1])}({self.code(node.parts[0])})",
            "record": self.record,
        }

    def record_types(self):
        """A named tuple for each record, by its name in Python."""
        types = {}
        for fields in self.records.values():
            types[record_name(fields)] = collections.namedtuple("Record", map(field_name, fields))
        return types

    # ---- definitions

    def definition(self, module, definition):
        home = Home(module.name, definition.name)
        lazy = self.lazy_places(home)
        names = [f"a{at}" for at in range(definition.arity)]
        lines = [f"def {function_name(home)}({', '.join(names)}):"]
        for clause in definition.clauses:
            self.enter(module, definition.before, names)
            lines.append("    " + self.clause(clause, names[len(definition.before):], lazy))
        lines.append("    raise LookupError('no clause')")
        if len(definition.types) == 1 or definition.types == ["Station", "Station"] or home in REMEMBERED:
            lines.insert(0, "@remembered")
        return "\n".join(lines) + "\n"

    def enter(self, module, before, codes):
        """The words of a module are read from now on, whose parameters are these in Python."""
        self.module, self.before, self.locals = module, before, dict(zip(before, codes))

    def clause(self, clause, names, lazy):
        tests = []
        for at, (pattern, name) in enumerate(zip(clause.patterns, names)):
            tests += self.match(pattern, name + "()" if at in lazy else name)
        body = "return " + self.code(clause.body)
        return f"if {' and '.join(tests)}: {body}" if tests else body

    def lazy_places(self, home):
        """Of an operator such as ▷, the operands that it does not always ask for."""
        if "◌" not in home.word:
            return ()
        clause = self.paper.definition(home).clauses[0]
        asked = self.asked(clause.body)
        return tuple(at for at, pattern in enumerate(clause.patterns) if pattern.word not in asked)

    def asked(self, node):
        """The words that are asked for whichever way a cond goes."""
        if node.kind == "app" and node.parts[0].word == "cond":
            _, test, one, other = node.parts
            return self.asked(test) | (self.asked(one) & self.asked(other))
        return set().union(*map(self.asked, node.parts)) if node.parts else {node.word}

    # ---- patterns

    def match(self, pattern, code):
        """The tests by which the value of a code is of a pattern. What the pattern's words are is kept."""
        if pattern.kind == "number":
            return [f"{code} == {pattern.word}"]
        if pattern.kind == "op":  # ∷
            first, rest = pattern.parts
            return [code] + self.match(first, code + "[0]") + self.match(rest, code + "[1:]")
        if pattern.kind == "app":
            return self.match_constructor(pattern.parts[0].word, pattern.parts[1:], code)
        if pattern.word in PATTERNS:
            return [PATTERNS[pattern.word].format(code)]
        if pattern.word in CONSTRUCTORS or self.paper.constructors(self.paper.home(self.module, pattern.word)):
            return [f"{code} == {pattern.word!r}"]
        self.locals[pattern.word] = code
        return []

    def match_constructor(self, word, parts, code):
        if word == "suc":
            return [f"{code} > 0"] + self.match(parts[0], f"({code} - 1)")
        tests = [f"{code}[0] == {word!r}"]
        for at, part in enumerate(parts):
            tests += self.match(part, f"{code}[{at + 1}]")
        return tests

    # ---- expressions

    def code(self, node):
        return self.by_kind[node.kind](node)

    def call(self, head, arguments):
        if head.kind != "name" or head.word in self.locals:
            function = self.locals[head.word] if head.kind == "name" else self.code(head)
            return f"{function}({', '.join(arguments)})" if arguments else function
        home = self.paper.home(self.module, head.word)
        if home is None:
            return self.library(head.word, arguments)
        definition = self.paper.definition(home)
        if definition is None:
            return self.constructor(home.word, self.paper.constructors(home)[home.word], arguments)
        if home.module == self.module.name and definition.before == self.before:
            arguments = [self.locals[word] for word in self.before] + arguments
        return self.applied(home, arguments)

    def applied(self, home, arguments):
        lazy = self.lazy_places(home)

        def write(given):
            codes = [f"later(lambda: {code})" if at in lazy else code for at, code in enumerate(given)]
            return f"{function_name(home)}({', '.join(codes)})"
        return partly(self.paper.definition(home).arity, arguments, write)

    def constructor(self, word, arity, arguments):
        if arity == 0:
            return repr(word)
        return partly(arity, arguments, lambda given: f"({word!r}, {', '.join(given)})")

    def library(self, word, arguments):
        if word in CONSTRUCTORS:
            return self.constructor(word, CONSTRUCTORS[word], arguments)
        if word not in WORDS:
            if arguments:
                raise SyntaxError(f"the evaluator does not know {word}")
            return "None"  # a type
        arity, code = WORDS[word]
        return partly(arity, arguments, lambda given: code.format(*given))

    def operator(self, node):
        if node.word == "∷":
            return self.listed(node)
        operands = list(map(self.code, node.parts))
        if node.word in OPERATORS:
            return OPERATORS[node.word].format(*operands)
        return self.applied(self.paper.home(self.module, node.word), operands)

    def listed(self, node):
        items = []
        while node.is_op("∷"):
            items.append(self.code(node.parts[0]) + ",")
            node = node.parts[1]
        items_code = f"({' '.join(items)})"
        return items_code if node.word == "[]" else f"({items_code} + {self.code(node)})"

    def function(self, parameters, body):
        outer, names = dict(self.locals), list(map(local_name, parameters))
        self.locals.update(zip(parameters, names))
        code = self.code(body)
        self.locals = outer
        return f"(lambda {', '.join(names)}: {code})"

    def record(self, node):
        fields = self.records[frozenset(node.names)]
        values = dict(zip(node.names, map(self.code, node.parts)))
        return f"{record_name(fields)}({', '.join(values[field] for field in fields)})"
