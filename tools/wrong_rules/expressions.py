"""Reads .antt: the words of a text, and the expressions and patterns that they make.

Only what the definitions use is read. What an expression means is not asked here: a word that is a constructor, a
parameter or a definition is a name all the same.
"""
import collections
import re

Token = collections.namedtuple("Token", "text start end column")

# Each operator: how tightly it binds, and whether it groups to the right.
BINDING = {
    "▷": (15, True),
    "if": (20, True),
    "||": (30, False),
    "&&": (35, False),
    "++": (65, False),
    "+": (65, False),
    "-": (65, False),
    "∷": (67, True),
    "*": (70, False),
    "/": (70, False),
    "%": (70, False),
    "^": (75, True),
}
# What ends the arguments of an application, beside an operator.
STOPS = {")", "}", ";", ".", "then", "in", "="}


class Node:
    """A part of an expression, and where it stands in the text, without and with the brackets around it.

    By its kind, word and parts are:
      number, name  the word itself, no parts
      text          the word itself, with its quotation marks, no parts
      app           a function and its arguments
      field         the field's name, and of what it is read
      op            the operator, and its two operands
      test          of `a if b then c`: a, b and c
      function      a λ: its body, with its parameters apart
      let           the name, its value and the body
      record        the values, with the fields' names apart
    It is free where it needs no brackets: as a body, or inside brackets. The mark is the token of an operator or field.
    """

    def __init__(self, kind, start, end, word=None, parts=(), mark=None, parameters=(), names=()):
        self.kind, self.word, self.parts = kind, word, list(parts)
        self.start, self.end = start, end
        self.outer_start, self.outer_end = start, end
        self.free = False
        self.mark, self.parameters, self.names = mark, parameters, names

    def is_op(self, word):
        return self.kind == "op" and self.word == word

    def walk(self):
        yield self
        for part in self.parts:
            yield from part.walk()


# ---- words


# A text in quotation marks, a comment, a bracket or a word.
WORD = re.compile(r'"(?:\\.|[^"\\])*"|--.*|[(){};]|[^\s(){};"]+')


def tokens_of(text):
    """Words, texts and brackets outside comments and `use` lines."""
    found, line_start = [], 0
    for line in text.split("\n"):
        if not line.startswith("use "):
            for word in WORD.finditer(line):
                if not word.group().startswith("--"):
                    found += word_tokens(word.group(), line_start, word.start())
        line_start += len(line) + 1
    return found


def word_tokens(word, line_start, column):
    """The dot that ends the parameters of a λ is a word of its own, and so is each field, with the dot before it."""
    parts = [word] if word.startswith('"') or len(word) == 1 else re.findall(r"\.?[^.]+|\.", word)
    found = []
    for part in parts:
        found.append(Token(part, line_start + column, line_start + column + len(part), column))
        column += len(part)
    return found


def blocks(tokens):
    """The tokens parted before each that stands in the first one's column."""
    parts = []
    for token in tokens:
        if not parts or token.column <= tokens[0].column:
            parts.append([])
        parts[-1].append(token)
    return parts


def split(tokens, mark):
    """The tokens parted at a word outside brackets."""
    parts, depth = [[]], 0
    for token in tokens:
        if token.text in ("(", "{"):
            depth += 1
        elif token.text in (")", "}"):
            depth -= 1
        if token.text == mark and depth == 0:
            parts.append([])
        else:
            parts[-1].append(token)
    return parts


# ---- expressions


def kind_of(word):
    """Of a word that stands alone. A number is in decimal digits, or in hexadecimal ones behind 0x."""
    if word.startswith('"'):
        return "text"
    return "number" if word.isdigit() or word.startswith("0x") else "name"


class Expressions:
    """Reads expressions and patterns from tokens."""

    def __init__(self, tokens):
        self.tokens, self.at = tokens, 0

    def ended(self):
        return self.at == len(self.tokens)

    def peek(self):
        return ")" if self.ended() else self.tokens[self.at].text

    def take(self, text=None):
        token = self.tokens[self.at]
        if text is not None and token.text != text:
            raise SyntaxError(f"expected {text}, found {token.text}")
        self.at += 1
        return token

    def whole(self):
        """An expression that needs no brackets where it stands."""
        node = self.expression()
        node.free = True
        return node

    def expression(self, least=0):
        """Operators that bind at least so tightly, and what stands between them."""
        left = self.application()
        while self.peek() in BINDING and BINDING[self.peek()][0] >= least:
            binding, to_right = BINDING[self.peek()]
            mark = self.take()
            if mark.text == "if":
                test = self.whole()
                self.take("then")
                rest = self.expression(binding)
                left = Node("test", left.outer_start, rest.outer_end, parts=[left, test, rest])
            else:
                right = self.expression(binding if to_right else binding + 1)
                left = Node("op", left.outer_start, right.outer_end, mark.text, [left, right], mark=mark)
        return left

    def application(self):
        node = first = self.atom()
        items = [first]
        while self.peek() not in STOPS and self.peek() not in BINDING:
            items.append(self.atom())
            node = Node("app", first.outer_start, items[-1].outer_end, parts=items)
        return node

    def atom(self):
        """A word or what stands in brackets, with the fields that are read of it."""
        node = self.plain_atom()
        while len(self.peek()) > 1 and self.peek().startswith("."):
            field = self.take()
            node = Node("field", node.outer_start, field.end, field.text[1:], [node], mark=field)
        return node

    def plain_atom(self):
        token = self.take()
        if token.text == "(":
            node = self.whole()
            node.outer_start, node.outer_end = token.start, self.take(")").end
            return node
        if token.text == "λ":
            return self.function(token)
        if token.text == "let":
            return self.let(token)
        if token.text == "record" and self.peek() == "{":
            return self.record(token)
        return Node(kind_of(token.text), token.start, token.end, token.text)

    def function(self, token):
        parameters = []
        while self.peek() != ".":
            parameters.append(self.take().text)
        self.take(".")
        body = self.whole()
        return Node("function", token.start, body.end, parts=[body], parameters=parameters)

    def let(self, token):
        name = self.take().text
        while self.peek() != "=":  # its type is not needed
            self.take()
        self.take("=")
        value = self.whole()
        self.take("in")
        body = self.whole()
        return Node("let", token.start, body.end, name, [value, body])

    def record(self, token):
        self.take("{")
        names, values = [], []
        while self.peek() != "}":
            names.append(self.take().text)
            self.take("=")
            values.append(self.whole())
            if self.peek() == ";":
                self.take()
        return Node("record", token.start, self.take("}").end, parts=values, names=names)
