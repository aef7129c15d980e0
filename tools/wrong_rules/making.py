"""A change as a wrong rule: the whole text of the changed file, and the few words by which the change is told."""
import collections
import re

from wrong_rules.changes import Changes
from wrong_rules.expressions import tokens_of
from wrong_rules.paper import file_of, operator

TOLD = 10  # characters at least, by which a change is told

# The words of the library that a change may say, all of one file.
LIBRARY = "Rattle.std.specs.Prelude"
LIBRARY_WORDS = "eqb leb ltb take drop true false not && || min max + - * / %".split()


# Definitions that no row reaches: they stand in the rules of the grammar alone, which are types. The theorem that the
# reader takes exactly the texts of the rules holds them.
HELD_BY_THE_READER = {
    "Grammar": ["digit1_9", "unescaped"],
    "Utf8": ["character", "following", "utf8"],
}


class Wrong(collections.namedtuple("Wrong", "crate file line name kind old new text")):
    """A wrong rule: its crate, file, line and definition, the change, and the file's whole text by it."""

    @property
    def key(self):
        """The words by which the log and wrong-rules.equal know it."""
        return f"{self.file}.{self.name}: {self.old} → {self.new}"


def wrong_rules(paper, only):
    """Every wrong rule that is wanted, each resulting text once."""
    seen, made = set(), []
    for name in paper.order:
        module = paper.modules[name]
        names = [name, f"{paper.crates[name]}/{file_of(name)}"]
        seen.add(module.text)
        for definition in module.definitions.values():
            if definition.name in HELD_BY_THE_READER.get(name, []):
                continue
            if not only or any(each in only or f"{each}:{definition.name}" in only for each in names):
                for wrong in wrong_rules_of(paper, module, definition):
                    meant = re.sub(r"\((\w+)\)", r"\1", wrong.text)  # brackets around one word say nothing
                    if meant not in seen:
                        seen.add(meant)
                        made.append(wrong)
    return made


def wrong_rules_of(paper, module, definition):
    changes, source = Changes(paper, module, definition), module.text
    for kind, edits in changes.all():
        if not edits:
            continue
        first, last = min(edit.start for edit in edits), max(edit.end for edit in edits)
        start, end = around(source, definition, first, last)
        old, new = source[start:end], edited(source, edits, start, end)
        if old != new:
            uses = missing_uses(paper, module, edits, changes.elsewhere)
            text = with_uses(source[:start] + new + source[end:], uses)
            line = source.count("\n", 0, first) + 1
            crate = paper.crates[module.name]
            yield Wrong(crate, module.name, line, definition.name, kind, on_one_line(old), on_one_line(new), text)


def around(source, definition, first, last):
    """The smallest part of the definition around a change, of some length, whose text stands in it once."""
    clauses = definition.clauses
    spans = [(clause.start, clause.end) for clause in clauses]
    spans += [(one.start, other.end) for one, other in zip(clauses, clauses[1:])]
    for clause in clauses:
        for node in clause.body.walk():
            spans.append((node.start, node.end))
            if node.kind == "test":  # its line alone, and its line with the next
                _, test, rest = node.parts
                spans.append((node.start, test.end))
                if rest.kind == "test":
                    spans.append((node.start, rest.parts[1].end))
    whole = (clauses[0].start, clauses[-1].end)
    whole_text = source[whole[0]:whole[1]]

    def tells(start, end):
        holds = start <= first and last <= end
        return holds and end - start >= TOLD and whole_text.count(source[start:end]) == 1

    return min((span for span in spans if tells(*span)), key=lambda span: span[1] - span[0], default=whole)


def edited(source, edits, start, end):
    text, at = "", start
    for edit in sorted(edits):
        text += source[at:edit.start] + edit.text
        at = edit.end
    return text + source[at:end]


def missing_uses(paper, module, edits, elsewhere):
    """A `use` for each word that the change says and the file has not."""
    lines = set()
    for word in {token.text for edit in edits for token in tokens_of(edit.text)}:
        spelling = word if re.match(r"\w", word) else operator(word)
        path = LIBRARY if word in LIBRARY_WORDS else elsewhere.get(word)
        if path and spelling not in module.used and not paper.home(module, word):
            lines.add(f"use {path}.{{{spelling}}}\n")
    return "".join(sorted(lines))


def with_uses(text, uses):
    first = re.search(r"^use |\Z", text, re.M).start()
    return text[:first] + uses + text[first:]


def on_one_line(text):
    return " ".join(re.sub(r"--[^\n]*", "", text).split())
