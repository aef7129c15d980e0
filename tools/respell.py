#!/usr/bin/env python3
"""Brings the names of this repository's own definitions and lemmas to today's spelling, once, right after port.py:
python3 tools/respell.py, at the top. Words are in snake case: heldIn becomes held_in, and held-first held_first. Types, modules, the
names of functions of src/, of the library, and those that Rattle makes stay. Where two names would fall together and one is a
definition, the other, a lemma, takes _lem, as CONTRACT_STYLE has it. The crate json becomes json_reader: the kit has a json.
It turns no must-fail edit and no page. With --list it prints each name that it turned."""
import collections
import os
import re
import sys

ROOT = sys.argv[1] if len(sys.argv) > 1 and not sys.argv[1].startswith("-") else "."
STOPS = r"\s(){}\[\].,;\"@"
TOKEN = re.compile(rf"[^{STOPS}]+")
HEAD_WORDS = {"abbrev", "unfoldable", "pub", "data", "record", "ruleset", "private", "instance"}
NAME = re.compile(r"^[A-Za-z][A-Za-z0-9_'\u2032-]*$")
CRATE = ("json", "json_reader")
# the library has these names where ours stand
OURS = {"bool-byte": "bool_byte_lem", "lastDigits": "final_digits"}


def files(suffix, base="crates"):
    for folder, inside, names in os.walk(os.path.join(ROOT, base)):
        inside[:] = sorted(i for i in inside if i != "out")
        for name in sorted(names):
            if name.endswith(suffix):
                yield os.path.join(folder, name)


def text_of(path):
    with open(path, encoding="utf-8") as file:
        return file.read()


def write(path, text):
    with open(path, "w", encoding="utf-8") as file:
        file.write(text)


def own_crates():
    return sorted(c for c in os.listdir(os.path.join(ROOT, "crates")) if os.path.isdir(os.path.join(ROOT, "crates", c)))


def code_of(line):
    at = re.search(r"(^|\s)--(\s|$)", line)
    return line if not at else line[: at.start()]


def declared(path):
    """The names that a file of definitions or lemmas declares, with the first word of each type."""
    for line in text_of(path).splitlines():
        code = code_of(line)
        if " : " not in code or code.lstrip().startswith(("let ", "use ", "pub use ")):
            continue
        before, after = code.split(" : ", 1)
        for word in before.split():
            if word in HEAD_WORDS:
                continue
            if word[0] in "({[" or word in ("λ", "in", "="):
                break
            if NAME.match(word):
                yield word, after.strip(), path


def imported(path, own):
    """The names that a file takes from the library, or from what Rattle makes."""
    taken = set()
    for module, names in re.findall(r"use\s+([^\s{;]+?)\.\{([^}]*)\}", text_of(path)):
        parts = module.split(".")
        is_own = parts[0] == "Rattle" and len(parts) > 1 and parts[1] in own
        made = {"declared", "contracts", "Statement", "Tie", "Lts", "Symbol", "Met", "Goals", "Given"} & set(parts)
        if not is_own or made:
            for name in names.split(","):
                taken |= set(name.replace(" as ", " ").split())
    return taken


def snake(name):
    name = name.replace("getD", "get_or")
    name = re.sub(r"(?<=[a-z0-9])(?=[A-Z])", "_", name)
    parts = []
    for part in name.split("_"):
        # a fact or a type within a name keeps its capital only at its head
        parts.append(part[:1].lower() + part[1:] if parts or part[:1].islower() else part)
    return "_".join(parts).replace("-", "_").lower() if name[:1].islower() else name.replace("-", "_")


def main():
    own = own_crates()
    kinds, made = collections.defaultdict(set), set()
    for path in files(".antt"):
        is_spec = "/specs/" in path
        for name, kind, _ in declared(path):
            if kind.startswith("tie.") and not kind.startswith(("tie.After", "tie.Start", "tie.At")):
                made.add(name)
            else:
                kinds[name].add("definition" if is_spec else "lemma")
    library = {path: imported(path, own) for path in [*files(".antt"), *files(".rt")]}
    turned = {}
    for name in kinds:
        if name in made or name[:1].isupper():
            continue
        new = OURS.get(name) or snake(name)
        if new != name:
            turned[name] = new
    # parameters too, where they are not of the library
    taken = set().union(*library.values())
    for path in files(".antt"):
        for line in text_of(path).splitlines():
            for word in TOKEN.findall(re.sub(r'"(?:[^"\\]|\\.)*"', "", code_of(line))):
                if re.fullmatch(r"[a-z][a-z0-9]*([A-Z][a-z0-9]*)+", word) and word not in taken | made | set(turned):
                    turned[word] = snake(word)
    # names that fall together
    by_new = collections.defaultdict(set)
    for name in kinds:
        if name not in made:
            by_new[turned.get(name, name)].add(name)
    for new, olds in sorted(by_new.items()):
        if len(olds) < 2:
            continue
        keep = [o for o in sorted(olds) if "definition" in kinds[o]] or sorted(olds, key=lambda o: ("-" in o, o))
        for old in sorted(olds):
            if old != keep[0]:
                turned[old] = new + "_lem"
                if "definition" in kinds[old]:
                    print("look: two definitions:", keep[0], old)
    all_new = collections.Counter(turned.values())
    for new, count in all_new.items():
        if count > 1 or (new in kinds and new not in turned):
            print("look: falls together:", new, [o for o in turned if turned[o] == new], new in kinds)
    if "--list" in sys.argv:
        for name in sorted(turned):
            print(name, turned[name], *sorted(kinds[name]))

    def antt(path):
        out = []
        whole = text_of(path)
        taken = library[path]
        present = set()
        is_proof = path.endswith("/Proof.antt")

        def one(match):
            word, is_part = match.group(), match.string[: match.start()].endswith(".")
            if word not in turned or word in taken or is_proof and is_part and "-" in word:
                return word
            return turned[word]

        for line in whole.split("\n"):
            code = code_of(line)
            rest = line[len(code):]
            present |= set(TOKEN.findall(code))
            parts = re.split(r'("(?:[^"\\]|\\.)*")', code)
            code = "".join(part if i % 2 else TOKEN.sub(one, part) for i, part in enumerate(parts))
            rest = ticked(rest)
            out.append(code + rest)
        for word in sorted(present):
            if word in turned and word not in taken and turned[word] in (present | taken):
                print("look:", os.path.relpath(path, ROOT), word, "->", turned[word], "is there already")
        return "\n".join(out)

    def ticked(text):
        """A remark: what stands in backticks, and words that no sentence has."""
        text = re.sub(r"(?<![\w./-])[a-z][a-z0-9]*(?:[A-Z][a-z0-9]*)+(?![\w/-])", lambda t: turned.get(t.group(), t.group()), text)
        return re.sub(r"`([^`\n]+)`", lambda m: "`" + TOKEN.sub(lambda t: turned.get(t.group(), t.group()), m.group(1)) + "`", text)

    def rt(path):
        taken = library[path]
        out = []
        for line in text_of(path).split("\n"):
            at = line.find("//")
            code, rest = (line, "") if at < 0 else (line[:at], line[at:])
            if '"' not in code:
                code = TOKEN.sub(lambda m: turned[m.group()] if m.group() in turned and m.group() not in taken else m.group(), code)
            out.append(code + ticked(rest))
        return "\n".join(out)

    turns = [(path, antt(path)) for path in files(".antt")] + [(path, rt(path)) for path in files(".rt")]
    for path, text in turns:
        if text != text_of(path):
            write(path, text)
    # the crate whose name the kit has
    old, new = CRATE
    for path in [*files(".antt"), *files(".rt")]:
        text = text_of(path)
        to = re.sub(rf"\bRattle\.{old}\.", f"Rattle.{new}.", text)
        to = re.sub(rf"(?<![\w.:]){old}::", f"{new}::", to) if path.endswith(".rt") else to
        if to != text:
            write(path, to)
    listed = os.path.join(ROOT, "crates.txt")
    write(listed, re.sub(rf"\b{old}\b", new, text_of(listed)))
    if os.path.isdir(os.path.join(ROOT, "crates", old)):
        os.rename(os.path.join(ROOT, "crates", old), os.path.join(ROOT, "crates", new))


main()
