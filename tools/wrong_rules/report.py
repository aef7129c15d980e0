"""What is told: the list of wrong rules, and at the end of a run the figures, the rows and the survivors."""
import collections
import os

from wrong_rules.paper import TOP
from wrong_rules.run import REFUSED, SURVIVES, UNREADABLE, refusers

EQUAL = os.path.join(TOP, "tools", "wrong-rules.equal")


def equal_rules():
    """Survivors that are no mistake: a line for the wrong rule's key, and the reason indented below it."""
    reasons, latest = {}, None
    if not os.path.exists(EQUAL):
        return reasons
    with open(EQUAL, encoding="utf-8") as file:
        for line in file.read().split("\n"):
            if line.startswith(" ") and latest:
                reasons[latest] = (reasons[latest] + " " + line.strip()).strip()
            elif line and not line.startswith("#"):
                latest = line.strip()
                reasons[latest] = ""
    return reasons


def list_all(wrongs):
    """The list alone, without a run."""
    for wrong in wrongs:
        print(f"{wrong.file}:{wrong.line}\t{wrong.kind}\t{wrong.key}")
    for words in ([wrong.file for wrong in wrongs], [wrong.kind for wrong in wrongs]):
        for word, number in collections.Counter(words).most_common():
            print(f"{number:5} {word}")
    print(f"{len(wrongs):5} wrong rules")


def report(run, row_names, equal):
    """Tells what a run came to. Gives back the wrong rules that neither are refused nor have a reason."""
    tell_figures(run, equal)
    tell_rows(run, row_names)
    bare = tell_survivors(run, equal)
    if not run.options.only:
        tell_stale(run, equal)
    return bare


def tell_figures(run, equal):
    numbers = collections.Counter()
    for wrong in run.wrongs:
        verdict = run.verdicts[wrong.key]
        if verdict.startswith(SURVIVES) and wrong.key in equal:
            verdict = "says the same"
        elif verdict.startswith(REFUSED):
            verdict = "refused"
        numbers[verdict] += 1
    print(f"made {len(run.wrongs)} wrong rules")
    for verdict in sorted(numbers):
        print(f"  {verdict}: {numbers[verdict]}")


def tell_rows(run, row_names):
    """By table: how many rows refuse something, which refuse nothing, and which are never the only one to refuse."""
    verdicts = [run.verdicts[wrong.key] for wrong in run.wrongs]
    refusing = [refusers(verdict) for verdict in verdicts if verdict.startswith(REFUSED)]
    some = {row for rows in refusing for row in rows}
    alone = {rows[0] for rows in refusing if len(rows) == 1}
    print(f"refused by {len(some)} different rows")
    if run.options.only:
        return
    for proof, names in row_names.items():
        rows = [f"{run.labels[proof]}{name}" for name in names]
        useful = [row for row in rows if row in some]
        nothing = " ".join(row for row in rows if row not in some) or "none"
        nothing_alone = " ".join(row for row in useful if row not in alone) or "none"
        print(
            f"  {proof}: {len(useful)} of {len(rows)} rows refuse something; "
            f"nothing: {nothing}; nothing alone: {nothing_alone}"
        )


def tell_survivors(run, equal):
    """Tells them, and gives back those that have no reason to survive."""
    bare = []
    for wrong in run.wrongs:
        verdict = run.verdicts[wrong.key]
        if verdict.startswith(SURVIVES) and wrong.key in equal:
            print(f"says the same: {equal[wrong.key]}\n    {wrong.kind}: {wrong.key}")
        elif not verdict.startswith((REFUSED, UNREADABLE)):
            bare.append(wrong)
    for wrong in bare:
        print(f"{run.verdicts[wrong.key]}: {wrong.file}:{wrong.line} {wrong.kind}\n    {wrong.key}")
    return bare


def tell_stale(run, equal):
    survivors = {wrong.key for wrong in run.wrongs if run.verdicts[wrong.key].startswith(SURVIVES)}
    for key in equal:
        if key not in survivors:
            print(f"named in wrong-rules.equal, and no survivor: {key}")
