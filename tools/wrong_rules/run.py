"""The run: what becomes of each wrong rule, told to the log as it becomes known, so that a run can go on after a cut.

A line of the log is the verdict, the file and line, the kind of change, and the wrong rule's key, with tabs between.
"""
import collections
import os
import random
import re
import signal
import sys
import time

from wrong_rules.paper import CRATES, crate_of_rows
from wrong_rules.prover import Prover
from wrong_rules.rows import Rows

TOGETHER = 300  # changed files that the prover reads in one run

# The verdicts. The first is followed by the rows, and by the second where some parts of the tables took too long.
REFUSED = "refused by "
PERHAPS_MORE = " and perhaps rows that took too long"
UNREADABLE = "cannot be read"
SURVIVES = "SURVIVES"
SURVIVES_ROWS = "SURVIVES, the prover not asked"
UNTOLD = "the prover could not tell"


# ---- what the processes beside this one do

WORKER = {}  # what such a process has for itself


def start_worker(paper, provers):
    signal.signal(signal.SIGINT, signal.SIG_IGN)
    WORKER["rows"] = Rows(paper)
    WORKER["provers"] = provers


def compute(wrong):
    return WORKER["rows"].refusing(wrong)


def ask(wrong):
    """Asks the prover, in the repository that this process took."""
    if "prover" not in WORKER:
        WORKER["prover"] = WORKER["provers"].get()
    return WORKER["prover"].refusing(wrong)


# ---- verdicts


def refusers(verdict):
    """The rows that a verdict names."""
    return verdict.removeprefix(REFUSED).removesuffix(PERHAPS_MORE).split()


def read_log(path):
    """The verdicts of a log that need not be asked for again, by the wrong rule's key."""
    verdicts = {}
    with open(path, encoding="utf-8") as log:
        for line in log:
            fields = line.rstrip("\n").split("\t")
            if len(fields) == 4 and (fields[0] in (UNREADABLE, SURVIVES) or fields[0].startswith(REFUSED)):
                verdicts[fields[3]] = fields[0]
    return verdicts


class Run:
    """The verdicts by the wrong rules' keys, and the steps by which they become known."""

    def __init__(self, options, paper, wrongs):
        self.options, self.paper, self.wrongs = options, paper, wrongs
        self.verdicts, self.began = {}, time.time()
        self.labels = {proof: self.label(table.module) for proof, table in paper.tables.items()}
        tried_by = {crate_of_rows(wrong.crate) for wrong in wrongs}
        self.asked = [crate for crate in CRATES if crate in tried_by]  # whose rows are asked
        known = read_log(options.resume) if options.resume else {}
        os.makedirs(os.path.dirname(os.path.abspath(options.log)), exist_ok=True)
        if options.resume == options.log:
            self.log = open(options.log, "a", encoding="utf-8")
            self.verdicts = {wrong.key: known[wrong.key] for wrong in wrongs if wrong.key in known}
        else:
            self.log = open(options.log, "w", encoding="utf-8")
            for wrong in wrongs:
                if wrong.key in known:
                    self.tell(wrong, known[wrong.key])

    def label(self, module):
        """The letter that a table's comments name its rows by: C, R, H, G, B, J, M, P."""
        letters = re.findall(r"--.*?\b([A-Z])\d+\b", self.paper.modules[module].text)
        return collections.Counter(letters).most_common(1)[0][0] if letters else module.split(".")[-1] + " "

    def tell(self, wrong, verdict):
        self.verdicts[wrong.key] = verdict
        self.log.write(f"{verdict}\t{wrong.file}:{wrong.line}\t{wrong.kind}\t{wrong.key}\n")
        self.log.flush()

    def progress(self, what, done, total):
        """One line that is written over; where it is kept, as in a file, a line now and then."""
        if sys.stderr.isatty() or done == total or done % 100 == 0:
            end = "\r" if sys.stderr.isatty() and done < total else "\n"
            print(f"{what}: {done} of {total}, {time.time() - self.began:.0f} s", end=end, file=sys.stderr, flush=True)

    def left(self):
        return [wrong for wrong in self.wrongs if wrong.key not in self.verdicts]

    # ---- the steps

    def read_all(self):
        """The prover reads the changed files, many in one run."""
        left = self.left()
        reader, done = Prover(self.asked, with_rows=False) if left else None, 0
        for crate in CRATES:
            wrongs = [wrong for wrong in left if wrong.crate == crate]
            for at in range(0, len(wrongs), TOGETHER):
                some = wrongs[at:at + TOGETHER]
                for wrong in reader.unreadable(crate, some):
                    self.tell(wrong, UNREADABLE)
                done += len(some)
                self.progress("read", done, len(left))

    def compute_all(self, pool):
        """The rows are computed. What none refuses is given back, each with the number of parts that took too long."""
        wrongs, survivors = self.left(), []
        for done, (wrong, (rows, untold)) in enumerate(zip(wrongs, pool.map(compute, wrongs)), 1):
            if rows:
                names = " ".join(f"{self.labels[proof]}{name}" for proof, name in rows)
                self.tell(wrong, REFUSED + names + (PERHAPS_MORE if untold else ""))
            else:
                survivors.append((wrong, untold))
            self.progress("computed", done, len(wrongs))
        return survivors

    def ask_survivors(self, pool, survivors):
        """The prover's verdict on the survivors. Gives back those that it refuses though every row was computed."""
        odd = []
        answers = pool.map(ask, [wrong for wrong, _ in survivors])
        for done, ((wrong, untold), theorems) in enumerate(zip(survivors, answers), 1):
            if theorems is None:
                self.tell(wrong, UNTOLD)
            elif theorems:
                self.tell(wrong, REFUSED + " ".join(map(self.named, theorems)))
                if not untold:
                    odd.append(wrong)
            else:
                self.tell(wrong, SURVIVES)
            self.progress("survivors asked of the prover", done, len(survivors))
        return odd

    def leave_survivors(self, survivors):
        """The prover is not asked."""
        for wrong, _ in survivors:
            self.tell(wrong, SURVIVES_ROWS)

    def ask_sample(self, pool):
        """How many of the refused ones the prover was asked about, and those that it refuses by other rows."""
        refused = [wrong for wrong in self.wrongs if self.verdicts[wrong.key].startswith(REFUSED)]
        sample = random.Random(len(refused)).sample(refused, min(self.options.sample, len(refused)))
        odd = []
        for done, (wrong, theorems) in enumerate(zip(sample, pool.map(ask, sample)), 1):
            if not self.agrees(set(map(self.named, theorems or [])), self.verdicts[wrong.key]):
                odd.append(wrong)
            self.progress("a sample asked of the prover", done, len(sample))
        return len(sample), odd

    def named(self, theorem):
        proof, name = theorem
        return self.labels[proof] + name.removeprefix("row_") if name.startswith("row_") else f"{proof}/{name}"

    def agrees(self, theorems, verdict):
        """Whether the prover refuses by the theorems that the rows of a verdict stand in: C1 to C14 stand in one. A table's
        theorem no_other is no row: that no row has another name is told by `any`, which a wrong rule may be of."""
        theorems = {theorem for theorem in theorems if not theorem.endswith("/no_other")}
        in_one = {self.labels[proof]: f"{proof}/rows" for proof, table in self.paper.tables.items() if table.in_one}
        rows = {in_one.get(row[0], row) for row in refusers(verdict)}
        return rows <= theorems if verdict.endswith(PERHAPS_MORE) else rows == theorems
