"""Asks the prover about wrong rules: whether they can be read, and which theorems are refused by one."""
import atexit
import os
import re
import shutil
import subprocess
import sys
import tempfile

from wrong_rules.paper import CRATES, TOP, crate_of_rows, file_of

LONGEST = 900  # seconds that the prover may take


class Prover:
    """A repository of the believed crates alone, in a temporary folder, where some of them have been checked once."""

    def __init__(self, crates, with_rows):
        self.root = tempfile.mkdtemp(prefix="wrong-rules-")
        atexit.register(shutil.rmtree, self.root, ignore_errors=True)
        for crate in CRATES:
            for part in ["src", "specs", "proofs"] if with_rows else ["src", "specs"]:
                self.copy(crate, part)
        with open(os.path.join(TOP, "crates.txt")) as file:
            lines = [line for line in file if line.split(":")[0] in CRATES]
        with open(os.path.join(self.root, "crates.txt"), "w") as file:
            file.writelines(lines)
        for crate in crates:
            status, said = self.check(crate)
            if status != 0:
                sys.exit(f"the crate {crate} is not proved as it stands:\n" + said)
        for out, warm in self.kept():
            if os.path.exists(out):
                shutil.copytree(out, warm)

    def copy(self, crate, part):
        path = os.path.join("crates", crate, part)
        if os.path.exists(os.path.join(TOP, path)):
            shutil.copytree(os.path.join(TOP, path), os.path.join(self.root, path))

    def check(self, crate):
        """The prover's status, and what it says of a crate, once those below it are proved."""
        try:
            done = subprocess.run(
                ["rt", "check", "--jobs", "1"],
                cwd=os.path.join(self.root, "crates", crate),
                text=True,
                stdout=subprocess.PIPE,
                stderr=subprocess.STDOUT,
                timeout=LONGEST,
            )
        except subprocess.TimeoutExpired:
            return 124, ""
        return done.returncode, done.stdout

    def kept(self):
        """The folders of what has been checked, a crate's each, and where they are put by."""
        for crate in CRATES:
            yield os.path.join(self.root, "crates", crate, "out"), os.path.join(self.root, "warm", crate)

    def again(self):
        """Puts them back, as they were."""
        for out, warm in self.kept():
            shutil.rmtree(out, ignore_errors=True)
            if os.path.exists(warm):
                shutil.copytree(warm, out)

    def path(self, crate, name):
        return os.path.join(self.root, "crates", crate, "specs", name + ".antt")

    def read(self, crate, name):
        with open(self.path(crate, name), encoding="utf-8") as file:
            return file.read()

    def write(self, crate, name, text):
        with open(self.path(crate, name), "w", encoding="utf-8") as file:
            file.write(text)

    def unreadable(self, crate, wrongs):
        """Which of them, all of a crate, cannot be read: each stands as a file of its own beside the right ones."""
        names = {f"Wrong{at}": wrong for at, wrong in enumerate(wrongs)}
        right = self.read(crate, "Lib")
        for name, wrong in names.items():
            self.write(crate, name, wrong.text)
        self.write(crate, "Lib", right + "".join(f"pub mod {name}\n" for name in names))
        _, said = self.check(crate)
        bad = set(re.findall(r"specs/(\w+)\.antt:\d+:\d+: error", said))
        if bad - set(names) or not re.search("^logic=", said, re.M):
            sys.exit("the prover did not read the wrong rules:\n" + said[:4000])
        for name in names:
            os.remove(self.path(crate, name))
        self.write(crate, "Lib", right)
        self.again()
        return [names[name] for name in bad]

    def refusing(self, wrong):
        """The theorems that are refused with this wrong rule in the place of the right one; None if it cannot tell."""
        file = file_of(wrong.file)
        right = self.read(wrong.crate, file)
        self.write(wrong.crate, file, wrong.text)
        status, said = self.check(crate_of_rows(wrong.crate))
        self.write(wrong.crate, file, right)
        self.again()
        theorems = sorted(set(re.findall(r"proofs/(\w+)\.antt:\d+:\d+: error: `([^`]+)`", said)))
        return theorems if status == 0 or theorems else None
