#!/usr/bin/env python3
"""Tries the edits of crates/*/more-edits/: the prover must refuse each of them.

usage: checkers/try_edits.py [CRATE..]

All crates are meant where none is named. First the crates are proved, over what earlier checks kept. Then as many checks run side by
side as there are cores and memory, each in a scratch copy of the repository, where it begins with what those here kept. Edits of a crate
that change different functions are tried together, by one check of the modules that they change. What that does not show as refused is
tried by itself, and over the whole crate where its modules are still proved. What was refused is remembered outside the repository, in
~/.cache/collbench/edits (or under XDG_CACHE_HOME), by a hash of the edit, its crate and those below, so a run may be broken off and go on
later. An edit that is refused only since a proof names what it takes away shows nothing of a contract: how many these are is told at the
end, of earlier runs too. The status is 1 where an edit was not refused.
"""

import glob
import hashlib
import os
import queue
import re
import signal
import subprocess
import sys
import tempfile
import threading
import time

from edited_functions import BY_NAME, ERROR, batches, functions_of, verdicts
from edits import PARTS, BadEdit, applied, edits_of
from run_program import ROOT
from scratch_copies import copied, lanes, libraries

MEMORY = os.path.join(os.environ.get("XDG_CACHE_HOME") or os.path.expanduser("~/.cache"), "collbench", "edits")
# The most edits that are tried together.
MOST = 24
# An error in a text that the prover could not read: such an edit shows nothing of a contract.
UNREAD = re.compile(r"is not in scope|has no field|is no name|operand is missing|expected the end|cannot continue")
# How the prover refuses an edit.
REFUSED = "refused"
REFUSED_BY_NAME = "refused, but only since a proof names what it takes away: change a value"


def sums(crates):
    """Returns a hash of the texts of each crate."""
    found = {}
    for name in crates:
        made = hashlib.sha256()
        for file in sorted(it for part in PARTS for it in glob.glob(f"{ROOT}/crates/{name}/{part}/**", recursive=True)):
            if os.path.isfile(file):
                with open(file, "rb") as text:
                    made.update(repr((os.path.relpath(file, ROOT), text.read())).encode())
        found[name] = made.hexdigest()
    return found


def remembered(edit, crate, below, sum_of, version):
    """Returns the file that stands for this edit once it was refused."""
    with open(edit, "rb") as text:
        parts = [version, text.read(), crate, *[sum_of[it] for it in [*below, crate]]]
    return f"{MEMORY}/{hashlib.sha256(repr(parts).encode()).hexdigest()}"


def prove(crates):
    """Proves crates, lowest first, and returns whether all of them are."""
    for name in crates:
        print(f"{name}: proving it as it stands", flush=True)
        ran = subprocess.run(["rt", "check"], cwd=f"{ROOT}/crates/{name}", stdin=subprocess.DEVNULL, capture_output=True, check=False)
        if ran.returncode:
            print(f"{name} is not proved as it stands: see `rt check`", flush=True)
            return False
    return True


def module_of(crate, path):
    """Returns the module of a file of src/, or None where it is another file, or the root."""
    found = re.fullmatch(r"src/(.*)\.rt", path)
    return "::".join([crate, *found[1].split("/")]) if found and found[1] not in ("lib", "main") else None


def checked(folder, changed, only):
    """Checks the crate in a folder, or some of its modules. Returns the status, and what the check told.

    A file that was changed and cannot be read is a BadEdit.
    """
    words = ["rt", "check", "--jobs", "1", *[word for module in only for word in ("--only", module)]]
    # In a session of its own, so that an interrupt lets it come to its end.
    how = {"stdin": subprocess.DEVNULL, "stdout": subprocess.PIPE, "stderr": subprocess.STDOUT, "start_new_session": True}
    ran = subprocess.run(words, cwd=folder, encoding="utf-8", errors="replace", check=False, **how)
    for file, _, name, text in ERROR.findall(ran.stdout):
        if (file in changed or file.startswith(("src/", "specs/"))) and (not name or UNREAD.search(re.sub(r"`[^`]*`", "", text))):
            raise BadEdit(f"the prover cannot read it, so no contract was tried: {file}: {text[:200]}")
    if ran.returncode not in (0, 1) or not re.search(r"^only=\d+ proved=\d+$" if only else r"^logic=", ran.stdout, re.M):
        raise BadEdit(f"it did not come to a verdict: {ran.stdout[-400:]}")
    return ran.returncode, ran.stdout


def refuses(folder, changed, only):
    """Checks the crate in a folder, or some of its modules. Returns how something is not proved, or None."""
    status, told = checked(folder, changed, only)
    if status == 0:
        return None
    others = [not file.startswith("proofs/") or not BY_NAME.search(text) for file, _, _, text in ERROR.findall(told)]
    is_by_name = others and not any(others) and not re.search(r"^note: \S+:\d+:\d+: it is not proved", told, re.M)
    return REFUSED_BY_NAME if is_by_name else REFUSED


def together(edits, crate, room):
    """Tries edits of different functions in a scratch copy, which then is as it was. Returns how the prover refuses each, by its path.

    One that it says nothing sure of is left out.
    """
    folder, before, texts, changed = f"{room}/crates/{crate}", {}, {}, {}
    try:
        for edit in edits:
            changed[edit] = functions_of(edit, folder)
            new = applied(edit, folder)
            for path in new:
                if path not in before:
                    before[path] = read(folder, path)
            written(folder, new)
            texts.update(new)
        _, told = checked(folder, texts, sorted({module_of(crate, path) for path in texts}))
    except BadEdit:
        return {}
    finally:
        written(folder, before)
    found = verdicts(told, texts)
    if found is None or {key for key, it in found.items() if it != "proved"} - set().union(*changed.values()):
        return {}
    refused = {}
    for edit, keys in changed.items():
        how = {found.get(key) for key in keys} - {"proved"}
        if how == {"refused"}:
            refused[edit] = REFUSED
        elif how == {"by name"}:
            refused[edit] = REFUSED_BY_NAME
    return refused


def is_refused(edit, crate, room):
    """Tries an edit in a scratch copy, which then is as it was. Returns how the prover refuses it, or None where it is still proved."""
    folder = f"{room}/crates/{crate}"
    texts = applied(edit, folder)
    before = {path: read(folder, path) for path in texts}
    modules = [module_of(crate, path) for path in texts]
    try:
        written(folder, texts)
        return (all(modules) and refuses(folder, texts, modules)) or refuses(folder, texts, [])
    finally:
        written(folder, before)


def read(folder, path):
    """Returns the text of a file."""
    with open(f"{folder}/{path}", encoding="utf-8") as file:
        return file.read()


def written(folder, texts):
    """Writes the texts of files."""
    for path, text in texts.items():
        with open(f"{folder}/{path}", "w", encoding="utf-8") as file:
            file.write(text)


class Run:
    """What is tried in a run, and what came of it."""

    def __init__(self, untried):
        """`untried` has for each crate its edits, each with the file that stands for it once it was refused."""
        self.left, self.untried = queue.SimpleQueue(), untried
        for crate, edits in untried.items():
            for batch in batches(edits, f"{ROOT}/crates/{crate}", MOST):
                self.left.put((crate, batch))
        self.count, self.refused, self.by_name, self.failed = sum(map(len, untried.values())), 0, 0, 0
        self.writing, self.stopped = threading.Lock(), False

    def work(self, room):
        """Tries edits in a scratch copy, one batch after another, until none is left."""
        copied(room)
        while not self.stopped:
            try:
                crate, edits = self.left.get_nowait()
            except queue.Empty:
                return
            begun = time.monotonic()
            refused = together(edits, crate, room) if len(edits) > 1 else {}
            for edit, how in refused.items():
                self.tell(crate, edit, how, "", (time.monotonic() - begun) / len(refused))
            for edit in edits:
                if edit not in refused and not self.stopped:
                    self.alone(crate, edit, room)

    def alone(self, crate, edit, room):
        """Tries an edit by itself."""
        begun = time.monotonic()
        try:
            refused, why = is_refused(edit, crate, room), "it is still proved"
        except BadEdit as bad:
            refused, why = None, str(bad)
        self.tell(crate, edit, refused, why, time.monotonic() - begun)

    def tell(self, crate, edit, refused, why, seconds):
        """Says what came of an edit, and remembers it where it was refused."""
        name, memory = f"{crate}/{os.path.basename(edit)}", self.untried[crate][edit]
        with self.writing:
            if refused:
                self.refused += 1
                self.by_name += refused == REFUSED_BY_NAME
                os.makedirs(MEMORY, exist_ok=True)
                with open(memory, "w", encoding="utf-8") as file:
                    file.write(f"{name}: {refused}\n")
            else:
                self.failed += 1
            tried = self.refused + self.failed
            print(f"{tried} of {self.count}: {name}: {refused or 'NOT REFUSED: ' + why} ({seconds:.0f} s)", flush=True)

    def all(self, lanes):
        """Tries what is left in some scratch copies side by side, until the end or an interrupt."""
        with tempfile.TemporaryDirectory(prefix="try-edits-") as room:
            threads = [threading.Thread(target=self.work, args=(f"{room}/{lane}",)) for lane in range(lanes)]
            try:
                for it in threads:
                    it.start()
                for it in threads:
                    it.join()
            except KeyboardInterrupt:
                self.stopped = True
                for it in threads:
                    it.join()


def was_by_name(memory):
    """Whether an edit was refused in an earlier run only since a proof names what it takes away."""
    with open(memory, encoding="utf-8") as file:
        return REFUSED_BY_NAME in file.read()


def interrupted(*_):
    raise KeyboardInterrupt


def main(names):
    below = libraries()
    if set(names) - set(below):
        print(f"no crate: {' '.join(sorted(set(names) - set(below)))}")
        return 2
    version = subprocess.run(["rt", "version"], capture_output=True, text=True, check=True).stdout
    sum_of, untried, earlier, by_name = sums(below), {}, 0, 0
    for crate in below:
        for edit in edits_of(crate) if not names or crate in names else []:
            memory = remembered(edit, crate, below[crate], sum_of, version)
            if os.path.exists(memory):
                earlier += 1
                by_name += was_by_name(memory)
            else:
                untried.setdefault(crate, {})[edit] = memory
    run = Run(untried)
    signal.signal(signal.SIGTERM, interrupted)
    try:
        if not prove(list(untried)):
            return 1
        if untried:
            run.all(min(lanes(), run.left.qsize()))
    except KeyboardInterrupt:
        print("broken off: the next run goes on from here")
    left = run.count - run.refused - run.failed
    print(f"{run.refused} refused, {earlier} were refused in earlier runs, {run.failed} not refused, {left} not tried; "
          f"of those refused {by_name + run.by_name} only since a proof names what they take away")
    return 1 if run.failed or left else 0


if __name__ == "__main__":
    sys.exit(main(sys.argv[1:]))
