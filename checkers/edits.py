#!/usr/bin/env python3
"""Edits that turn the meaning of a function: how they are read, and applied to the files of a crate.

An edit is a file `NAME.edit` in crates/CRATE/must-fail/, which `rt ci` tries, or in crates/CRATE/more-edits/, which
`make edits` tries. Its lines are `file: src/lib.rt`, and then pairs of `old: TEXT` and `new: TEXT`. Each TEXT is one line, and
what is old stands exactly once in that file, as the pairs before have left it.

As a command it looks whether each edit of more-edits/ can be applied: that is its part in the gate.

usage: checkers/edits.py
"""

import glob
import os
import re
import sys

from run_program import ROOT

PARTS = ("src", "specs", "proofs")


class BadEdit(Exception):
    """Why an edit cannot be applied."""


def edits_of(crate, folder="more-edits"):
    """Returns the paths of a crate's edits."""
    return sorted(glob.glob(f"{ROOT}/crates/{crate}/{folder}/*.edit"))


def applied(edit, crate):
    """Returns the texts of the files that an edit changes in the folder of a crate, by their paths in it."""
    path, old, texts, pairs = None, None, {}, 0
    with open(edit, encoding="utf-8") as lines:
        for line in lines.read().split("\n"):
            if line.startswith("file: "):
                path = line[len("file: ") :].strip()
                if os.path.normpath(path) != path or not path.startswith(tuple(f"{part}/" for part in PARTS)):
                    raise BadEdit(f"{path} is no file below src/, specs/ or proofs/")
            elif line.startswith("old: "):
                old = line[len("old: ") :]
            elif line.startswith("new:"):
                if path is None or not old:
                    raise BadEdit("a 'new:' line stands before any 'file:' or 'old:' line")
                texts[path] = replaced(texts.get(path) or text_of(f"{crate}/{path}"), old, re.sub(r"^new: ?", "", line))
                old, pairs = None, pairs + 1
    if not pairs:
        raise BadEdit("it has no pair of 'old:' and 'new:'")
    return texts


def text_of(file):
    """Returns the text of a file that an edit changes."""
    try:
        with open(file, encoding="utf-8") as text:
            return text.read()
    except (OSError, UnicodeDecodeError) as error:
        raise BadEdit(f"{file} cannot be read: {error}") from error


def replaced(text, old, new):
    """Returns the text with what is old replaced, where it stands once."""
    if text.count(old) != 1:
        raise BadEdit(f"its old text stands {text.count(old)} times, and not once: {old.strip()[:80]}")
    return text.replace(old, new)


def run_all():
    """Looks at each edit of more-edits/. Returns how many can be applied, and how many cannot."""
    passed = failed = 0
    for crate in sorted(os.listdir(f"{ROOT}/crates")):
        for edit in edits_of(crate):
            try:
                applied(edit, f"{ROOT}/crates/{crate}")
                passed += 1
            except BadEdit as why:
                print(f"FAILED: {os.path.relpath(edit, ROOT)}: {why}", flush=True)
                failed += 1
    return passed, failed


if __name__ == "__main__":
    counts = run_all()
    print(f"{counts[0]} passed, {counts[1]} failed")
    sys.exit(1 if counts[1] else 0)
