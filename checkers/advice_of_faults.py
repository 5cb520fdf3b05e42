#!/usr/bin/env python3
"""Compares what the code tells of each fault with docs/LANGUAGE.md, section "All faults": its number, its name and what to do.

usage: checkers/advice_of_faults.py

The rows of crates/coll_advice/src/sentences.rt have the number, the name and the sentence of each fault, as a line of a message holds
them. Those of LANGUAGE have the same, with code in backquotes and links. The numbers are those of specs/FaultNumbers.antt. Each
number stands once in each of the three.

The last line is 'N passed, M failed', where a number is one.
"""

import collections
import re
import sys

from run_program import ROOT

SENTENCES = "crates/coll_advice/src/sentences.rt"
NUMBERS = "crates/coll_advice/specs/FaultNumbers.antt"
LANGUAGE = "docs/LANGUAGE.md"
TEXT = r'"((?:[^"\\]|\\.)*)"'


class Unread(Exception):
    """A row that cannot be read."""


def text_of(file):
    """Returns the text of a file."""
    with open(f"{ROOT}/{file}", encoding="utf-8") as text:
        return text.read()


def told():
    """Returns what the code tells: pairs of a number and the pair of a name and a sentence."""
    text = text_of(SENTENCES)
    rows = re.findall(rf"(\d+) => row\(\s*{TEXT},\s*{TEXT},?\s*\)", text)
    arms = len(re.findall(r"=>\s*row\(", text))
    if len(rows) != arms:
        raise Unread(f"{SENTENCES}: {len(rows)} of {arms} rows can be read")
    return [(int(number), (name, re.sub(r"\\(.)", r"\1", sentence))) for number, name, sentence in rows]


def plain(cell):
    """Returns a cell without the signs of Markdown: code is told without backquotes, and a link by its text."""
    return re.sub(r"\[([^]]*)\]\([^)]*\)", r"\1", cell).replace("`", "")


def documented():
    """Returns what LANGUAGE says, in the same form."""
    section = re.search(r"^## All faults\n(.*?)(?=^## |\Z)", text_of(LANGUAGE), re.M | re.S)
    if not section:
        raise Unread(f"{LANGUAGE}: there is no section 'All faults'")
    found = []
    for line in [line for line in section[1].splitlines() if line.startswith("|")][2:]:
        row = re.fullmatch(r"\| (\d+) (\w+) \| [^|]* \| ([^|]*) \|", line)
        if not row:
            raise Unread(f"{LANGUAGE}: a row cannot be read: {line}")
        found.append((int(row[1]), (row[2], plain(row[3]))))
    return found


def defined():
    """Returns the numbers of the definition."""
    lists = re.findall(r"^of_\w+ = ([\d ∷]+)\[\]$", text_of(NUMBERS), re.M)
    return [int(number) for numbers in lists for number in re.findall(r"\d+", numbers)]


def run_all():
    """Compares all numbers. Returns how many are told alike, and how many are not."""
    try:
        code, document, numbers = told(), documented(), defined()
    except Unread as why:
        print(f"FAILED: {why}", flush=True)
        return 0, 1
    places = {SENTENCES: [number for number, _ in code], LANGUAGE: [number for number, _ in document], NUMBERS: numbers}
    every = sorted(set().union(*places.values()))
    failed = set()
    for place, stands in places.items():
        times = collections.Counter(stands)
        for number in every:
            if times[number] != 1:
                print(f"FAILED: {place}: {number} stands {times[number]} times, and not once", flush=True)
                failed.add(number)
    said = dict(document)
    for number, (name, sentence) in code:
        if number in said and said[number] != (name, sentence):
            print(f"FAILED: {number} is told as {name}: {sentence}\n    and in {LANGUAGE} {': '.join(said[number])}", flush=True)
            failed.add(number)
    return len(every) - len(failed), len(failed)


if __name__ == "__main__":
    counts = run_all()
    print(f"{counts[0]} passed, {counts[1]} failed")
    sys.exit(1 if counts[1] or not counts[0] else 0)
