#!/usr/bin/env python3
"""Edits tables under a pseudo-terminal, as a person does, and compares what stands on the screen.

usage: checkers/edit_terminal.py [PROGRAM]

PROGRAM is crates/collbench/out/collbench where none is given. Standard input, output and errors are one terminal, which shows no
typed line again. Each step types a line, and what stands on the screen until the next prompt has to be as stated, the prompt
included; so a reply comes before the next prompt, and what a refusal says comes behind its reply. A session ends with a line that
asks for the end, or with the key for it. The tour of the README is one of them, over the table that stands above it.

The last line is 'N passed, M failed', where a run is one session. Where the system has no pseudo-terminal none is run, and that is said.
"""

import os
import pty
import re
import select
import shutil
import subprocess
import sys
import tempfile
import termios

from run_program import PROGRAM, ROOT

SECONDS = 60
END = "\x04"
SHOWN = """  1 <BASE>
  2 <MIN>
  3 <CAP>
> 4 <U0061> <U0061>;<BASE>;<MIN>;IGNORE
  5 <U0063> <U0063>;<BASE>;<MIN>;IGNORE
  6 <U0041> <U0061>;<BASE>;<CAP>;IGNORE
  7 <U0062> <U0062>;<BASE>;<MIN>;IGNORE
shown 4
"""
WORDS = "b\nac\nab\nc\nd\n"
DELTA = """comment_char %
escape_char /
LC_COLLATE
reorder-after <U0061>
<U0063>
reorder-end
END LC_COLLATE
"""
OPEN_BLOCK = (
    "end the block by reorder-end, and take it back by :undo if the reply is ok; "
    "the end of the input, Ctrl-D at a terminal, drops it and ends the edit"
)
NO_COMMENT = "% begins no comment here; behind a line comment_char % it does"
KEPT_WEIGHTS = (
    "note: line 1 of the block: <U0041> weighs as <U0061> at the first level, and <U0063> before it as itself: "
    "to sort it here, give it weights that begin with <U0063>, or with a symbol of its own put behind <U0063>"
)
NOT_PLACED_TARGET = "50 TargetNotPlaced <BASF>: place the target first, or name one that is placed; is <BASE> meant?"
C_BACK = "note: taken back: reorder-after <U0061> .. (1 line)"
C_AGAIN = "note: put again: reorder-after <U0061> .. (1 line)"
C_WITHDRAWN = "note: withdrawn for good: reorder-after <U0061> .. (1 line)"
X_BACK = "note: taken back: collating-symbol <X>"
ONE_UNWRITTEN = "note: 1 statement stands in no file (:write FILE); another :quit drops it"
FILE_HAD_MORE = "note: the file that was read or written last has statements that were taken back"
FILE_HAS_MORE = f"{FILE_HAD_MORE} (:write FILE); another :quit leaves it so"
SOME_UNWRITTEN = "note: 2 statements stand in no file (:write FILE); another :quit drops them"
UNCHANGED = "note: this changes nothing: the table is so already"
REFUSED = "note: nothing of the block was done"
NO_END = "note: the block before has no reorder-end: it ended where this one begins, and the reply is its own"
# Each session: the words behind the program, the steps, what stands on the screen at the end, and the files that are there then.
SESSIONS = [
    (
        ["edit", "base.txt"],
        [
            ("reorder-after a", "block> "),
            ("c", "block> "),
            ("reorder-end", "ok 1\n> "),
            (":show a", SHOWN + "> "),
            (":words words.txt", "* ac\n* ab\n* c\n* b\n* d\nwords 5\n> "),
            ("reorder-after <U0061>", "block> "),
            ("<BASF>", "note: 34 NotDeclared <BASF>: declare it with collating-symbol; is <BASE> meant?\nblock> "),
            ("reorder-end", "refused 34 NotDeclared\nline 1 of the block: 34 NotDeclared <BASF>: declare it with collating-symbol; is <BASE> meant?\n"
             f"{REFUSED}\n> "),
            ("reorder-after b", "block> "),
            ("d d,d", "line 1 of the block: 29 BadOperand: part weights by ;, not by a comma\nblock> "),
            ("reorder-end", f"refused 29 BadOperand\n{REFUSED}\n> "),
            ("quit", "refused 20 UnknownStatement\n20 UnknownStatement: is :quit meant?\n> "),
            (":write new.txt", "written 1\n> "),
            (":write new.txt", "refused 68 WriteFault\n68 WriteFault new.txt: a file with this name is there already\n> "),
        ],
        END,
        "\n",
        {"new.txt": DELTA},
    ),
    (
        ["edit", "base.txt", "c_behind_a.txt"],
        [
            (":compare c b", "less\n> "),
            (":undo", f"undone 0\n{C_BACK}\n> "),
            (":compare c b", "greater\n> "),
            ("# a comment", "> "),
            ("reorder-after \\", "> "),
            ("a", "block> "),
            (":quit", f"refused 62 BlockOpen\n62 BlockOpen: {OPEN_BLOCK}\nblock> "),
            ("reorder-end", f"ok 1\n{UNCHANGED}\n> "),
            (":quit", f"{ONE_UNWRITTEN}\n> "),
        ],
        ":quit\n",
        "",
        {},
    ),
    (
        ["edit", "base.txt"],
        [
            ("% A behind c", f"refused 29 BadOperand\n29 BadOperand: {NO_COMMENT}\n> "),
            ("reorder-after c", "block> "),
            ("A", "block> "),
            ("reorder-after b", f"ok 1\n{KEPT_WEIGHTS}\n{NO_END}\nblock> "),
            ("a", "block> "),
            ("A A;<BASE>;<CAP>;IGNORE", "block> "),
            ("reorder-end", "ok 2\n> "),
        ],
        END,
        "\nnote: 2 statements stand in no file, and are lost\n",
        {},
    ),
    # A target that the block before places, which has no end.
    (
        ["edit", "base.txt"],
        [
            ("collating-symbol <X>", "ok 1\n> "),
            ("reorder-after a", "block> "),
            ("<X>", "block> "),
            ("reorder-after <X>", f"ok 2\n{NO_END}\nblock> "),
            ("c", "block> "),
            ("reorder-end", "ok 3\n> "),
        ],
        END,
        "\nnote: 3 statements stand in no file, and are lost\n",
        {},
    ),
    # What the reply to a block will say whatever its other lines are.
    (
        ["edit", "base.txt"],
        [
            ("reorder-after <BASF>", f"note: {NOT_PLACED_TARGET}\nblock> "),
            ("a <BASE>;<MIM>", "note: 34 NotDeclared <MIM>: declare it with collating-symbol; is <MIN> meant?\nblock> "),
            ("f <BASE>;f", "block> "),
            ("<BASE> <MIN>", "note: 36 SymbolWithWeights <BASE>: drop the weights, also a semicolon alone\nblock> "),
            ("d a;a;a;a;<X>", "note: 37 TooManyWeights <U0064>: drop what goes beyond the levels of the table, which are four at most\nblock> "),
            ("reorder-end", f"refused 50 TargetNotPlaced\n{NOT_PLACED_TARGET}\n{REFUSED}\n> "),
            ("reorder-after f", "note: 50 TargetNotPlaced <U0066>: place the target first, or name one that is placed\nblock> "),
            ("reorder-after a", "refused 50 TargetNotPlaced\n50 TargetNotPlaced <U0066>: place the target first, or name one that is placed\n"
             f"{NO_END}\n{REFUSED}\nblock> "),
            ("<X>", "note: 34 NotDeclared <X>: declare it with collating-symbol; a character stands without brackets\nblock> "),
            ("c", "block> "),
            ("<X>", "note: 34 NotDeclared <X>: declare it with collating-symbol; a character stands without brackets\nblock> "),
            ("reorder-end", "refused 34 NotDeclared\nline 1 of the block: 34 NotDeclared <X>: declare it with collating-symbol; a character stands without brackets\n"
             f"{REFUSED}\n> "),
            ("<X>", "refused 34 NotDeclared\n34 NotDeclared <X>: declare it with collating-symbol; a character stands without brackets\n> "),
        ],
        END,
        "\n",
        {},
    ),
    # What is taken back and put again, and which statements stand in no file.
    (
        ["edit", "base.txt"],
        [
            ("reorder-after a", "block> "),
            ("c", "block> "),
            ("reorder-end", "ok 1\n> "),
            (":undo", f"undone 0\n{C_BACK}\n> "),
            (":redo", f"redone 1\n{C_AGAIN}\n> "),
            (":redo", "refused 61 NothingToRedo\n61 NothingToRedo: make the statement again\n> "),
            ("collating-symbol <X>", "ok 2\n> "),
            (":quit", f"{SOME_UNWRITTEN}\n> "),
            (":write new.txt", "written 2\n> "),
            (":withdraw 1", f"withdrawn 1\n{C_WITHDRAWN}\n> "),
            (":undo", f"undone 0\n{X_BACK}\n> "),
            (":undo", "refused 60 NothingToUndo\n60 NothingToUndo: nothing: the table is the one at first\n> "),
            ("collating-symbol <Y>", "ok 1\n> "),
            (":quit", f"{ONE_UNWRITTEN}\n> "),
            ("", "> "),
            (":quit", f"{ONE_UNWRITTEN}\n> "),
        ],
        ":quit\n",
        "",
        {},
    ),
    # What a file has beyond what remains.
    (
        ["edit", "base.txt", "c_behind_a.txt"],
        [
            (":undo", f"undone 0\n{C_BACK}\n> "),
            (":quit", f"{FILE_HAS_MORE}\n> "),
            (":redo", f"redone 1\n{C_AGAIN}\n> "),
            ("collating-symbol <X>", "ok 2\n> "),
            (":write new.txt", "written 2\n> "),
            (":withdraw 1", f"withdrawn 1\n{C_WITHDRAWN}\n> "),
            (":quit", f"{FILE_HAS_MORE}\n> "),
            (":write other.txt", "written 1\n> "),
        ],
        ":quit\n",
        "",
        {},
    ),
    (
        ["edit", "base.txt", "c_behind_a.txt"],
        [(":withdraw 1", f"withdrawn 0\n{C_WITHDRAWN}\n> ")],
        END,
        f"\n{FILE_HAD_MORE}\n",
        {},
    ),
    # Statements of delta files stand there, and one that was written stands in its file when it is put again.
    (
        ["edit", "base.txt", "c_behind_a.txt"],
        [
            (":undo", f"undone 0\n{C_BACK}\n> "),
            (":redo", f"redone 1\n{C_AGAIN}\n> "),
        ],
        ":quit\n",
        "",
        {},
    ),
]


TOUR_WORDS = "zz\nzö\nza\n"


def tour():
    """Returns the session of the README's tour, as one of SESSIONS, the texts of the table and the words that it is over, and what is run
    behind it: words and what they write.

    What is typed stands behind a prompt, and begins with no digit, as the line of an entry that is shown does.
    """
    with open(f"{ROOT}/README.md", encoding="utf-8") as readme:
        text = readme.read()
    columns = text.partition("    mine.txt ")[2].partition("\n\n    $ ")[0].split("\n")[2:]
    table = "".join(f"{line[4:40].rstrip()}\n" for line in columns)
    shown, _, behind = text.partition("In an edit (")[2].partition("\n\n")[2].partition("\n\n")[0].partition("\n    > :quit\n")
    steps = []
    for line in shown.split("\n"):
        typed = re.fullmatch(r" {4}(> |block> )(\D.*)", line)
        if typed and steps:
            steps[-1][1] += typed[1]
        if typed:
            steps.append([typed[2], ""])
        else:
            steps[-1][1] += f"{line[4:]}\n"
    steps[-1][1] += "> "
    runs = re.findall(r"^ {4}\$ collbench (.*)\n((?: {4}[^$].*\n)*)", f"{behind}\n", re.M)
    runs = [(words.split(), "".join(f"{line[4:]}\n" for line in reply.splitlines())) for words, reply in runs]
    return (["edit", "mine.txt"], steps, ":quit\n", "", {}), {"mine.txt": table, "words.txt": TOUR_WORDS}, runs


def read_screen(screen, wanted):
    """Returns what stands on a screen once it is as long as what is wanted, or its program has ended."""
    shown = b""
    while len(shown) < len(wanted):
        if not select.select([screen], [], [], SECONDS)[0]:
            break
        try:
            more = os.read(screen, 65536)
        except OSError:
            break
        if not more:
            break
        shown += more
    return shown


def open_terminal():
    """Returns both ends of a terminal that shows no typed line again, and changes no line feed."""
    screen, terminal = pty.openpty()
    mode = termios.tcgetattr(terminal)
    mode[1] &= ~termios.OPOST
    mode[3] &= ~termios.ECHO
    termios.tcsetattr(terminal, termios.TCSANOW, mode)
    return screen, terminal


def differs(screen, step, wanted):
    """Whether a screen shows something else than is wanted, which is then printed."""
    shown = read_screen(screen, wanted.encode())
    if shown == wanted.encode():
        return False
    print(f"FAILED: behind {step!r} the screen shows\n{shown.decode(errors='replace')}\nand not\n{wanted}", flush=True)
    return True


def run(program, session, folder):
    """Whether a session in a folder shows what it is to show, and leaves the files that it is to leave."""
    words, steps, end, last, files = session
    screen, terminal = open_terminal()
    child = subprocess.Popen([program, *words], cwd=folder, stdin=terminal, stdout=terminal, stderr=terminal, start_new_session=True)
    os.close(terminal)
    try:
        if differs(screen, "the start", "> "):
            return False
        for typed, wanted in steps:
            os.write(screen, typed.encode() + b"\n")
            if differs(screen, typed, wanted):
                return False
        os.write(screen, end.encode())
        if differs(screen, end, last):
            return False
        if child.wait(SECONDS) != 0:
            print(f"FAILED: {words} ended with status {child.returncode}", flush=True)
            return False
    finally:
        child.kill()
        child.wait()
        os.close(screen)
    for name, wanted in files.items():
        with open(f"{folder}/{name}", encoding="utf-8") as written:
            if written.read() != wanted:
                print(f"FAILED: {name} isn't as stated", flush=True)
                return False
    return True


def writes(program, words, wanted, folder):
    """Whether the program writes what is wanted to standard output, without a terminal."""
    ran = subprocess.run([program, *words], cwd=folder, stdin=subprocess.DEVNULL, capture_output=True, encoding="utf-8", check=False)
    if ran.stdout != wanted:
        print(f"FAILED: {words} wrote {ran.stdout!r}{ran.stderr!r}, and not {wanted!r}", flush=True)
    return ran.stdout == wanted


def run_all(program):
    """Runs all sessions, and returns how many passed, and how many failed. Where the system has no pseudo-terminal, which is said, none is run."""
    try:
        for end in open_terminal():
            os.close(end)
    except OSError as error:
        print(f"no edit at a terminal was run: {error}", flush=True)
        return 0, 0
    passed, sessions = 0, [*((session, {"words.txt": WORDS}, []) for session in SESSIONS), tour()]
    for session, texts, behind in sessions:
        with tempfile.TemporaryDirectory() as folder:
            shutil.copytree(f"{ROOT}/examples", folder, dirs_exist_ok=True)
            for name, text in texts.items():
                with open(f"{folder}/{name}", "w", encoding="utf-8") as file:
                    file.write(text)
            passed += run(program, session, folder) and all(writes(program, *it, folder) for it in behind)
    return passed, len(sessions) - passed


if __name__ == "__main__":
    counts = run_all(os.path.abspath(sys.argv[1] if len(sys.argv) > 1 else PROGRAM))
    print(f"{counts[0]} passed, {counts[1]} failed")
    sys.exit(1 if counts[1] else 0)
