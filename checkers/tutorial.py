#!/usr/bin/env python3
"""Runs docs/TUTORIAL.md: all that its code blocks have, in their order, in a folder that has the files of examples/tutorial.

usage: checkers/tutorial.py [PROGRAM]

PROGRAM is crates/collbench/out/collbench where none is given; in the page it is `collbench`. A code block is one of these:

- commands, each behind `$ `, and behind each what it writes to standard output and standard error, byte for byte. Its status is 0: another
  one is shown by `; echo $?`. `collbench edit` runs under a pseudo-terminal that shows no typed line again, and what stands behind the
  prompts `> ` and `block> ` is typed;
- else a file, which is written. Its name is what the paragraph before it has last in backquotes.

A command that needs what isn't there (NEEDS) is left out, and what is missing is told. Where the system has no pseudo-terminal nothing is
run, and that is told.

The last line is 'N passed, M failed', where a run is one command.
"""

import glob
import os
import re
import select
import shlex
import shutil
import subprocess
import sys
import tempfile

from edit_terminal import END, open_terminal
from run_program import PROGRAM, ROOT

PAGE = f"{ROOT}/docs/TUTORIAL.md"
FILES = glob.glob(f"{ROOT}/examples/tutorial/*")
SECONDS = 300
LOCALES = ["localedef", "/usr/share/i18n/locales/en_US", "/usr/share/i18n/charmaps/UTF-8.gz"]
# What a command that has this word needs: programs, and files by their paths.
NEEDS = {"localedef": LOCALES, "LOCPATH=.": LOCALES, "make": ["make"], "git": ["git", "make"]}
# Who commits, by no settings but these.
AUTHOR = {f"GIT_{who}_{what}": value for who in ("AUTHOR", "COMMITTER") for what, value in (("NAME", "A"), ("EMAIL", "a@b"))}
SETTINGS = {"LC_ALL": "C", "GIT_CONFIG_NOSYSTEM": "1", **AUTHOR}


class Step:
    """A command of the page, what is typed into it, and what stands behind it."""

    def __init__(self, command):
        self.command, self.typed, self.shown = command, [], ""

    def is_edit(self):
        """Whether it is an edit, which is run under a terminal."""
        return self.command.startswith("collbench edit ")

    def take(self, line):
        """Takes the next line of the page: what is shown, or a prompt with what is typed. That begins with no digit, as the line of an
        entry that is shown does."""
        typed = self.is_edit() and re.fullmatch(r"(> |block> )(\D.*)", line)
        if typed:
            self.typed.append(f"{typed[2]}\n")
        self.shown += typed[1] if typed else f"{line}\n"

    def missing(self):
        """What it needs and isn't there."""
        needed = [need for word in self.command.split() for need in NEEDS.get(word, [])]
        return [need for need in needed if not (os.path.exists(need) if need.startswith("/") else shutil.which(need))]


def steps_of(block):
    """The commands of a code block."""
    steps = []
    for line in block:
        if line.startswith("$ "):
            steps.append(Step(line[2:]))
        else:
            steps[-1].take(line)
    return steps


def parts_of(page):
    """What is done with the code blocks of a page, in their order: a step, or the name and the text of a file."""
    if "```" in page:
        raise ValueError("a code block between fences, which is not run")
    paragraphs = page.rstrip("\n").split("\n\n")
    for before, paragraph in zip(paragraphs, paragraphs[1:]):
        if paragraph.startswith("    "):
            block = [line[4:] for line in paragraph.split("\n")]
            if block[0].startswith("$ "):
                yield from steps_of(block)
            else:
                yield re.findall("`([^`]+)`", before)[-1], "".join(f"{line}\n" for line in block)


def read_to_the_end(screen):
    """Returns what a program shows on a screen until it has ended, or has shown nothing for long."""
    shown = b""
    while select.select([screen], [], [], SECONDS)[0]:
        try:
            more = os.read(screen, 65536)
        except OSError:
            break
        if not more:
            break
        shown += more
    return shown


def screen_of(words, typed, how):
    """What stands on the screen of a program in the end, behind what is typed into it, and its status."""
    screen, terminal = open_terminal()
    child = subprocess.Popen(words, stdin=terminal, stdout=terminal, stderr=terminal, start_new_session=True, **how)
    os.close(terminal)
    try:
        os.write(screen, typed.encode() + END.encode())
        return read_to_the_end(screen), child.wait(SECONDS)
    finally:
        child.kill()
        child.wait()
        os.close(screen)


def ran(step, how):
    """What a step writes, and its status."""
    if step.is_edit():
        return screen_of(shlex.split(step.command), "".join(step.typed), how)
    piped = {"stdin": subprocess.DEVNULL, "stdout": subprocess.PIPE, "stderr": subprocess.STDOUT}
    ended = subprocess.run(["sh", "-c", step.command], timeout=SECONDS, check=False, **piped, **how)
    return ended.stdout, ended.returncode


def passes(step, how, alike):
    """Whether a step writes what the page shows, as far as both are to be alike; what differs is printed."""
    try:
        shown, status = ran(step, how)
    except (OSError, subprocess.SubprocessError) as error:
        print(f"FAILED: $ {step.command}\n{type(error).__name__} {error}", flush=True)
        return False
    shown = shown.decode(errors="replace")
    if alike(shown) == alike(step.shown) and status == 0:
        return True
    print(f"FAILED: $ {step.command}\n{shown}(status {status}), and in the page\n{step.shown}", flush=True)
    return False


def made(room, program, files):
    """Makes a folder with copies of files in a room, beside one that has the program. Returns how commands are run in it."""
    folder, programs = f"{room}/tutorial", f"{room}/programs"
    os.mkdir(folder)
    os.mkdir(programs)
    os.symlink(os.path.abspath(program), f"{programs}/collbench")
    for path in files:
        shutil.copy(path, folder)
    path = f"{programs}:{os.environ.get('PATH', os.defpath)}"
    return {"cwd": folder, "env": {"PATH": path, "HOME": room, "TMPDIR": room, **SETTINGS}}


def run_page(program, files, alike=str):
    """Runs the page over some files. Returns how many commands passed, and how many failed."""
    with open(PAGE, encoding="utf-8") as file:
        parts = list(parts_of(file.read()))
    passed, failed, missing = 0, 0, set()
    with tempfile.TemporaryDirectory(prefix="tutorial-") as room:
        how = made(room, program, files)
        for part in parts:
            if isinstance(part, tuple):
                path = os.path.join(how["cwd"], part[0])
                os.makedirs(os.path.dirname(path), exist_ok=True)
                with open(path, "w", encoding="utf-8") as file:
                    file.write(part[1])
            elif part.missing():
                missing.update(part.missing())
            elif passes(part, how, alike):
                passed += 1
            else:
                failed += 1
    if missing:
        print(f"what needs one of these was left out of the tutorial: {', '.join(sorted(missing))}", flush=True)
    return passed, failed


def has_terminal():
    """Whether the system has pseudo-terminals; that it has none is told."""
    try:
        for end in open_terminal():
            os.close(end)
        return True
    except OSError as error:
        print(f"the tutorial was not run: {error}", flush=True)
        return False


def run_all(program):
    """Runs the page over the small sources. Returns how many commands passed, and how many failed."""
    return run_page(program, FILES) if has_terminal() else (0, 0)


if __name__ == "__main__":
    counts = run_all(sys.argv[1] if len(sys.argv) > 1 else PROGRAM)
    print(f"{counts[0]} passed, {counts[1]} failed")
    sys.exit(1 if counts[1] else 0)
