#!/usr/bin/env python3
"""Runs what takes long under a pseudo-terminal, and looks at the line there that says how far it is.

usage: checkers/progress_lines.py [PROGRAM]

PROGRAM is crates/collbench/out/collbench where none is given. One input of each run comes in parts with pauses, so that the run takes
more than a second on any machine; its standard error is a terminal, and standard output a pipe. The line has to come, and not before
half a second has passed; it says what is stated for the run, in this order, and is written at most ten times a second. At the end
nothing of it stands on the screen, which shows what standard error has where it is no terminal, and below that what to do, where the
run is refused. For that a second run gets the same input with the same pauses, and a file as standard error: there no line is, and
standard output and the status are the same.

The last line is 'N passed, M failed', where a run is one of the list RUNS with its second one. Where the system has no pseudo-terminal
none is run, and that is said.
"""

import concurrent.futures
import os
import re
import shutil
import subprocess
import sys
import tempfile
import threading
import time

from edit_terminal import open_terminal
from run_program import PROGRAM, ROOT

SECONDS = 60
PARTS = 24
PAUSE = 0.06
BEFORE = 0.5
MOST_A_SECOND = 10
READING = r"reading \d+\.\d MB( of \d+\.\d MB)?"
WORDS = "b\nac\nab\nc\nd\n" * 48
STATEMENTS = "".join(f"reorder-after <U006{1 + i % 2}>\n<U0063>\nreorder-end\n" for i in range(PARTS))
DELTA = f"comment_char %\nescape_char /\nLC_COLLATE\n{STATEMENTS}END LC_COLLATE\n"
FAULTY = "comment_char %\nescape_char /\nLC_COLLATE\norder_start\n<NONE>\norder_end\nEND LC_COLLATE\n"
# What to do for its fault.
TO_DO = "declare it with collating-symbol\n"
# Each run: the words behind the program, the file that comes in parts, or standard input, `-`, what the line says, in this order, and what
# stands on the screen at the end beside what standard error has without one.
RUNS = [
    (["sort", "base.txt"], "-", [READING, "sorting"], ""),
    (["sort", "base.txt", "delta.txt"], "base.txt", [READING, "sorting"], ""),
    (["review", "base.txt", "delta.txt", "words.txt"], "words.txt", [READING, "sorting"], ""),
    (["review", "base.txt", "delta.txt", "words.txt"], "delta.txt", [r"statement \d+"], ""),
    (["lint", "base.txt", "delta.txt"], "delta.txt", [READING, "surveying"], ""),
    (["lint", "faulty.txt"], "faulty.txt", [READING, "surveying"], ""),
    (["diff", "base.txt", "other.txt"], "base.txt", [READING, "comparing"], ""),
    (["diff", "base.txt", "faulty.txt"], "faulty.txt", [READING], TO_DO),
    (["import", "source.txt"], "source_letters.txt", [READING, "importing"], ""),
    (["import", "faulty.txt"], "faulty.txt", [READING, "importing"], ""),
    (["import-delta", "letters.txt", "tailoring.txt"], "letters.txt", [READING, "importing"], ""),
    (["import-delta", "faulty.txt", "tailoring.txt"], "faulty.txt", [READING], TO_DO),
]


def made_texts(program):
    """Returns what the runs read beside the examples, by its name: a table that is imported and one that is rewritten are among it."""
    texts = {"words.txt": WORDS, "delta.txt": DELTA, "faulty.txt": FAULTY}
    for name, words in {"letters.txt": ["import", "source.txt"], "other.txt": ["print", "base.txt", "c_behind_a.txt"]}.items():
        ran = subprocess.run([program, *words], cwd=f"{ROOT}/examples", capture_output=True, encoding="utf-8", check=True)
        texts[name] = ran.stdout
    return texts


def write_parts(file, text):
    """Writes a text in parts with pauses, until it isn't read any longer, and closes the file."""
    size = -(-len(text) // PARTS)
    try:
        with file:
            for start in range(0, len(text), size):
                file.write(text[start : start + size])
                time.sleep(PAUSE)
    except BrokenPipeError:
        pass


def run(program, words, slow, texts, errors):
    """Runs the program with this standard error, where an input comes in parts. Returns the status and standard output."""
    with tempfile.TemporaryDirectory() as folder:
        shutil.copytree(f"{ROOT}/examples", folder, dirs_exist_ok=True)
        for name, text in texts.items():
            with open(f"{folder}/{name}", "w", encoding="utf-8") as file:
                file.write(text)
        pipe = f"{folder}/{'words.txt' if slow == '-' else slow}"
        with open(pipe, "rb") as file:
            text = file.read()
        os.remove(pipe)
        os.mkfifo(pipe)
        # Nothing waits for the other end, so the pipe is never without a reader while the program starts.
        first = os.open(pipe, os.O_RDONLY | os.O_NONBLOCK)
        writer = threading.Thread(target=write_parts, args=(open(pipe, "wb", buffering=0), text))
        how = {"cwd": folder, "stdout": subprocess.PIPE, "stderr": errors}
        with open(pipe if slow == "-" else os.devnull, "rb") as given, subprocess.Popen([program, *words], stdin=given, **how) as child:
            writer.start()
            try:
                output = child.communicate(timeout=SECONDS)[0]
            finally:
                child.kill()
                os.close(first)
                writer.join()
    return child.returncode, output


def watch(screen, seen):
    """Notes what a screen is sent, with the time of each part, until its terminal is closed."""
    part = b"-"
    while part:
        try:
            part = os.read(screen, 65536)
        except OSError:
            part = b""
        seen.append((time.monotonic(), part.decode(errors="replace")))


def on_screen(text):
    """Returns what stands on a screen in the end, without blanks at the ends of its lines."""
    lines, column = [[]], 0
    for character in text:
        if character == "\r":
            column = 0
        elif character == "\n":
            lines.append([])
            column = 0
        else:
            lines[-1][column : column + 1] = [character]
            column += 1
    return "\n".join("".join(line).rstrip() for line in lines)


def run_at_terminal(program, words, slow, texts):
    """Runs the program with a terminal as standard error. Returns the status and standard output, what the screen was sent, after how
    many seconds that began, and how many the run took."""
    screen, terminal = open_terminal()
    seen = []
    watcher = threading.Thread(target=watch, args=(screen, seen))
    watcher.start()
    start = time.monotonic()
    ran = run(program, words, slow, texts, terminal)
    taken = time.monotonic() - start
    os.close(terminal)
    watcher.join()
    os.close(screen)
    return ran, "".join(part for _, part in seen), seen[0][0] - start, taken


def are_in_order(wanted, told):
    """Whether what is wanted is told, in this order, perhaps among other things."""
    told = iter(told)
    return all(any(re.fullmatch(pattern, text) for text in told) for pattern in wanted)


def fault(program, words, slow, wanted, below, texts):
    """Returns what is wrong with the line of a run, or nothing."""
    with tempfile.TemporaryFile() as errors:
        plain = run(program, words, slow, texts, errors)
        errors.seek(0)
        without = errors.read().decode()
    ran, sent, began, taken = run_at_terminal(program, words, slow, texts)
    told = [text.strip() for text in re.findall(r"\r([^\r\n]*)(?=\r)", sent)]
    told = [text for text in told if text]
    if "\r" in without:
        return f"where standard error is no terminal, it has {without!r}"
    if ran != plain:
        return f"status and output are {ran}, and without a terminal {plain}"
    if not are_in_order(wanted, told):
        return f"the line says {told}, and not {wanted}"
    if began < BEFORE:
        return f"the line comes after {began} seconds"
    if len(told) > MOST_A_SECOND * (taken - BEFORE):
        return f"the line is written {len(told)} times in {taken - BEFORE} seconds"
    if on_screen(sent) != on_screen(without + below):
        return f"in the end the screen shows {on_screen(sent)!r}, and not {without + below!r}"
    return None


def run_all(program):
    """Runs all, and returns how many passed, and how many failed. Where the system has no pseudo-terminal, which is said, none is run."""
    try:
        for end in open_terminal():
            os.close(end)
    except OSError as error:
        print(f"no line of progress was looked at: {error}", flush=True)
        return 0, 0
    texts = made_texts(program)
    with concurrent.futures.ThreadPoolExecutor(len(RUNS)) as pool:
        faults = list(pool.map(lambda it: fault(program, *it, texts), RUNS))
    for (words, slow, *_), what in zip(RUNS, faults):
        if what:
            print(f"FAILED: {' '.join(words)}, with {slow} in parts: {what}", flush=True)
    failed = sum(1 for what in faults if what)
    return len(RUNS) - failed, failed


if __name__ == "__main__":
    counts = run_all(os.path.abspath(sys.argv[1] if len(sys.argv) > 1 else PROGRAM))
    print(f"{counts[0]} passed, {counts[1]} failed")
    sys.exit(1 if counts[1] else 0)
