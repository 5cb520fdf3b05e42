#!/usr/bin/env python3
"""Runs a program, and compares what it writes and how it ends with what is wanted.

usage: checkers/run_program.py [PROGRAM [NAME..]]

PROGRAM is crates/collbench/out/collbench where none is given, which `make` and the gate build. Each file
tests/runs/NAME.json is one run, in a folder of its own, which has the examples and nothing else:

    shows         what the run shows, in a sentence
    words         the words after the program, each a value; none if left out
    files         further files in the folder, each name with a value
    input         standard input, a value; empty if left out
    input_from    the path that standard input is opened from, in place of `input`
    turns         pairs of an input and an output, in place of `input` and `output`: each input is handed in once the output of the
                  pair before was read, and then standard input is closed
    output        what the program writes to standard output, a value; empty if left out, and not looked at if null
    output_to     the path that standard output is opened at, or `|` for a pipe that nobody reads; `output` is then not looked at
    errors        what it writes to standard error, a value; empty if left out, and not looked at if null
    errors_to     the path that standard error is opened at; `errors` is then not looked at
    status        the exit status; 0 if left out
    accepted      the words of a second run in the same folder, in which the file `output` has what the first wrote to standard
                  output: it has to end with status 0, and to write nothing to standard error
    rows          a list of runs that have these members alike: the file is then as many runs as there are rows, and the
                  members of each row go over those of the file

A value stands for bytes: a string for its UTF-8, a list for its members joined, {"hex": ".."} for those bytes,
{"repeat": value, "times": n} for a value n times, {"each": format, "first": n, "last": m} for a format of Python with
each number from n to m filled in, {"file": path} for a file of the repository, and {"file": path, "lines": {"n": value}}
for that file with other values in place of its lines n, counted from 1.

For each run that fails, what differs is printed. The last line is 'N passed, M failed', and the status is 1 where one
failed.
"""

import contextlib
import json
import os
import select
import shutil
import subprocess
import sys
import tempfile

ROOT = os.path.dirname(os.path.dirname(os.path.abspath(__file__)))
PROGRAM = f"{ROOT}/crates/collbench/out/collbench"
RUNS = f"{ROOT}/tests/runs"
SECONDS = 120
MEMBERS = {"shows", "words", "files", "input", "input_from", "turns", "output", "output_to", "errors", "errors_to", "status", "accepted"}


def bytes_of(value):
    """Returns the bytes that a value stands for."""
    if isinstance(value, str):
        return value.encode()
    if isinstance(value, list):
        return b"".join(bytes_of(member) for member in value)
    if set(value) == {"hex"}:
        return bytes.fromhex(value["hex"])
    if set(value) == {"repeat", "times"}:
        return bytes_of(value["repeat"]) * value["times"]
    if set(value) == {"each", "first", "last"}:
        return "".join(map(value["each"].format, range(value["first"], value["last"] + 1))).encode()
    if set(value) | {"lines"} == {"file", "lines"}:
        with open(f"{ROOT}/{value['file']}", "rb") as file:
            lines = file.readlines()
        for number, line in value.get("lines", {}).items():
            lines[int(number) - 1] = bytes_of(line)
        return b"".join(lines)
    raise ValueError(f"no value: {value}")


def shown(data):
    """Returns some bytes as text that fits a few lines."""
    text = repr(data)
    return text if len(text) <= 600 else f"{text[:300]} .. {text[-300:]} ({len(data)} bytes)"


def opened(stack, path, flags):
    """Opens a path by the system's own call, since a folder may stand there; or a pipe that nobody reads."""
    if path == "|":
        reads, descriptor = os.pipe()
        os.close(reads)
    else:
        descriptor = os.open(path, flags)
    stack.callback(os.close, descriptor)
    return descriptor


def read_from(pipe, count):
    """Returns so many bytes from a pipe, or those that came before it ended or nothing came for ten seconds."""
    read = b""
    while len(read) < count and select.select([pipe], [], [], 10)[0]:
        part = os.read(pipe.fileno(), count - len(read))
        if not part:
            break
        read += part
    return read


def in_turns(words, turns, how):
    """Runs a program, and hands each input in once the output to the one before was read. Returns what was wanted to be read, and how the
    program ended, with what it wrote."""
    wanted, read = b"", b""
    with subprocess.Popen(words, stdin=subprocess.PIPE, **how) as ran:
        try:
            for given, output in turns:
                ran.stdin.write(bytes_of(given))
                ran.stdin.flush()
                wanted += bytes_of(output)
                read += read_from(ran.stdout, len(wanted) - len(read))
                if len(read) < len(wanted):
                    break
            rest, errors = ran.communicate(timeout=SECONDS)
        except BrokenPipeError:
            rest, errors = ran.communicate(timeout=SECONDS)
        except subprocess.TimeoutExpired:
            ran.kill()
            raise
    late = b" (and no more before the next input)" if len(read) < len(wanted) else b""
    return wanted, subprocess.CompletedProcess(words, ran.returncode, read + late + rest, errors)


def not_accepted(program, words, folder, output):
    """Runs the program over what it wrote, and returns what it tells of that, a line for each thing that is not as wanted."""
    with open(f"{folder}/output", "wb") as file:
        file.write(output)
    ended = subprocess.run([program, *map(bytes_of, words)], cwd=folder, timeout=SECONDS, check=False, capture_output=True)
    return [f"not accepted: {shown(ended.stderr)}, status {ended.returncode}"] if ended.returncode or ended.stderr else []


def differences(program, run):
    """Runs the program, and returns what differs from what is wanted, a line for each."""
    unknown = set(run) - MEMBERS
    if "turns" in run:
        unknown |= set(run) & {"input", "input_from", "output", "output_to", "errors_to"}
    if unknown or "shows" not in run:
        return [f"no run: {', '.join(sorted(unknown)) or 'it does not say what it shows'}"]
    told = dict(run)
    with contextlib.ExitStack() as stack:
        how = {"stdout": subprocess.PIPE, "stderr": subprocess.PIPE}
        if "input_from" in run:
            how["stdin"] = opened(stack, run["input_from"], os.O_RDONLY)
        elif "turns" not in run:
            how["input"] = bytes_of(run.get("input", ""))
        for stream, to in (("stdout", "output_to"), ("stderr", "errors_to")):
            if to in run:
                how[stream] = opened(stack, run[to], os.O_WRONLY)
        folder = stack.enter_context(tempfile.TemporaryDirectory(prefix="run-program-"))
        shutil.copytree(f"{ROOT}/examples", folder, dirs_exist_ok=True)
        for name, value in run.get("files", {}).items():
            with open(f"{folder}/{name}", "wb") as file:
                file.write(bytes_of(value))
        words = [bytes_of(word) for word in run.get("words", [])]
        try:
            if "turns" in run:
                told["output"], ended = in_turns([program, *words], run["turns"], {"cwd": folder, **how})
            else:
                ended = subprocess.run([program, *words], cwd=folder, timeout=SECONDS, check=False, **how)
            lines = not_accepted(program, run["accepted"], folder, ended.stdout) if "accepted" in run else []
        except subprocess.TimeoutExpired:
            return [f"the program had not ended after {SECONDS} seconds"]
        except OSError as error:
            return [f"the program did not start: {error}"]
    found = [] if "output_to" in run else [("output", ended.stdout)]
    found += [] if "errors_to" in run else [("errors", ended.stderr)]
    for member, wrote in found:
        value = told.get(member, "")
        wanted = value if isinstance(value, bytes) else wrote if value is None else bytes_of(value)
        if wrote != wanted:
            lines += [f"{member} wanted: {shown(wanted)}", f"{member} found:  {shown(wrote)}"]
    if ended.returncode != run.get("status", 0):
        lines.append(f"status wanted: {run.get('status', 0)}, found: {ended.returncode}")
    return lines


def runs_of(name):
    """Returns the runs of a file, each with what it is called."""
    with open(f"{RUNS}/{name}.json", encoding="utf-8") as file:
        run = json.load(file)
    if not run.get("rows"):
        return [(name, run)]
    rows = run.pop("rows")
    return [(f"{name}, row {number}", {**run, **row}) for number, row in enumerate(rows, 1)]


def run_all(program, names=()):
    """Runs the program for each name, or for each run there is. Returns how many passed, and how many failed."""
    program = os.path.abspath(program)
    passed = failed = 0
    for name in names or sorted(file[:-5] for file in os.listdir(RUNS) if file.endswith(".json")):
        for called, run in runs_of(name):
            lines = differences(program, run)
            for line in [f"FAILED: {called}", *(f"  {line}" for line in lines)] if lines else []:
                print(line, flush=True)
            passed, failed = passed + (not lines), failed + bool(lines)
    return passed, failed


if __name__ == "__main__":
    counts = run_all(*sys.argv[1:2] or [PROGRAM], sys.argv[2:])
    print(f"{counts[0]} passed, {counts[1]} failed")
    sys.exit(1 if counts[1] or not counts[0] else 0)
