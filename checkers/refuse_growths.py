#!/usr/bin/env python3
"""Refuses each growth of memory in turn, to tests of crates/coll_tests and to the program, and to some runs each read and write.

usage: checkers/refuse_growths.py

A run is repeated with its first growth refused, then with its second, and so on, until none was left to be refused: that one has to
be as any other run. `refuse_growths.c` refuses them and tells when it does. It needs the gate's builds of the tests and of the program,
and the C compiler, `cc`.

A test counts the growths of the calls that it shows. Where one is refused it says so, sees that all stands as before, and makes the
call again; so it always passes. WRONG has two tests of what is wrong: each has to fail with some growth refused.

A refusal has to show, and shows in nothing else than what is said here. Two kinds of growths can be spared: a list that is made as
short as its members need keeps its room where that is refused, as the weights of an entry that has one and the lines of a block do;
and a list that is collected grows member by member where the room for all is refused, as the words of the command line do, a list
that each making of ranks needs, and the rows of a text that is looked up by itself. How many of these there are is stated.

The program counts its growths from the start of `main`. Each file tests/growths/NAME.json is a session, or a list of other runs
(`rows`); values, `words`, `input`, `output`, `errors` and `status` are those of run_program.py. At most one growth is refused, so
either the program ends with its fault 70, a line on standard error, before which it has written nothing, or of a batch a prefix of
its output; or else one request of a session has the reply `refused 70 OutOfMemory`. Of that, a session says for each of its
`requests`:

    lines     its lines, a value
    reply     its reply, a value; empty if left out
    behind    the replies of the requests behind it where this one has that reply, a value; left out where they stay as they are
    memory    false where it takes no memory, so that no run has that reply to it; true if left out

Each other request has to be refused in some run. `spared` is how many growths can be spared. With `subcommand` it is one of that, in place of
a session, and what stands on standard error isn't looked at.

A session, and a run that names a file as `source`, is repeated with each of its reads and writes refused as well. With a read refused
it ends with fault 67, and has written nothing, or, as a session, a prefix of its output; or one request of an edit, which reads a file,
has the reply `refused 67 ReadFault`. With a write refused it ends with fault 68, in line 0 of this file, which is `-` where standard
input is meant, as in a session, and has written a prefix of its output; or, where standard error was refused, as any other run.

The last line is 'N passed, M failed', and the one before it counts the growths, reads and writes.
"""

import collections
import concurrent.futures
import itertools
import json
import os
import re
import subprocess
import sys
import tempfile

from run_program import PROGRAM, ROOT, bytes_of, shown

TESTS = f"{ROOT}/crates/coll_tests/out/coll_tests_tests"
GROWTHS = f"{ROOT}/tests/growths"
SECONDS = 60
SAID = b"a growth was refused\n"
REFUSED = b"refused 70 OutOfMemory\n"
UNREAD_REPLY = b"refused 67 ReadFault\n"
FAULT = re.compile(rb"(-|[^:]+\.txt):(\d+): 70 OutOfMemory\n")
UNREAD = re.compile(rb"(-|[^:]+\.txt):0: 67 ReadFault\n")
# The same behind whatever a session has told before it.
UNREAD_LAST = re.compile(rb"^(-|[^:\n]+\.txt):\d+: 67 ReadFault\n\Z", re.MULTILINE)
UNWRITTEN = b"-:0: 68 WriteFault\n"
# Each test, and how many of its growths can be spared.
SPARED = {
    "growths::a_table_is_loaded_with_no_growth_refused": 5,
    "keys::a_comparison_at_a_backward_level_takes_memory": 0,
    "keys::a_comparison_at_forward_levels_takes_no_memory": 0,
    "keys::keys_and_orders_are_those_of_the_weights": 1,
    "ordered_rings::a_copy_and_its_source_change_apart": 0,
    "ordered_rings::a_node_goes_behind_another_and_into_another_ring": 0,
    "sessions::histories::a_statement_is_judged_as_it_is_answered": 0,
    "texts::texts_that_are_looked_up_have_the_keys_by_ranks": 16,
}
TAKES_NO_MEMORY = "keys::a_comparison_at_forward_levels_takes_no_memory"
# Each test of what is wrong, and what it complains of.
WRONG = {
    "sessions::histories::a_session_may_grow_by_an_undo": b"an undo: Err(Table(OutOfMemory)) in place of Ok(0)",
    "sessions::histories::a_session_may_lose_what_was_taken_back": b"what is written: ",
}

# How a run ended, and whether something was refused to it.
Run = collections.namedtuple("Run", "refused status output errors")


class Failed(Exception):
    """Why a run was not as it should be."""


class Shim:
    """Runs programs with one growth, read or write refused."""

    def __init__(self, room):
        self.library = f"{room}/refuse_growths.so"
        compiler = ["cc", "-O1", "-shared", "-fPIC", "-o", self.library, f"{ROOT}/checkers/refuse_growths.c"]
        subprocess.run(compiler, check=True)

    def run(self, words, number, counts, given=b"", refuses="growths"):
        """Runs a program in the folder of the examples, with the growth, read or write of this number refused, if it comes so far."""
        reads, tells = os.pipe()
        try:
            told = {"LD_PRELOAD": self.library, "REFUSES": refuses, "NUMBER": str(number), "TELLS": str(tells), "COUNTS": counts}
            how = {"input": given, "capture_output": True, "timeout": SECONDS, "cwd": f"{ROOT}/examples"}
            ran = subprocess.run(words, env=told, pass_fds=[tells], check=False, **how)
        finally:
            os.close(tells)
            with os.fdopen(reads, "rb") as file:
                refused = file.read() != b""
        return Run(refused, ran.returncode, ran.stdout, ran.stderr)

    def each(self, words, counts, judge, spared, given=b"", refuses="growths"):
        """Runs a program with each growth, read or write refused in turn, and has each run judged, which tells whether the refusal
        shows in it. It has to, but for the growths that can be spared. Returns how many were refused."""
        for number in itertools.count(1):
            ran = self.run(words, number, counts, given, refuses)
            try:
                shows = judge(ran)
            except Failed as why:
                raise Failed(f"with number {number} of the {refuses} refused: {why}") from why
            if not ran.refused:
                break
            spared -= not shows
        if spared:
            raise Failed(f"{abs(spared)} {'more' if spared < 0 else 'fewer'} growths than stated could be spared")
        return number - 1


def judge_test(ran):
    """Judges a test, which has to pass. Returns whether it said that a growth was refused."""
    if ran.status or ran.errors:
        raise Failed(f"status {ran.status}, {shown(ran.errors)}")
    if ran.output.count(SAID) > ran.refused:
        raise Failed(f"it said {ran.output.count(SAID)} times that a growth was refused")
    return SAID in ran.output


def refuse_to_test(shim, name):
    """Refuses each growth to a test. Returns how many were refused."""
    refused = shim.each([TESTS, name], "between", judge_test, SPARED[name])
    if bool(refused) == (name == TAKES_NO_MEMORY):
        raise Failed(f"{refused} growths were refused")
    return refused


def refuse_to_wrong(shim, name):
    """Sees that a test of what is wrong fails as it should with some growth refused. Returns how many were refused until then."""
    for growth in itertools.count(1):
        ran = shim.run([TESTS, name], growth, "between")
        if ran.refused and ran.status and WRONG[name] in ran.errors:
            return growth
        try:
            judge_test(ran)
        except Failed as why:
            raise Failed(f"with growth {growth} refused: {why}") from why
        if not ran.refused:
            raise Failed("no growth that was refused has shown what is wrong")


def is_told(ran, table):
    """Returns whether the program ended with lack of memory, and with nothing but a prefix of its output before."""
    fault = FAULT.fullmatch(ran.errors)
    if not ran.refused or ran.status != 1 or not fault:
        return False
    return not ran.output or (fault[1] == table and fault[2] == b"0")


def wrong(ran):
    """Returns why a run of the program is none that is stated."""
    return Failed(f"status {ran.status}, {shown(ran.output)}, {shown(ran.errors)}")


def refuse_to_batch(shim, batch):
    """Refuses each growth to a run that answers once. Returns how many were refused."""
    output, table, errors = bytes_of(batch["output"]), batch["words"][1].encode(), bytes_of(batch.get("errors", ""))
    whole = (batch.get("status", 0), output, errors)

    def judge(ran):
        is_whole = ran[1:] == whole
        if not (is_whole or (output.startswith(ran.output) and is_told(ran, table))):
            raise wrong(ran)
        return not is_whole

    return shim.each([PROGRAM, *batch["words"]], "program", judge, batch["spared"], bytes_of(batch.get("input", "")))


def refuse_to_devices(shim, batch):
    """Refuses each read and each write to a run that answers once. Returns how many were refused."""
    output, errors = bytes_of(batch["output"]), bytes_of(batch.get("errors", ""))
    unwritten = f"{batch['source']}:0: 68 WriteFault\n".encode()
    status = batch.get("status", 0)

    def judge_read(ran):
        is_told = ran.status == 2 and not ran.output and UNREAD.fullmatch(ran.errors)
        if not (is_told if ran.refused else ran[1:] == (status, output, errors)):
            raise wrong(ran)
        return True

    def judge_write(ran):
        is_told = ran.status == 2 and output.startswith(ran.output) and ran.errors == unwritten
        is_whole = ran.status == status and ran.output == output and (ran.refused or ran.errors == errors)
        if not (is_whole or ran.refused and is_told):
            raise wrong(ran)
        return True

    return reads_and_writes(shim, batch["words"], bytes_of(batch.get("input", "")), judge_read, judge_write)


def reads_and_writes(shim, words, given, judge_read, judge_write):
    """Refuses each read and each write to a run of the program. Returns how many were refused."""
    reads = shim.each([PROGRAM, *words], "program", judge_read, 0, given, refuses="reads")
    writes = shim.each([PROGRAM, *words], "program", judge_write, 0, given, refuses="writes")
    if not (reads and writes):
        raise Failed(f"{reads} reads and {writes} writes were refused")
    return reads + writes


def outputs_of(requests, refusal=REFUSED):
    """Returns the output of a session, and for each of its requests the one in which its reply is this refusal."""
    replies = [bytes_of(request.get("reply", "")) for request in requests]
    refused = []
    for at, request in enumerate(requests):
        behind = bytes_of(request["behind"]) if "behind" in request else b"".join(replies[at + 1 :])
        refused.append(b"".join(replies[:at]) + refusal + behind)
    return b"".join(replies), refused


def words_of(session):
    """Returns the words of a session, and its lines."""
    words = [session.get("subcommand", "session"), session["table"]]
    return words, b"".join(bytes_of(request["lines"]) for request in session["requests"])


def refuse_to_served(shim, session):
    """Refuses each read and each write to a session. Returns how many were refused."""
    output, unread = outputs_of(session["requests"], UNREAD_REPLY)
    tells = "subcommand" in session

    def is_whole(ran):
        return not ran.status and ran.output == output and (tells or not ran.errors)

    def is_answered(ran):
        return tells and not ran.status and ran.output in unread

    def ends_by(ran, is_told):
        return ran.status == 2 and output.startswith(ran.output) and is_told

    def judge_read(ran):
        is_told = is_answered(ran) or ends_by(ran, UNREAD_LAST.search(ran.errors))
        if not (is_told if ran.refused else is_whole(ran)):
            raise wrong(ran)
        return True

    def judge_write(ran):
        if not (is_whole(ran) or ran.refused and ends_by(ran, ran.errors.endswith(UNWRITTEN))):
            raise wrong(ran)
        return True

    return reads_and_writes(shim, *words_of(session), judge_read, judge_write)


def refuse_to_session(shim, session):
    """Refuses each growth to a session. Returns how many were refused."""
    words, lines = words_of(session)
    output, refused = outputs_of(session["requests"])
    outputs = [one for one, request in zip(refused, session["requests"]) if request.get("memory", True)]
    unseen, tells = set(outputs), "subcommand" in session

    def judge(ran):
        is_quiet = not ran.status and (tells or not ran.errors)
        is_whole = ran.output == output and is_quiet
        is_refused = ran.refused and ran.output in outputs and is_quiet
        if not (is_whole or is_refused or (is_told(ran, b"") and not ran.output)):
            raise wrong(ran)
        unseen.discard(ran.output)
        return not is_whole

    growths = shim.each([PROGRAM, *words], "program", judge, session["spared"], lines)
    if unseen:
        raise Failed(f"no run has {shown(min(unseen))}")
    return growths


def all_runs():
    """Returns what growths are refused to, each with what it is called, and with what refuses them."""
    runs = [(name, refuse_to_test, name) for name in SPARED]
    runs += [(name, refuse_to_wrong, name) for name in WRONG]
    for file in sorted(os.listdir(GROWTHS)):
        with open(f"{GROWTHS}/{file}", encoding="utf-8") as text:
            found = json.load(text)
        if "requests" in found:
            runs.append((file, refuse_to_session, found))
            runs.append((f"{file}, reads and writes", refuse_to_served, found))
        for row in found.get("rows", []):
            name = f"{file}, {' '.join(row['words'])}"
            runs.append((name, refuse_to_batch, row))
            if "source" in row:
                runs.append((f"{name}, reads and writes", refuse_to_devices, row))
    return runs


def run_all():
    """Refuses each growth of each run in turn. Returns how many runs are as stated, and how many are not."""
    runs, growths, failed = all_runs(), 0, 0
    with tempfile.TemporaryDirectory() as room, concurrent.futures.ThreadPoolExecutor(os.cpu_count()) as lanes:
        try:
            shim = Shim(room)
        except (OSError, subprocess.SubprocessError) as error:
            print(f"FAILED: growths were not refused: {error}", flush=True)
            return 0, len(runs)
        started = [lanes.submit(refuse, shim, run) for _, refuse, run in runs]
        for (name, _, _), ended in zip(runs, started):
            try:
                growths += ended.result()
            except (Failed, OSError, subprocess.SubprocessError) as why:
                print(f"FAILED: {name}: {why}", flush=True)
                failed += 1
    print(f"{growths} growths, reads and writes refused in {len(runs)} runs", flush=True)
    return len(runs) - failed, failed


if __name__ == "__main__":
    passed, failed = run_all()
    print(f"{passed} passed, {failed} failed")
    sys.exit(1 if failed else 0)
