"""Which functions of a crate an edit changes, and what a check says of each: so that edits of different functions are tried together.

A contract is all that the proof of one function sees of another one. So a body that is changed turns the verdict of its own
function alone, and one check judges as many edits as change functions of different names or modules.
"""

import difflib
import re

from edits import applied

# The first line of a function, as `rt fmt` lays it out.
HEAD = re.compile(r"( *)(?:pub(?:\([a-z ]+\))? )?(?:const |unsafe )*fn (\w+)")
# What is told of a function, and whether its own goals are proved: one that calls what is not proved may be left without a proof.
VERDICT = re.compile(r"^fn (\S+): (proved$|no proof: it calls )?", re.M)
UNPROVED = re.compile(r"^note: (\S+?):(\d+):\d+: it is not proved", re.M)
# An error as the prover writes one: its file, its line, the function that it stands in, and its text.
ERROR = re.compile(r"^(?:\./)?(\S+?):(\d+):\d+: error: (`[^`]*`: )?(.*)", re.M)
# An error of a proof file that names what the edit took away: where there is no other, the edit says little of the contract.
BY_NAME = re.compile(r"has no field|is not in scope|has no `|was not admitted|can be named from here")


def function_at(lines, index):
    """Returns the name of the function in whose body a line stands, or None."""
    for head in range(index, -1, -1):
        found = HEAD.match(lines[head])
        if found and head + 1 < len(lines):
            end = next((at for at in range(head, len(lines)) if lines[at] == found[1] + "}"), head)
            opened = (at for at in range(head, end) if lines[at] == found[1] + "{" or (at == head and lines[at].endswith("{")))
            body = next(opened, end)
            return found[2] if body <= index <= end else None
    return None


def functions_of(edit, folder):
    """Returns the functions whose bodies an edit changes, each as its file and its name; or None where it changes other things."""
    found = set()
    for path, text in applied(edit, folder).items():
        with open(f"{folder}/{path}", encoding="utf-8") as file:
            old = file.read().split("\n")
        if not path.startswith("src/") or path in ("src/lib.rt", "src/main.rt"):
            return None
        steps = difflib.SequenceMatcher(None, old, text.split("\n"), autojunk=False).get_opcodes()
        changed = [at for kind, first, last, *_ in steps if kind != "equal" for at in range(first, max(last, first + 1))]
        found |= {(path, function_at(old, at)) for at in changed}
    return None if not found or any(name is None for _, name in found) else found


def batches(edits, folder, most):
    """Returns edits of a crate in lists of at most so many, in each of which no function is changed twice.

    An edit that changes more than bodies of functions is alone in its list.
    """
    made, alone = [], []
    for edit in edits:
        changed = functions_of(edit, folder)
        if changed is None:
            alone.append([edit])
            continue
        room = next((it for it in made if len(it[0]) < most and not it[1] & changed), None)
        if room is None:
            room = ([], set())
            made.append(room)
        room[0].append(edit)
        room[1].update(changed)
    return [it for it, _ in made] + alone


def verdicts(told, texts):
    """Returns what a check told of each function that it judged, by its file and name: "proved", "refused", or "by name".

    `texts` are the files that were changed, as they were checked. None where an error stands in no function's body or proof.
    """
    lines = {path: texts[path].split("\n") for path in sorted(texts, key=lambda it: -it.count("/"))}
    found, by_name, others = {}, set(), set()
    for name, proved in VERDICT.findall(told):
        _, *modules, function = name.split("::")
        path = file_of(modules, function, lines)
        if path is None and not proved:
            return None
        if path and found.get((path, function)) != "refused":
            found[path, function] = "proved" if proved else "refused"
    for path, line, _, text in ERROR.findall(told):
        key = function_of(path, int(line), lines)
        if key is None:
            return None
        (by_name if path.startswith("proofs/") and BY_NAME.search(text) else others).add(key)
    others |= {function_of(path, int(line), lines) for path, line in UNPROVED.findall(told)}
    return {key: "by name" if it == "refused" and key in by_name - others else it for key, it in found.items()}


def function_of(path, line, lines):
    """Returns the function that a line of a file belongs to, as its file and its name, or None."""
    if path in lines and 0 < line <= len(lines[path]):
        name = function_at(lines[path], line - 1) or head_at(lines[path], line - 1)
        return name and (path, name)
    top, *modules, function, _ = path.split("/") if path.count("/") > 1 else [None] * 3
    found = top == "proofs" and file_of(modules, function, lines)
    return (found, function) if found else None


def file_of(modules, function, lines):
    """Returns the file that has a function, which the prover names by its module, or by its type and the module of that, or None."""
    for path in lines if modules else ():
        own = path[len("src/") : -len(".rt")].split("/")
        if own == modules[: len(own)] or own[: len(modules) - 1] == modules[:-1]:
            if any(found and found[2] == function for found in map(HEAD.match, lines[path])):
                return path
    return None


def head_at(lines, index):
    """Returns the name of the function whose head, with its contract, a line is part of, or None."""
    for head in range(index, -1, -1):
        found = HEAD.match(lines[head])
        if found:
            return found[2]
        if lines[head] in ("", "}", "    }"):
            return None
    return None
