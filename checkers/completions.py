#!/usr/bin/env python3
"""Completes command lines by the functions of share/ for bash and zsh, and compares with what the program's help says.

usage: checkers/completions.py [PROGRAM]

PROGRAM is crates/collbench/out/collbench where none is given. From its help come the subcommands with their sentences, and the
operands of each with what is said of them. Then each shell that is installed completes command lines up to one operand more than a
subcommand takes: there have to be all files where a TABLE, a DELTA, WORDS or a SOURCE stands, those alone that begin as the word does,
and nothing where a text or a name does. `help` takes one subcommand. Options are there for a word that begins with `-`, but neither
where a text stands, nor behind it, nor for `help`. In bash the function is called with COMP_WORDS set, and gives COMPREPLY. zsh
completes each line in its line editor, under a pseudo-terminal, where the matches are noted as they are added, with what is told of
them: of an operand what help says of it, and of each subcommand its sentence. A shell that is left out is said.

The last line is 'N passed, M failed', where a run is one command line in one shell.
"""

import collections
import fcntl
import os
import pty
import re
import select
import shlex
import shutil
import struct
import subprocess
import sys
import tempfile
import termios

from man_pages import Unread, has_terminal, helped, listed
from run_program import PROGRAM, ROOT

BASH = f"{ROOT}/share/bash-completion/completions/collbench"
ZSH = f"{ROOT}/share/zsh/site-functions"
SECONDS = 60
FILES = ["base.txt", "two words.txt", "words.txt"]
OPTIONS = ["--help", "-h"]
# The operands that are files, and those with which options end. All others are names, of which nothing is known.
OF_FILES = {"TABLE", "DELTA", "WORDS", "SOURCE"}
WITHOUT_OPTIONS = {"TEXT", "A", "B", "COMMAND"}
FIELD, RECORD = "\x1f", "\x1e"
# A line that is completed: its words behind the program, of which the last is completed; to which words; and what zsh tells of these, or
# None where that is not compared.
Line = collections.namedtuple("Line", "words wanted told")

# Calls the function for bash with some words.
BASH_DRIVER = f"""
source {shlex.quote(BASH)} && [[ $(complete -p collbench) == 'complete -F _collbench collbench' ]] || exit 1
try() {{
    COMP_WORDS=("$@") COMP_CWORD=$(($# - 1)) COMPREPLY=()
    _collbench
    printf '%s{FIELD}' "${{COMPREPLY[@]}}"
    printf '{RECORD}'
}}
"""
# Completes each line of a file as soon as zsh reads one, and ends. `compadd` is what each function calls at last to add matches; with -O,
# -A or -D it adds none. It is given what is told of them behind -X or -x, and the name of an array of what is shown behind -d.
ZSH_DRIVER = f"""
fpath=({shlex.quote(ZSH)} $fpath)
autoload -Uz compinit && compinit -D -u
zstyle ':completion:*' format %d
compadd() {{
  if [[ " ${{(j: :)@[1,(i)(-|--)]}} " == *' -'[OAD]' '* ]]; then
    builtin compadd "$@"
    return
  fi
  local -a __hits
  local __at
  for __at in -x -X; do
    (( ${{@[(I)$__at]}} )) && __told=${{@[${{@[(i)$__at]}}+1]}}
  done
  (( ${{@[(I)-d]}} )) && __shown+=("${{(@P)${{@[${{@[(i)-d]}}+1]}}}}")
  builtin compadd -A __hits "$@"
  __matches+=("${{(@Q)__hits}}")
  builtin compadd "$@"
}}
zle-line-init() {{
  local __told
  local -a __matches __shown
  for BUFFER in "${{(@f)$(< $ZDOTDIR/lines)}}"; do
    CURSOR=$#BUFFER __told= __matches=() __shown=()
    zle list-choices
    print -rn -- "$__told{RECORD}${{(pj:{FIELD}:)__shown}}{RECORD}${{(pj:{FIELD}:)__matches}}{RECORD}" >> $ZDOTDIR/matches
  done
  BUFFER=exit
  zle accept-line
}}
zle -N zle-line-init
"""


def commands_of(program):
    """Returns the subcommands, each with its sentence."""
    commands = listed(helped(program), "Commands:")
    if not commands:
        raise Unread("the help has no subcommands")
    return commands


def operands_of(program, name):
    """Returns the operands of a subcommand, each a triple of its name, what help says of it, and whether more of them may stand."""
    arguments = listed(helped(program, name), "Arguments:")
    return [(re.sub(r"\W", "", operand), said, operand.endswith("...")) for operand, said in arguments]


def wanted_at(operands, place, names):
    """Returns what is to stand at a place behind a subcommand, and what is told of it; nothing behind the last operand."""
    if place >= len(operands) and not (operands and operands[-1][2]):
        return [], None
    operand, said, _ = operands[min(place, len(operands) - 1)]
    if operand == "COMMAND":
        return (names if place == 0 else []), None
    return (FILES if operand in OF_FILES else []), said


def lines_of(program):
    """Returns the lines that both shells complete."""
    names = [name for name, _ in commands_of(program)]
    lines = [Line([word], [name for name in names if name.startswith(word)], None) for word in ("", "che", "im", "none")]
    lines.append(Line(["-"], OPTIONS, None))
    for name in names:
        operands = operands_of(program, name)
        for place in range(len(operands) + 1):
            wanted, told = wanted_at(operands, place, names)
            before = [name, *FILES[:1] * place]
            lines.append(Line([*before, ""], wanted, told))
            lines.append(Line([*before, "w"], [word for word in wanted if word.startswith("w")], None))
            ended = WITHOUT_OPTIONS & {operand for operand, *_ in operands[: place + 1]}
            lines.append(Line([*before, "-"], [] if ended else OPTIONS, None))
    return lines


def redirected():
    """Returns lines that redirect to a file, which zsh completes by itself."""
    before = (["sort", "base.txt", "<"], ["key", "base.txt", "a", ">"], ["import", "2>"])
    return [Line([*words, "w"], ["words.txt"], None) for words in before]


def completed_by_bash(lines, folder):
    """Returns to which words bash completes each line."""
    calls = "".join(f"try collbench {' '.join(map(shlex.quote, line.words))}\n" for line in lines)
    how = {"cwd": folder, "stdin": subprocess.DEVNULL, "capture_output": True, "timeout": SECONDS, "check": False}
    ran = subprocess.run(["bash", "--norc", "--noprofile", "-c", BASH_DRIVER + calls], encoding="utf-8", **how)
    if ran.returncode or ran.stderr:
        raise Unread(f"bash ended with status {ran.returncode}: {ran.stderr}")
    return [[word for word in record.split(FIELD) if word] for record in ran.stdout.split(RECORD)[:-1]]


def drained(screen):
    """Reads what a shell writes to a terminal, up to its end, or until it has been silent for too long."""
    shown = b""
    while select.select([screen], [], [], SECONDS)[0]:
        try:
            more = os.read(screen, 65536)
        except OSError:
            return shown
        if not more:
            return shown
        shown += more
    raise Unread(f"zsh has not ended: {shown[-400:]!r}")


def under_terminal(words, **how):
    """Runs a shell under a terminal that is wide enough for each line of what it shows, and returns what it wrote."""
    screen, terminal = pty.openpty()
    fcntl.ioctl(terminal, termios.TIOCSWINSZ, struct.pack("HHHH", 100, 400, 0, 0))
    shell = subprocess.Popen(words, stdin=terminal, stdout=terminal, stderr=terminal, start_new_session=True, **how)
    os.close(terminal)
    try:
        return drained(screen)
    finally:
        shell.kill()
        shell.wait()
        os.close(screen)


def completed_by_zsh(lines, folder):
    """Returns for each line what zsh tells, what it shows of words, and to which words it completes the line."""
    with tempfile.TemporaryDirectory(prefix="completions-") as room:
        for name, text in ((".zshrc", ZSH_DRIVER), ("lines", "".join(f"collbench {' '.join(line.words)}\n" for line in lines))):
            with open(f"{room}/{name}", "w", encoding="utf-8") as file:
                file.write(text)
        wrote = under_terminal(["zsh", "-d", "-i"], cwd=folder, env={**os.environ, "ZDOTDIR": room, "TERM": "dumb", "LC_ALL": "C"})
        try:
            with open(f"{room}/matches", encoding="utf-8") as file:
                records = file.read().split(RECORD)[:-1]
        except OSError as error:
            raise Unread(f"zsh has completed nothing: {wrote[-400:]!r}") from error
    return [(told, shown.split(FIELD), [word for word in words.split(FIELD) if word]) for told, shown, words in zip(*[iter(records)] * 3)]


def looks_at_bash(lines, folder):
    """Compares what bash completes lines to with what is wanted: pairs of a line and what differs."""
    lines = [*lines, *redirected()]
    for line, words in zip(lines, completed_by_bash(lines, folder), strict=True):
        yield line, "" if sorted(words) == sorted(line.wanted) else f"{words}"


def looks_at_zsh(lines, folder, sentences):
    """Does the same by zsh, which offers options where nothing else is to be had."""
    for line, (told, shown, words) in zip(lines, completed_by_zsh(lines, folder), strict=True):
        if not line.wanted and not line.words[-1]:
            words = [word for word in words if word not in OPTIONS]
        if sorted(words) != sorted(line.wanted):
            yield line, f"{words}"
        elif line.told and told != line.told:
            yield line, f"{told!r}, and not {line.told!r}, is told"
        elif line.words == [""] and sorted(map(str.split, shown)) != sorted(f"{name} -- {said}".split() for name, said in sentences):
            yield line, f"{shown} are shown"
        else:
            yield line, ""


def all_looks(program, folder):
    """Compares both shells, where they are installed."""
    lines, sentences = lines_of(program), commands_of(program)
    if shutil.which("bash"):
        yield from (("bash", line, why) for line, why in looks_at_bash(lines, folder))
    else:
        print("bash is not installed: its completion was not tried", flush=True)
    if not shutil.which("zsh"):
        print("zsh is not installed: its completion was not tried", flush=True)
    elif has_terminal("the completion for zsh was not tried"):
        yield from (("zsh", line, why) for line, why in looks_at_zsh(lines, folder, sentences))


def run_all(program):
    """Completes all lines. Returns how many passed, and how many failed."""
    passed = failed = 0
    with tempfile.TemporaryDirectory(prefix="completions-") as folder:
        for name in FILES:
            with open(f"{folder}/{name}", "w", encoding="utf-8"):
                pass
        try:
            for shell, line, why in all_looks(os.path.abspath(program), folder):
                passed, failed = passed + (not why), failed + bool(why)
                if why:
                    print(f"FAILED: {shell}: {' '.join(line.words)!r}: {why}; wanted {line.wanted}", flush=True)
        except (Unread, OSError, ValueError, subprocess.SubprocessError) as why:
            print(f"FAILED: {why}", flush=True)
            failed += 1
    return passed, failed


if __name__ == "__main__":
    counts = run_all(sys.argv[1] if len(sys.argv) > 1 else PROGRAM)
    print(f"{counts[0]} passed, {counts[1]} failed")
    sys.exit(1 if counts[1] else 0)
