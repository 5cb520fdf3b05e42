#!/usr/bin/env python3
"""Opens tables and delta files in Vim, and compares how it colours them with the grammar of docs/LANGUAGE.md.

usage: checkers/vim_syntax.py

Vim runs without a terminal, with share/vim/vimfiles and nothing of the user's. In the texts below each `{Group}` says what all
characters up to the next one are, and `{}` that they are nothing; without these marks two of them are files of the examples, which is
compared too. The names of groups have no `collbench` before them. Tables and delta files of the examples, and no others, are known by
what stands in them, as is a text on standard input. Where Vim isn't installed, or has no syntax, nothing is tried, and that is said.

The last line is 'N passed, M failed', where a run is one line, or one file that is known or not.
"""

import os
import re
import shutil
import subprocess
import sys
import tempfile

from run_program import ROOT

VIMFILES = f"{ROOT}/share/vim/vimfiles"
SECONDS = 60
BASE = """{Directive}comment_char %
{Directive}escape_char /
{Category}LC_COLLATE
{Statement}collating-symbol{} {Symbol}<BASE>
{Statement}collating-symbol{} {Symbol}<MIN>
{Statement}collating-symbol{} {Symbol}<CAP>
{Statement}order_start{} {Rule}forward{};{Rule}backward{};{Rule}forward{};{Rule}forward{},{Rule}position
{Symbol}<BASE>
{Symbol}<MIN>
{Symbol}<CAP>
{CodePoint}<U0061>{} {CodePoint}<U0061>{};{Symbol}<BASE>{};{Symbol}<MIN>{};{Ignore}IGNORE
{CodePoint}<U0041>{} {CodePoint}<U0061>{};{Symbol}<BASE>{};{Symbol}<CAP>{};{Ignore}IGNORE
{CodePoint}<U0062>{} {CodePoint}<U0062>{};{Symbol}<BASE>{};{Symbol}<MIN>{};{Ignore}IGNORE
{CodePoint}<U0063>{} {CodePoint}<U0063>{};{Symbol}<BASE>{};{Symbol}<MIN>{};{Ignore}IGNORE
{CodePoint}<U0064>{} {CodePoint}<U0064>{};{Symbol}<BASE>{};{Symbol}<MIN>{};{Ignore}IGNORE
{Statement}section{} {Symbol}<PUNCT>
{CodePoint}<U002D>{} {Ignore}IGNORE{};{Ignore}IGNORE{};{Ignore}IGNORE{};{CodePoint}<U002D>
{Statement}order_end
{Category}END LC_COLLATE
"""
DELTA = """{Directive}escape_char /
{Directive}comment_char %
{Category}LC_COLLATE
{Statement}reorder-after{} {CodePoint}<U0061>
{CodePoint}<U0063>
{Statement}reorder-end
{Category}END LC_COLLATE
"""
# What the grammar says of escapes, strings, comments and words, with the characters that directives choose.
CHOSEN = """{PassedOver}% what stands before the category
{Directive}comment_char %{PassedOver} isn't looked at
{Directive} escape_char /
{Category}LC_COLLATE{} {Comment}% a comment
{Statement}collating-element{} {Symbol}<ch>{} {Statement}from{} {String}"c{CodePoint}<U0068>{String}"
a {String}"IGNORE"{};{Ignore}IGNORE{};{String}"{Symbol}<a/>b>{String}c{Escape}/"{String}d"{} {Comment}% a string of six characters
b{Symbol}<c>{};{String}"x % y"{};d{Comment}%e
b {Ignore}IGNORE{Comment}%e
{Directive}escape_char /{PassedOver} isn't looked at
{Escape}/%{} {Constant}/d{}065 {Symbol}<//U0041>{} {CodePoint}</U0041>{} {Undefined}UNDEFINED{};
{Symbol}<sym/
{Symbol}bol>{} a;b
c {String}"a string{Escape}/
{String}goes on"{} {Symbol}<X>
{Statement}section{} {Open}<a %
reorder-afterwards IGNORED order_start_ # \\x
{CodePoint}<U0001F600>{} {Symbol}<U12>{} {Symbol}<UBASE>
{Category}END LC_COLLATE
{Rest}LC_TIME
{Rest}"x" <U0061>
"""
# The characters with which a text begins, and what only imports read.
SOURCE = """{Category}LC_COLLATE
{Comment}# a comment
{Condition}ifdef{} LETTERS
{Statement}copy{} {String}"source_letters.txt"
{Condition}endif
{Statement}collating-symbol{} {Symbol}<S0061>{Range}..{Symbol}<S0063>
{Range}..{} {CodePoint}<U0061>{};{Range}..
% {Symbol}<a\\>b>{} {Escape}\\#{} {Constant}\\0{} /
{Statement}reorder-sections-after{} {Symbol}<A>
{Statement}reorder-sections-end
{Category}END LC_COLLATE
"""
TEXTS = {"base.txt": BASE, "c_behind_a.txt": DELTA, "chosen.txt": CHOSEN, "published.txt": SOURCE}
# Examples that are no tables or delta files, and texts that have the word without being one.
OTHERS = {
    "README.md": None,
    "first_session.txt": None,
    "words.txt": None,
    "prose.txt": "A text in which LC_COLLATE stands\nLC_COLLATE\n",
    "later.txt": "# a locale\nLC_IDENTIFICATION\nEND LC_IDENTIFICATION\nLC_COLLATE\nEND LC_COLLATE\n",
    "words_behind.txt": "LC_COLLATE is a category\n",
    "tool.py": "# a comment\nLC_COLLATE\n",
    "empty.txt": "",
}
# Writes for each file that is edited its type, and its lines with marks.
SCRIPT = """set nocompatible encoding=utf-8
set runtimepath^=$VIMFILES
filetype on
syntax on
let g:told = []
function! Marked(number) abort
  let [l:marked, l:last] = ['', '']
  for l:column in range(1, col([a:number, '$']) - 1)
    let l:group = substitute(synIDattr(synID(a:number, l:column, 1), 'name'), '^collbench', '', '')
    let l:marked .= (l:group ==# l:last ? '' : '{' . l:group . '}') . getline(a:number)[l:column - 1]
    let l:last = l:group
  endfor
  return l:marked
endfunction
for g:name in readfile('names')
  execute 'edit' g:name
  call add(g:told, &filetype . ' ' . line('$'))
  call extend(g:told, map(range(1, line('$')), 'Marked(v:val)'))
endfor
call writefile(add(g:told, v:errmsg), 'told')
qall!
"""


def has_syntax():
    """Whether there is a Vim that colours; where there is none, that is said."""
    if shutil.which("vim"):
        version = subprocess.run(["vim", "--version"], stdin=subprocess.DEVNULL, capture_output=True, timeout=SECONDS, check=False).stdout
        if b"+syntax" in version and b"+eval" in version:
            return True
    print("no Vim with syntax is installed: no text was coloured", flush=True)
    return False


def text_behind(marked):
    """Returns a text without its marks."""
    return re.sub(r"\{\w*\}", "", marked)


def same_marks(marked):
    """Returns a line with only those marks that change something."""
    out, last = "", ""
    for group, text in re.findall(r"(?:\{(\w*)\}|^)([^{]*)", marked):
        out, last = out + (f"{{{group}}}" if group != last and text else "") + text, group if text else last
    return out


def told_by_vim(names, folder):
    """Returns the type and the marked lines of each file, as Vim tells them."""
    for name, text in (("names", "".join(f"{name}\n" for name in names)), ("script.vim", SCRIPT)):
        with open(f"{folder}/{name}", "w", encoding="utf-8") as file:
            file.write(text)
    words = ["vim", "-es", "-u", "NONE", "-i", "NONE", "-n", "-S", "script.vim"]
    environment = {**os.environ, "VIMFILES": VIMFILES, "LC_ALL": "C", "TERM": "dumb"}
    how = {"cwd": folder, "env": environment, "stdin": subprocess.DEVNULL, "capture_output": True, "timeout": SECONDS, "check": False}
    ran = subprocess.run(words, encoding="utf-8", errors="replace", **how)
    with open(f"{folder}/told", encoding="utf-8") as file:
        lines = file.read().splitlines()
    if ran.stderr or lines[-1:] != [""]:
        raise OSError(f"Vim says: {ran.stderr} {lines[-1:]}")
    found = {}
    for name in names:
        kind, _, count = lines.pop(0).rpartition(" ")
        found[name] = kind, [lines.pop(0) for _ in range(int(count))]
    return found


def written(folder):
    """Writes all texts into a folder with the examples, and returns the names of those that have to be known, and of the others."""
    for name, text in [*((name, text_behind(text)) for name, text in TEXTS.items()), *OTHERS.items()]:
        if text is not None and name not in os.listdir(f"{ROOT}/examples"):
            with open(f"{folder}/{name}", "w", encoding="utf-8") as file:
                file.write(text)
    examples = {entry.name for entry in os.scandir(f"{ROOT}/examples") if entry.is_file()}
    return sorted({*TEXTS, *examples} - set(OTHERS)), list(OTHERS)


def from_standard_input(text, folder):
    """Returns the type of a text that Vim reads from standard input."""
    words = ["vim", "-N", "-u", "NONE", "-i", "NONE", "-n", "--not-a-term", "-T", "dumb"]
    words += ["--cmd", "set runtimepath^=$VIMFILES | filetype on", "-c", "call writefile([&filetype], 'told')", "-c", "qall!", "-"]
    environment = {**os.environ, "VIMFILES": VIMFILES, "LC_ALL": "C", "TERM": "dumb"}
    subprocess.run(words, cwd=folder, env=environment, input=text.encode(), capture_output=True, timeout=SECONDS, check=False)
    with open(f"{folder}/told", encoding="utf-8") as file:
        return file.read().strip()


def all_looks(folder):
    """Everything that is compared: what was looked at, what was found, and what was wanted."""
    known, others = written(folder)
    found = told_by_vim([*known, *others], folder)
    for name in known:
        yield f"the type of {name}", found[name][0], "collbench"
    for name in others:
        yield f"whether {name} is a table", found[name][0] == "collbench", False
    yield "the type of standard input", from_standard_input(text_behind(BASE), folder), "collbench"
    for name in ("base.txt", "c_behind_a.txt"):
        with open(f"{folder}/{name}", encoding="utf-8") as file:
            yield f"{name} without marks", text_behind(TEXTS[name]), file.read()
    for name, text in TEXTS.items():
        for number, (line, wanted) in enumerate(zip(found[name][1], text.splitlines(), strict=True), 1):
            yield f"{name}:{number}", line, same_marks(wanted)


def run_all():
    """Compares all texts. Returns how many passed, and how many failed."""
    if not has_syntax():
        return 0, 0
    passed = failed = 0
    with tempfile.TemporaryDirectory(prefix="vim-syntax-") as room:
        folder = shutil.copytree(f"{ROOT}/examples", f"{room}/examples")
        try:
            for what, found, wanted in all_looks(folder):
                passed, failed = passed + (found == wanted), failed + (found != wanted)
                if found != wanted:
                    print(f"FAILED: {what}: {found!r}\n    and not {wanted!r}", flush=True)
        except (OSError, ValueError, subprocess.SubprocessError) as why:
            print(f"FAILED: {why}", flush=True)
            failed += 1
    return passed, failed


if __name__ == "__main__":
    counts = run_all()
    print(f"{counts[0]} passed, {counts[1]} failed")
    sys.exit(1 if counts[1] else 0)
