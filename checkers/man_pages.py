#!/usr/bin/env python3
"""Compares the manual pages in share/man with what the program's help prints and with docs/LANGUAGE.md, and runs their examples.

usage: checkers/man_pages.py [PROGRAM]

PROGRAM is crates/collbench/out/collbench where none is given. collbench.1 has the subcommands of `collbench help`, no others, in
that order: each with its usage, its sentence, its operands, and what its help says besides, word for word. Its exit statuses, the
commands of sessions and the lines of edits are those of LANGUAGE. In the pages of section 5 each sentence behind the first
subsection's title, and each of STANDARDS, stands in LANGUAGE, and their lists are its tables. Each limit of LANGUAGE stands in a
page, and no other does. A display that begins with `$ ` is run in a folder with the examples, and what its commands write, to
either stream, has to be what stands there; one of an edit is typed at a pseudo-terminal. Where mandoc, or man with groff, is
installed, the pages have no warning; what is left out is said.

The pages are read by the few macros of mdoc that they use.

The last line is 'N passed, M failed', where a run is one subcommand, one list, one paragraph, one display, or one page looked at.
"""

import itertools
import os
import re
import shlex
import shutil
import subprocess
import sys
import tempfile

import edit_terminal
from run_program import PROGRAM, ROOT

MAN = f"{ROOT}/share/man"
PAGES = ["man1/collbench.1", "man5/collbench-delta.5", "man5/collbench-table.5"]
LANGUAGE = "docs/LANGUAGE.md"
SECONDS = 60
# The lists of the pages that are tables of LANGUAGE: a page, its section, the section of LANGUAGE, and which of its tables.
LISTS = [
    ("man5/collbench-table.5", "Tokens", "Texts and lines", 0),
    ("man5/collbench-table.5", "Weights", "Lines of tables and of deltas", 1),
    ("man5/collbench-table.5", "Lines", "Tables", 0),
    ("man5/collbench-delta.5", "Statements", "Deltas", 0),
]
ESCAPES = {"-": "-", "e": "\\", "&": "", " ": " ", "(aq": "'", "(dq": '"', "(ga": "`", "(ha": "^", "(ti": "~"}
# The macros that stand among words: those that change nothing but the letters' form, those that enclose, and all of them.
FORMS = {"Ar", "Cm", "Em", "Ic", "Li", "No", "Pa", "Ql", "Sx"}
ENCLOSING = {"Op": "[]", "Pq": "()", "Dq": "“”"}
MACROS = FORMS | set(ENCLOSING) | {"Fl", "Nm", "Ns", "Pf", "Xr"}
# A sign that is glued to what stands before it, where it is a word of a macro line.
CLOSING = re.compile(r"[.,:;)\]?!]")
MARK = "\x1e"


class Unread(Exception):
    """A text that cannot be read."""


def text_of(path):
    """Returns the text of a file."""
    with open(path, encoding="utf-8") as text:
        return text.read()


# The pages.


def unescaped(text):
    """Returns a text of mdoc with its escapes as the characters that they stand for."""
    unknown = [it for it in re.findall(r"\\(\(..|.)", text) if it not in ESCAPES]
    if unknown:
        raise Unread(f"the escape \\{unknown[0]} is not read")
    return re.sub(r"\\(\(..|.)", lambda escape: ESCAPES[escape[1]], text)


class Spoken:
    """The plain text of a macro line, as its words come."""

    def __init__(self):
        self.text, self.glued, self.before = "", True, ""

    def add(self, word):
        """Adds a word, with a space before it unless it is glued to what stands there."""
        self.text += ("" if self.glued else " ") + self.before + word
        self.glued, self.before = False, ""

    def glue(self, word=""):
        """Adds what the next word is glued to."""
        if word:
            self.add(word)
        self.glued = True


def spoken(words):
    """Returns the plain text of the words of a macro line. Signs at its end stand behind what it encloses."""
    trailing = "".join(itertools.takewhile(CLOSING.fullmatch, reversed(words)))[::-1]
    said, ends = Spoken(), ""
    rest = iter(words[: len(words) - len(trailing)])
    for word in rest:
        if word in ENCLOSING:
            said.glue(ENCLOSING[word][0])
            ends = ENCLOSING[word][1] + ends
        elif word == "Fl":
            said.before += "-"
        elif word == "Xr":
            said.add(f"{next(rest)}({next(rest)})")
        elif word == "Nm":
            said.add("collbench")
        elif word == "Ns":
            said.glue()
        elif word == "Pf":
            said.glue(unescaped(next(rest)))
        elif CLOSING.fullmatch(word):
            said.text += word
        elif word not in FORMS:
            said.add(unescaped(word))
    return said.text + ends + trailing


def sections_of(page):
    """Returns the sections of a page in order, each a triple of its macro, its title and its parts.

    A part is a triple: `text`, an empty term and a paragraph; `item`, a term and what stands behind it; `line`, an empty term and a
    display of one line; or `display`, an empty term and the lines of a literal display, joined.
    """
    sections, parts, display = [], [], None
    for line in text_of(f"{MAN}/{page}").splitlines():
        words = re.findall(r"(?:\\ |\S)+", line[1:]) if line.startswith(".") else []
        macro = words.pop(0) if words else ""
        if display is not None and macro != "Ed":
            display.append(unescaped(line))
        elif macro == "Ed":
            parts.append(["display", "", "\n".join(display)])
            display = None
        elif macro == "Bd":
            display = []
        elif macro in ("Sh", "Ss"):
            parts = []
            sections.append((macro, spoken(words), parts))
        elif macro == "It":
            parts.append(["item", spoken(words), ""])
        elif macro in ("D1", "Dl"):
            parts.append(["line", "", spoken(words)])
        elif macro in ("Pp", "Bl", "El") or macro == "Nm" and sections[-1][1] == "SYNOPSIS":
            parts.append(["text", "", "collbench" if macro == "Nm" else ""])
        elif macro in MACROS or not line.startswith("."):
            told(parts, spoken([macro, *words]) if macro else unescaped(line))
        elif macro not in ('\\"', "Dd", "Dt", "Os", "Nd"):
            raise Unread(f"{page}: the macro {macro} is not read")
    return [(macro, title, [tuple(part) for part in parts if any(part[1:])]) for macro, title, parts in sections]


def told(parts, text):
    """Adds a line of text to the last part, if that goes on, or else as a new one."""
    if not parts or parts[-1][0] not in ("text", "item"):
        parts.append(["text", "", ""])
    parts[-1][2] = f"{parts[-1][2]} {text}".strip()


def parts_in(sections, title):
    """Returns the parts of the section with a title, or those of none."""
    return next((parts for _, called, parts in sections if called == title), [])


def below(sections, title):
    """Returns the subsections of a section."""
    found, inside = [], False
    for macro, called, parts in sections:
        inside = called == title if macro == "Sh" else inside
        found += [(called, parts)] if inside and macro == "Ss" else []
    return found


def items(parts):
    """Returns the items of a section, each a pair of a term and what stands behind it."""
    return [(term, text) for kind, term, text in parts if kind == "item"]


def texts(parts, kind="text"):
    """Returns the paragraphs of a section, or its parts of another kind."""
    return [text for of, _, text in parts if of == kind]


# LANGUAGE.


def plain(text):
    """Returns a text of Markdown without its signs: code as it stands, a link by its text, and no link in parentheses alone."""
    text = re.sub(r"\s*\(\[[^]]*\]\([^)]*\)\)", "", text)
    text = re.sub(r"\[([^]]*)\]\([^)]*\)", r"\1", text).replace("**", "")
    text = re.sub(r"(`+)(.+?)(?<!`)\1(?!`)", lambda code: code[2].strip(), text, flags=re.S)
    return " ".join(text.split())


def language(title):
    """Returns the text of a section of LANGUAGE, up to the next title."""
    found = re.search(rf"^#+ {title}\n(.*?)(?=^##|\Z)", text_of(f"{ROOT}/{LANGUAGE}"), re.M | re.S)
    if not found:
        raise Unread(f"{LANGUAGE}: there is no section {title!r}")
    return found[1]


def rows(title, number):
    """Returns the rows of a table of a section of LANGUAGE, by its number there, each a list of its cells."""
    tables = re.findall(r"^\|.*\n\|[-|]+\n((?:\|.*\n)*)", language(title), re.M)
    if number >= len(tables):
        raise Unread(f"{LANGUAGE}: section {title!r} has no table {number}")
    return [[plain(cell) for cell in row.strip("| ").split(" | ")] for row in tables[number].splitlines()]


# The help.


def helped(program, *words):
    """Returns what the help of the program prints, cut at blank lines."""
    ran = subprocess.run([program, "help", *words], capture_output=True, encoding="utf-8", timeout=SECONDS, check=False)
    if ran.returncode:
        raise Unread(f"help {' '.join(words)} ended with status {ran.returncode}: {ran.stderr}")
    return [block.split("\n") for block in ran.stdout.strip("\n").split("\n\n")]


def usage_of(line):
    """Returns a line of usage as a manual page has it."""
    line = re.sub(r"\[(\w+)\]\.\.\.", r"[\1 ...]", line.removeprefix("Usage: "))
    return re.sub(r"<(\w+)>", r"\1", line.replace(">...", "> ..."))


def pairs(lines):
    """Returns pairs of what stands at the left of some lines and at their right; what goes on is indented deeper."""
    found = []
    for line in lines:
        pair = re.fullmatch(r" {2}(\S.*?)(?: {2,}(\S.*))?", line)
        if pair:
            found.append((pair[1], pair[2] or ""))
        elif found and line.startswith(" "):
            found[-1] = (found[-1][0], f"{found[-1][1]} {line.strip()}".strip())
    return found


def listed(blocks, title):
    """Returns the pairs below a title of help; none where it has no such title."""
    return next((pairs(block[1:]) for block in blocks if block[0] == title), [])


def help_of(program, name):
    """Returns what help says of a subcommand: its sentence, its usage, its operands, its other texts, and pairs of lines and meanings."""
    sentence, usage, operands, others, meanings = "", "", [], [], []
    for block in helped(program, name):
        if block[0].startswith("Usage: "):
            sentence, usage = others.pop(), usage_of(block[0])
        elif block[0] == "Arguments:":
            operands = [(re.sub(r"\W", "", operand), f"{meaning}.") for operand, meaning in pairs(block[1:])]
        elif block[0] != "Options:":
            others += re.findall(r"\S.*?(?=\v|$)", " ".join("\v" if line.startswith(" ") else line for line in block))
            meanings += pairs(block)
    return f"{sentence}.", usage, operands, [other.strip() for other in others], meanings


# What is compared. Each gives pairs of what it looked at and why that is wrong, which is empty where it is not.


def compared(what, found, wanted):
    """One look at something, and how it differs from what is wanted: of a list the members that stand in one alone."""
    if found == wanted:
        return what, ""
    if isinstance(found, list) and isinstance(wanted, list):
        strange, missing = ([it for it in these if it not in those] for these, those in ((found, wanted), (wanted, found)))
        found, wanted = (strange, missing) if strange or missing else (found, wanted)
    return what, f"{found!r}\n    and not {wanted!r}"


def subcommand(program, name, sections, page):
    """Compares what a page says of a subcommand with its help."""
    parts = dict(below(sections, "SUBCOMMANDS"))[name]
    sentence, usage, operands, others, meanings = help_of(program, name)
    own = items(parts)
    yield compared(f"the usage of {name}", texts(parts, "line")[:1], [usage])
    yield compared(f"the sentence of {name}", texts(parts)[:1], [sentence])
    yield compared(f"the operands of {name}", own[: len(operands)], operands)
    if name == "edit":
        lines = {term.split()[0].rstrip(","): text for term, text in items(parts_in(sections, "EDITING"))}
        own, meanings = [], [(term.split()[0].rstrip(","), text) for term, text in meanings]
        yield compared("the lines of edit", {term: lines.get(term) for term, _ in meanings}, dict(meanings))
    else:
        yield compared(f"the lines of {name}", own[len(operands) :], meanings)
    yield compared(f"what help says besides of {name}", [other for other in others if plain(other) not in page], [])


def help_compared(program, sections):
    """Compares collbench.1 with the program's help."""
    page = " ".join(text for _, _, parts in sections for text in texts(parts))
    blocks = helped(program)
    commands, options = listed(blocks, "Commands:"), listed(blocks, "Options:")
    described = re.findall(r"^\.Nd (.*)", text_of(f"{MAN}/{PAGES[0]}"), re.M)
    yield compared("the description", described, [blocks[0][0][:1].lower() + blocks[0][0][1:]])
    yield compared("the option", items(parts_in(sections, "DESCRIPTION")), [(option, f"{text}.") for option, text in options])
    names = [name for name, _ in below(sections, "SUBCOMMANDS")]
    yield compared("the subcommands", names, [name for name, _ in commands])
    usages = [help_of(program, name)[1] for name, _ in commands]
    yield compared("the synopsis", texts(parts_in(sections, "SYNOPSIS")), usages)
    for name, sentence in commands:
        if name in names:
            yield compared(f"the sentence of {name} in the list", help_of(program, name)[0], f"{sentence}.")
            yield from subcommand(program, name, sections, page)


def language_compared(sections):
    """Compares collbench.1 with LANGUAGE: the exit statuses, and the lines of sessions and of edits."""
    said = re.search(r"The status is 0 (.*?); 2 (.*?); and 1 (.*?)\. It stands", plain(language("The command line")))
    statuses = [("0", said[1]), ("1", said[3]), ("2", said[2])] if said else []
    yield compared("the exit statuses", items(parts_in(sections, "EXIT STATUS")), statuses)
    commands = [row[0] for row in rows("Sessions", 0) if row[0].startswith(":")]
    yield compared("the commands of a session", [term for term, _ in items(parts_in(sections, "SESSIONS"))], commands)
    lines = [row[0] for row in rows("Editing", 0)]
    yield compared("the lines of an edit", [term for term, _ in items(parts_in(sections, "EDITING"))], lines)


def lists_compared(pages):
    """Compares the lists of the pages that are tables of LANGUAGE, and the limits of all pages with its own."""
    for page, title, section, number in LISTS:
        wanted = [tuple(row[:2]) for row in rows(section, number)]
        yield compared(f"{page}: the list of {title!r}", items(parts_in(pages[page], title)), wanted)
    limits = [(what, f"{bounds} ({fault})") for what, bounds, fault in rows("Limits", 0)]
    found = [limit for page in PAGES for limit in items(parts_in(pages[page], "LIMITS"))]
    yield compared("the limits of the pages", sorted(found), sorted(limits))


def sentences(text):
    """Returns the sentences of a paragraph, without the sign at their end."""
    return [sentence.rstrip(".:") for sentence in re.split(r"(?<=[.:]) (?=[A-Z])", text)]


def sentences_compared(page, sections):
    """Looks for the sentences of a page of section 5 in LANGUAGE."""
    said = plain(text_of(f"{ROOT}/{LANGUAGE}"))
    for title, parts in [*below(sections, "DESCRIPTION"), ("STANDARDS", parts_in(sections, "STANDARDS"))]:
        shown = [" ".join(display.split()) for display in texts(parts, "display")]
        strange = [it for text in texts(parts) for it in sentences(text) if it not in said]
        yield compared(f"{page}: {title}", [*strange, *(display for display in shown if display not in said)], [])


# The examples.


def replies(program, folder, display):
    """Runs the commands of a display in one shell, and returns the display as their replies make it."""
    commands = [line[2:] for line in display.split("\n") if line.startswith("$ ")]
    script = f'collbench() {{ {shlex.quote(program)} "$@"; }}\n'
    script += "".join(f"{command}\nkept=$?; printf '{MARK}'; (exit $kept)\n" for command in commands)
    how = {"cwd": folder, "stdin": subprocess.DEVNULL, "stdout": subprocess.PIPE, "stderr": subprocess.STDOUT, "timeout": SECONDS}
    ran = subprocess.run(["sh", "-c", script], encoding="utf-8", errors="replace", check=False, **how)
    return "".join(f"$ {command}\n{reply}" for command, reply in zip(commands, ran.stdout.split(MARK))).rstrip("\n")


def typed(display):
    """Returns the display of an edit as a session of edit_terminal: what is typed stands behind a prompt, and begins with no digit."""
    command, *lines = display.split("\n")
    steps = []
    for line in lines:
        step = re.fullmatch(r"(> |block> )(\D.*)", line)
        if step and steps:
            steps[-1][1] += step[1]
        if step:
            steps.append([step[2], ""])
        else:
            steps[-1][1] += f"{line}\n"
    end, last = steps.pop()
    return command.split()[2:], steps, f"{end}\n", last, {}


def has_terminal(left_out):
    """Whether the system has a pseudo-terminal; where it has none, what is left out is said."""
    try:
        for end in edit_terminal.open_terminal():
            os.close(end)
    except OSError as error:
        print(f"{left_out}: {error}", flush=True)
        return False
    return True


def examples_compared(program, page, sections):
    """Runs the examples of a page."""
    for _, title, parts in sections:
        for display in [it for it in texts(parts, "display") if it.startswith("$ ")]:
            with tempfile.TemporaryDirectory(prefix="man-pages-") as room:
                folder = shutil.copytree(f"{ROOT}/examples", f"{room}/examples")
                if not re.search(r"^> ", display, re.M):
                    yield compared(f"{page}: the example of {title}", replies(program, folder, display), display)
                elif has_terminal("no edit of the pages was typed"):
                    ran = edit_terminal.run(program, typed(display), folder)
                    yield f"{page}: the example of {title}", "" if ran else "it was typed, and the screen is told above"


# The form of the pages.


def runs(words):
    """Runs a command, and returns what it writes to either stream, and its status; nothing where it isn't installed."""
    if not shutil.which(words[0]):
        return None
    how = {"stdin": subprocess.DEVNULL, "capture_output": True, "env": {**os.environ, "LC_ALL": "C", "MANPAGER": "cat"}}
    ran = subprocess.run(words, encoding="utf-8", errors="replace", timeout=SECONDS, check=False, **how)
    return ran.stdout, ran.stderr, ran.returncode


def warnings_looked_for():
    """Looks at each page by mandoc and by man, where they are installed."""
    version = runs(["man", "--version"])
    is_db = version and re.match(r"man \d", version[0]) and shutil.which("groff")
    for page in PAGES:
        linted = runs(["mandoc", "-T", "lint", "-W", "warning", f"{MAN}/{page}"])
        if linted:
            yield compared(f"mandoc over {page}", (linted[0], linted[2]), ("", 0))
        if is_db:
            yield compared(f"man over {page}", runs(["man", "--warnings", "-l", f"{MAN}/{page}"])[1:], ("", 0))
    for tool, is_there in (("mandoc", shutil.which("mandoc")), ("man of man-db, with groff,", is_db)):
        if not is_there:
            print(f"{tool} is not installed: the pages were not looked at by it", flush=True)


def all_looks(program):
    """Everything that is compared."""
    pages = {page: sections_of(page) for page in PAGES}
    yield from help_compared(program, pages[PAGES[0]])
    yield from language_compared(pages[PAGES[0]])
    yield from lists_compared(pages)
    for page in PAGES[1:]:
        yield from sentences_compared(page, pages[page])
    for page in PAGES:
        yield from examples_compared(program, page, pages[page])
    yield from warnings_looked_for()


def run_all(program):
    """Compares everything. Returns how many passed, and how many failed."""
    passed = failed = 0
    try:
        for what, why in all_looks(os.path.abspath(program)):
            passed, failed = passed + (not why), failed + bool(why)
            if why:
                print(f"FAILED: {what}: {why}", flush=True)
    except (Unread, OSError, subprocess.SubprocessError) as why:
        print(f"FAILED: {why}", flush=True)
        failed += 1
    return passed, failed


if __name__ == "__main__":
    counts = run_all(sys.argv[1] if len(sys.argv) > 1 else PROGRAM)
    print(f"{counts[0]} passed, {counts[1]} failed")
    sys.exit(1 if counts[1] or not counts[0] else 0)
