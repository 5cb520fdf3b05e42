#!/usr/bin/env python3
"""Runs the program with standard error at a pseudo-terminal, and compares what is told of refused runs.

usage: checkers/refused_lines.py [PROGRAM]

PROGRAM is crates/collbench/out/collbench where none is given. Each run stands in a folder of its own, with the examples and the files
that it names. Standard error is a terminal, where the line of the fault is followed by what is stated here, and nothing else; then the
same run has no terminal, and has to write that line alone, with the same output and the same status. Nothing is read of what the program
writes but for that comparison: each text here was written by hand.

The last line is 'N passed, M failed'. Where the system has no pseudo-terminal none is run, and that is said.
"""

import os
import shutil
import subprocess
import sys
import tempfile

from edit_terminal import open_terminal
from run_program import PROGRAM, ROOT

SECONDS = 60
# What to do, by the number of a fault.
NOT_UTF8 = "save the text as UTF-8, or take the bytes out, also in a comment"
OPEN_SYMBOL = "close the symbol with >; escape a < that is meant as a character"
UNKNOWN = "look for a mistyped keyword, a symbol without < and >, a line of deltas in a table (copy, reorder-after), or a command in a delta file"
ALONE = "write order_end alone"
AFTER = "write reorder-after and one identifier, a character or a name between < and >"
NO_CATEGORY = "write the line LC_COLLATE in UTF-8, with nothing but blanks or a comment behind it"
NO_DELTA = "a delta file has a line LC_COLLATE before its statements, and END LC_COLLATE behind them; a list of words is none, and collbench sort reads it from standard input"
NOT_DECLARED = "declare it with collating-symbol"
NO_END_OF_SYMBOL = "close the symbol before the next < with >, or declare it with collating-symbol"
CODE_POINT = "spell a character as U and four to eight digits, or declare the name with collating-symbol"
TWICE_IN_BLOCK = "drop the line, or move it to another block: the target or a line before has its identifier"
WEIGHT_NOT_PLACED = "place what the weight names, anywhere in the table or in the same block"
NO_END = "write END LC_COLLATE; look whether the text was cut"
TAILORS = "a source that changes a table, as by reorder-after, goes through collbench import-delta TABLE SOURCE"
ORDERS = "a source with an order of its own, from order_start, goes through collbench import SOURCE"
NO_LONGER = "# begins no comment here, since a line comment_char chose another character"
NO_COMMENT = "% begins no comment here; behind a line comment_char % it does"
LINT = "collbench lint tells all that is wrong"
READ_FAULT = "look at the file's name, its rights, and the device"
WRITE_FAULT = "look at the device, and run it again: what was written is a prefix"


def table(*lines):
    """Returns a table of these lines, of which the first is line 3."""
    return "".join(f"{line}\n" for line in ("LC_COLLATE", "order_start forward", *lines, "order_end", "END LC_COLLATE"))


def delta(*lines):
    """Returns a delta file of these lines, of which the first is line 2."""
    return "".join(f"{line}\n" for line in ("LC_COLLATE", *lines, "END LC_COLLATE"))


def block(*lines):
    """Returns a delta file with a block behind a; the first of its order lines is line 3."""
    return delta("reorder-after <U0061>", *lines, "reorder-end")


def of_table(shows, text, fault, *below):
    """A run of a table that is refused."""
    return {"shows": shows, "words": ["check", "t.txt"], "files": {"t.txt": text}, "fault": f"t.txt:{fault}", "below": below}


def of_delta(shows, text, fault, *below):
    """A run of a delta file over base.txt that is refused."""
    return {"shows": shows, "words": ["check", "base.txt", "d.txt"], "files": {"d.txt": text}, "fault": f"d.txt:{fault}", "below": below}


# Each run: what it shows; the words, the files in the folder and standard input; the line of the fault, none where no line is told; what
# stands below it; and the status, 1 if left out.
RUNS = [
    # What a line of a table is about.
    of_table("a name that isn't declared", table("a", "<BASE>", "b"), "4: 34 NotDeclared", "  4 | <BASE>", "    | ^^^^^^", NOT_DECLARED),
    of_table("a weight that isn't declared", table("a <BASE>"), "3: 34 NotDeclared", "  3 | a <BASE>", "    |   ^^^^^^", NOT_DECLARED),
    of_table("a name that is near", "LC_COLLATE\ncollating-symbol <CAPS>\norder_start forward\n<CASP>\norder_end\nEND LC_COLLATE\n",
             "4: 34 NotDeclared", "  4 | <CASP>", "    | ^^^^^^", f"{NOT_DECLARED}; is <CAPS> meant?"),
    of_table("an indent", table("a", "b", "  a b  "), "5: 35 PlacedTwice", "  5 |   a b  ", "    |   ^",
             "drop one of the two lines; a second name is the same as its symbol"),
    of_table("a character within a string", table("a", 'b "<U0061><U0078>a"'), "4: 38 WeightNotPlaced",
             '  4 | b "<U0061><U0078>a"', "    |           ^^^^^^^", WEIGHT_NOT_PLACED),
    of_table("a character that stands for itself in a string", table("a", 'b "ax"'), "4: 38 WeightNotPlaced",
             '  4 | b "ax"', "    |     ^", WEIGHT_NOT_PLACED),
    of_table("escapes of the character in force", "escape_char /\n" + table("<B/>/E>"), "4: 34 NotDeclared", "  4 | <B/>/E>", "    | ^^^^^^^", NOT_DECLARED),
    of_table("no escapes of another character", table("a </B/>"), "3: 34 NotDeclared", "  3 | a </B/>", "    |   ^^^^^", NOT_DECLARED),
    of_table("an identifier in a comment isn't meant", "comment_char %\n" + table("%<X>", "<X>%<X>"), "5: 34 NotDeclared", "  5 | <X>%<X>", "    | ^^^", f"{NOT_DECLARED}; a character stands without brackets"),
    of_table("a keyword that is none", "LC_COLLATE\n collating-letter <X>\nEND LC_COLLATE\n", "2: 20 UnknownStatement",
             "  2 |  collating-letter <X>", "    |  ^^^^^^^^^^^^^^^^", UNKNOWN),
    of_table("a mistyped keyword", "LC_COLLATE\n collating-symbl <X>\nEND LC_COLLATE\n", "2: 20 UnknownStatement",
             "  2 |  collating-symbl <X>", "    |  ^^^^^^^^^^^^^^^", "collating-symbol is meant?"),
    of_table("a keyword of another dialect", "LC_COLLATE\norder-start forward\nEND LC_COLLATE\n", "2: 20 UnknownStatement",
             "  2 | order-start forward", "    | ^^^^^^^^^^^", "order_start is meant?"),
    of_table("a line that is at fault as a whole", table("a", "  order_end x # y"), "4: 22 ExtraOperand", "  4 |   order_end x # y",
             "    |   ^^^^^^^^^^^^^^^", ALONE),
    # What the lexer refuses.
    of_table("bytes that are no UTF-8", b"LC_COLLATE\norder_start forward\n# stra\xdfe x\norder_end\nEND LC_COLLATE\n", "3: 1 NotUtf8",
             "  3 | # stra\ufffde x", "    |       ^", NOT_UTF8),
    of_table("an open symbol", table("a", "b <BASE c"), "4: 2 OpenSymbol", "  4 | b <BASE c", "    |   ^^^^^^^", OPEN_SYMBOL),
    of_table("an open string", table("a", 'b "a" "b'), "4: 6 OpenString", '  4 | b "a" "b', "    |       ^^",
             'close the string with ", or continue its line by the escape character'),
    of_table("a symbol without a name", table("a <b>;<>"), "3: 3 EmptySymbol", "  3 | a <b>;<>", "    |       ^^", "give the name"),
    of_table("a name with a blank", table("a <b>;<b c>"), "3: 4 BadName", "  3 | a <b>;<b c>", "    |       ^^^^^",
             "shorten the name, or take the blank out; close the symbol earlier"),
    of_table("a surrogate", table("<UD800> <a>"), "3: 5 BadCodePoint", "  3 | <UD800> <a>", "    | ^^^^^^^",
             "give a code point up to 10FFFF that is no surrogate"),
    of_table("a character constant", table("a", r"b \d100"), "4: 8 CharacterConstant", r"  4 | b \d100", "    |   ^^^^^",
             "write the character by its code point, as in <U0061>"),
    of_table("an escape at the end", "LC_COLLATE\norder_start forward\na \\\n", "3: 9 DanglingEscape", "  3 | a \\", "    |   ^",
             "take the escape character at the end away, or write the line that it continues"),
    of_table("a directive", "comment_char %\nescape_char %\n" + table("a"), "2: 11 BadCharDirective", "  2 | escape_char %", "    | ^^^^^^^^^^^^^",
             "choose one of the characters that are listed, and not the other directive's"),
    # How a line is shown.
    of_table("tabs", table("\ta\t<BASE>"), "3: 34 NotDeclared", "  3 |         a       <BASE>", "    |                 ^^^^^^", NOT_DECLARED),
    of_table("characters that a terminal obeys", table("a <BASE> # \x1b[31m\u202e\u2028\x7f\x9b"), "3: 34 NotDeclared",
             "  3 | a <BASE> # \ufffd[31m\ufffd\ufffd\ufffd\ufffd", "    |   ^^^^^^", NOT_DECLARED),
    of_table("wide characters", table("\u6f22 <\u6f22\u5b57>"), "3: 34 NotDeclared", "  3 | \u6f22 <\u6f22\u5b57>", "    |   ^^^^", NOT_DECLARED),
    of_table("a carriage return", "LC_COLLATE\r\norder_start forward\r\n<BASE>\r\norder_end\r\nEND LC_COLLATE\r\n", "3: 34 NotDeclared",
             "  3 | <BASE>", "    | ^^^^^^", NOT_DECLARED),
    of_table("a long line with its mark at the beginning", table(f"a <BASE> # {'x' * 300}"), "3: 34 NotDeclared",
             f"  3 | a <BASE> # {'x' * 189}", "    |   ^^^^^^", NOT_DECLARED),
    of_table("a long line with its mark at the end", table(f"{' ' * 300}a <BASE>"), "3: 34 NotDeclared",
             f"  3 | {' ' * 192}a <BASE>", f"    | {' ' * 194}^^^^^^", NOT_DECLARED),
    of_table("a long line with its mark in the middle", table(f"{' ' * 300}a <BASE> # {'x' * 300}"), "3: 34 NotDeclared",
             f"  3 | {' ' * 18}a <BASE> # {'x' * 171}", f"    | {' ' * 20}^^^^^^", NOT_DECLARED),
    of_table("a long mark", table("a", f"order_end {'x' * 300}"), "4: 22 ExtraOperand", f"  4 | order_end {'x' * 190}", f"    | {'^' * 200}", ALONE),
    of_table("a number of three digits", table(*(f"<U{number:04X}>" for number in range(256, 356)), "<BASE>"), "103: 34 NotDeclared",
             "  103 | <BASE>", "      | ^^^^^^", NOT_DECLARED),
    # How a text ends.
    of_table("a text without an end", "LC_COLLATE\norder_start forward\na", "3: 43 NoEnd", "  3 | a", "    | ^", NO_END),
    of_table("a text without a category", "x\n y\n\n", "3: 30 NoCategory", "  3 | ", "    | ^", NO_CATEGORY),
    of_table("a text without a line", "", "0: 30 NoCategory", NO_CATEGORY),
    # Statements of delta files, and lines of blocks.
    of_delta("a line of a block", block("<U0062>", "<BASF>"), "2: 34 NotDeclared", "  4 | <BASF>", "    | ^^^^^^", f"{NOT_DECLARED}; is <BASE> meant?"),
    of_delta("a weight of a line of a block", block("<U0062> <U0062>;<U0078>"), "2: 38 WeightNotPlaced",
             "  3 | <U0062> <U0062>;<U0078>", "    |                 ^^^^^^^", WEIGHT_NOT_PLACED),
    of_delta("a line that stands in its block twice", block("<U0063>", "<U0064>", "<U0063>"), "2: 51 TwiceInBlock",
             "  5 | <U0063>", "    | ^^^^^^^", TWICE_IN_BLOCK),
    of_delta("a line with the target of its block", block("<U0061>"), "2: 51 TwiceInBlock", "  3 | <U0061>", "    | ^^^^^^^", TWICE_IN_BLOCK),
    of_delta("a symbol without an end before another one", block("<U0063> <BAS;<BASE>"), "2: 34 NotDeclared",
             "  3 | <U0063> <BAS;<BASE>", "    |         ^^^^^^^^^^^", NO_END_OF_SYMBOL),
    of_delta("a target of two digits", delta("reorder-after <U63>", "reorder-end"), "2: 50 TargetNotPlaced",
             "  2 | reorder-after <U63>", "    |               ^^^^^", "spell a character as U and four to eight digits, or name a target that is placed"),
    of_delta("a code point of two digits", block("<U63>"), "2: 34 NotDeclared", "  3 | <U63>", "    | ^^^^^", CODE_POINT),
    of_delta("a code point behind a plus sign", block("<U+0063>"), "2: 34 NotDeclared", "  3 | <U+0063>", "    | ^^^^^^^^", CODE_POINT),
    of_delta("a code point of nine digits", block("<U000000063>"), "2: 34 NotDeclared", "  3 | <U000000063>", "    | ^^^^^^^^^^^^", CODE_POINT),
    of_delta("a name that begins as a code point", block("<U6x>"), "2: 34 NotDeclared", "  3 | <U6x>", "    | ^^^^^", NOT_DECLARED),
    of_delta("the target of a block", delta("reorder-after <U0078>", "reorder-end"), "2: 50 TargetNotPlaced",
             "  2 | reorder-after <U0078>", "    |               ^^^^^^^", "place the target first, or name one that is placed"),
    of_delta("a target that is near", delta("reorder-after <BASF>", "reorder-end"), "2: 50 TargetNotPlaced",
             "  2 | reorder-after <BASF>", "    |               ^^^^^^", "place the target first, or name one that is placed; is <BASE> meant?"),
    of_delta("a section that is near", delta("reorder-section-after <PUNKT> <DIGITS>"), "2: 52 NoSuchSection",
             "  2 | reorder-section-after <PUNKT> <DIGITS>", "    |                       ^^^^^^^",
             "look for the name with :show of an entry of the section; the first section has none; is <PUNCT> meant?"),
    of_delta("a list of words where a delta file is wanted", "zebra\napple\n", "2: 30 NoCategory", "  2 | apple", "    | ^^^^^", NO_DELTA),
    of_delta("a keyword of another dialect in a delta file", delta("", "reset <U0061>"), "3: 20 UnknownStatement",
             "  3 | reset <U0061>", "    | ^^^^^", "reorder-after is meant?"),
    of_delta("a comment of many sources", delta("", "% A behind c"), "3: 29 BadOperand", "  3 | % A behind c", "    | ^^^^^^^^^^^^", NO_COMMENT),
    of_delta("a comment behind a line that chose another character", f'comment_char %\n{delta("", "# A behind c")}', "4: 29 BadOperand",
             "  4 | # A behind c", "    | ^^^^^^^^^^^^", NO_LONGER),
    of_delta("the same behind a line that chose this one", f'comment_char #\n{delta("", "% A behind c")}', "4: 29 BadOperand",
             "  4 | % A behind c", "    | ^^^^^^^^^^^^", NO_COMMENT),
    of_delta("the same behind a line", delta("reorder-after a % b"), "2: 22 ExtraOperand", "  2 | reorder-after a % b", "    | ^^^^^^^^^^^^^^^^^^^", NO_COMMENT),
    of_delta("the same where a third character was chosen, as in an edit", "comment_char /\nLC_COLLATE\nreorder-after a % b\nEND LC_COLLATE\n",
             "3: 22 ExtraOperand", "  3 | reorder-after a % b", "    | ^^^^^^^^^^^^^^^^^^^", NO_COMMENT),
    of_delta("a line with the character that was chosen", "comment_char %\nLC_COLLATE\nreorder-after a b % c\nEND LC_COLLATE\n",
             "3: 22 ExtraOperand", "  3 | reorder-after a b % c", "    | ^^^^^^^^^^^^^^^^^^^^^", AFTER),
    of_delta("a line that may not stand in a block", block("<U0062>", "collating-symbol <X>"), "4: 62 BlockOpen",
             "  4 | collating-symbol <X>", "    | ^^^^^^^^^^^^^^^^^^^^", "end the block by reorder-end; put the line before it or behind",
             "the open block begins in line 2"),
    of_delta("a block without an end, behind another one", delta("reorder-after a", "b", "", " reorder-after b", "c"), "7: 63 BlockNotEnded",
             "  7 | END LC_COLLATE", "    | ^^^^^^^^^^^^^^", "write reorder-end before the end", "the open block begins in line 5"),
    of_delta("an element without quotes", delta("collating-element <ch> from ch"), "2: 29 BadOperand", "  2 | collating-element <ch> from ch",
             "    | ^^^^^^^^^^^^^^^^^^^^^^^^^^^^^^",
             'write collating-element <X> from "ab", with the name between < and >, and the characters in quotes'),
    of_delta("a weight without brackets", block("b BASE"), "3: 29 BadOperand", "  3 | b BASE", "    | ^^^^^^", "write a name between < and >, and part weights by ;"),
    of_delta("an end of no block", delta("reorder-end"), "2: 69 NoBlock", "  2 | reorder-end", "    | ^^^^^^^^^^^", "write reorder-after, or drop the line"),
    of_delta("a section that isn't there", delta("reorder-section-after <PUNCT> <DIGITS>"), "2: 52 NoSuchSection",
             "  2 | reorder-section-after <PUNCT> <DIGITS>", "    |                               ^^^^^^^^",
             "look for the name with :show of an entry of the section; the first section has none"),
    of_delta("a delta file without an end", "LC_COLLATE\nreorder-after <U0061>\nreorder-end\n", "3: 43 NoEnd",
             "  3 | reorder-end", "    | ^^^^^^^^^^^", NO_END),
    {
        "shows": "a delta file behind another one, which declares the name that is near",
        "words": ["check", "base.txt", "first.txt", "d.txt"],
        "files": {"first.txt": delta("collating-symbol <ACUTE>"), "d.txt": delta("symbol-equivalence <X> <ACUT>")},
        "fault": "d.txt:2: 34 NotDeclared",
        "below": ["  2 | symbol-equivalence <X> <ACUT>", "    |                        ^^^^^^", f"{NOT_DECLARED}; is <ACUTE> meant?"],
    },
    # What comes from no line, or from one that can't be read once more.
    {"shows": "a file that isn't there", "words": ["print", "none.txt"], "fault": "none.txt:0: 67 ReadFault",
     "below": [f"there is no such file: {READ_FAULT}"], "status": 2},
    {"shows": "a folder", "words": ["compare", "tutorial", "a", "b"], "fault": "tutorial:0: 67 ReadFault",
     "below": [f"it is a folder: {READ_FAULT}"], "status": 2},
    {"shows": "a delta file whose path has a file", "words": ["check", "base.txt", "base.txt/d.txt"], "fault": "base.txt/d.txt:0: 67 ReadFault",
     "below": [f"a part of its path is no folder: {READ_FAULT}"], "status": 2},
    {"shows": "a text that is too long", "words": ["key", "base.txt", "a" * 65537], "fault": "base.txt:0: 65 TextTooLong", "below": ["cut the text"]},
    {"shows": "a device that is full", "words": ["print", "base.txt"], "output_to": "/dev/full", "fault": "base.txt:0: 68 WriteFault",
     "below": [WRITE_FAULT], "status": 2},
    {"shows": "a table that comes through a pipe", "words": ["check", "/dev/stdin"], "input": table("<BASE>"), "fault": "/dev/stdin:3: 34 NotDeclared",
     "below": [NOT_DECLARED]},
    {"shows": "a delta file over a table that comes through a pipe", "words": ["check", "/dev/stdin", "d.txt"], "input": table("a"),
     "files": {"d.txt": delta("a x")}, "fault": "d.txt:2: 38 WeightNotPlaced", "below": ["  2 | a x", "    | ^^^", WEIGHT_NOT_PLACED]},
    # Other subcommands.
    {"shows": "lines that are sorted", "words": ["sort", "base.txt"], "input": b"a\n\xff\n", "fault": "-:2: 1 NotUtf8", "below": [NOT_UTF8]},
    {"shows": "words of a review", "words": ["review", "base.txt", "c_behind_a.txt", "w.txt"], "files": {"w.txt": b"a\nb\xffc\n"}, "fault": "w.txt:2: 1 NotUtf8",
     "below": ["  2 | b\ufffdc", "    |  ^", NOT_UTF8]},
    {"shows": "the second table of a difference", "words": ["diff", "base.txt", "t.txt"], "files": {"t.txt": table("<BASE>")},
     "fault": "t.txt:3: 34 NotDeclared", "below": ["  3 | <BASE>", "    | ^^^^^^", NOT_DECLARED]},
    {"shows": "a session that is refused at its table", "words": ["session", "t.txt"], "files": {"t.txt": table("<BASE>")}, "input": ":undo\n",
     "fault": "t.txt:3: 34 NotDeclared", "below": ["  3 | <BASE>", "    | ^^^^^^", NOT_DECLARED]},
    {"shows": "a line that a session refuses", "words": ["session", "base.txt"], "input": "<BASF>\n", "fault": None, "below": [], "status": 0},
    {"shows": "an edit that is refused at its table", "words": ["edit", "t.txt"], "files": {"t.txt": table("<BASE>")},
     "fault": "t.txt:3: 34 NotDeclared", "below": ["  3 | <BASE>", "    | ^^^^^^", NOT_DECLARED, LINT]},
    {"shows": "an edit that is refused at a delta file", "words": ["edit", "base.txt", "c_behind_a.txt", "d.txt"], "files": {"d.txt": block("<U0062>", "<BASF>")},
     "fault": "d.txt:2: 34 NotDeclared", "below": ["  4 | <BASF>", "    | ^^^^^^", f"{NOT_DECLARED}; is <BASE> meant?", LINT]},
    {"shows": "an edit of a file that isn't there", "words": ["edit", "none.txt"], "fault": "none.txt:0: 67 ReadFault",
     "below": [f"there is no such file: {READ_FAULT}"], "status": 2},
    {"shows": "a lint, which stays as it is", "words": ["lint", "none.txt"], "fault": "none.txt:0: 67 ReadFault: there is no such file", "below": [], "status": 2},
    # Sources.
    {"shows": "a line of a source", "words": ["import", "s.txt"], "files": {"s.txt": table("a", " <U0063>..<U0061>")}, "fault": "s.txt:4: 84 BadRange",
     "below": ["  4 |  <U0063>..<U0061>", "    |  ^^^^^^^^^^^^^^^^", "write the ends in their order, and alike"]},
    {"shows": "a line of what a source copies", "words": ["import", "in/s.txt"], "files": {"in/s.txt": 'LC_COLLATE\ncopy "letters"\nEND LC_COLLATE\n',
     "in/letters": table("a", "<BASE b")}, "fault": "in/letters:4: 2 OpenSymbol", "below": ["  4 | <BASE b", "    | ^^^^^^^", OPEN_SYMBOL]},
    {"shows": "a source that changes a table", "words": ["import", "s.txt"], "files": {"s.txt": block("<U0062>")}, "fault": "s.txt:2: 20 UnknownStatement",
     "below": ["  2 | reorder-after <U0061>", "    | ^^^^^^^^^^^^^", TAILORS]},
    {"shows": "a source with an order of its own", "words": ["import-delta", "base.txt", "s.txt"], "files": {"s.txt": table("b")},
     "fault": "s.txt:2: 20 UnknownStatement", "below": ["  2 | order_start forward", "    | ^^^^^^^^^^^", ORDERS]},
    {"shows": "a source that copies itself", "words": ["import", "s.txt"], "files": {"s.txt": 'LC_COLLATE\n copy "s.txt"\nEND LC_COLLATE\n'},
     "fault": "s.txt:2: 80 CopyOfItself", "below": ['  2 |  copy "s.txt"', "    |  ^^^^^^^^^^^^", "take one of the copies away"]},
    {"shows": "a source that isn't there", "words": ["import", "none.txt"], "fault": "none.txt:0: 67 ReadFault",
     "below": [f"there is no such file: {READ_FAULT}"], "status": 2},
    {"shows": "a copy that lies elsewhere", "words": ["import-delta", "base.txt", "in/s.txt"], "files": {"in/s.txt": delta('copy "sv_SE"')},
     "fault": "in/sv_SE:0: 67 ReadFault", "below": ["there is no such file: what a source copies is looked for in the folder of the source, in/"], "status": 2},
    {"shows": "a copy that lies elsewhere, of a source in the current folder", "words": ["import-delta", "base.txt", "s.txt"],
     "files": {"s.txt": delta('copy "sv_SE"')}, "fault": "sv_SE:0: 67 ReadFault",
     "below": ["there is no such file: what a source copies is looked for in the folder of the source, ./"], "status": 2},
    {"shows": "the table of a tailoring", "words": ["import-delta", "t.txt", "source.txt"], "files": {"t.txt": table("<BASE>")},
     "fault": "t.txt:3: 34 NotDeclared", "below": ["  3 | <BASE>", "    | ^^^^^^", NOT_DECLARED]},
]


def bytes_of(text):
    """Returns a text in UTF-8, and bytes as they are."""
    return text.encode() if isinstance(text, str) else text


def read_all(screen):
    """Returns what stands on a screen, once nobody writes to it any longer."""
    shown = b""
    while True:
        try:
            more = os.read(screen, 65536)
        except OSError:
            return shown
        if not more:
            return shown
        shown += more


def run_once(program, run, folder, errors):
    """Runs the program in a folder with this as standard error, and returns its status and its output."""
    output = open(run["output_to"], "wb") if "output_to" in run else subprocess.PIPE
    given = {"input": bytes_of(run.get("input", "")), "stdout": output, "stderr": errors, "cwd": folder, "timeout": SECONDS}
    ran = subprocess.run([program, *run["words"]], check=False, start_new_session=True, **given)
    return ran.returncode, ran.stdout


def passes(program, run):
    """Whether a run tells what it is to tell, at a terminal and without one."""
    line = f"{run['fault']}\n" if run["fault"] else ""
    wanted = (line + "".join(f"{told}\n" for told in run["below"])).encode()
    with tempfile.TemporaryDirectory() as folder:
        shutil.copytree(f"{ROOT}/examples", folder, dirs_exist_ok=True)
        for name, text in run.get("files", {}).items():
            os.makedirs(os.path.dirname(f"{folder}/{name}"), exist_ok=True)
            with open(f"{folder}/{name}", "wb") as file:
                file.write(bytes_of(text))
        screen, terminal = open_terminal()
        try:
            at_terminal = run_once(program, run, folder, terminal)
        finally:
            os.close(terminal)
        shown = read_all(screen)
        os.close(screen)
        with tempfile.TemporaryFile() as errors:
            without = run_once(program, run, folder, errors)
            errors.seek(0)
            told = errors.read()
    if shown == wanted and told == line.encode() and at_terminal == without and without[0] == run.get("status", 1):
        return True
    print(f"FAILED: {run['shows']}: {run['words']}\nat a terminal {at_terminal[0]}:\n{shown.decode(errors='replace')}"
          f"wanted:\n{wanted.decode()}without one {without[0]}:\n{told.decode(errors='replace')}", flush=True)
    return False


def run_all(program):
    """Runs all, and returns how many passed, and how many failed. Where the system has no pseudo-terminal, which is said, none is run."""
    try:
        for end in open_terminal():
            os.close(end)
    except OSError as error:
        print(f"no refused run at a terminal was run: {error}", flush=True)
        return 0, 0
    passed = sum(passes(program, run) for run in RUNS)
    return passed, len(RUNS) - passed


if __name__ == "__main__":
    counts = run_all(os.path.abspath(sys.argv[1] if len(sys.argv) > 1 else PROGRAM))
    print(f"{counts[0]} passed, {counts[1]} failed")
    sys.exit(1 if counts[1] else 0)
