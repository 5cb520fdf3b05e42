"""Small programs that benches build over crates of this repository, or of another working tree.

A program stands in a folder of its own, over copies of the crates below it, so that it is proved and built as any other program, and
nothing of it is kept in the tree. The first build proves these crates and takes some minutes; in a folder that is kept a second one is
quick. It needs the toolchain's `rt` on the path.
"""

import os
import resource
import shutil
import subprocess
import sys

ROOT = os.path.dirname(os.path.dirname(os.path.abspath(__file__)))


def listed(tree):
    """The lines of a tree's crates.txt, by the crate that each is of."""
    with open(os.path.join(tree, "crates.txt"), encoding="utf-8") as lines:
        return {line.split(":")[0]: line for line in lines if ":" in line and not line.startswith("#")}


def below(lines, crates):
    """These crates, and those of the same repository that they stand on."""
    found, left = [], [it for it in crates if it in lines]
    while left:
        crate = left.pop()
        if crate not in found:
            found.append(crate)
            left += [it for it in lines[crate].split(":")[1].split() if it in lines]
    return found


def built(work, name, libraries, text, words, tree=ROOT):
    """The path of a program with this text over these libraries, built in this folder over the crates of a tree. It is run once, with
    these words."""
    lines = listed(tree)
    crates = below(lines, libraries)
    for crate in crates:
        for part in ("src", "specs", "proofs"):
            copy = os.path.join(work, "crates", crate, part)
            shutil.rmtree(copy, ignore_errors=True)
            shutil.copytree(os.path.join(tree, "crates", crate, part), copy)
    with open(os.path.join(work, "crates.txt"), "w", encoding="utf-8") as out:
        out.writelines([*(lines[crate] for crate in crates), f"{name}: {' '.join(libraries)}\n"])
    program = os.path.join(work, "crates", name)
    os.makedirs(os.path.join(program, "src"), exist_ok=True)
    with open(os.path.join(program, "src", "main.rt"), "w", encoding="utf-8") as out:
        out.write(text)
    subprocess.run(["rt", "run", "--", *words], cwd=program, check=True, stdout=subprocess.DEVNULL)
    return os.path.join(program, "out", name)


def measured(program, *words):
    """What a program printed, its processor time in seconds, and its peak memory in kilobytes.

    GNU time starts the program, since a child of a script would count the script's own memory.
    """
    before = resource.getrusage(resource.RUSAGE_CHILDREN)
    run = subprocess.run(["/usr/bin/time", "-f", "%M", program, *words], capture_output=True, text=True)
    after = resource.getrusage(resource.RUSAGE_CHILDREN)
    if run.returncode != 0:
        sys.exit(f"the program ended with status {run.returncode}: {run.stderr}")
    return run.stdout, after.ru_utime + after.ru_stime - before.ru_utime - before.ru_stime, int(run.stderr.split()[-1])
