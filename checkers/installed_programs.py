#!/usr/bin/env python3
"""Installs the program as people install things, runs the first session from there, and removes it again.

usage: checkers/installed_programs.py [PROGRAM]

PROGRAM is crates/collbench/out/collbench where none is given. It is installed by `make install`, from the package of `make deb` and from
the tarball of `make dist`, each into a folder of its own, whose name has a blank. There the program, the pages, the licences, the
examples and the files of share/ have to stand where they belong, byte for byte, and the first session has to have the replies of
tests/runs. Behind the removal only what was there before is left. Packages and tarballs are made twice, and are the same bytes. A
checkout without a proved program refuses all of it. Where root runs this, `dpkg` installs the package below a root and with a database of
its own. What is left out is told.

The last line is 'N passed, M failed', where a run is one way to install, or the refusal.
"""

import gzip
import hashlib
import os
import shutil
import subprocess
import sys
import tempfile

from run_program import PROGRAM, ROOT, bytes_of, runs_of

SECONDS = 120
PAGES = "share/doc/collbench"
# What stands there in any case, beside what share/ and examples/ have.
LICENCES = ["LICENSE-MIT", "LICENSE-APACHE"]
TEXTS = ["README.md", "CHANGELOG.md", "CONTRIBUTING.md", "bench/README.md"]


def ran(words, folder, **how):
    """Runs a command, which has none of the variables that `make` hands on. Returns how it ended, with what it wrote."""
    kept = {name: value for name, value in os.environ.items() if name not in ("MAKEFLAGS", "MFLAGS", "MAKELEVEL", "PREFIX", "DESTDIR")}
    kept["PATH"] += ":/usr/sbin:/sbin"
    return subprocess.run(words, cwd=folder, env=kept, capture_output=True, timeout=SECONDS, check=False, **how)


def done(words, folder):
    """Runs a command that has to succeed. Returns what it wrote."""
    ended = ran(words, folder)
    if ended.returncode:
        raise RuntimeError(f"{' '.join(words)}: status {ended.returncode}: {ended.stderr.decode(errors='replace')}")
    return ended.stdout.decode()


def content(*path):
    """The bytes of a file."""
    with open(os.path.join(*path), "rb") as file:
        return file.read()


def tree(folder):
    """All that stands below a folder: the bytes of each file, and None for each folder."""
    found = {}
    for place, folders, files in os.walk(folder):
        below = os.path.relpath(place, folder)
        found.update((os.path.normpath(f"{below}/{name}"), None) for name in folders)
        found.update((os.path.normpath(f"{below}/{name}"), content(place, name)) for name in files)
    return found


def known(folder):
    """The files of a folder of the repository that git knows."""
    return done(["git", "ls-files", "-z", "--", folder], ROOT).split("\0")[:-1]


def wanted(program):
    """What has to stand below a prefix."""
    files = {name: content(ROOT, name) for name in known("share")}
    files |= {f"{PAGES}/{name}": content(ROOT, name) for name in [*TEXTS, *LICENCES, *known("docs"), *known("examples")]}
    return {**files, "bin/collbench": content(program)}


def linked(data):
    """A page whose links lead to the changelog and the licences as a package has them."""
    links = {b"](CHANGELOG.md)": b"](changelog.gz)", **{f"]({name})".encode(): b"](copyright)" for name in LICENCES}}
    for link, other in links.items():
        data = data.replace(link, other)
    return data


def as_debian_has_it(files):
    """The same in a package: man pages are compressed, completions of zsh stand elsewhere, and so do the changelog and the licences, to
    which the pages at the top lead there."""
    moved = {}
    for name, data in files.items():
        if name in (f"{PAGES}/README.md", f"{PAGES}/CONTRIBUTING.md"):
            data = linked(data)
        place = name.replace("share/zsh/site-functions", "share/zsh/vendor-completions")
        place = place.replace(f"{PAGES}/CHANGELOG.md", f"{PAGES}/changelog.gz")
        if place.startswith("share/man/"):
            place += ".gz"
        if os.path.basename(name) not in LICENCES:
            moved[place] = data
    return moved


def faults(prefix, files):
    """How an installed program differs from what is wanted, a line for each."""
    found = tree(prefix)
    for name, data in files.items():
        there = found.get(name)
        if there is None:
            yield f"{name} is not there"
        elif (gzip.decompress(there) if name.endswith(".gz") else there) != data:
            yield f"{name} is another one"
    if not session_is_as_told(prefix):
        yield "the first session has other replies than those of tests/runs"


def session_is_as_told(prefix):
    """Whether the first session, from the installed examples, has the replies that it has to have."""
    examples = os.path.join(prefix, PAGES, "examples")
    ended = ran([f"{prefix}/bin/collbench", "session", "first_table.txt"], examples, input=content(examples, "first_session.txt"))
    [(_, run)] = runs_of("the_first_session")
    return (ended.returncode, ended.stdout, ended.stderr) == (0, bytes_of(run["output"]), b"")


def refuses(program, room):
    """A checkout without a proved program installs nothing and makes nothing."""
    checkout = f"{room}/checkout"
    shutil.copytree(ROOT, checkout, ignore=shutil.ignore_patterns(".git", "crates", "out", "__pycache__"))
    for words in (["install", f"DESTDIR={room}/stage"], ["deb", f"PACKAGES={room}/stage"], ["dist", f"PACKAGES={room}/stage"]):
        ended = ran(["make", *words], checkout)
        if not ended.returncode or b"'make' proves and builds it" not in ended.stderr or os.path.exists(f"{room}/stage"):
            yield f"make {words[0]} without a proved program: status {ended.returncode}, {ended.stderr!r}"


def older_install(program, words, room):
    """Installs a tree that has one page more, in a folder of its own."""
    older = f"{room}/older"
    done([f"{ROOT}/packaging/lay_out.sh", program, older], room)
    os.mkdir(f"{older}/share/older")
    with open(f"{older}/share/older/page", "wb"):
        pass
    done([f"{ROOT}/packaging/install.sh", "install", *words, f"TREE={older}"], room)


def from_make(program, room):
    """What `make install` puts, over an older install, is what `make uninstall` removes, and what others have there stays."""
    stage, prefix = f"{room}/stage", "/opt/a prefix"
    words = [f"DESTDIR={stage}", f"PREFIX={prefix}"]
    for folder in ("doc", "man/man1"):
        os.makedirs(f"{stage}{prefix}/share/{folder}")
    with open(f"{stage}{prefix}/share/man/man1/other.1", "wb"):
        pass
    before = tree(stage)
    older_install(program, words, room)
    done(["make", "install", f"PROGRAM={program}", *words], ROOT)
    yield from faults(f"{stage}{prefix}", wanted(program))
    if os.path.exists(f"{stage}{prefix}/share/older"):
        yield "make install leaves what only the install before had"
    done(["make", "uninstall", *words], ROOT)
    if tree(stage) != before:
        yield f"make uninstall leaves {sorted(set(tree(stage)) ^ set(before))}"
    if not ran(["make", "uninstall", *words], ROOT).returncode:
        yield "make uninstall where nothing is installed has status 0"


def made_twice(target, program, room):
    """Makes a package or a tarball in two folders, at two times. Returns the first folder."""
    for name in ("first", "second"):
        done(["make", target, f"PROGRAM={program}", f"PACKAGES={room}/{name}"], ROOT)
    if tree(f"{room}/first") != tree(f"{room}/second"):
        raise RuntimeError(f"make {target}: other bytes a second time")
    return f"{room}/first"


def from_package(program, room):
    """What the package unpacks and lists, and where root runs this, what dpkg installs and removes."""
    folder = made_twice("deb", program, room)
    [package] = os.listdir(folder)
    package, unpacked = f"{folder}/{package}", f"{room}/unpacked"
    files = as_debian_has_it(wanted(program))
    done(["dpkg-deb", "-R", package, unpacked], room)
    yield from faults(f"{unpacked}/usr", files)
    sums = dict(reversed(line.split("  ", 1)) for line in content(unpacked, "DEBIAN/md5sums").decode().splitlines())
    there = {name: hashlib.md5(data).hexdigest() for name, data in tree(unpacked).items() if data is not None and name.startswith("usr/")}
    if sums != there:
        yield f"md5sums differ: {sorted(set(sums.items()) ^ set(there.items()))}"
    if b"libc6 (>= " not in content(unpacked, "DEBIAN/control"):
        yield "the package does not depend on a version of libc6"
    if os.geteuid() == 0:
        yield from by_dpkg(package, files, room)
    else:
        print("left out: what dpkg installs and removes, since root doesn't run this")


def by_dpkg(package, files, room):
    """dpkg installs the package below a root, with a database, of its own, and removes it."""
    root, database = f"{room}/root", f"{room}/database"
    for name in (root, f"{database}/info", f"{database}/updates", f"{database}/triggers"):
        os.makedirs(name)
    with open(f"{database}/status", "wb"):
        pass
    dpkg = ["dpkg", f"--root={root}", f"--admindir={database}", f"--log={room}/log", "--path-include=*", "--force-depends"]
    done([*dpkg, "--install", package], room)
    yield from faults(f"{root}/usr", files)
    done([*dpkg, "--purge", "collbench"], room)
    if tree(root):
        yield f"dpkg leaves {sorted(tree(root))}"


def from_tarball(program, room):
    """The tarball has its sum, and installs and removes the program by itself."""
    folder = made_twice("dist", program, room)
    [tarball] = (name for name in os.listdir(folder) if name.endswith(".tar.gz"))
    if content(folder, "SHA256SUMS").decode() != f"{hashlib.sha256(content(folder, tarball)).hexdigest()}  {tarball}\n":
        yield "SHA256SUMS has another sum"
    done(["tar", "-xzf", tarball], folder)
    unpacked, stage = f"{folder}/{tarball[:-7]}", f"{room}/stage"
    words = ["./install.sh", f"PREFIX={stage}/usr"]
    if "libc.so.6" not in content(unpacked, "INSTALL.txt").decode():
        yield "INSTALL.txt does not tell that the program needs libc.so.6"
    os.mkdir(stage)
    done([*words, "install"], unpacked)
    yield from faults(f"{stage}/usr", wanted(program))
    done([*words, "uninstall"], unpacked)
    if tree(stage):
        yield f"install.sh uninstall leaves {sorted(tree(stage))}"


def told(part, program):
    """What differs in a part, and also why it couldn't be run."""
    with tempfile.TemporaryDirectory(prefix="installed program ") as room:
        try:
            return list(part(program, room))
        except (OSError, RuntimeError, ValueError, subprocess.SubprocessError) as error:
            return [f"{part.__name__}: {type(error).__name__} {error}"]


def run_all(program):
    """Tries each way to install. Returns how many passed, and how many failed."""
    parts = [refuses, from_make, from_tarball]
    if shutil.which("dpkg-deb"):
        parts.append(from_package)
    else:
        print("left out: the package, since dpkg-deb isn't there")
    failed = 0
    for part in parts:
        lines = told(part, os.path.abspath(program))
        failed += bool(lines)
        for line in lines:
            print(f"FAILED: {line}")
    return len(parts) - failed, failed


def main():
    passed, failed = run_all(sys.argv[1] if sys.argv[1:] else PROGRAM)
    print(f"{passed} passed, {failed} failed")
    return 1 if failed else 0


if __name__ == "__main__":
    sys.exit(main())
