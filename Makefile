# make        proves and builds the program, crates/collbench/out/collbench, and says how far it is
# make demo   compiles the program without a proof, in half a minute, and runs a first session on a table of examples
# make test   the merge gate: every proof, the edits that must fail, the tests, and runs of the program that was built
# make edits  tries the further edits that the prover must refuse; make edits CRATES="coll_key coll_order" those of some crates
#
# What 'make' has proved and built, with its man pages, completions, examples and pages; none of these proves anything:
#
# make install    puts it below PREFIX=/usr/local; DESTDIR goes before that
# make uninstall  removes what that put there, with the same PREFIX and DESTDIR
# make deb        makes a Debian package of it in PACKAGES=packaging/out
# make dist       makes a tarball of it there, which is installed without the repository

TABLE := examples/first_table.txt
SESSION := examples/first_session.txt
PROGRAM := crates/collbench/out/collbench
PREFIX := /usr/local
DESTDIR ?=
PACKAGES := packaging/out

.PHONY: program demo test edits install uninstall deb dist

program:
	@checkers/build_program.py

demo:
	@echo "Compiling the program without a proof, which takes half a minute. 'make' proves and builds it."
	@printf '\nThe table, %s:\n\n' $(TABLE)
	@cat $(TABLE)
	@printf '\nThe lines of the session, %s:\n\n' $(SESSION)
	@cat $(SESSION)
	@printf '\nTheir replies:\n\n'
	@log=$$(mktemp) && trap 'rm -f "$$log"' EXIT && cd crates/collbench && \
		rt try --steps 1 -- session $(abspath $(TABLE)) < $(abspath $(SESSION)) 2> "$$log" || { cat "$$log" >&2; exit 1; }
	@printf '\nThis build was not proved.\n'

test:
	@checkers/gate.py

edits:
	@checkers/try_edits.py $(CRATES)

install:
	@tree=$$(mktemp -d) && trap 'rm -rf "$$tree"' EXIT && packaging/lay_out.sh "$(PROGRAM)" "$$tree" && \
		packaging/install.sh install PREFIX="$(PREFIX)" DESTDIR="$(DESTDIR)" TREE="$$tree"

uninstall:
	@packaging/install.sh uninstall PREFIX="$(PREFIX)" DESTDIR="$(DESTDIR)"

deb:
	@packaging/deb.sh "$(PROGRAM)" "$(PACKAGES)"

dist:
	@packaging/dist.sh "$(PROGRAM)" "$(PACKAGES)"
