# bin65: `make try` gives a first look, unproved; `make example` proves and builds the program, and assembles and links a first
# source and three programs with it; `make test` is the merge gate.
PREFIX ?= /usr/local
PROGRAM := crates/bin65/out/bin65

.PHONY: try example test program mutants audit install uninstall release bench clean

# Builds the program after every function below it is proved; does nothing if no source changed.
program:
	@python3 gate/prove.py

# A first link within two minutes, with the unproved program: of a source of example/, or of yours.
#     make try
#     make try SOURCE=my.s SCRIPT=my.cfg [IMAGE=my.bin]
try:
	@SOURCE='$(SOURCE)' SCRIPT='$(SCRIPT)' IMAGE='$(IMAGE)' sh example/try.sh

example: program
	@sh example/first.sh $(abspath $(PROGRAM))
	@sh example/programs.sh $(abspath $(PROGRAM))
	@sh example/library.sh $(abspath $(PROGRAM))
	@sh example/sizes.sh $(abspath $(PROGRAM))
	@echo 'The program is $(PROGRAM); make install puts it on the path, and docs/TUTORIAL.md continues from here.'

test:
	@python3 tests/all.py

# Tries all mutants, those of a crate (CRATE=asm65), or one (CRATE=asm65/NAME). Those that an earlier run on this machine tried, over the
# same files, aren't tried again.
mutants:
	@python3 gate/mutants.py $(CRATE)

# Writes audit-out/statement.txt: the definitions that the clauses of run and its three variants reach, in the order in which they can be
# read, and then these contracts. Needs no program.
audit:
	@python3 gate/audit.py
	@echo 'audit-out/statement.txt has them.'

bench: program
	@python3 bench/run.py $(abspath $(PROGRAM))

# Installs the program, work65, the man pages, the pages with their examples, and the scripts for users; gate/install.sh has the folders.
install: program
	@stage=$$(mktemp -d) && trap 'rm -rf "$$stage"' EXIT && python3 gate/release.py stage $(abspath $(PROGRAM)) "$$stage" && \
	    sh gate/install.sh install "$$stage" '$(DESTDIR)' '$(PREFIX)'

uninstall:
	@sh gate/install.sh uninstall '$(DESTDIR)' '$(PREFIX)'

# Packs an archive that can be installed without the toolchain; docs/RELEASE.md describes it.
release: program
	@python3 gate/release.py pack $(abspath $(PROGRAM)) release

clean:
	rm -rf crates/*/out example/out audit-out bench-out release
