# What a user and a maintainer do with the repository. The toolchain's command `rt` has to be on the PATH.

SCRIPT ?= examples/first.trie
PREFIX ?= /usr/local
PROGRAM := crates/trierun/out/trierun

.PHONY: help try run build check quick changed test costs definitions vendor soak install lib python bench clean

help: ## Lists the targets.
	@grep -E '^[a-z]+: .*## ' Makefile | sed -E 's/^([a-z]+):.*## /\1\t/' | expand -t 13

try: ## Runs the program as it stands on SCRIPT, with no proof: for a first look, in about a minute.
	@echo "make try: nothing is proved: the program as it stands is compiled and run, which takes about a minute; make run proves it" >&2
	@file=$$(realpath -m -- "$(SCRIPT)") && cd crates/trierun && rt try -- "$$file"

run: build ## Proves what the program needs, builds it, and runs it on SCRIPT.
	@$(PROGRAM) $(SCRIPT)

build: ## Leaves the proved program at crates/trierun/out/trierun; with KEEP=1 all that the next proof of a crate may begin with.
	@tools/build trierun

check: ## Proves what changed since the last check; no tests, no edits.
	@rt all check

quick: ## Runs the tests with no proof; of one crate, with CRATE=NAME, and with ALL=1 of what stands on it too.
	@tools/quick $(if $(ALL),--all) $(CRATE)

changed: ## Proves and tests what changed since BASE (origin/main), and what stands on it; DRY=1 only says what that is.
	@tools/changed $(if $(DRY),--dry) $(BASE)

test: ## The gate: every proof, the edits that must be refused, all tests and programs; with ANEW=1 also what was proved here before.
	@tools/gate

costs: ## Prints what an edit of each crate costs the gate, and the ten functions with the most steps.
	@tools/costs

definitions: ## Prints the definitions that contracts cite, in plain words; those of a crate or of one name, with NAME=..
	@tools/definitions $(NAME)

vendor: ## Copies the library, with what is proved of it here, into the repository DEST, or brings it up to date; CRATE=NAME: another crate.
	@tools/vendor "$(DEST)" $(CRATE)

soak: build ## Runs the program on random scripts for a minute, and audits each journal; the gate does not.
	@tools/soak $(PROGRAM)

install: ## Builds the program, as build does, and puts its binary into PREFIX/bin.
	@install -d "$(DESTDIR)$(PREFIX)/bin" && test -w "$(DESTDIR)$(PREFIX)/bin" \
		|| { echo "make install: $(DESTDIR)$(PREFIX)/bin cannot be written" >&2; exit 1; }
	@tools/build trierun
	@install -m 755 $(PROGRAM) "$(DESTDIR)$(PREFIX)/bin/trierun"
	@echo "installed $(DESTDIR)$(PREFIX)/bin/trierun"

lib: ## Proves and builds the library for C: out/libtambyulo.a and .so, with tambyulo.h and tambyulo.pc.
	@tools/lib

python: lib ## Makes the wheel of the Python package in out/.
	@rm -f out/tambyulo-*.whl
	@echo "made out/$$(python3 bindings/python/build_backend.py out)"

bench: ## Proves and builds the benchmarks, which bench/README.md explains.
	@tools/build trie_bench shared_bench
	@echo "built crates/trie_bench/out/trie_bench and crates/shared_bench/out/shared_bench"

clean: ## Drops everything that was proved and built.
	@rm -rf out crates/*/out bench/out bindings/rust/target tools/__pycache__
