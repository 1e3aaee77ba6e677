# Pargrep is proved and built by the Rattle toolchain, whose command is `rt`.
RT ?= rt
PYTHON ?= python3

prefix ?= /usr/local
bindir ?= $(prefix)/bin
mandir ?= $(prefix)/share/man
bashdir ?= $(prefix)/share/bash-completion/completions
zshdir ?= $(prefix)/share/zsh/site-functions
fishdir ?= $(prefix)/share/fish/vendor_completions.d
INSTALL ?= install

program = crates/pargrep/out/pargrep

.PHONY: all help check test rows check-grep check-workers check-parallel check-limits refuse bench install uninstall \
	dist deb clean toolchain built

version := $(shell sed -n 's/^pub const VERSION: .*"pargrep \([0-9.]*\).*/\1/p' crates/pg_words/src/help.rt)

all: toolchain ## Prove the program and the crates that it uses, and build it.
	@$(PYTHON) tools/build.py $(RT)
	@echo "pargrep: built $(program)"

help: ## List the targets.
	@sed -n 's/^\([a-z-]*\):.*## \(.*\)/\1\t\2/p' $(MAKEFILE_LIST) | expand -t 16

# `rt ci` proves every crate from nothing, runs the tests and builds the program, tests/refuse.py tries the wrong bodies
# under crates/*/must-fail over what it has built, and then the command lines in tests/rows are run on the program. The
# last line counts all. The further wrong bodies under crates/*/refused are looked up in the code.
check: toolchain ## The gate: prove all from nothing, try the wrong bodies, run all tests and rows.
	@$(PYTHON) tests/gate.py $(RT)

# `make test program=/usr/bin/pargrep` runs it on another program.
test: built ## Run all that needs only the built program: the gate without proofs and wrong bodies.
	@$(PYTHON) tests/gate.py --program "$(program)"

rows: all ## Run the command lines in tests/rows on the program.
	@$(PYTHON) tests/run_rows.py

check-grep: ## Ask the machine's own grep the same command lines.
	@$(PYTHON) tests/run_rows.py --grep

check-workers: all ## Compare outputs by 1, 2, 3, 4 and 64 workers, over 20,000 files and over 256 MB.
	@$(PYTHON) tests/check_workers.py

check-parallel: all ## Compare one run with shares of its files, joined by GNU parallel; it says what it needs.
	@$(PYTHON) tests/check_parallel.py

check-limits: all ## Run the program under limits of its address space, from 1 to 64 MB.
	@$(PYTHON) tests/limits.py

# Run it before a change to a function that one of them turns. `make refuse edits="pg_seq pg_blocks/long-line-taken"`
# tries some.
refuse: toolchain ## Try the wrong bodies under crates/*/refused, which the gate only looks up.
	@RT="$(RT)" $(PYTHON) tests/refuse.py $(edits)

bench: all ## Time the program beside GNU grep, and ripgrep where there is one.
	$(PYTHON) bench/bench.py $(program)
	bench/memory.sh $(program)

install: built ## Install what `make` has built, with its man page and completions. It proves nothing.
	$(INSTALL) -d "$(DESTDIR)$(bindir)" "$(DESTDIR)$(mandir)/man1"
	$(INSTALL) -d "$(DESTDIR)$(bashdir)" "$(DESTDIR)$(zshdir)" "$(DESTDIR)$(fishdir)"
	$(INSTALL) -m 755 $(program) "$(DESTDIR)$(bindir)/pargrep"
	$(INSTALL) -m 644 docs/man/pargrep.1 "$(DESTDIR)$(mandir)/man1/pargrep.1"
	$(INSTALL) -m 644 completions/pargrep.bash "$(DESTDIR)$(bashdir)/pargrep"
	$(INSTALL) -m 644 completions/_pargrep "$(DESTDIR)$(zshdir)/_pargrep"
	$(INSTALL) -m 644 completions/pargrep.fish "$(DESTDIR)$(fishdir)/pargrep.fish"
	@echo "pargrep: installed $(DESTDIR)$(bindir)/pargrep, its man page and completions"
	@case ":$$PATH:" in *":$(bindir):"*) ;; *) echo "pargrep: $(bindir) is not on your PATH yet" ;; esac

dist: ## Make dist/pargrep-VERSION.tar.gz of what is committed.
	@mkdir -p dist
	@git archive --format=tar --prefix=pargrep-$(version)/ HEAD | gzip -9n > dist/pargrep-$(version).tar.gz
	@echo "pargrep: made dist/pargrep-$(version).tar.gz"

deb: all ## Make a Debian package of what was built, in dist.
	@tools/make_deb.sh $(version) dist

uninstall: ## Remove what was installed.
	rm -f "$(DESTDIR)$(bindir)/pargrep" "$(DESTDIR)$(mandir)/man1/pargrep.1"
	rm -f "$(DESTDIR)$(bashdir)/pargrep" "$(DESTDIR)$(zshdir)/_pargrep" "$(DESTDIR)$(fishdir)/pargrep.fish"

clean: ## Remove what was built and kept.
	rm -rf crates/*/out dist

toolchain:
	@command -v $(RT) >/dev/null 2>&1 || { echo "pargrep: the Rattle toolchain is missing: put its command rt on PATH, or run make RT=/path/to/rt" >&2; exit 1; }

built:
	@test -x "$(program)" || { echo "pargrep: there is no $(program) yet: run make first" >&2; exit 1; }
