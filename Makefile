# `make help` lists the targets. A target's tools are asked for before anything is done, and what takes minutes says so on standard error.
SHELL = bash
.SHELLFLAGS = -o pipefail -ec
.DELETE_ON_ERROR:
CARGO = cargo --quiet
HARNESS = --offline --release --manifest-path harness/Cargo.toml
LIBRARY = $(HARNESS) --features library
PROGRAM = console
.PHONY: run test harness alone bench library valgrind wrong install uninstall clean help

# Where `make install` puts what it installs; DESTDIR stands before all of them.
PREFIX = /usr/local
LIBDIR = $(PREFIX)/lib
INCLUDEDIR = $(PREFIX)/include
MANDIR = $(PREFIX)/share/man

# The libraries. The version is the header's, and its major number that of the soname.
HEADER = include/tickets.h
VERSION := $(shell sed -n 's/^\#define TICKETS_VERSION_TEXT "\(.*\)"$$/\1/p' $(HEADER))
MAJOR := $(firstword $(subst ., ,$(VERSION)))
STATIC = target/staticlib/libtickets.a
SHARED = target/lib/libtickets.so.$(VERSION)
EXPORTS = target/lib/tickets.map

# The tools of each target.
TOOLS_run = rt
TOOLS_library = rt cc
TOOLS_install = $(TOOLS_library)
TOOLS_alone = cargo cc
TOOLS_harness = $(TOOLS_library) cargo python3 pkg-config readelf nm
TOOLS_test = $(TOOLS_harness)
TOOLS_bench = $(TOOLS_library) cargo valgrind
TOOLS_valgrind = $(TOOLS_bench)
TOOLS_wrong = rt python3
missing = $(if $(shell command -v $(2) 2>/dev/null),,$(error make $(1) needs $(2), which is not here))
$(foreach goal,$(or $(MAKECMDGOALS),run),$(foreach tool,$(TOOLS_$(goal)),$(call missing,$(goal),$(tool))))

# Runs rt in the crate $(1) with the words $(2), and no input. What it says is shown as it goes; its whole log, target/$(3).log, where it fails.
define proved
	@mkdir -p target
	@{ cd crates/$(1) && rt $(2); } </dev/null 2>&1 | tee target/$(3).log | sed -un '/^rt: note: must-fail\|^rt: running/d; /^rt:/p' >&2 || \
	    { status=$$?; cat target/$(3).log >&2; exit $$status; }
endef

# `rt run` builds the console and runs it once, on no input, which it answers by nothing.
run: ## proves and builds the console, and starts it: a call a line on standard input, an answer a line on standard output
	@echo 'make run: proving and building the console: minutes the first time, seconds after' >&2
	$(call proved,$(PROGRAM),run,run)
	@crates/$(PROGRAM)/out/$(PROGRAM)

# `rt ci` takes all processors and removes a library that lies in out/, so the harness follows it. An edit of must-fail/ that could not be tried
# shows nothing; `rt ci` passes it, and this does not. `rt ci` leaves the programs in out/, and the last test runs them. The closing line of `rt ci`
# comes last.
test: ## proves every crate, tries the wrong programs that must be refused, and runs the tests: all that must hold
	@mkdir -p target
	rt ci | tee target/ci.log
	@if grep -Eq '^rt: ok.*, [1-9][0-9]* bad' target/ci.log; then echo 'make test: mend what BAD EDIT above names' >&2; exit 1; fi
	@if grep -F 'only because a proof file names what the edit took away' target/ci.log; then echo 'make test: that edit shows nothing' >&2; exit 1; fi
	@$(MAKE) --no-print-directory harness
	$(CARGO) test $(HARNESS) --features programs --test programs
	@tail -n 1 target/ci.log | grep -Ex '[0-9]+ passed, 0 failed'

harness bench valgrind: export TICKETS_LIB_DIR = $(CURDIR)/target/staticlib
harness bench valgrind: export TICKETS_STATIC = 1

harness: ## runs the harness' tests, with the library
	@$(MAKE) --no-print-directory --jobs=2 alone library
	$(CARGO) test --offline --manifest-path rust/Cargo.toml
	$(CARGO) test $(LIBRARY) --test library --test morning --test faults --test properties --test saving --test examples
	$(CARGO) test $(LIBRARY) --test differential -- --nocapture

alone: ## runs those of its tests that need no library
	$(CARGO) test $(HARNESS)
	$(CARGO) run $(HARNESS) --bin record_vectors stdin | cmp - crates/record_vectors/stdin
	$(CARGO) run $(HARNESS) --bin record_vectors stdout | cmp - crates/record_vectors/stdout

library: $(STATIC) $(SHARED) ## proves and builds the library: target/staticlib/libtickets.a and target/lib/libtickets.so

$(STATIC): $(shell find crates.txt crates/*/src crates/*/specs crates/*/proofs)
	@echo 'make library: proving and building the library: minutes the first time, less where little has changed' >&2
	$(call proved,tickets,lib,library)
	@mkdir -p $(@D)
	@cp crates/tickets/out/libtickets.a $@

# What the header declares is exported, and nothing else; a function that is declared and not there fails the link.
$(EXPORTS): $(HEADER)
	@mkdir -p $(@D)
	@{ echo 'TICKETS_$(MAJOR) { global:'; sed -nE 's/^[a-z0-9_]+ (tickets_[a-z0-9_]+)\(.*/    \1;/p' $<; echo 'local: *; };'; } >$@

# Its two shorter names are no symbolic links: `rt ci` takes none in the tree.
$(SHARED): $(STATIC) $(EXPORTS)
	@cc -shared -o $@ -Wl,-soname,libtickets.so.$(MAJOR) -Wl,--version-script,$(EXPORTS) -Wl,--no-undefined-version \
	    -Wl,-z,defs,-z,text,-z,relro,-z,now,-z,noexecstack -Wl,--whole-archive $(STATIC) -Wl,--no-whole-archive
	@ln -f $@ $(@D)/libtickets.so.$(MAJOR)
	@ln -f $@ $(@D)/libtickets.so

install: library ## installs header, libraries, pkg-config file and manual page under PREFIX (/usr/local), LIBDIR, INCLUDEDIR, MANDIR; DESTDIR before them
	@install -d $(DESTDIR)$(INCLUDEDIR) $(DESTDIR)$(LIBDIR)/pkgconfig $(DESTDIR)$(MANDIR)/man3
	@install -m 644 $(HEADER) $(DESTDIR)$(INCLUDEDIR)
	@install -m 644 $(STATIC) $(SHARED) $(DESTDIR)$(LIBDIR)
	@ln -sf libtickets.so.$(VERSION) $(DESTDIR)$(LIBDIR)/libtickets.so.$(MAJOR)
	@ln -sf libtickets.so.$(MAJOR) $(DESTDIR)$(LIBDIR)/libtickets.so
	@sed -e 's|@PREFIX@|$(PREFIX)|' -e 's|@LIBDIR@|$(LIBDIR:$(PREFIX)/%=$${prefix}/%)|' -e 's|@VERSION@|$(VERSION)|' \
	    -e 's|@INCLUDEDIR@|$(INCLUDEDIR:$(PREFIX)/%=$${prefix}/%)|' tickets.pc.in >$(DESTDIR)$(LIBDIR)/pkgconfig/tickets.pc
	@install -m 644 man/tickets.3 $(DESTDIR)$(MANDIR)/man3

uninstall: ## removes what `make install` with the same words installed
	@rm -f $(addprefix $(DESTDIR)$(LIBDIR)/,libtickets.a $(notdir $(SHARED)) libtickets.so.$(MAJOR) libtickets.so pkgconfig/tickets.pc)
	@rm -f $(DESTDIR)$(INCLUDEDIR)/tickets.h $(DESTDIR)$(MANDIR)/man3/tickets.3

bench: library ## times the library against the second implementation and writes docs/BENCHMARK.md
	@$(CARGO) run $(LIBRARY) --bin bench write docs/BENCHMARK.md

valgrind: library ## makes 20,000 calls of the library under valgrind and compares them with the second implementation
	@$(CARGO) run $(LIBRARY) --bin calls --config 'target."cfg(all())".runner = "valgrind --error-exitcode=1 -q"'

wrong: ## tries more wrong programs, those of wrong/; the prover has to refuse each of them
	@wrong/try

clean: ## removes all that was built
	@rm -rf target crates/*/out harness/target rust/target examples/c/target examples/rust/target examples/python/__pycache__

help: ## lists the targets
	@sed -nE 's/^([a-z]+):.*## (.*)/make \1:\2/p' Makefile | awk -F: '{ printf "%-15s %s\n", $$1, substr($$0, length($$1) + 2) }'
