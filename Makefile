# All of this needs the Rattle kit's `rt` on the PATH, and Python 3. `tools/gate/progress.py` reports the minutes, the
# stage and the crate of a long run on standard error.
.PHONY: demo prove check lint docs check-models quick-checks test quiet help install-program kit

# The example of RFC 7677, beside what the standard prints, and a whole login over frame bodies. Nothing
# is proved by it.
demo: kit
	@tools/demo.py try

# Like `demo`, but the program is proved and built, crates/sasl_lab/out/sasl_lab; then the quick start.
prove: kit
	@tools/gate/progress.py $$PPID &
	@tools/demo.py run
	cd crates/example_quick_start && rt run

# The quick way for a change: proves what changed in the libraries, in order, and lays out every crate.
check: kit
	@tools/gate/progress.py $$PPID &
	cd crates/fe2o3_sasl_wire && rt check
	cd crates/fe2o3_scram && rt check
	cd crates/fe2o3_sasl_core && rt check
	cd crates/fe2o3_sasl && rt check
	cd crates/fe2o3_sasl_negotiation && rt check
	for crate in crates/*/; do (cd $$crate && rt fmt) || exit 1; done

# The quick checks: what the pages quote, list and link to, the C header, the versions and the notices; that no modules use
# each other in a circle, no name of specs/ has two meanings, and no line is too wide; which functions make a meter or hash;
# the programs that the borrow checker has to reject; and the tests of these tools.
LINT = gate/refused generate/audit_pages $(patsubst tools/%.py,%,$(wildcard tools/gate/tests/*.py)) \
    gate/layout gate/meters gate/stores gate/circles gate/names gate/quoted generate/header generate/notices generate/signatures
LINT += gate/prose gate/pages gate/versions gate/links gate/theorem_links gate/widths

# The models that made the rows of tests: those that need a few seconds, and those that need a minute, GNU libidn
# (Debian's package idn) or GNU SASL (gsasl).
QUICK_MODELS = models/audit_rows models/broker_rows models/cbind_flag_runs models/channel_audits models/channel_rows \
    models/form_rows models/frames models/identity_rows models/moved_attributes models/name_rows models/strict_messages \
    generate/saslprep_tables
SLOW_MODELS = models/negotiations models/saslprep_answers models/saslprep_passwords

lint: kit
	@begun=$$(date +%s); $(SIDE_BY_SIDE) $(LINT:%=tried/%) && \
	echo "lint: $(words $(LINT)) checks passed in $$(($$(date +%s) - begun)) s"

check-models:
	@$(SIDE_BY_SIDE) $(QUICK_MODELS:%=tried/%) $(SLOW_MODELS:%=tried/%)

# The signatures of the libraries, and the last results of `make interop` and of the bench, in build/docs. Packages have them
# too, and no page of them is committed. `make lint` writes the signatures as well, so that a source that their tool cannot
# read is found.
docs: tried/generate/signatures
	@bindings/packages/pages.py results build/docs/results

# Runs a tool, and prints its time and its last line, or all that it says if it fails.
SIDE_BY_SIDE = $(MAKE) --no-print-directory --keep-going --output-sync --jobs=$(shell nproc)
WORD = $(if $(filter generate/signatures,$*),write,$(if $(filter generate/% models/%,$*),check))
TRIED = $(sort $(LINT) $(QUICK_MODELS) $(SLOW_MODELS))
.PHONY: $(TRIED:%=tried/%)
$(TRIED:%=tried/%): tried/%:
	@begun=$$(date +%s%N); \
	said=$$(tools/$*.py $(WORD) 2>&1); status=$$?; \
	tenths=$$((($$(date +%s%N) - begun) / 100000000)); \
	[ $$status = 0 ] && said=$$(echo "$$said" | tail -n 1) || said="FAILED$$(echo; echo "$$said")"; \
	printf '%4d.%d s  %-32s %s\n' $$((tenths / 10)) $$((tenths % 10)) tools/$*.py "$$said"; \
	exit $$status

# The merge gate: the quick checks and models; then every proof, the tests and the programs, and beside these the wrong
# bodies; and the two built programs that keep a secret, started again, which say nothing if all is well. `rt ci` takes
# what earlier runs on this machine passed, and proves what changed and the crates above it; with ANEW=1 it proves all.
test: kit
	@tools/gate/progress.py $$PPID 60 'a run from nothing takes about 80 min on 4 processors, and 14,000 s of processor' &
	tools/gate/gate.py$(if $(ANEW), --anew)

# The first part of the gate.
quick-checks:
	@$(SIDE_BY_SIDE) $(LINT:%=tried/%) $(QUICK_MODELS:%=tried/%)

# Like `test`, but into a log, whose last line it prints, with its status.
quiet:
	@log=$$(mktemp "$${TMPDIR:-/tmp}/gate.XXXXXX"); echo "log: $$log"; \
	$(MAKE) --no-print-directory test > $$log 2>&1; status=$$?; \
	grep -v '^make' $$log | tail -n 1; exit $$status

# Linters that others keep: lint-all, format.
include tools/lint.mk

# What there is, with the times of four processors.
define HELP
make demo            a published exchange and a whole login, without proofs         1 to 3 min
make check           proves what changed in the five libraries, and formats         12 min from nothing
make prove           proves, builds and runs the programs of the demo               8 min after make check
make lint            the quick checks of the pages, the sources and the tools       about 10 s
make lint-all        also black, flake8, mypy, pytest, clang-format and shellcheck  about 1 min
make format          formats the Python and the C                                   30 s
make docs            writes signatures and the last results of runs, in build/docs  1 s
make check-models    compares the rows of the tests with the models that wrote them about 2 min
tools/prove_at.py FILE:LINE  proves the function at that line, with --only          10 s or more
make test            the gate: lint, quick models, every proof, test and program    about 80 min from nothing
make test ANEW=1     the gate, which takes nothing from earlier runs                about 80 min
make quiet           like make test, but into a log, and prints its last line
make install-program the program scram, under PREFIX and DESTDIR

The library for C, Rust and Python (bindings/callers.mk):
make lib             proves and builds build/libfe2o3_sasl.a and .so                30 to 45 min from nothing
make header          writes the C header, and the declarations for Rust and Python  1 s
make header-check    compares them with the sources                                 1 s
make callers         builds and runs the programs of bindings/c
make depths          measures the stack of each export                              5 s
make rust            tests bindings/rust
make python          tests bindings/python
make install         the library, under PREFIX and DESTDIR
make dist            packages: the library in build/fe2o3_sasl-VERSION-CPU.tar.gz; the others in build/packages
make packages        makes them twice, and a first login with each, without the kit 1 to 3 min

With other programs (plugins/plugins.mk, interop/interop.mk):
make plugin          the plugin of Cyrus SASL
make plugin-test     its logins in one program
make plugin-logins   logins of programs that use it
make interop         logins to other programs, and by them
endef
export HELP
help:
	@echo "$$HELP"

# The program `scram` with its page, the licences and the notices of what it links, under PREFIX and DESTDIR; where there
# is none yet it is proved and built.
PROVED_PROGRAM ?= crates/scram/out/scram
install-program: $(PROVED_PROGRAM) build/notices/scram
	install -d $(DESTDIR)$(PREFIX)/bin $(DESTDIR)$(PREFIX)/share/man/man1 $(DESTDIR)$(PREFIX)/share/doc/scram
	install -m 755 $(PROVED_PROGRAM) $(DESTDIR)$(PREFIX)/bin/scram
	$(PROVED_PROGRAM) man > $(DESTDIR)$(PREFIX)/share/man/man1/scram.1
	install -m 644 LICENSE-APACHE LICENSE-MIT $(DESTDIR)$(PREFIX)/share/doc/scram/
	install -m 644 build/notices/scram $(DESTDIR)$(PREFIX)/share/doc/scram/NOTICES

crates/scram/out/scram:
	@$(NEEDS_KIT)
	cd crates/scram && rt run -- --version

# One line where the kit is missing, in place of what the tools say without it. (No prerequisite of files, since what is
# built can be installed without the kit.)
NEEDS_KIT = command -v rt > /dev/null || { \
    echo 'rt is not on the PATH. This target needs the Rattle kit: README.md, Requirements' >&2; exit 1; }
kit:
	@$(NEEDS_KIT)

# The library for callers in C and in Rust: lib, header, callers, install, dist.
include bindings/callers.mk

# Packages of it for machines without the kit: dist, packages.
include bindings/packages.mk

# Plugins of other libraries over it: plugin, plugin-test, plugin-logins.
include plugins/plugins.mk

# Logins to other programs, and by them: interop.
include interop/interop.mk
