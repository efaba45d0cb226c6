# The checks by programs that others keep; the repository's Makefile includes this.
#
#   make lint-all    the checks of `make lint`, those that need the kit only where it is, and these programs over all files
#                    that git keeps. It says which are not installed. Debian's packages have the same names, apart from
#                    python3-pytest, which runs the tests of the tools that otherwise run one by one. MISSING=fail: a
#                    linter that is not installed is a fault
#   make format      formats the Python and the C as these want it; FORMAT='FILE..' only these files
#
# The settings are in pyproject.toml, .flake8, .clang-format and .editorconfig. They fit the versions of Debian 12: another
# version of black or clang-format may break lines elsewhere.
LINTERS = black clang-format flake8 mypy mypy-strict pytest shellcheck

PYTHON_FILES = $(shell git ls-files '*.py')
# Without the files that a program writes.
WRITTEN_C = bindings/c/fe2o3_sasl.h bindings/wiping/depths.h bindings/wiping/exports.c tools/generate/header_preamble.h
C_FILES = $(filter-out $(WRITTEN_C),$(shell git ls-files '*.c' '*.h'))
SHELL_FILES = $(shell git grep -lE -e '^$(hash)!/(usr/)?bin/(env )?(ba|da)?sh' -- ':!docs' ':!*.mk')
# What callers of Python import is typed in full. The tests and the peers of interop/ pass wrong types on purpose.
STRICT_FILES = $(wildcard bindings/python/fe2o3_sasl/*.py bindings/python/examples/*.py)
TYPED_FILES = $(shell git ls-files 'tools/*.py' 'bench/*.py' 'bindings/packages/*.py')
hash := \#
# (of one file; bindings/callers.mk runs those of bindings/python, which need the library)
PYTHON_TEST = $(if $(shell command -v pytest),pytest -q -p no:cacheprovider,python3 -B)

RUN_black = black --quiet --check $(PYTHON_FILES)
RUN_clang-format = clang-format --dry-run --Werror $(C_FILES)
RUN_flake8 = flake8 $(PYTHON_FILES)
RUN_mypy = mypy $(TYPED_FILES)
RUN_mypy-strict = mypy --strict --python-version 3.9 --cache-dir build/mypy-strict $(STRICT_FILES)
RUN_pytest = pytest -q -p no:cacheprovider tools/gate/tests
RUN_shellcheck = shellcheck $(SHELL_FILES)

MISSING ?= pass
MISSING_pass = 0
MISSING_fail = 1

.PHONY: lint-all format $(LINTERS:%=linted/%)
$(LINTERS:%=linted/%): linted/%:
	@command -v $(firstword $(RUN_$*)) > /dev/null || { printf '%8s  %-32s not installed\n' '' '$*'; exit $(MISSING_$(MISSING)); }; \
	begun=$$(date +%s%N); said=$$($(RUN_$*) 2>&1); status=$$?; \
	tenths=$$((($$(date +%s%N) - begun) / 100000000)); \
	[ $$status = 0 ] && said=$$(echo "$$said" | tail -n 1) || said="FAILED$$(echo; echo "$$said")"; \
	printf '%4d.%d s  %-32s %s\n' $$((tenths / 10)) $$((tenths % 10)) '$*' "$$said"; \
	exit $$status

# (nothing here needs the kit where `rt` is not on the PATH)
NEEDING_KIT = gate/refused gate/layout generate/notices
ALL_LINT = $(filter-out $(if $(shell command -v rt),,$(NEEDING_KIT)) $(if $(shell command -v pytest),gate/tests/%),$(LINT))
lint-all:
	@$(if $(shell command -v rt),,echo 'not run, since rt is not on the PATH: $(NEEDING_KIT:%=tools/%.py)';) \
	begun=$$(date +%s); $(SIDE_BY_SIDE) $(ALL_LINT:%=tried/%) $(LINTERS:%=linted/%) && \
	echo "lint-all: $(words $(ALL_LINT)) checks and the installed linters passed in $$(($$(date +%s) - begun)) s"

FORMAT ?= $(PYTHON_FILES) $(C_FILES)
format:
	@$(if $(filter %.py,$(FORMAT)),black --quiet $(filter %.py,$(FORMAT)))
	@$(if $(filter %.c %.h,$(FORMAT)),clang-format -i $(filter %.c %.h,$(FORMAT)))
