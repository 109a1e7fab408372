# Targets to type: `make help`. Those of the tests are in the fragments that are included below.

.PHONY: help tools tools-there figures list context-there list-program export-program call-driver archive check format test tests test-make \
	test-published test-list test-driver

# rt proves crates side by side by itself, and two of them at once would write the same files.
.NOTPARALLEL:
# A file that a failed recipe wrote is no result.
.DELETE_ON_ERROR:

# What a new user types first.
help:
	@echo 'Use it'
	@echo '  make list CONTEXT=FILE    print the listing of a context, for instance samples/listing.bin'
	@echo '  make export-program       target/bin/export_context, which turns a context into a Handover payload'
	@echo '  make archive              target/staticlib/libultra.a, for C'
	@echo '  make install PREFIX=..    the archive, ultra.h, a pkg-config file and the program ultra-list; make uninstall takes them away'
	@echo '  make call-driver          target/bin/call_driver, by which a program in any language makes every call'
	@echo 'Check it'
	@echo '  make tools                which tools are needed, and are they there'
	@echo '  make test                 the gate: prove all, try the wrong programs, run every test'
	@echo '  make tests                the tests without the proofs'
	@echo '  make compare              every call beside the independent implementation; N=.. and N_DRIVEN=.. inputs, toward C and of Rattle'
	@echo '  make fuzz SECONDS=..      the archive under libFuzzer'
	@echo '  make bench                the speed of the archive'
	@echo '  make where WORD=..        what states, proves and runs the sentences of document 01 that have a word'
	@echo '  make figures              how much there is of code, statements, proofs and tests'
	@echo 'Change it'
	@echo '  make check                prove what has changed'
	@echo '  make format               lay the sources out'
	@echo '  make samples              write the samples anew'
	@echo '  make traceability         write docs/traceability anew'
	@echo '  make wrong-programs       write docs/WRONG_PROGRAMS.md anew'

include tests/tests.mk
include tests/samples.mk
include tests/examples.mk
include tests/traceability.mk
include tests/docs.mk
include tests/format.mk
include tests/wrong_programs.mk
include tests/model/model.mk
include tests/bench/bench.mk

# ---- What is there ----

TOOLS := CC='$(CC)' CXX='$(CXX)' PYTHON='$(PYTHON)' CARGO='$(CARGO)' VALGRIND='$(VALGRIND)' tests/tools.sh

tools:
	@$(TOOLS) -l

tools-there:
	@$(TOOLS)

# need-cargo, need-python3, ..: one of them, before a target that uses it.
need-%:
	@$(TOOLS) $*

figures: need-python3
	@$(PYTHON) tests/figures.py

# ---- What rt makes of proved crates ----

# Of every crate: rt itself knows which it has to prove, and is done at once where there are none.
ULTRA_SOURCES := crates.txt $(shell find crates -type f \( -path '*/src/*' -o -path '*/specs/*' -o -path '*/proofs/*' \))

target/bin/list_context: $(ULTRA_SOURCES)
	@tests/prove.sh $@ target/list_program.log list_context

target/bin/export_context: $(ULTRA_SOURCES)
	@tests/prove.sh $@ target/export_program.log export_context

target/bin/call_driver: $(ULTRA_SOURCES)
	@tests/prove.sh $@ target/call_driver.log call_driver

target/staticlib/libultra.a: $(ULTRA_SOURCES)
	@tests/prove.sh $@ target/archive.log ultra

target/staticlib/libstack_probe.a: $(ULTRA_SOURCES)
	@tests/prove.sh $@ target/stack_probe.log stack_probe

# Nothing is said where there is nothing to do.
list-program: target/bin/list_context
	@:
export-program: target/bin/export_context
	@:
call-driver: target/bin/call_driver
	@:
archive: $(ARCHIVE)
	@:

# The listing of one context, by the proved program.
list: context-there list-program
	@target/bin/list_context <"$$CONTEXT"

context-there:
	@test -n "$$CONTEXT" || { echo 'usage: make list CONTEXT=samples/listing.bin' >&2; exit 2; }
	@test -f "$$CONTEXT" || { echo "make list: there is no file $$CONTEXT" >&2; exit 2; }

# ---- Proofs, layout and tests ----

# The gate: see .ci/run.
test:
	@.ci/run

# The proofs without starting from nothing, and without the must-fail edits.
check:
	@tests/tools.sh rt
	rt all check

format:
	@tests/tools.sh rt
	@for crate in crates/*/; do (cd "$$crate" && rt fmt) || exit 1; done

# What no proof replaces: the archive and the programs, tested. The gate runs it after the proofs.
tests: tools-there test-make test-published test-readme test-format test-handover test-traceability test-wrong-programs test-list test-samples \
	test-payload-samples test-export-samples test-driver test-c test-examples test-model compare compare-listings
	@echo 'tests: all passed'

# The targets themselves: what they say where a tool is missing or rt fails.
test-make: need-python3
	$(PYTHON) tests/make_test.py

# The checker's own tests, and then the contracts: "no call relies on a check made before it", and each is what demand 2 runs the call by.
test-published: need-python3
	$(PYTHON) tests/published_test.py
	$(PYTHON) tests/published.py

# `make list` prints the listing and nothing else on standard output.
test-list: list-program
	$(MAKE) --no-print-directory list CONTEXT=samples/listing.bin | cmp - samples/listing.txt

# The driver's page: every published call, the program's counts and limits, and its example.
test-driver: need-python3 call-driver
	$(PYTHON) tests/driver_test.py
	$(PYTHON) tests/driver.py crates/call_driver/README.md target/bin/call_driver
