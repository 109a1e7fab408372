# The page of wrong programs, which is made from the edits. The Makefile at the root includes this.
#
#   make wrong-programs          write docs/WRONG_PROGRAMS.md from crates/*/must-fail/*.edit
#   make test-wrong-programs     the checker's own tests; then every edit fits its crate, and the page is what the edits say
#
# That the prover refuses the edits is seen by the gate (rt ci), not here. PYTHON is set in tests/tests.mk.

.PHONY: wrong-programs test-wrong-programs

wrong-programs test-wrong-programs: need-python3

wrong-programs:
	$(PYTHON) tests/wrong_programs.py --write

test-wrong-programs:
	$(PYTHON) tests/wrong_programs_test.py
	$(PYTHON) tests/wrong_programs.py
