# The pages on the formats. The Makefile at the root includes this; PYTHON is set in tests/tests.mk.
#
#   make test-format     the checker's own tests, and then docs/FORMAT.md against samples/listing.bin, include/ultra.h and the code
#   make test-handover   the same of docs/HANDOVER.md and a sample of a payload

.PHONY: test-format test-handover

test-format: need-python3
	$(PYTHON) tests/format_test.py
	$(PYTHON) tests/format.py

test-handover: need-python3
	$(PYTHON) tests/handover_test.py
	$(PYTHON) tests/handover.py
