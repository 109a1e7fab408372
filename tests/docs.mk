# README.md and the pages that it leads to. The Makefile at the root includes this; PYTHON is set in tests/tests.mk.
#
#   make test-readme     the checkers' own tests, and then the pages: code, links, README.md's size and its picture of a context, names

.PHONY: test-readme

test-readme: need-python3
	$(PYTHON) tests/readme_test.py
	$(PYTHON) tests/readme.py
	$(PYTHON) tests/page_names_test.py
	$(PYTHON) tests/page_names.py
