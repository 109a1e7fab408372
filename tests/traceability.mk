# What states, checks, proves and runs each sentence of the documents: docs/traceability/. The Makefile at the root includes this.
#
#   make where WORD=4,096      the rows that have the word in their sentence or in a name, and the place of everything they name
#   make traceability          write the pages anew, with what the comments of specs/ quote
#   make test-traceability     the checker's own tests, and then the pages: every name on them stands in one place
#
# Whether the sentences are the documents' is seen with those at hand: tests/traceability.py DOCUMENT ..

.PHONY: where traceability test-traceability

where traceability test-traceability: need-python3

where:
	@test -n "$$WORD" || { echo 'usage: make where WORD=4,096 (a word of a sentence, or a name)' >&2; exit 2; }
	@$(PYTHON) tests/traceability.py --where "$$WORD"

traceability:
	$(PYTHON) tests/traceability.py --write

test-traceability:
	$(PYTHON) tests/traceability_test.py
	$(PYTHON) tests/traceability.py
