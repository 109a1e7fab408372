# The samples: contexts, good and faulty, each with its listing. The Makefile at the root includes this; paths are from there.
#
#   make test-samples            the samples as their script makes them; the listing program on each, and the command line question
#   make test-payload-samples    the same of Handover payloads, and the calls on them, through the driver program
#   make test-export-samples     the same of the payloads that contexts are exported to, and the program that exports
#   make samples                 write them anew
#
# PYTHON is set in tests/tests.mk; list-program, export-program and call-driver, which make target/bin/list_context, export_context and
# call_driver, are targets of other fragments.

.PHONY: samples test-samples test-payload-samples test-export-samples

samples: need-python3
	$(PYTHON) samples/make_samples.py samples
	$(PYTHON) samples/payloads/make_payloads.py samples/payloads
	$(PYTHON) samples/exports/make_exports.py samples/exports

test-samples: need-python3 list-program call-driver
	$(PYTHON) samples/make_samples.py --check samples
	$(PYTHON) tests/samples.py target/bin/list_context samples
	$(PYTHON) tests/line_samples.py target/bin/call_driver samples

test-payload-samples: need-python3 call-driver
	$(PYTHON) tests/payload_samples_test.py
	$(PYTHON) samples/payloads/make_payloads.py --check samples/payloads
	$(PYTHON) tests/payload_samples.py target/bin/call_driver samples/payloads

test-export-samples: need-python3 export-program call-driver
	$(PYTHON) tests/export_samples_test.py
	$(PYTHON) samples/exports/make_exports.py --check samples/exports
	$(PYTHON) tests/export_samples.py target/bin/export_context target/bin/call_driver samples
