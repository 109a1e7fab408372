# The examples in C: compiled as a user would, run, and what they make compared. The Makefile at the root includes this after
# tests.mk; paths are from there.
#
#   make test-examples                the loader's context is document 01's, the kernel prints what it should of it, of one with
#                                     a module and of those with an empty command line and with none, and both say what was refused
#
# What is made stands in target/tests/examples.

EXAMPLES_OUT := $(TESTS_OUT)/examples
EXAMPLES_CFLAGS := -std=c11 -O1 -g $(TESTS_WARN) -Iinclude

.PHONY: test-examples

$(EXAMPLES_OUT):
	mkdir -p $@

$(EXAMPLES_OUT)/loader $(EXAMPLES_OUT)/kernel: $(EXAMPLES_OUT)/%: examples/%.c include/ultra.h $(ARCHIVE) | $(EXAMPLES_OUT)
	$(CC) $(EXAMPLES_CFLAGS) $< $(ARCHIVE) -o $@

test-examples: need-cc $(EXAMPLES_OUT)/loader $(EXAMPLES_OUT)/kernel
	@# The context of document 01's listing, byte for byte, and what a kernel sees in it.
	$(EXAMPLES_OUT)/loader $(EXAMPLES_OUT)/context.bin
	cmp $(EXAMPLES_OUT)/context.bin samples/listing.bin
	$(EXAMPLES_OUT)/kernel $(EXAMPLES_OUT)/context.bin >$(EXAMPLES_OUT)/kernel.out
	diff examples/kernel.expected $(EXAMPLES_OUT)/kernel.out
	@# With a module of 0x1800 bytes, which holds the address that the kernel asks for: in the tail of its last page.
	$(EXAMPLES_OUT)/loader $(EXAMPLES_OUT)/module.bin 0x300000
	$(EXAMPLES_OUT)/kernel $(EXAMPLES_OUT)/module.bin >$(EXAMPLES_OUT)/module.out
	diff examples/kernel-module.expected $(EXAMPLES_OUT)/module.out
	@# Without a command line the board's text counts, and with an empty one it does not.
	$(EXAMPLES_OUT)/kernel samples/range_that_touches.bin | grep '^cmdline=' >$(EXAMPLES_OUT)/no_line.out
	echo 'cmdline=console=serial' | diff - $(EXAMPLES_OUT)/no_line.out
	$(EXAMPLES_OUT)/kernel samples/empty_map_and_texts.bin | grep '^cmdline=' >$(EXAMPLES_OUT)/empty_line.out
	echo 'cmdline=' | diff - $(EXAMPLES_OUT)/empty_line.out
	@# A module at no multiple of 4,096 is refused (13), with the used length, and the context stays as it was.
	$(EXAMPLES_OUT)/loader $(EXAMPLES_OUT)/refused.bin 0x300001 2>$(EXAMPLES_OUT)/refused.out
	echo 'loader: labels refused=13,480' | diff - $(EXAMPLES_OUT)/refused.out
	cmp $(EXAMPLES_OUT)/refused.bin samples/listing.bin
	@# Cut 4 bytes after the start of its second attribute, the context is refused (5) there, and the kernel stops with status 1.
	head -c 100 $(EXAMPLES_OUT)/context.bin >$(EXAMPLES_OUT)/cut.bin
	$(EXAMPLES_OUT)/kernel $(EXAMPLES_OUT)/cut.bin >$(EXAMPLES_OUT)/cut.out; test $$? -eq 1
	echo 'refused=5,96' | diff - $(EXAMPLES_OUT)/cut.out
	@echo "test-examples: all passed"
