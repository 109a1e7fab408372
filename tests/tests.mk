# The C side: the tests of the archive, installing it, fuzzing it. The Makefile at the root includes this; paths are from there.
#
#   make test-c                       every test of the archive and the header; some seconds besides the archive
#   make install PREFIX=.. DESTDIR=.. the archive, the header, a pkg-config file and the listing program, as ultra-list
#   make uninstall PREFIX=.. DESTDIR=.. removes these four files
#   make fuzz SECONDS=60              the fuzz target, for that time
#
# What is made stands in target/.

ULTRA_RELEASE := 0.1.0
PREFIX ?= /usr/local
SECONDS ?= 60
# Of the deepest call: "The loader's early stage has 4 KiB of stack." Of a single function: "no local array above 256 bytes".
STACK_LIMIT := 4096
FRAME_LIMIT := 256

CXX ?= g++
PYTHON ?= python3
CARGO ?= cargo
VALGRIND ?= valgrind
FUZZ_CC ?= clang

ARCHIVE ?= target/staticlib/libultra.a
TESTS_OUT := target/tests
FUZZ_OUT := target/fuzz

TESTS_WARN := -Wall -Wextra -Wpedantic -Werror
TESTS_CFLAGS := -std=gnu11 -O1 -g $(TESTS_WARN) -Iinclude
TESTS_HEADERS := include/ultra.h $(wildcard tests/c/*.h)
# For a host without a C library; the memory functions must not be turned into calls of themselves.
FREESTANDING := -std=gnu11 -O1 $(TESTS_WARN) -Iinclude -ffreestanding -nostdlib -static -fno-pie -no-pie -fno-stack-protector \
	-fno-tree-loop-distribute-patterns
MEMCHECK := $(VALGRIND) -q --error-exitcode=99 --leak-check=full --errors-for-leak-kinds=definite

.PHONY: test-c test-header test-symbols test-layout test-edges test-valgrind test-sanitizers test-freestanding test-stack \
	test-seeds test-install install uninstall fuzz clang-there

# ---- The tests ----

test-c: test-header test-symbols test-layout test-edges test-valgrind test-sanitizers test-freestanding test-stack test-seeds test-install
	@echo "test-c: all passed"

$(TESTS_OUT) $(FUZZ_OUT):
	mkdir -p $@

# The header, as C99 and as C++17.
$(TESTS_OUT)/header_c: tests/c/header.c include/ultra.h $(ARCHIVE) | $(TESTS_OUT)
	$(CC) -std=c99 $(TESTS_WARN) -Iinclude $< $(ARCHIVE) -o $@
$(TESTS_OUT)/header_cxx: tests/c/header.c include/ultra.h $(ARCHIVE) | $(TESTS_OUT)
	$(CXX) -x c++ -std=c++17 $(TESTS_WARN) -Iinclude $< -x none $(ARCHIVE) -o $@
test-header: need-cc need-c++ $(TESTS_OUT)/header_c $(TESTS_OUT)/header_cxx
	$(TESTS_OUT)/header_c
	$(TESTS_OUT)/header_cxx

# What the archive needs of its host, and gives.
test-symbols: need-python3 need-nm $(ARCHIVE)
	$(PYTHON) tests/symbols.py $(ARCHIVE) include/ultra.h

# The layout and the edges: as they are, on the heap under valgrind, and with sanitizers in the C side.
$(TESTS_OUT)/%: tests/c/%.c $(TESTS_HEADERS) $(ARCHIVE) | $(TESTS_OUT)
	$(CC) $(TESTS_CFLAGS) $< $(ARCHIVE) -o $@
$(TESTS_OUT)/%_on_heap: tests/c/%.c $(TESTS_HEADERS) $(ARCHIVE) | $(TESTS_OUT)
	$(CC) $(TESTS_CFLAGS) -DTESTS_ON_HEAP $< $(ARCHIVE) -o $@
$(TESTS_OUT)/%_sanitized: tests/c/%.c $(TESTS_HEADERS) $(ARCHIVE) | $(TESTS_OUT)
	$(CC) $(TESTS_CFLAGS) -DTESTS_ON_HEAP -fsanitize=address,undefined -fno-sanitize-recover=all $< $(ARCHIVE) -o $@
test-layout: need-cc $(TESTS_OUT)/layout
	$(TESTS_OUT)/layout
test-edges: need-cc $(TESTS_OUT)/edges
	$(TESTS_OUT)/edges
test-valgrind: need-cc need-valgrind $(TESTS_OUT)/layout_on_heap $(TESTS_OUT)/edges_on_heap
	$(MEMCHECK) $(TESTS_OUT)/layout_on_heap
	$(MEMCHECK) $(TESTS_OUT)/edges_on_heap
test-sanitizers: need-cc $(TESTS_OUT)/layout_sanitized $(TESTS_OUT)/edges_sanitized
	$(TESTS_OUT)/layout_sanitized
	$(TESTS_OUT)/edges_sanitized

# Without a C library, on a small stack.
$(TESTS_OUT)/freestanding: tests/c/freestanding.c include/ultra.h $(ARCHIVE) | $(TESTS_OUT)
	$(CC) $(FREESTANDING) $< $(ARCHIVE) -o $@
$(TESTS_OUT)/freestanding.log: $(TESTS_OUT)/freestanding
	$< >$@.new || { cat $@.new; exit 1; }
	mv $@.new $@
test-freestanding: need-cc $(TESTS_OUT)/freestanding.log
	@cat $(TESTS_OUT)/freestanding.log

# The deepest stack of each call, by a script that is tested first, and held to what the freestanding run saw.
test-stack: need-cc need-python3 need-objdump need-ar $(ARCHIVE) target/staticlib/libstack_probe.a $(TESTS_OUT)/freestanding.log
	$(PYTHON) tests/stack_test.py $(TESTS_OUT)/stack
	$(PYTHON) tests/stack.py $(ARCHIVE) $(STACK_LIMIT) $(FRAME_LIMIT) $(TESTS_OUT)/freestanding.log
	$(PYTHON) tests/stack.py target/staticlib/libstack_probe.a $(STACK_LIMIT) $(FRAME_LIMIT)

# The fuzz target over its seeds, without a fuzzer.
$(TESTS_OUT)/replay: tests/fuzz/fuzz.c tests/fuzz/replay.c $(TESTS_HEADERS) $(ARCHIVE) | $(TESTS_OUT)
	$(CC) $(TESTS_CFLAGS) tests/fuzz/fuzz.c tests/fuzz/replay.c $(ARCHIVE) -o $@
test-seeds: need-cc need-python3 $(TESTS_OUT)/replay
	$(PYTHON) tests/fuzz/make_corpus.py --check tests/fuzz/corpus
	rm -rf $(TESTS_OUT)/seeds
	$(PYTHON) tests/fuzz/make_corpus.py $(TESTS_OUT)/seeds
	$(TESTS_OUT)/replay tests/fuzz/corpus/* $(TESTS_OUT)/seeds/* >$(TESTS_OUT)/replay.log
	@echo "replay: $$(wc -l <$(TESTS_OUT)/replay.log) inputs"

test-install: need-cc $(ARCHIVE) list-program | $(TESTS_OUT)
	CC='$(CC)' tests/install.sh $(TESTS_OUT)/install $(MAKE) ARCHIVE=$(ARCHIVE)

# ---- Installing ----

INSTALL_TO = $(DESTDIR)$(abspath $(PREFIX))

install: $(ARCHIVE) list-program
	install -d '$(INSTALL_TO)/bin' '$(INSTALL_TO)/lib/pkgconfig' '$(INSTALL_TO)/include'
	install -m 755 target/bin/list_context '$(INSTALL_TO)/bin/ultra-list'
	install -m 644 $(ARCHIVE) '$(INSTALL_TO)/lib/libultra.a'
	install -m 644 include/ultra.h '$(INSTALL_TO)/include/ultra.h'
	sed 's,@PREFIX@,$(abspath $(PREFIX)),; s,@VERSION@,$(ULTRA_RELEASE),' ultra.pc.in >'$(INSTALL_TO)/lib/pkgconfig/ultra.pc'

uninstall:
	cd '$(INSTALL_TO)' && rm -f bin/ultra-list lib/libultra.a include/ultra.h lib/pkgconfig/ultra.pc

# ---- Fuzzing ----

# At fixed addresses, so that blocks.py can say where the archive's blocks are.
FUZZ_FLAGS := -std=gnu11 -O1 -g $(TESTS_WARN) -Iinclude -fsanitize=fuzzer -no-pie

# Before the archive is proved.
clang-there: | $(FUZZ_OUT)
	@command -v $(FUZZ_CC) >/dev/null || { echo 'make fuzz needs clang: on Debian, apt-get install clang' >&2; exit 1; }
	@echo 'int LLVMFuzzerTestOneInput(const unsigned char *d, unsigned long n) { return (int)(n & *d & 0); }' | \
		$(FUZZ_CC) -x c -fsanitize=fuzzer - -o $(FUZZ_OUT)/probe || \
		{ echo 'make fuzz needs libFuzzer: on Debian 12, apt-get install libclang-rt-14-dev' >&2; exit 1; }
$(FUZZ_OUT)/fuzz: tests/fuzz/fuzz.c tests/fuzz/blocks.c $(TESTS_HEADERS) $(ARCHIVE) | $(FUZZ_OUT)
	$(FUZZ_CC) $(FUZZ_FLAGS) tests/fuzz/fuzz.c tests/fuzz/blocks.c $(ARCHIVE) -o $@
$(FUZZ_OUT)/blocks: $(FUZZ_OUT)/fuzz tests/fuzz/blocks.py tests/stack.py
	$(PYTHON) tests/fuzz/blocks.py $(ARCHIVE) $< >$@.new
	mv $@.new $@
fuzz: need-python3 need-nm need-objdump need-ar clang-there $(FUZZ_OUT)/fuzz $(FUZZ_OUT)/blocks
	mkdir -p $(FUZZ_OUT)/corpus
	$(PYTHON) tests/fuzz/make_corpus.py $(FUZZ_OUT)/seeds
	ULTRA_BLOCKS=$(FUZZ_OUT)/blocks $(FUZZ_OUT)/fuzz -max_total_time=$(SECONDS) -max_len=2048 -timeout=10 \
		-dict=tests/fuzz/ultra.dict -artifact_prefix=$(FUZZ_OUT)/ -print_final_stats=1 $(FUZZ_OUT)/corpus tests/fuzz/corpus $(FUZZ_OUT)/seeds
