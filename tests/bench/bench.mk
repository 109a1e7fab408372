# Speed: the library beside the Rust model and an unchecked walk in C. The Makefile at the root includes this; paths are from
# there.
#
#   make bench                        times, then instructions by callgrind, as Markdown; a minute or two
#   make bench-docs                   the same, and puts the figures into docs/BENCHMARKS.md
#
# What is made stands in target/bench. A missed goal is no failure; differing answers are.

ARCHIVE ?= target/staticlib/libultra.a
PYTHON ?= python3
VALGRIND ?= valgrind
CARGO ?= cargo

BENCH_OUT := target/bench
BENCH := $(BENCH_OUT)/cargo/release/ultra_bench
BENCH_SOURCES := $(wildcard tests/bench/src/*.rs tests/bench/Cargo.* tests/bench/build.rs tests/model/src/*.rs tests/model/Cargo.* \
	tests/model/archive/src/*.rs tests/model/archive/Cargo.* tests/model/archive/build.rs)

.PHONY: bench bench-docs

$(BENCH_OUT)/libwalks.a: tests/bench/walks.c tests/c/protocol.h
	mkdir -p $(BENCH_OUT)
	$(CC) -std=gnu11 -O2 -Wall -Wextra -Wpedantic -Werror -Itests/c -c $< -o $(BENCH_OUT)/walks.o
	rm -f $@
	$(AR) rcs $@ $(BENCH_OUT)/walks.o

$(BENCH): $(BENCH_SOURCES) $(BENCH_OUT)/libwalks.a $(ARCHIVE)
	ULTRA_ARCHIVE_DIR='$(abspath $(dir $(ARCHIVE)))' ULTRA_WALKS_DIR='$(abspath $(BENCH_OUT))' \
		$(CARGO) build --quiet --release --offline --locked --manifest-path tests/bench/Cargo.toml --target-dir $(BENCH_OUT)/cargo
	touch $@

bench: need-cargo need-valgrind need-python3 $(BENCH)
	CC='$(CC)' VALGRIND='$(VALGRIND)' $(PYTHON) tests/bench/machine.py $(ARCHIVE) >$(BENCH_OUT)/machine.md
	$(BENCH) >$(BENCH_OUT)/times.md
	@cat $(BENCH_OUT)/machine.md $(BENCH_OUT)/times.md
	VALGRIND='$(VALGRIND)' $(PYTHON) tests/bench/instructions.py $(BENCH) $(BENCH_OUT)/callgrind >$(BENCH_OUT)/instructions.md
	@cat $(BENCH_OUT)/instructions.md
	cat $(BENCH_OUT)/machine.md $(BENCH_OUT)/times.md $(BENCH_OUT)/instructions.md >$(BENCH_OUT)/figures.md

bench-docs: bench
	$(PYTHON) tests/bench/paste.py docs/BENCHMARKS.md $(BENCH_OUT)/figures.md
