# The independent implementation in Rust, and the comparison of the archive, of the published calls and of the listing program with it.
# The Makefile at the root includes this.
#
#   make test-model                              the implementation on the cases of document 01, of R-1, of R-2, of R-4, of
#                                                R-5 and of R-6, its listing, and its frames
#   make compare                                 the next two
#   make compare-archive N=.. SEED=..            the calls toward C on N seeded inputs, 1,000,000 where none is given
#   make compare-driven N_DRIVEN=.. SEED=..      every published call of Rattle, through the driver program, on seeded inputs, 300,000
#                                                where none is given; the frames of an input on which it differs are left in target/driven
#   make compare-listings N_LISTINGS=.. SEED=..  the listing program on seeded inputs, 4,000 where none is given; an input on which it
#                                                differs is left in target/listings

.PHONY: test-model compare compare-archive compare-driven compare-listings

N ?= 1000000
N_DRIVEN ?= 300000
N_LISTINGS ?= 4000
SEED ?=
MODEL := CARGO_TARGET_DIR=$(CURDIR)/target/model $(CARGO)
MODEL_FLAGS := --quiet --release --offline --locked --manifest-path tests/model/Cargo.toml

test-model: need-cargo
	$(MODEL) test $(MODEL_FLAGS) --test cases --test several_modules --test handover --test default_line \
		--test export --test listing --test driving

compare: compare-archive compare-driven

compare-archive: need-cargo archive
	ULTRA_ARCHIVE_DIR=$(CURDIR)/target/staticlib $(MODEL) run $(MODEL_FLAGS) --features archive --bin compare -- $(N) $(SEED)

compare-driven: need-cargo call-driver
	$(MODEL) run $(MODEL_FLAGS) --bin driven -- target/bin/call_driver $(N_DRIVEN) $(SEED)

compare-listings: need-cargo list-program
	$(MODEL) run $(MODEL_FLAGS) --bin listings -- target/bin/list_context $(N_LISTINGS) $(SEED)
