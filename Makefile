# `make demo` and `make test` are the two commands to begin with. They need the Rattle kit (`rt`) on the path, all but `make test` cargo and gcc too;
# they fetch nothing and install nothing.

# The demo and the benchmark run optimised; the tests are optimised too, with checks for overflow (host/Cargo.toml).
RELEASE := cargo run --quiet --release --offline --manifest-path host/Cargo.toml

.PHONY: help demo test library host-test bench

help:
	@echo "make demo        proves and builds the library, then shows an advance that is cut at every store, a channel held by a rule, and a tile of nine ranges"
	@echo "make test        the gate: proves every function, tries every wrong program, runs the programs (bash .ci/run)"
	@echo "make host-test   the compiled library against an independent model, and cut on the real machine"
	@echo "make bench       the library beside plain copies and beside an unproved version of it"
	@echo "make library     only proves and builds the library, as host/lib/libdomain_store.a"

demo: library
	@$(RELEASE) -p domain_store --example demo

test:
	@bash .ci/run

library:
	@bash host/library.sh

host-test: library
	@bash host/test.sh

bench: library
	@$(RELEASE) -p domain_bench
