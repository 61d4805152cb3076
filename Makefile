# What people type. Each target says what it needs.
.PHONY: test tidy list library example bindings check-api install check-install stack oracle vectors confirm compare bench

# Proves every crate, tries every must-fail edit, runs every program: the gate. Needs the Rattle toolchain and Python.
test:
	bash .ci/run

# The functions' proofs shortened, and crates.txt and README's picture set right, as the gate asks for them. Needs Python.
tidy:
	python3 tools/tidy.py
	python3 tools/deps.py --write

# The listing of a solver's model REPLY over the tables TABLES; with PROGRAM=valuelist, of its reply to get-value. Proves and builds the
# program first, where that is not done yet: `rt run` does both, and runs it once on nothing. Needs the toolchain.
PROGRAM ?= modellist
list:
	@mkdir -p target/list && cp "$(TABLES)" target/list/tables.txt
	@(cd crates/$(PROGRAM) && rt run) < /dev/null > target/list/run.log 2>&1 || { cat target/list/run.log; exit 1; }
	@reply="$(abspath $(REPLY))" && cd target/list && sh ../../tools/run.sh $(PROGRAM) < "$$reply"

# What C and Rust link, target/staticlib/libstazzumpi.a, for this machine. Needs the toolchain, which runs on x86-64 alone; elsewhere
# tools/native.sh says how to come by the archive. NATIVE=1 goes by tools/native.sh on x86-64 too.
library:
ifeq ($(shell uname -m)$(NATIVE),x86_64)
	cd crates/stazzumpi && rt lib --cpu x86-64
	@mkdir -p target/staticlib
	cp crates/stazzumpi/out/libstazzumpi.a target/staticlib/libstazzumpi.a
else
	sh tools/native.sh
endif

# Builds the examples in C and shows them: the trees of two real replies, the listings of document 01's sample and of a real reply.
# Needs the toolchain and a C compiler.
CFLAGS ?= -O2
example: target/example/readtree target/example/listmodel
	target/example/readtree vectors/replies/bools/cvc5-1.0.3.model.txt
	target/example/readtree vectors/replies/option-single/z3-4.8.12.model.txt
	target/example/listmodel crates/modellist/data/tables.txt crates/modellist/stdin
	target/example/listmodel vectors/replies/gift-policy-0/tables.txt vectors/replies/gift-policy-0/cvc5-1.0.3.model.txt
	target/example/listmodel -v crates/modellist/data/tables.txt crates/valuelist/stdin

target/example/%: examples/c/%.c library
	@mkdir -p $(@D)
	$(CC) -std=c99 $(CFLAGS) -Wall -Wextra -Werror -pedantic -Iinclude $< target/staticlib/libstazzumpi.a -o $@

# Tests the Rust binding over the library and runs its examples, and every call from C with NULL where a length is 0. Needs the
# toolchain, cargo and a C compiler.
CARGO := STAZZUMPI_LIB_DIR="$(abspath target/staticlib)" cargo
OFFLINE := --offline --target-dir "$(abspath target/bindings)"
bindings: library target/bindings/nulls
	target/bindings/nulls
	cd bindings/rust && $(CARGO) test $(OFFLINE)
	cd bindings/rust && $(CARGO) run $(OFFLINE) --quiet --example readtree ../../vectors/replies/option-single/z3-4.8.12.model.txt
	cd bindings/rust && $(CARGO) run $(OFFLINE) --quiet --example listmodel ../../crates/modellist/data/tables.txt ../../crates/modellist/stdin

target/bindings/%: bindings/c/%.c library
	@mkdir -p $(@D)
	$(CC) -std=c99 $(CFLAGS) -Wall -Wextra -Werror -pedantic -Iinclude $< target/staticlib/libstazzumpi.a -o $@

# Whether the exports, the header and the Rust declarations say the same, and whether that would be found if they did not. Needs Python.
check-api:
	python3 tools/check-api
	python3 tools/check-api --try

# The header, the library and what pkg-config asks for, under PREFIX (below DESTDIR, where a package is being made).
PREFIX ?= /usr/local
VERSION = $(shell sed -n 's/^version = "\(.*\)"/\1/p' bindings/rust/Cargo.toml)
install: library
	install -d "$(DESTDIR)$(PREFIX)/include" "$(DESTDIR)$(PREFIX)/lib/pkgconfig"
	install -m 644 include/stazzumpi.h "$(DESTDIR)$(PREFIX)/include/"
	install -m 644 target/staticlib/libstazzumpi.a "$(DESTDIR)$(PREFIX)/lib/"
	sed -e 's|@PREFIX@|$(PREFIX)|' -e 's|@VERSION@|$(VERSION)|' tools/stazzumpi.pc.in > "$(DESTDIR)$(PREFIX)/lib/pkgconfig/stazzumpi.pc"

# Installs into a new folder, and compiles and runs the example there, out of a third one, by pkg-config alone. Needs pkg-config too.
check-install:
	CC="$(CC)" sh tools/check-install.sh

# How much of the stack the listing takes, on the models that docs/DECISIONS.md names. Needs the toolchain, a C compiler and Python.
stack: library
	@mkdir -p target/stack
	$(CC) -std=c99 -D_DEFAULT_SOURCE $(CFLAGS) -Wall -Wextra -Werror -Iinclude -Iexamples/c tools/stack.c target/staticlib/libstazzumpi.a -lpthread -o target/stack/stack
	python3 tools/stack.py target/stack/stack

# Builds the Rust from docs/src, to be the judge. Needs what oracle/README.md installs.
oracle:
	$(MAKE) -C oracle

# Makes the vectors anew and asks the Rust for its answers; the same seed gives the same bytes.
vectors: oracle
	python3 vectors/make.py

# Runs every row of docs/DIFFERENCES.md that has an input.
confirm: oracle
	python3 oracle/confirm.py
	python3 oracle/confirm.py oracle/DIFFERENCES-R2.md worked

# Sets our library beside the Rust: in one process on millions of strings, readings and script lines, then model by model, whole, with
# counts by answer and by difference met; and the Rust's answers beside a second reading of document 01. Then replies to get-value beside
# a second reading of document 02's R-1, and beside the Rust as models. Last the second reading of R-2, which our library has not yet,
# beside the Rust. SEED may be given; TIMES, for so many times the inputs; COUNT, for so many cases of each kind for the second reading;
# MODELS, for so many models compared whole; VALUES, for so many replies to get-value; WORKED, for so many models and replies of R-2.
SEED ?= 2026
TIMES ?= 1
COUNT ?= 20000
MODELS ?= 100000
VALUES ?= 100000
WORKED ?= 20000
STACK := 4294967296
compare: oracle library
	$(MAKE) -C oracle ours
	find vectors/replies -name '*.model.txt' | sort | target/oracle/ours/release/oracle compare $(STACK) $(SEED) $(TIMES)
	python3 oracle/compare.py $(SEED) $(COUNT)
	python3 oracle/beside.py $(SEED) $(MODELS)
	python3 oracle/given.py $(SEED) $(VALUES)
	python3 oracle/worked.py $(SEED) $(WORKED)

# Times our library, the crate and a plain C reader on the same inputs, in one run, and writes docs/BENCH.md and docs/bench.svg (on Arm
# docs/BENCH-aarch64.md and docs/bench-aarch64.svg).
# QUICK=1 for a short run that prints its tables and writes nothing. Needs the toolchain and what oracle/README.md installs.
bench: library
	$(MAKE) -C oracle bench
	python3 oracle/bench/run.py $(if $(QUICK),quick)
