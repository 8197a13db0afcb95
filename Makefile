# Builds the archive of the C interface and the two Rattle programs from the crates, and the C programs of host/ over the archive. Only what
# changed is built again. `make` builds all C programs; `.ci/run` runs all tests.
CC = gcc
CFLAGS = -std=c11 -O2 -Wall -Wextra -Werror
SANITIZE = -g -fsanitize=address,undefined -fno-sanitize-recover=all

archive = target/staticlib/liblcd.a
# all that `rt` reads for a crate: its files and those of the crates that crates.txt names after it
read_by = crates.txt $(shell find $(wildcard $(foreach part,src specs proofs,$(patsubst %,crates/%/$(part),$1 $(shell \
    sed -n 's/^$1\( [^:]*\)*://p' crates.txt)))) -name '*.rt' -o -name '*.antt')
shot := $(patsubst host/%.c,target/host/%.o,$(wildcard host/shot/*.c) host/lcd_refusals.c)
load_sources := $(wildcard host/load/*.c) $(addprefix host/shot/,asking.c dump.c fields.c files.c numbers.c options.c outputs.c) \
    host/lcd_refusals.c
load := $(load_sources:host/%.c=target/host/%.o)
beside := $(addprefix host/,differential.c inputs.c words.c slices.c chance.c model.c rules.c)
beside_headers := $(addprefix host/,calls.h inputs.h words.h slices.h chance.h model.h rules.h lcd.h)
programs = $(addprefix target/host/,lcdshot lcdload example benchmark differential differential-sanitized)

all: $(programs)

# `rt` first proves the crates that it has not proved yet; its many lines are shown only if it fails
proved = @mkdir -p target/staticlib; \
    command -v rt > /dev/null || { echo "the Rattle kit (rt) is missing; it proves and builds $@" >&2; exit 2; }; \
    echo "proving and building $@ (some minutes where nothing is proved yet)" >&2; \
    (cd crates/$1 && rt $2 < /dev/null) > target/$1.log 2>&1 || { cat target/$1.log >&2; exit 1; }

$(archive): $(call read_by,lcd)
	$(call proved,lcd,lib)
	@cp crates/lcd/out/liblcd.a $@

# `rt run` builds a program and runs it once, on nothing; `rt ci` leaves its programs at the same place
crates/bench/out/bench: $(call read_by,bench)
	$(call proved,bench,run)
	@touch $@

crates/conformance/out/conformance: $(call read_by,conformance)
	$(call proved,conformance,run)
	@touch $@

target/host/%.o: host/%.c
	@mkdir -p $(@D)
	$(CC) $(CFLAGS) -MMD -MP -c -o $@ $<

# the plain loops of the benchmark are measured at -O3
target/host/benchmark.o: CFLAGS = -std=c11 -O3 -Wall -Wextra -Werror

# linked under another name and renamed, so that a call at the same time runs the whole old tool or the whole new one
target/host/lcdshot: $(shot) $(archive)
	$(CC) -o $@.new $(shot) $(archive) -lpng
	@mv $@.new $@

target/host/lcdload: $(load) $(archive)
	$(CC) -o $@.new $(load) $(archive)
	@mv $@.new $@

target/host/lcdshot-sanitized: $(wildcard host/shot/*.[ch]) host/lcd_refusals.c host/lcd.h $(archive)
	@mkdir -p $(@D)
	$(CC) $(CFLAGS) $(SANITIZE) -o $@ $(filter %.c,$^) $(archive) -lpng

target/host/lcdload-sanitized: $(load_sources) $(wildcard host/load/*.h host/shot/*.h) host/lcd.h $(archive)
	@mkdir -p $(@D)
	$(CC) $(CFLAGS) $(SANITIZE) -o $@ $(load_sources) $(archive)

target/host/example target/host/benchmark: target/host/%: target/host/%.o $(archive)
	$(CC) -o $@ $< $(archive)

target/host/differential: $(beside:host/%.c=target/host/%.o) $(archive)
	$(CC) -o $@ $^

# every slice in a block of exactly its size, for tools that watch memory accesses
target/host/differential-exact: SANITIZE =
target/host/differential-exact target/host/differential-sanitized: $(beside) $(beside_headers) $(archive)
	@mkdir -p $(@D)
	$(CC) $(CFLAGS) $(SANITIZE) -DEXACT -o $@ $(beside) $(archive)

-include $(wildcard target/host/*.d target/host/shot/*.d target/host/load/*.d)

# checks that all C compiles without a warning, before anything is proved
syntax:
	$(CC) $(CFLAGS) -fsyntax-only $(wildcard host/*.c host/shot/*.c host/load/*.c)

.PHONY: all syntax
.DELETE_ON_ERROR:
