# `make` prints the targets. What is built goes to standard error, so that standard output is the
# demonstration alone.
.PHONY: help test text demo bench soak readings lib install uninstall clean
.DEFAULT_GOAL := help

PREFIX ?= /usr/local
MINUTES ?= 10

VERSION := $(shell sed -n 's/^\#define STOPS_VERSION "\(.*\)"/\1/p' include/stops.h)
SOURCES := crates.txt $(shell find crates -path '*/out' -prune -o -type f \( -name '*.rt' -o -name '*.antt' \) -print)
HOST = target/staticlib/libhost.a
PROBE = target/staticlib/liblist_probe.a
READING_PROBE = target/staticlib/libreading_probe.a
PROGRAM = target/obj/stops.o
STOPS = target/package/stops
STOPS_TEXT = text/target/release/stops-text
KIT = $(dir $(realpath $(shell command -v rt)))..
EXAMPLE = crates/stops/stdin
ANSWERS = target/demo.answers

# The library: one object, in which all but the exported calls is local. The number of the shared one
# goes up when a program that was linked against an earlier one no longer works.
PACKAGE = target/package
SONAME = libstops.so.1
SHARED = $(PACKAGE)/libstops.so.$(VERSION)
CALLS = stops_lay_out stops_batch

help:
	@cat package/targets.txt

test:
	bash .ci/run

# rt leaves what it builds in the crate's out/, and `rt ci` sets that aside while it runs.
$(HOST) $(PROBE) $(READING_PROBE): target/staticlib/lib%.a: $(SOURCES)
	@cd crates/$* && rt lib >&2
	@install -D -m 644 crates/$*/out/lib$*.a $@

# Built by a run on no commands.
$(PROGRAM): $(SOURCES)
	@cd crates/stops && rt run </dev/null >/dev/null
	@install -D -m 644 crates/stops/out/stops.o $@

# The same proved object as in crates/stops/out/stops, linked once more: that one ignores SIGPIPE.
$(STOPS): $(PROGRAM) package/sigpipe.c
	@mkdir -p $(PACKAGE)
	@cc -Wl,--wrap=__sysv_signal $^ $(KIT)/c/libos_c.a $(KIT)/c/liblibc_c.a -o $@

text: $(HOST)
	@cargo build --offline --release --manifest-path text/Cargo.toml >&2
	@echo $(STOPS_TEXT) is built >&2

demo: text $(STOPS)
	@$(STOPS) < $(EXAMPLE) > $(ANSWERS)
	@echo 'The commands, as bytes:'
	@od -An -v -tx1 $(EXAMPLE)
	@echo 'The answers of the batch program, as bytes:'
	@od -An -v -tx1 $(ANSWERS)
	@echo 'The answers in words:'
	@$(STOPS_TEXT) --decode --commands $(EXAMPLE) $(ANSWERS)

bench: $(HOST) $(PROBE)
	cargo run --offline --release --manifest-path bench/service/Cargo.toml
	cargo run --offline --release --manifest-path bench/lists/Cargo.toml
	cargo run --offline --release --manifest-path bench/nodes/Cargo.toml

soak: $(HOST)
	cargo run --offline --release --manifest-path tests/Cargo.toml -p soak --features proved -- $(MINUTES) $(SEED)

# All 2^32 patterns of a receiver's reading: the proved rounding beside the second program's, as a Rust program
# links it, and beside the rule in C, as a C program does.
readings: $(READING_PROBE)
	cargo run --offline --release --manifest-path tests/Cargo.toml -p readings
	@mkdir -p $(PACKAGE)
	cc -O2 tests/readings/c/readings.c $< -lm -pthread -o $(PACKAGE)/readings
	$(PACKAGE)/readings all

lib: $(PACKAGE)/libstops.a $(SHARED)

$(PACKAGE)/stops.o: $(HOST)
	@mkdir -p $(PACKAGE)
	ld -r --whole-archive $(HOST) -o $@
	objcopy $(CALLS:%=--keep-global-symbol=%) $@

$(PACKAGE)/libstops.a: $(PACKAGE)/stops.o
	rm -f $@
	ar rcs $@ $<

$(SHARED): $(PACKAGE)/stops.o package/stops.map
	cc -shared -Wl,-soname,$(SONAME) -Wl,--version-script=package/stops.map -Wl,--no-undefined $< -o $@

include package/install.mk

clean:
	rm -rf target crates/*/out binding/target tests/target text/target bench/*/target
