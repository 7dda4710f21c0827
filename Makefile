# make            this list
# make run        the main job on the sample, from maps to verdicts and a page: by a C compiler and Python alone
# make octant     the proved program, built and run on document 01's octant: four lines
# make test       the gate: rt ci, the C form, the host tests, the command's; ends with rt's 'N passed, 0 failed'
# make check      the same
# make lib        target/staticlib/libspargolutta.a, and target/sharedlib/libspargolutta.so made of it
# make bin        target/bin/zone_judge, the program
# make lib-c      both libraries from portable/spargolutta.c, in target/portable: a C compiler does, no Rattle is needed
# make bin-c      the program likewise, with a plain C main
# make wasm       target/wasm/spargolutta.wasm, with clang and wasm-ld
# make install    copies what is built: PREFIX (/usr/local), LIBDIR (PREFIX/lib), all below DESTDIR
# make uninstall  removes what 'make install' with the same variables put there
# make host-test  the host tests alone, on both forms of the library
# make tool-test  the tests of the command, its page and its package alone
# make digest     both forms on the same inputs, by each compiler and on each machine that is here
# make cross      the same, with more inputs and on all of them
# make mutants    wrong translators to C: each has to be noticed
# make bench      the library and the program against Rust and C: times, instructions, docs/feed-time.svg
# make fuzz       libFuzzer over all calls against the host tests' second implementation, for SECONDS=60 seconds; FORM=c
# make c          portable/spargolutta.c, the library as one C file, made anew from the proved crates
# make numbers    share/spargolutta/numbers.tsv, the table of numbers for other languages
# make fmt        the layout that rt ci asks for
# make clean      removes target/ and what rt keeps in the crates' out/ folders: the next build proves every crate again
SHELL := /bin/bash
.SHELLFLAGS := -o pipefail -ec
.PHONY: help run octant test check lib bin install uninstall host-test tool-test bench fuzz numbers fmt clean
.PHONY: c lib-c bin-c wasm digest cross mutants
# rt and cargo use all cores by themselves.
.NOTPARALLEL:
MAKEFLAGS += --no-builtin-rules
.DELETE_ON_ERROR:

help:
	@sed -n '/^#/!q; s/^# //p' Makefile

# Building

ARCHIVE := target/staticlib/libspargolutta.a
SHARED := target/sharedlib/libspargolutta.so
PROGRAM := target/bin/zone_judge
# Folders too: their times tell of files that were removed. rt makes the out/ folders.
SOURCES := rattle-toolchain crates.txt tools/prove $(shell find crates -mindepth 2 \( -name must-fail -o -name out \) \
	-prune -o -print)
# As the header says it: MAJOR, MINOR or PATCH.
VERSION_PART = $(shell sed -n 's/^\#define SPG_VERSION_$(1) //p' include/spargolutta.h)
MAJOR := $(call VERSION_PART,MAJOR)
VERSION := $(MAJOR).$(call VERSION_PART,MINOR).$(call VERSION_PART,PATCH)

# Stops where there is no rt, and says so where it is not the one in the file rattle-toolchain: that one checked the
# proofs last, and the one at hand checks them now.
TOOLCHAIN = wanted=$$(cat rattle-toolchain); found=$$(rt version 2> /dev/null || true); \
	[ "$$found" = "$$wanted" ] \
	|| echo "Proving needs the Rattle toolchain '$$wanted'; on the PATH is $${found:-none}." >&2; [ -n "$$found" ]

include portable/portable.mk
PYTHON ?= python3
# The library as WebAssembly for the command's page, where clang and wasm-ld are there.
PAGE_WASM := $(if $(and $(shell command -v clang),$(shell command -v wasm-ld)),$(WASM)/spargolutta.wasm)
include python/python.mk

lib: $(ARCHIVE) $(SHARED)

bin: $(PROGRAM)

# What `rt ci` has just proved is taken; else all that changed is proved here.
$(ARCHIVE): $(SOURCES)
	@$(TOOLCHAIN)
	@tools/prove library

$(PROGRAM): $(SOURCES)
	@$(TOOLCHAIN)
	@tools/prove program

# The soname has the header's major number.
$(SHARED): $(ARCHIVE) packaging/spargolutta.map include/spargolutta.h
	@mkdir -p $(@D)
	@cc -shared -o $@ -Wl,-soname,libspargolutta.so.$(MAJOR) -Wl,--version-script=packaging/spargolutta.map \
		-Wl,-z,defs -Wl,-z,text -Wl,--whole-archive $(ARCHIVE) -Wl,--no-whole-archive

clean:
	rm -rf target crates/*/out

# Installing

PREFIX ?= /usr/local
LIBDIR = $(PREFIX)/lib
DESTDIR ?=

# By the environment, so that spaces in them are kept.
install uninstall: export SPG_PREFIX = $(PREFIX)
install uninstall: export SPG_LIBDIR = $(LIBDIR)
install uninstall: export SPG_DESTDIR = $(DESTDIR)
install uninstall:
	@packaging/install $@ $(VERSION)

# Testing and measuring

CARGO := CARGO_TARGET_DIR='$(CURDIR)/target/cargo' cargo

# A line a crate and an edit, as they come. rt's last line, 'N passed, 0 failed', is held back until everything else has
# passed too. target/proved says when this run of rt began, and by which toolchain: tools/prove takes what it proved.
test check:
	@$(TOOLCHAIN); log=$$(mktemp); mkdir -p target; rt version > target/begun; \
	n=$$(cat <(grep '^[a-z]' crates.txt) <(ls crates/*/must-fail/*.edit) | wc -l); \
	rt ci | tee "$$log" | tests/progress $$n \
	|| { rm -f target/proved; echo "The whole log: $$log"; tail -n 40 "$$log"; exit 1; }; \
	tests/edits "$$log"; \
	mv target/begun target/proved; \
	$(MAKE) --no-print-directory c-check host-test digest octant-check tool-test; \
	tail -n 1 "$$log"; rm "$$log"

# The suite on the archive, and what of it asks the library on the C form.
HOST_TEST = test --release --offline --quiet --manifest-path tests/Cargo.toml -- --nocapture
TIDY = sed -u -e 's/^\.*//' -e '/^$$/d'
host-test: lib bin lib-c
	@$(CARGO) $(HOST_TEST) | $(TIDY)
	@echo 'The same tests on the C form:'
	@SPG_FORM=c CARGO_TARGET_DIR='$(CURDIR)/target/cargo-c' cargo $(HOST_TEST) $(addprefix --skip ,$(NOT_OF_C)) | $(TIDY)

bench: lib bin
	@$(CARGO) run --release --offline --quiet --manifest-path bench/Cargo.toml
	@python3 portable/speed.py

# FORM=c fuzzes the C form. Coverage is that of the second implementation, which takes the same turns: the library is
# linked as users get it.
# What was found is kept in target/fuzz for the next run; an input that ends the program is left there too.
SECONDS ?= 60
HOST = $(shell rustc -vV | sed -n 's/^host: //p')
COVERAGE := -Cpasses=sancov-module $(addprefix -Cllvm-args=-sanitizer-coverage-,level=4 inline-8bit-counters pc-table \
	trace-compares)
FORM ?=
FUZZ_TARGET = target/cargo$(addprefix -,$(FORM))
fuzz: lib lib-c
	@mkdir -p target/fuzz/seeds target/fuzz/corpus
	@RUSTFLAGS='$(COVERAGE)' SPG_FORM='$(FORM)' CARGO_TARGET_DIR='$(CURDIR)/$(FUZZ_TARGET)' \
	cargo build --release --offline --quiet --target $(HOST) --manifest-path fuzz/Cargo.toml
	@clang -fsanitize=fuzzer $(FUZZ_TARGET)/$(HOST)/release/libspargolutta_fuzz.a -o target/fuzz/fuzz
	@SEEDS=target/fuzz/seeds target/fuzz/fuzz -max_total_time=$(SECONDS) -max_len=8192 -verbosity=0 \
	-dict=fuzz/tokens.dict -artifact_prefix=target/fuzz/ target/fuzz/corpus target/fuzz/seeds 2>&1 \
	| sed -u '/^###### Recommended/,/^###### End/d'

# The host tests compare it with the header and the library.
numbers: lib
	@cc -std=c99 -Iinclude -o target/numbers share/numbers.c target/staticlib/libspargolutta.a
	@target/numbers < include/spargolutta.h > share/spargolutta/numbers.tsv

fmt:
	@for crate in $$(sed -n 's/^\([a-z_]*\).*:.*/\1/p' crates.txt); do (cd crates/$$crate && rt fmt); done
