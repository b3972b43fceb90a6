SHELL := /bin/bash
.SHELLFLAGS := -eu -o pipefail -c

# Where things are installed; the folders of the proved archive and of its header, those of another build if they are named; how many
# cases `make fuzz` tries, and from which seed.
PREFIX ?= /usr/local
DESTDIR ?=
LIB := build/lib
INCLUDE := include
N := 1000000
SEED := 1

# Cargo is not told of make's jobs, which it would try to join.
cargo := env --unset=MAKEFLAGS --unset=MFLAGS cargo
export CARGO_TARGET_DIR := $(CURDIR)/build/cargo
export DIBOL_LIB_DIR := $(if $(filter /%,$(LIB)),$(LIB),$(CURDIR)/$(LIB))

.PHONY: help
help: ## Lists the targets.
	@sed -n 's/^\([a-z]*\):.*## /make \1|/p' Makefile | awk -F '|' '{ printf "%-18s %s\n", $$1, $$2 }'

# ---- What is proved and built ----

# make calls rt if any source is newer; rt knows which crates have changed.
sources := $(shell find $(wildcard crates.txt crates/*/src crates/*/specs crates/*/proofs))

build/bin/bench build/bin/boxlever: build/bin/%: $(sources)
	@tools/prove build/$*.log $*
	@install -D crates/$*/out/$* $@

# The installed archive is not named after its crate.
build/lib/libdibol.a: $(sources)
	@tools/prove build/lib.log dibol_c_c
	@install -D -m 644 crates/dibol_c_c/out/libdibol_c_c.a $@

# ---- An example where a slip happens, by the proved programs ----

.PHONY: run fence list check owner
example := slip-subscript

run: build/bin/bench ## Runs an example unit and shows its fields before and after.
	@tools/show-run build/bin/bench examples/$(example).txt

fence: owner ## Asks the fence of that example: which statement can slip, and by which rule.
	@build/bin/boxlever fence build/examples/$(example).unit

list: owner ## Lists that example: its parts, fields and statements.
	@build/bin/boxlever list build/examples/$(example).unit

check: owner ## Asks the fence of every example: a row with the answer for each.
	@cd build/examples && ../../build/bin/boxlever check *.unit

# The owner's program, and the examples as units.
owner: build/bin/boxlever
	@rm -rf build/examples
	@mkdir -p build/examples
	@tools/dibasm asm examples/*.txt -o build/examples

# ---- What hosts and owners take ----

.PHONY: lib install uninstall

lib: ## Makes the library for C, build/lib/libdibol.a.
ifeq ($(LIB),build/lib)
lib: build/lib/libdibol.a
endif

# What stands below PREFIX: the library for C, the manual pages, the pages of docs/ with CHANGES.md and the examples, and the programs:
# the owner's program with the wrapper that gives it an exit status before it, the bench program by a longer name, and dibasm.
to := $(DESTDIR)$(PREFIX)
manual := $(notdir $(wildcard man/*.[1-8]))
documents := CHANGES.md $(wildcard docs/*.md)
examples := $(notdir $(wildcard examples/*.txt examples/*.c))

install: lib build/bin/bench build/bin/boxlever ## Installs the programs, the library, the pages and the examples: PREFIX=/usr/local DESTDIR=
	@install -d "$(to)/lib/pkgconfig" "$(to)/include" "$(to)/bin"
	install -m 644 "$(LIB)/libdibol.a" "$(to)/lib/libdibol.a"
	install -m 644 "$(INCLUDE)/dibol.h" "$(to)/include/dibol.h"
	@version=$$(sed -n 's/^.define DIBOL_VERSION "\(.*\)"/\1/p' "$(INCLUDE)/dibol.h"); \
	sed "s|@PREFIX@|$(PREFIX)|; s|@VERSION@|$$version|" include/dibol.pc.in > "$(to)/lib/pkgconfig/dibol.pc"
	@for page in $(manual); do install -D -m 644 man/$$page "$(to)/share/man/man$${page##*.}/$$page"; done
	@for page in $(documents); do install -D -m 644 $$page "$(to)/share/doc/boxlever/$${page##*/}"; done
	@for file in $(examples); do install -D -m 644 examples/$$file "$(to)/share/doc/boxlever/examples/$$file"; done
	install -m 755 tools/boxlever "$(to)/bin/boxlever"
	install -m 755 build/bin/boxlever "$(to)/bin/boxlever-program"
	install -m 755 build/bin/bench "$(to)/bin/boxlever-bench"
	install -m 755 tools/dibasm.py "$(to)/bin/dibasm"

uninstall: ## Removes what was installed there.
	rm -f "$(to)/lib/libdibol.a" "$(to)/include/dibol.h" "$(to)/lib/pkgconfig/dibol.pc"
	@for page in $(manual); do rm -f "$(to)/share/man/man$${page##*.}/$$page"; done
	@for page in $(documents); do rm -f "$(to)/share/doc/boxlever/$${page##*/}"; done
	@for file in $(examples); do rm -f "$(to)/share/doc/boxlever/examples/$$file"; done
	@for program in boxlever boxlever-program boxlever-bench dibasm; do rm -f "$(to)/bin/$$program"; done
	@rmdir "$(to)/share/doc/boxlever/examples" "$(to)/share/doc/boxlever" 2> /dev/null || true

# ---- The gate ----

.PHONY: test rim assembler stored reference programs hosts differential pages second

test: ## Proves everything, tries the edits that must fail, and runs all tests below.
	@.ci/run

# What is not proved.
rim: assembler stored reference programs hosts differential pages

assembler: ## Tests dibasm with wrong, hostile and changed texts, units and files.
	tools/test-dibasm

stored: ## Compares all that is stored of the test units with what their texts and the second interpreter make.
	tools/store-units --check

reference: stored ## Tests the second interpreter.
	UNITS=$(CURDIR)/build/units $(cargo) test --release --offline --quiet --manifest-path second/Cargo.toml

programs: stored build/bin/bench build/bin/boxlever ## Compares what the proved programs write of every stored unit with what is expected.
	tools/run-stored build/bin/bench
	tools/run-owner build/bin/boxlever

# Everything is installed, in a folder whose name has a space, tested there as C hosts and owners take it, and taken out again; then the
# Rust binding with its documentation's examples.
prefix := build/a prefix
hosts: lib stored build/bin/bench build/bin/boxlever ## Tests what is installed, and the hosts in C and Rust.
	@rm -rf "$(prefix)"
	@$(MAKE) --no-print-directory install PREFIX="$(CURDIR)/$(prefix)" DESTDIR=
	tools/test-hosts "$(prefix)"
	@$(MAKE) --no-print-directory uninstall PREFIX="$(CURDIR)/$(prefix)" DESTDIR=
	@test -z "$$(find "$(prefix)" -type f)"
	$(cargo) test --offline --quiet --manifest-path bindings/rust/Cargo.toml

differential: lib ## Tries the library against the second interpreter on some cases that reach everything.
	@$(cargo) test --release --offline --quiet --manifest-path tests/differential/Cargo.toml
	@$(cargo) run --release --offline --quiet --manifest-path tests/differential/Cargo.toml -- 300000 1 --reached

pages: stored lib build/bin/bench build/bin/boxlever ## Types what the pages show, and compares what is seen.
	tools/run-pages build/bin/bench build/bin/boxlever build/cargo/release/second

# ---- Besides the gate ----

.PHONY: units fuzz bench

units: ## Stores the test units anew from their texts.
	tools/store-units

fuzz: lib ## Tries the library against the second interpreter on as many cases as you like: N=1000000 SEED=1
	@$(cargo) run --release --offline --quiet --manifest-path tests/differential/Cargo.toml -- $(N) $(SEED)

# Instructions and time for each statement of a settlement, instructions for those of the seats.
bench: second build/bin/bench ## Measures the proved library against the second interpreter.
	@mkdir -p build
	@command -v valgrind > /dev/null || { apt-get update && apt-get install -y valgrind; } > build/apt.log
	@tools/measure build/bin/bench build/cargo/release/second

second:
	@$(cargo) build --release --offline --quiet --manifest-path second/Cargo.toml
