# make                        the static and the shared library, the command, its man page and its completion for bash
# make run                    the main job on an example, written wrongly and rightly
# make install                command, libraries, header, man page and completion into PREFIX=/usr/local; also DESTDIR=.. and PYTHONDIR=..
# make uninstall              removes what make install put there; it takes the same variables
# make deb                    a Debian package of the same, target/korzhinay_VERSION_ARCHITECTURE.deb
# make quick                  before a commit: lints, proofs (what did not change is not proved again), tests
# make test                   the gate: proofs, must-fail edits, layout, tests (what .ci/run runs)
# make check [CRATE=..]       proofs of all crates, or of one and those below it; what did not change is not proved again
# make must-fail CRATE=..     the must-fail edits of one crate; EDIT=.. for one of them
# make fmt                    puts all sources into their layout
# make lint                   layout and lints of everything that is not Rattle
# make house [NAME=..]        what can be told of the sources as text: crates.txt, the page of promises
# make vectors [NAME=..]      vectors; NAME is a part, as value, or one vector, as value:7 or 'value:1 << 64'
# make command [CASE=..]      cases of the command; CASE is a folder of tests/command/cases
# make editors [NAME=..]      places of refusals in Vim and Emacs, which tests/packages installs; NAME is one of tests/editors/files.py
# make documents [NAME=..]    examples of the manual and the README; NAME is a place, as README.md:9, a section or a part
# make examples [NAME=..]     the hook for git, the annotations and the rule for make; NAME is a part: folder, hook, annotations, rule
# make python [NAME=..]       the module for Python; NAME is a test, a class or a file of python/tests
# make installed [NAME=..]    what install and deb put in place, used and removed; NAME is one of the parts of tests/install/run.py
# make corpus                 what each edition says of every description file in the folder DIR, under the file SETTINGS if there is one
# make bench                  speed beside the independent Rust implementation, and beside unifdef and cpp where they are installed
# make instructions           instructions of single calls, by valgrind, which has to be installed
# make fuzz                   differential tests for SECONDS seconds (default 60)
# make clean                  removes everything that was made
# make help                   prints this

SHELL := bash
.SHELLFLAGS := -o pipefail -c
SECONDS ?= 60
DIR ?= tests/corpus/files
LIB := target/staticlib/libkorzhinay.a
# The header has the version; the shared library's name ends with its first number and, while that is 0, with its second one too.
VERSION := $(shell sed -n 's/^\#define KORZHINAY_VERSION "\(.*\)"/\1/p' include/korzhinay.h)
NUMBERS := $(subst ., ,$(VERSION))
SONAME := libkorzhinay.so.$(firstword $(NUMBERS))$(if $(filter 0,$(firstword $(NUMBERS))),.$(word 2,$(NUMBERS)))
PROVED := crates.txt $(shell find crates -type f -not -path '*/must-fail/*' -not -path '*/out/*')
COMMAND := $(shell find cli bindings -type f -not -path '*/target/*' 2>/dev/null)
PACKAGES := $(shell find . -name Cargo.toml -not -path '*/target/*')
CARGO := CARGO_TARGET_DIR="$(CURDIR)/target/cargo" KORZHINAY_LIB_DIR="$(CURDIR)/target/staticlib" cargo

# Runs `rt` and shows its own lines only: $(1) names the file in target/log/ that everything goes to, $(2) is the command.
rt = @mkdir -p target/log; { { $(2); } 2>&1 | tee target/log/$(1).txt | sed -un '/ (unchanged since it was last proved)$$/d; s/^rt: //p'; } || \
	{ tail -n 40 target/log/$(1).txt; echo "FAILED: target/log/$(1).txt has everything that was printed"; exit 1; }
# The value of a variable as a word, if it was given to make itself.
given = $(if $(filter command,$(origin $(1))),"$$$(1)")

.NOTPARALLEL:
.DELETE_ON_ERROR:
.PHONY: all run quick test check must-fail fmt lint house vectors command editors documents examples python installed corpus bench instructions
.PHONY: fuzz clean help

all: target/libkorzhinay.so target/korzhinay target/korzhinay.1 target/korzhinay.bash

$(LIB): $(PROVED)
	@echo "Proving the library's crates: some minutes if nothing is proved yet"
	$(call rt,library,cd crates/korzhinay_c && rt lib)
	@mkdir -p $(@D)
	@cp crates/korzhinay_c/out/libkorzhinay_c.a $@

target/libkorzhinay.so: $(LIB) include/korzhinay.h
	@gcc -shared -o $@ -Wl,-soname,$(SONAME) -Wl,--whole-archive $(LIB) -Wl,--no-whole-archive

target/korzhinay: $(LIB) $(COMMAND)
	@echo "Building the command"
	@cd cli && $(CARGO) build --offline --release --quiet
	@cp target/cargo/release/korzhinay $@

# Both are made from the command's own description of its options.
target/korzhinay.1: docs/korzhinay.1.in target/korzhinay
	@target/cargo/release/documents man $< >$@

target/korzhinay.bash: target/korzhinay
	@target/cargo/release/documents completion >$@

run: all
	target/korzhinay select -s examples/buoy.settings --annotate examples/window-wrong.dsc
	target/korzhinay select -s examples/buoy.settings --annotate examples/window-right.dsc

quick: lint house check all vectors command documents examples python

test:
	.ci/run

check:
	$(call rt,check,$(if $(CRATE),cd crates/$(CRATE) && rt check,rt all check))

must-fail:
	@[ -n "$(CRATE)" ] || { echo "make must-fail CRATE=.. [EDIT=..]"; exit 2; }
	@python3 tests/must_fail.py $(CRATE) $(EDIT)

fmt:
	for crate in crates/*/; do (cd "$$crate" && rt fmt) || exit 1; done
	for package in $(PACKAGES); do cargo fmt --manifest-path "$$package" || exit 1; done

lint:
	python3 tests/lint.py

house:
	python3 tests/house/run.py $(call given,NAME)

vectors: all
	python3 tests/vectors/run.py $(call given,NAME)

command: all
	python3 tests/command/run.py $(call given,CASE)

editors: all
	python3 tests/editors/run.py $(call given,NAME)

documents: all
	python3 tests/documents/run.py $(call given,NAME)

examples: all
	python3 tests/examples/run.py $(call given,NAME)

python: all
	python3 tests/python/run.py $(call given,NAME)

installed: all
	python3 tests/install/run.py $(call given,NAME)

corpus: target/korzhinay
	python3 tests/corpus/run.py "$(DIR)" $(if $(SETTINGS),-s "$(SETTINGS)")

bench: $(LIB) target/korzhinay
	cd bench && $(CARGO) run --offline --release --quiet -- "$(CURDIR)/target/korzhinay"

instructions: $(LIB)
	cd bench && $(CARGO) run --offline --release --quiet -- --instructions "$(CURDIR)/target/instructions"

fuzz: $(LIB)
	cd tests/differential && $(CARGO) run --offline --release --quiet -- --seed $$(date +%s) --seconds $(SECONDS)

clean:
	rm -rf target crates/*/out

help:
	@sed -n '/^$$/q; s/^# //p' Makefile

include packaging/install.mk
