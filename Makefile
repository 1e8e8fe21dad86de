# Rulohevian. `make run` and `make test` need the Rattle kit, Python 3 and make; the C library also needs a C compiler.
# `make help` prints the words after ##.

HIDRUN := bin/hidrun
# (hidplay and hidmap are started by a launcher, which isn't proved; the proved programs are in bin/programs)
HIDPLAY := bin/hidplay
HIDMAP := bin/hidmap
PLAYER := bin/programs/hidplay
MAPPER := bin/programs/hidmap
HIDSERVE := bin/hidserve
HIDATTACH := bin/hidattach
HIDLAB := bin/hidlab
BENCH := bin/hid_bench
READERS := bin/test_readers
SCRIPT ?= examples/layouts/mouse.script
ARGS ?=
COUNT ?= 20000
REPORTS ?= 1000000
SEED ?= 1
SOURCE ?=
PREFIX ?= /usr/local
LIBDIR ?= $(PREFIX)/lib
DESTDIR ?=
VERSION := 0.2.0
# (the C library has a version of its own, which stands in its header)
LIBRARY_VERSION := $(shell sed -n 's/^\#define HIDSTACK_VERSION "\(.*\)"/\1/p' include/hidstack.h)
MAJOR := $(firstword $(subst ., ,$(LIBRARY_VERSION)))

.PHONY: run test try hidrun hidplay hidmap hidlab hidserve hidattach bench examples library library-test library-check library-cost linux-cost play-cost install deb deb-test documents doc tour format memory refusals mutants descriptors readers compare-linux help clean

# The first line of each recipe that starts the toolchain: without `rt`, make ends with one line.
NEEDS_RT = $(if $(shell command -v rt),,$(error rt is missing: put the folder bin of the Rattle kit on the PATH (README.md has its name)))

# Runs the mouse example on the proved program.
run: $(HIDRUN)  ## proves and builds hidrun, and runs the mouse example
	$(HIDRUN) < examples/layouts/mouse.script

# Checks the documents, the wrong bodies and the formatting; proves, tests and builds everything from nothing; then runs all
# examples, and those of the C library if there is a C compiler.
test:  ## proves and tests everything from nothing, and runs all examples
	$(NEEDS_RT)
	$(MAKE) --no-print-directory documents format
	tools/proof/gate
	$(MAKE) --no-print-directory hidrun hidplay hidmap hidlab hidserve hidattach examples memory
	if tools/proof/archive hidstack; then $(MAKE) --no-print-directory library-test; fi

# Runs a script without a proof: make try SCRIPT=FILE ARGS=--trace
try:  ## runs a script without a proof: SCRIPT=FILE ARGS=--trace
	$(NEEDS_RT)
	@echo 'make try: compiling hidrun without proofs, which takes about two minutes' >&2
	@now=0; while sleep 10 > /dev/null 2>&1; do now=$$((now + 10)); echo "$$now seconds" >&2; done & clock=$$!; trap 'kill $$clock' EXIT; \
	  cd crates/hidrun && rt try $(if $(ARGS),-- $(ARGS)) < $(abspath $(SCRIPT))

hidrun: $(HIDRUN)  ## bin/hidrun, which runs scripts
hidplay: $(HIDPLAY)  ## bin/hidplay, which plays recordings
hidmap: $(HIDMAP)  ## bin/hidmap, which draws reports
hidlab: $(HIDLAB)  ## bin/hidlab, the test bench
hidserve: $(HIDSERVE)  ## bin/hidserve, which serves the devices of a script over USB/IP
hidattach: $(HIDATTACH)  ## bin/hidattach, which reads a device of a USB/IP server

LAUNCHED := hidplay hidmap
OTHERS := hidrun hidlab hidserve hidattach hid_bench test_readers
PROGRAMS := $(LAUNCHED) $(OTHERS)
# (folders too, so that a file that was removed is seen)
SOURCES := $(shell find crates/*/src crates/*/specs crates/*/proofs 2> /dev/null)

# The proved programs, and the archive of the C library. `rt ci` leaves each in its out folder; if a source is newer, it is
# proved and built again, independent crates in parallel.
$(foreach name,$(PROGRAMS),crates/$(name)/out/$(name)) crates/hidstack/out/libhidstack.a: crates.txt $(SOURCES)
	$(NEEDS_RT)
	tools/proof/build $(word 2,$(subst /, ,$@))

.SECONDEXPANSION:
$(OTHERS:%=bin/%): bin/%: crates/$$*/out/$$*
	mkdir -p bin
	cp $< $@

$(LAUNCHED:%=bin/programs/%): bin/programs/%: crates/$$*/out/$$*
	mkdir -p bin/programs
	cp $< $@

$(LAUNCHED:%=bin/%): bin/%: bin/programs/% tools/user/launcher
	cp tools/user/launcher $@

# Counts the instructions of a report in hidplay, by callgrind, and measures the memory for a recording of 1 GB.
play-cost: $(PLAYER)  ## counts the instructions of a report in hidplay
	tools/measure/cost hidplay $(PLAYER)

# Counts the instructions of the stack's work, by callgrind: the table of docs/SPEED.md; then those of the C library's calls, if
# there are a C compiler and valgrind.
bench: $(BENCH)  ## counts the instructions of the stack's work, and of calls of the C library
	tools/measure/cost stack $(BENCH)
	if command -v "$${CC:-cc}" > /dev/null && command -v valgrind > /dev/null; then $(MAKE) --no-print-directory library-cost; fi

# The C library: bin/lib/libhidstack.a and the shared libhidstack.so.$(LIBRARY_VERSION), from the proved crate.
library: bin/lib/libhidstack.a  ## bin/lib/libhidstack.a and .so, the C library

bin/lib/libhidstack.a: crates/hidstack/out/libhidstack.a tools/package/library include/hidstack.h
	$(NEEDS_RT)
	tools/package/library $< bin/lib $(LIBRARY_VERSION)

# Compares the header with the exports, and runs the quick start, the examples, wrong calls, and random calls beside models.
library-test: library  ## runs the examples of the C library
	tools/check/library

# Runs the tests of the C library under valgrind and the sanitizers, with each allocation of an opening, a table, a run and a text
# refused, and a million random calls; compares its manual pages with the header.
library-check: library  ## runs them under valgrind and the sanitizers, and without memory
	tools/check/library --memory
	tools/check/manual

# Counts the instructions of calls, by callgrind, beside the crate's own, by hid_bench if it is there, else those of docs/SPEED.md; or
# beside their limits: the table of docs/C.md.
library-cost: library  ## counts the instructions of calls of the C library
	tools/measure/cost library

# Counts the instructions of reports of some 200 devices, by callgrind: here, in Linux's HID core and in decoders written by hand:
# the tables of docs/SPEED.md. It needs valgrind and a C compiler, fetches Linux's source into bin/linux by Debian's apt, or takes
# that of SOURCE, and says what it leaves out.
linux-cost: $(BENCH) library  ## counts the instructions of reports beside Linux's HID core: SOURCE=FOLDER
	tools/measure/linux $(if $(SOURCE),--source $(SOURCE))

# Programs, library, header, pkg-config file, manual pages, completion, documents and
# examples. LIBDIR is the folder of the libraries. The pages of the library's calls are made from its header.
SHARED := $(DESTDIR)$(PREFIX)/share
DOCUMENTS := $(SHARED)/doc/rulohevian

install: $(HIDRUN) $(HIDPLAY) $(HIDMAP) $(HIDLAB) $(HIDSERVE) $(HIDATTACH) library doc  ## installs programs, library and documents: PREFIX=/usr/local DESTDIR=
	install -Dm755 -t "$(DESTDIR)$(PREFIX)/bin" $(HIDRUN) $(HIDPLAY) $(HIDMAP) $(HIDLAB) $(HIDSERVE) $(HIDATTACH)
	install -Dm755 -t "$(DESTDIR)$(PREFIX)/libexec/rulohevian" $(PLAYER) $(MAPPER)
	install -Dm644 -t "$(DESTDIR)$(LIBDIR)" bin/lib/libhidstack.a
	install -Dm755 -t "$(DESTDIR)$(LIBDIR)" bin/lib/libhidstack.so.$(LIBRARY_VERSION)
	cp -P bin/lib/libhidstack.so bin/lib/libhidstack.so.$(MAJOR) "$(DESTDIR)$(LIBDIR)"
	install -Dm644 -t "$(DESTDIR)$(PREFIX)/include" include/hidstack.h
	install -d "$(DESTDIR)$(LIBDIR)/pkgconfig" "$(SHARED)/man/man3"
	sed 's|@PREFIX@|$(PREFIX)|; s|@LIBDIR@|$(LIBDIR)|; s|@VERSION@|$(LIBRARY_VERSION)|' packaging/hidstack.pc.in > "$(DESTDIR)$(LIBDIR)/pkgconfig/hidstack.pc"
	chmod 644 "$(DESTDIR)$(LIBDIR)/pkgconfig/hidstack.pc"
	install -Dm644 -t "$(SHARED)/man/man1" packaging/*.1
	tools/package/manual "$(SHARED)/man/man3"
	chmod 644 "$(SHARED)/man/man3"/hidstack*.3
	install -Dm644 -t "$(SHARED)/bash-completion/completions" packaging/completion/*
	install -Dm644 -t "$(DOCUMENTS)" README.md CHANGELOG.md LICENSE
	install -Dm644 -t "$(DOCUMENTS)/docs" docs/*.md bin/DEFINITIONS.md
	install -Dm644 -t "$(DOCUMENTS)/docs/pictures" docs/pictures/*.svg
	find examples -name __pycache__ -prune -o -type f -exec sh -c 'for it; do install -Dm644 "$$it" "$(DOCUMENTS)/$$it" || exit 1; done' - {} +

# Debian packages of all that `install` installs: bin/rulohevian_$(VERSION)-1_ARCHITECTURE.deb, and libhidstack$(MAJOR) and
# libhidstack-dev, of the library's version.
deb: $(HIDRUN) $(HIDPLAY) $(HIDMAP) $(HIDLAB) $(HIDSERVE) $(HIDATTACH) library  ## makes Debian packages of it
	tools/package/debian $(VERSION) $(LIBRARY_VERSION) bin

# Installs the packages in a root of their own, and runs the programs and a C example there. It needs to be root.
deb-test: deb  ## installs and tries the packages in a root of their own, as root
	tools/package/check bin/rulohevian_$(VERSION)-1_*.deb bin/libhidstack*_$(LIBRARY_VERSION)-1_*.deb

# The recordings that name a device, and those with the examples of pictures.
NAMED := $(shell grep -l '^N:' examples/recordings/*.hid)
PICTURED := $(NAMED) $(wildcard examples/pictures/*.hid)

# Compares the expected texts with a second reader, and the manual pages and completion with programs and header; runs examples, rows
# and command lines on the proved programs, also on failing streams.
examples: $(HIDRUN) $(HIDPLAY) $(HIDMAP) $(HIDLAB) $(HIDSERVE) $(HIDATTACH) $(BENCH)  ## runs all examples on the proved programs
	tools/check/second-reader examples/*/*.script
	tools/check/recordings examples/*/*.hid
	tools/check/pictures $(MAPPER) $(PICTURED)
	tools/check/inputs $(MAPPER) $(PLAYER) $(HIDLAB) $(NAMED)
	tools/check/hidplay $(PLAYER)
	tools/check/damaged-captures $(PLAYER)
	tools/check/commands $(HIDRUN) $(PLAYER) $(MAPPER) $(HIDLAB) $(HIDSERVE) $(HIDATTACH) $(BENCH)
	tools/check/commands $(HIDPLAY) $(HIDMAP)
	tools/check/launcher $(HIDPLAY) $(HIDMAP)
	tools/check/manual $(HIDRUN) $(HIDPLAY) $(HIDMAP) $(HIDLAB) $(HIDSERVE) $(HIDATTACH)
	tools/check/serve $(HIDSERVE)
	tools/check/served-lab $(HIDLAB) $(HIDATTACH)
	tools/check/attach $(HIDATTACH)
	tools/check/attach $(HIDATTACH) --speed 5000
	tools/check/failures $(HIDRUN) $(HIDMAP) $(HIDLAB)
	tools/check/examples $(HIDRUN) $(HIDPLAY) $(HIDMAP) $(HIDLAB)
	tools/check/rows $(HIDRUN)

# Checks that everything the documents cite exists, that each definition has a comment, and that the table of THEOREM is as its
# tool makes it; then plants faults and checks that each is found.
documents:  ## checks that what the documents cite exists
	tools/check/documents
	tools/check/documents --self-test
	tools/check/definitions --check
	tools/check/definitions --self-test
	tools/proof/theorem-closure --check docs/THEOREM.md
	tools/proof/theorem-closure --self-test
	tools/proof/compare-statements --self-test
	tools/proof/refusals --self-test

# Writes the definitions that contracts cite, with their comments, to bin/DEFINITIONS.md.
doc:  ## writes the definitions that contracts cite to bin/DEFINITIONS.md
	mkdir -p bin
	tools/check/definitions bin/DEFINITIONS.md

# Runs the program of docs/LIBRARY.md without a proof, in a repository of its own. It takes some minutes.
tour:  ## runs the program of docs/LIBRARY.md without a proof
	tools/check/tour

# Checks that each file of code, definitions and proofs is as `rt fmt` writes it. (The gate checks this only when it reaches the
# crate.)
format:  ## checks that each file is as rt fmt writes it
	$(NEEDS_RT)
	@find crates -name out -prune -o \( -name '*.rt' -o -name '*.antt' \) -print | xargs $(dir $(realpath $(shell command -v rt)))rattle fmt --check

# Compares the proved programs with the second reader, on descriptors of the examples with some bytes changed, and on made ones.
descriptors: $(HIDRUN) $(PLAYER)  ## compares hidrun and hidplay with the second reader: COUNT=20000
	tools/check/second-reader --random $(COUNT) $(HIDRUN)
	tools/check/second-reader --recordings $(COUNT) $(PLAYER)

# Reads random reports by a Reader, which has plans, and by the plain program of a View, of made devices and of those of the examples;
# fails at the first difference.
readers: $(READERS)  ## compares both readings of random reports: REPORTS=1000000 SEED=1
	$(READERS) --seed $(SEED) --reports $(REPORTS) $(patsubst %,--descriptor %,$(shell grep -l '^N:' examples/recordings/*.hid))

# Compares hidplay, on the recordings of the examples and on some made from a seed, with Debian's Linux kernel in QEMU and
# with tshark, and on what QEMU's own keyboard, mouse and tablet send; tries hidserve, hidlab and hidattach with that kernel:
# docs/COMPARISON.md. Not part of the gate. It needs qemu-system-x86, tshark, socat, gcc and Debian's apt, fetches kernel,
# busybox and usbip into bin/linux, and says what it leaves out.
compare-linux: $(PLAYER) $(HIDSERVE) $(HIDATTACH) $(HIDLAB)  ## compares hidplay with Linux, tshark and QEMU, USB/IP with Linux: SEED=1
	tools/compare/tshark $(PLAYER) --seed $(SEED) --self-test
	tools/compare/linux $(PLAYER) --seed $(SEED) --self-test
	tools/compare/qemu $(PLAYER)
	tools/compare/captures $(PLAYER)
	tools/compare/usbip bin/hidserve bin/hidattach $(PLAYER) bin/hidlab --self-test
	tools/compare/usbip bin/hidserve bin/hidattach $(PLAYER) bin/hidlab

# Runs each example script on the proved program, and each test of calls that take memory, with each of its allocations
# refused in turn: half a minute. It needs a C compiler, and the test programs that `rt ci` or `rt test` made from the current
# sources; it says what it leaves out without them.
memory: $(HIDRUN) $(HIDLAB) $(PLAYER)  ## runs examples and tests with each allocation refused
	tools/check/memory $(HIDRUN) --lab $(HIDLAB) --play $(PLAYER) --tests crates

# Lists the goal and the clause at which each wrong body is refused: make refusals CRATES="usb_packet hid_items" (none: all), or
# of the crates that changed since a revision: make refusals SINCE=REV
TOUCHED = $(notdir $(wildcard $(addprefix crates/,$(shell git diff --name-only $(SINCE) -- crates | cut -d/ -f2 | sort -u))))

refusals:  ## lists how wrong bodies are refused: CRATES="usb_packet hid_items" or SINCE=REV (none: all)
	$(NEEDS_RT)
	$(if $(SINCE),$(if $(TOUCHED),tools/proof/refusals $(TOUCHED),@echo "no crate changed since $(SINCE)"),tools/proof/refusals $(CRATES))

# Lists the wrong bodies that no test of their crate notices, without a proof: make mutants CRATES=usb_packet
mutants:  ## lists wrong bodies that no test notices: CRATES=usb_packet
	$(NEEDS_RT)
	tools/proof/mutants $(CRATES)

help:  ## lists the targets
	@sed -n 's/^\([a-z-]*\):.*  ## \(.*\)/\1|\2/p' Makefile | awk -F'|' '{ printf "make %-14s %s\n", $$1, $$2 }'

clean:  ## removes all that was built
	rm -rf bin crates/*/out
