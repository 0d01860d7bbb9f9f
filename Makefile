# make list FILE=..        print a program's table and verdict
# make table FILE=.. OUT=..   translate a program and write its table file
# make load FILE=..        say what the loader says of a table file: number, words, the sender's verdict
# make figures FILE=.. BOOKS=".."   figures over a shelf of books: executions by rule, and what was never executed
# make link COMMON=.. PARTS=".."    translate parts of a program separately, link them and print the table; OUT=.. writes its table file
# make sst                 build target/bin/sst, one command for author, engineer and release desk: target/bin/sst --help
# make build               prove libraries and lister: target/lib/libsst.a, target/lib/libsst-carry.a, target/lib/libsst-desk.a, target/bin/lister
# make library TARGET=..   the libraries for another processor: aarch64, armv7, thumbv7em or riscv64, at target/lib/TARGET/ (docs/DEVICE.md)
# make install PREFIX=..   put libraries, headers, pkg-config files, sst, lister, their pages and documents below PREFIX (/usr/local); DESTDIR=.. for a package;
#                          TARGET=.. the libraries for that processor, without the commands
# make test                every check and test
FILE ?= examples/scanner.ssl
OUT ?= $(FILE:.ssl=.sst)
BOOKS ?=
COMMON ?= examples/pages/common.ssl
PARTS ?= examples/pages/book.ssl examples/pages/line.ssl examples/pages/blank.ssl
TARGET ?= x86-64
PREFIX ?= /usr/local
DESTDIR ?=
SOURCES = crates.txt $(shell find crates -name out -prune -o \( -name '*.rt' -o -name '*.antt' \) -print)

.PHONY: list table load figures link sst build library install test
.NOTPARALLEL:

list:
	@test -r "$(FILE)" || { echo "no such file: $(FILE)" >&2; exit 1; }
	@$(MAKE) -s --no-print-directory target/bin/lister || { echo "The lister is not proved: see target/list.log" >&2; exit 1; }
	@target/bin/lister < "$(FILE)"

table: target/bin/sst-file
	@target/bin/sst-file write "$(FILE)" "$(OUT)"

load: target/bin/sst-file
	@target/bin/sst-file check "$(FILE)"

figures: target/bin/sst-figures
	@target/bin/sst-figures "$(FILE)" $(BOOKS)

link: target/bin/sst-link
	@target/bin/sst-link $(if $(filter command%,$(origin OUT)),-o "$(OUT)") "$(COMMON)" $(PARTS)

target/bin/sst-file target/bin/sst-figures target/bin/sst-link: target/bin/%: tools/%.c tools/input.h include/sst.h include/sst-desk.h target/lib/libsst.a
	@mkdir -p target/bin
	@$(CC) -std=c99 -Wall -Wextra -pedantic -O2 -Iinclude $< -Ltarget/lib -lsst-desk -lsst -o $@

sst: target/bin/sst

target/bin/sst: target/lib/libsst.a tools/sst/Cargo.toml $(shell find tools/sst/src reference/src reference/c -type f)
	@mkdir -p target/bin
	@CARGO_TARGET_DIR=$(CURDIR)/target/reference SST_LIB_DIR=$(CURDIR)/target/lib \
		cargo build --quiet --offline --release --manifest-path tools/sst/Cargo.toml
	@cp target/reference/release/sst $@

build: target/lib/libsst.a target/bin/lister

target/lib/libsst.a: $(SOURCES)
	@scripts/library

# rt run proves and builds the lister, and runs it once on a text of its own
target/bin/lister: $(SOURCES)
	@scripts/progress target/list.log crates/lister rt run
	@mkdir -p target/bin
	@cp crates/lister/out/lister $@

ifeq ($(TARGET),x86-64)
library: target/lib/libsst.a
install: build sst
else
library: target/lib/$(TARGET)/libsst-desk.a
install: library
endif

# the last of the three that are made
target/lib/%/libsst-desk.a: target/lib/libsst.a scripts/compile-for
	@scripts/compile-for $*

install:
	@TARGET="$(TARGET)" PREFIX="$(PREFIX)" DESTDIR="$(DESTDIR)" scripts/install

test:
	@scripts/test
