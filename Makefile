# make run [BOOK=file]         the report of a book; the first run proves all that the program is made of
# make lib                     the library, static and shared, and its header, in build/
# make all                     the same and the programs battenplum and battenplum-check
# make examples                the examples in C, build/display, build/edit and build/hover
# make install [PREFIX=dir]    programs, library, header, pkg-config file, manual pages and documents; DESTDIR=dir stages them
# make uninstall [PREFIX=dir]  removes what was installed
# make test                    proves everything that was not proved here before and runs all tests
# make cross [SEED= COUNT=]    library and program against solvers in Rust
# make bench [QUICK=1]         times of the C calls against a fast version in Rust
# make clean                   removes what was built; what was proved stays, in crates/*/out/
# make help                    these lines
BOOK ?= examples/contact.book
PREFIX ?= /usr/local
CFLAGS ?= -O2
CARGO = cargo --quiet --offline
CROSS = --release --manifest-path cross/Cargo.toml --target-dir build/cross
SOURCES := $(shell find crates -name out -prune -o \( -name '*.rt' -o -name '*.antt' \) -print) crates.txt
VERSION := $(shell sed -n 's/^.define BATTENPLUM_VERSION "\(.*\)"/\1/p' include/battenplum.h)
SHARED = libbattenplum.so.$(VERSION)

# Through the environment, so that names with spaces arrive whole.
export BOOK PREFIX DESTDIR CC

.PHONY: run lib all examples install uninstall cross bench test clean help cargo
# Two runs of `rt` at a time would wait for each other.
.NOTPARALLEL:

run: build/battenplum
	@build/battenplum < "$$BOOK"

lib: build/libbattenplum.a build/libbattenplum.so build/battenplum.h

# The library comes first, as its rule asks for all tools before minutes of proving.
all: lib build/battenplum build/battenplum-check

# `rt` proves what has changed, and builds only what is proved.
build/battenplum: $(SOURCES)
	@tools/need rt
	@tools/prove cli $@

build/libbattenplum.a: $(SOURCES)
	@tools/need rt cc
	@tools/prove capi_c $@

build/battenplum.h: include/battenplum.h
	@mkdir -p build
	@cp include/battenplum.h $@

# What is built is renamed into place, as another make may be using what stands there. The shared library exports the calls that the header
# declares, each at the start of a line, and is loaded by a name with the version: until 1.0 each version may change the calls.
build/exports: include/battenplum.h
	@mkdir -p build
	@{ echo '{ global:'; sed -n 's/^[a-z0-9_]* \(battenplum_[a-z_]*\)(.*/\1;/p' include/battenplum.h; echo 'local: *; };'; } > $@.$$$$ && mv $@.$$$$ $@

build/$(SHARED): build/libbattenplum.a build/exports
	@$(CC) -shared $(LDFLAGS) -Wl,-soname,$(SHARED) -Wl,--version-script=build/exports -Wl,-z,relro,-z,now -Wl,--no-undefined \
	  -Wl,--whole-archive build/libbattenplum.a -Wl,--no-whole-archive -o $@.$$$$ && mv $@.$$$$ $@

build/libbattenplum.so: build/$(SHARED)
	@ln -sf $(SHARED) $@

build/battenplum-check: $(wildcard frontend/*.c frontend/*.h) include/battenplum.h build/libbattenplum.a
	@tools/need cc
	@$(CC) -std=c99 -Wall -Wextra -Wconversion -pedantic -Iinclude $(CPPFLAGS) $(CFLAGS) $(LDFLAGS) \
	  $(filter %.c %.a,$^) $(LDLIBS) -o $@.$$$$ && mv $@.$$$$ $@

examples: build/display build/edit build/hover

build/display build/edit build/hover: build/%: examples/%.c include/battenplum.h build/libbattenplum.a
	@tools/need cc
	@$(CC) -Wall -Wextra -Iinclude $(CPPFLAGS) $(CFLAGS) $(LDFLAGS) $(filter %.c %.a,$^) $(LDLIBS) -o $@.$$$$ && mv $@.$$$$ $@

install: all
	@tools/install

uninstall:
	@tools/install --remove

cargo:
	@tools/need cargo

cross: cargo build/battenplum build/libbattenplum.a
	@$(CARGO) run $(CROSS) --bin differ -- $(if $(SEED),--seed $(SEED)) $(if $(COUNT),--count $(COUNT))

bench: cargo build/libbattenplum.a
	@$(CARGO) run $(CROSS) --bin bench -- $(if $(QUICK),--quick)

# The last line is that of the prover, and is printed only if everything else has passed too.
test:
	@tests/run

clean:
	rm -rf build

help:
	@sed -n 's/^# \(make [a-z]* .*\)/\1/p' Makefile
