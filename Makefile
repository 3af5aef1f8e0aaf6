# The library for C programs, the program, their installation and what uses them.
#
#   make                      prove the library and copy it to build/libgabzeril.a
#   make demo                 prove and build the program, and run it on case-f of samples/
#   make help                 this list
#   make install PREFIX=DIR   program, header, static library and pkg-config file
#   make uninstall PREFIX=DIR remove them
#   make examples             build examples/ against the library
#   make check-examples       the same with sanitizers, run and compared
#   make check-samples        the program on samples/
#   make check-hostile        damaged files, values, sets, plans, templates, columns and tables to fold through the C interface (CASES=100000 SEED=1)
#   make clean                remove build/ and target/; crates/*/out/ belong to rt

VERSION := $(shell sed -n 's/^.define GABZERIL_VERSION "\(.*\)"$$/\1/p' include/gabzeril.h)
PREFIX = /usr/local
BINDIR = $(PREFIX)/bin
INCLUDEDIR = $(PREFIX)/include
LIBDIR = $(PREFIX)/lib
DESTDIR =
INSTALL = install

CC = gcc
CFLAGS = -O2
WARNINGS = -std=c11 -Wall -Wextra -Wpedantic
SANITIZERS = -g -O1 -fsanitize=address,undefined -fno-sanitize-recover=all

CASES = 100000
SEED = 1

# What rt has built of the crates entry and gabzeril. Others can be named: they are then taken as they are.
STATICLIB = target/staticlib/libentry.a
PROGRAM = target/bin/gabzeril
PROVED := crates.txt $(shell find crates -name out -prune -o \( -name '*.rt' -o -name '*.antt' \) -print)

LIBRARY = build/libgabzeril.a
EXAMPLES = switch collector switch_set collector_set plan hide fill archive fold

.PHONY: all demo help install uninstall examples sanitized-examples check-examples check-samples check-hostile clean

# One rt at a time: it runs crates side by side by itself. What it leaves where it fails is not taken.
.NOTPARALLEL:
.DELETE_ON_ERROR:

all: $(LIBRARY)

help:
	@sed -n 's/^#   make/make/p' Makefile

target/bin/gabzeril: $(PROVED) | build
	@cd crates/gabzeril && ../../.ci/prove ../../build/program.log rt run
	@mkdir -p target/bin && cp crates/gabzeril/out/gabzeril $@

demo: $(PROGRAM)
	@samples/run.sh $(PROGRAM) case-f

target/staticlib/libentry.a: $(PROVED) | build
	@cd crates/entry && ../../.ci/prove ../../build/library.log rt lib
	@mkdir -p target/staticlib && cp crates/entry/out/libentry.a $@

$(LIBRARY): $(STATICLIB) | build
	cp $(STATICLIB) $@

# Nothing of build/ is to be committed.
build:
	@mkdir -p build/examples build/sanitized
	@echo '*' > build/.gitignore

build/gabzeril.pc: gabzeril.pc.in include/gabzeril.h Makefile | build
	sed -e 's|@PREFIX@|$(PREFIX)|' -e 's|@INCLUDEDIR@|$(INCLUDEDIR)|' -e 's|@LIBDIR@|$(LIBDIR)|' \
	    -e 's|@VERSION@|$(VERSION)|' gabzeril.pc.in > $@

install: $(PROGRAM) $(LIBRARY)
	rm -f build/gabzeril.pc
	$(MAKE) --no-print-directory build/gabzeril.pc
	$(INSTALL) -d $(DESTDIR)$(BINDIR) $(DESTDIR)$(INCLUDEDIR) $(DESTDIR)$(LIBDIR)/pkgconfig
	$(INSTALL) -m 755 $(PROGRAM) $(DESTDIR)$(BINDIR)/gabzeril
	$(INSTALL) -m 644 include/gabzeril.h $(DESTDIR)$(INCLUDEDIR)/gabzeril.h
	$(INSTALL) -m 644 $(LIBRARY) $(DESTDIR)$(LIBDIR)/libgabzeril.a
	$(INSTALL) -m 644 build/gabzeril.pc $(DESTDIR)$(LIBDIR)/pkgconfig/gabzeril.pc

uninstall:
	rm -f $(DESTDIR)$(BINDIR)/gabzeril $(DESTDIR)$(INCLUDEDIR)/gabzeril.h $(DESTDIR)$(LIBDIR)/libgabzeril.a \
	    $(DESTDIR)$(LIBDIR)/pkgconfig/gabzeril.pc

examples: $(EXAMPLES:%=build/examples/%)

sanitized-examples: $(EXAMPLES:%=build/sanitized/%)

build/examples/%: examples/%.c examples/files.c examples/files.h include/gabzeril.h $(LIBRARY)
	$(CC) $(WARNINGS) $(CFLAGS) -Iinclude -o $@ $(filter %.c,$^) $(LIBRARY)

build/sanitized/%: examples/%.c examples/files.c examples/files.h include/gabzeril.h $(LIBRARY)
	$(CC) $(WARNINGS) $(SANITIZERS) -Iinclude -o $@ $(filter %.c,$^) $(LIBRARY)

build/examples/plan build/sanitized/plan: examples/plan_file.c examples/plan_file.h

build/sanitized/hostile: tests-c/hostile.c tests-c/hostile_values.c tests-c/hostile_sets.c tests-c/hostile_trial.c \
    tests-c/hostile_templates.c tests-c/hostile_archive.c tests-c/hostile_fold.c tests-c/hostile.h include/gabzeril.h \
    $(LIBRARY)
	$(CC) $(WARNINGS) $(SANITIZERS) -Iinclude -o $@ $(filter %.c,$^) $(LIBRARY)

check-examples: sanitized-examples
	examples/run.sh build/sanitized

check-samples:
	samples/run.sh $(PROGRAM)

check-hostile: build/sanitized/hostile
	tests-c/hostile.sh $(CASES) $(SEED)

clean:
	rm -rf build target
