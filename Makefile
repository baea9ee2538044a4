# The library and the command `corbelnib` (README.md).
#   make                   proves and builds both; the command is target/command/corbelnib, and ./corbelnib is a link to it
#   make unproved          the same sources without their proofs, in seconds: ./corbelnib-unproved, which says with every verdict that it is NOT PROVED
#   make syntax            everything in C compiled with every warning an error, plainly and with the sanitizers; needs no library
#   make check             the tests of the command, of the C boundary (held to the original) and of docs/FOR-TABLES.md (tests/README.md)
#   make check-sanitized   the same with the address and undefined-behaviour sanitizers in the command's own code, and 100,000 damaged inputs
#   make check-rising      hands 1 to 100 at large settings: what judge says is what it says where it begins with them
#   make check-masters     true answers two by two, held to demand 3, and as they come where a search rises to its settings; answers with
#                          one member made wrong
#   make check-house       the scripts: what make says where something is missing, what install refuses, shellcheck if it is there (make check has it)
#   make check-fc-solve    hands 1 to 100 beside fc-solve (Debian's package freecell-solver-bin)
#   make install PREFIX=.. command, library, header, pkg-config file and man page (DESTDIR is put before all paths)
# CORBELNIB_RUST, if set, is the original's folder solver-core-rs/src: make check then builds bench/ and compare/ too (needs cargo).
# CORBELNIB_ARCHIVE, if set, is a folder with a libcorbelnib.a that is taken as it is; else tools/archive.sh proves and builds it (tools/prove.sh tells
# how far it has come). What was taken or built lies in target/command and serves until the library's sources are newer.

PREFIX ?= /usr/local
BINDIR = $(PREFIX)/bin
LIBDIR = $(PREFIX)/lib
INCLUDEDIR = $(PREFIX)/include
MANDIR = $(PREFIX)/share/man
CC ?= cc
CFLAGS ?= -O2
WARNINGS = -Wall -Wextra -Werror -pedantic
INSTALL = install

build = target/command
sanitized = target/command-sanitized
straight = target/command-straight
unproved = target/command-unproved
sources = $(sort $(wildcard command/*.c))
headers = $(wildcard command/*.h) include/corbelnib.h include/corbelnib_says.h
# all but main, for the tests that call the command's functions
functions = $(filter-out command/main.c,$(sources))
sanitizers = -g -O1 -fsanitize=address,undefined -fno-sanitize-recover=all
# looking for leaks at each end of a process takes seconds, and a process that ends gives all back
no_leaks = ASAN_OPTIONS=detect_leaks=0
compile = $(CC) -std=c11 $(WARNINGS) -I include
version := $(shell sed -n 's/^\#define CORBELNIB_VERSION "\(.*\)"/\1/p' include/corbelnib.h command/version.h | head -n 1)

archive = $(build)/libcorbelnib.a

all: corbelnib

corbelnib: $(build)/corbelnib
	ln -sf $(build)/corbelnib corbelnib

# proving takes minutes: only what the library is made of sets it off, and what it needs is looked for first (out/ is what rt makes)
rattle = $(shell find crates -name out -prune -o -name '*.rt' -print)
proofs = $(shell find crates -name out -prune -o -name '*.antt' -print)
ifdef CORBELNIB_ARCHIVE
$(archive): $(CORBELNIB_ARCHIVE)/libcorbelnib.a
	@CC="$(CC)" sh tools/ready.sh compiler
	mkdir -p $(build)
	cp $< $@
	$(call with_module,$(CORBELNIB_ARCHIVE))
else
$(archive): tools/archive.sh crates.txt $(rattle) $(proofs)
	@CC="$(CC)" sh tools/ready.sh
	mkdir -p $(build)
	folder=$$(sh tools/prove.sh) && cp "$$folder/libcorbelnib.a" $@ && $(call with_module,$$folder)
endif

# the proved module comes with the library where it lies beside it; what it is goes into the command (tools/identity.sh)
with_module = { cp "$(1)/module.bc" $(build)/module.bc 2> /dev/null || rm -f $(build)/module.bc; }
identity = -I $(build) -DCORBELNIB_IDENTITY='"built.h"'

unproved: corbelnib-unproved

corbelnib-unproved: $(unproved)/corbelnib
	ln -sf $(unproved)/corbelnib corbelnib-unproved

$(unproved)/libcorbelnib.a: tools/unproved.sh crates.txt $(rattle)
	@CC="$(CC)" sh tools/ready.sh
	mkdir -p $(unproved)
	folder=$$(CC="$(CC)" sh tools/unproved.sh) && cp "$$folder/libcorbelnib.a" $@

$(unproved)/corbelnib: $(sources) $(headers) $(unproved)/libcorbelnib.a
	$(compile) $(CFLAGS) $(sources) $(unproved)/libcorbelnib.a $(LDFLAGS) -o $@

$(build)/built.h: tools/identity.sh $(archive)
	sh tools/identity.sh $(build) > $@

$(build)/corbelnib: $(sources) $(headers) $(archive) $(build)/built.h
	mkdir -p $(build)
	$(compile) $(identity) $(CFLAGS) $(sources) $(archive) $(LDFLAGS) -o $@

$(sanitized)/corbelnib: $(sources) $(headers) $(archive) $(build)/built.h
	mkdir -p $(sanitized)
	$(compile) $(identity) $(sanitizers) $(sources) $(archive) -o $@

$(sanitized)/damage: tests/damage.c tests/read_all.c tests/read_all.h $(functions) $(headers) $(archive)
	mkdir -p $(sanitized)
	$(compile) $(sanitizers) tests/damage.c tests/read_all.c $(functions) $(archive) -o $@

$(build)/masters: tests/masters.c $(functions) $(headers) $(archive)
	mkdir -p $(build)
	$(compile) $(CFLAGS) -DBOARDS_FIRST=1 -DNODES_FIRST=1 tests/masters.c $(functions) $(archive) -o $@

$(build)/wrong: tests/wrong.c $(functions) $(headers) $(archive)
	mkdir -p $(build)
	$(compile) $(CFLAGS) tests/wrong.c $(functions) $(archive) -o $@

# the command with a search that does not rise to its settings but begins with them
$(straight)/corbelnib: tests/straight.c $(sources) $(headers) $(archive)
	mkdir -p $(straight)
	$(compile) $(CFLAGS) tests/straight.c $(filter-out command/rise.c,$(sources)) $(archive) -o $@

$(build)/terminal: tests/terminal.c
	mkdir -p $(build)
	$(compile) $(CFLAGS) tests/terminal.c -o $@

syntax:
	for file in $(sources) tests/*.c examples/*.c bench/*.c; do $(compile) -I command -fsyntax-only $$file && \
	    $(compile) -I command $(sanitizers) -fsyntax-only $$file || exit 1; done
	$(CC) -std=c99 $(WARNINGS) -I include -fsyntax-only tests/c99.c
	if command -v $(CXX) > /dev/null; then $(CXX) -std=c++11 $(WARNINGS) -I include -fsyntax-only -x c++ tests/c99.c; fi

# --version alone, with a library of another version
$(build)/mismatch: tests/mismatch.c command/identity.c command/version.c $(headers)
	mkdir -p $(build)
	$(compile) $(CFLAGS) tests/mismatch.c command/identity.c command/version.c -o $@

$(build)/lent: tests/lent.c include/corbelnib.h $(archive)
	mkdir -p $(build)
	$(compile) $(CFLAGS) tests/lent.c $(archive) -o $@

$(sanitized)/lent: tests/lent.c include/corbelnib.h $(archive)
	mkdir -p $(sanitized)
	$(compile) $(sanitizers) tests/lent.c $(archive) -o $@

# programs whose output is held to that of the original (tests/oracles)
oracles = $(patsubst tests/oracles/%.out,%,$(wildcard tests/oracles/*.out))

$(oracles:%=$(build)/%): $(build)/%: tests/%.c tests/oracle.c tests/oracle.h include/corbelnib.h $(archive)
	mkdir -p $(build)
	$(compile) $(CFLAGS) $< tests/oracle.c $(archive) -o $@

$(oracles:%=$(sanitized)/%): $(sanitized)/%: tests/%.c tests/oracle.c tests/oracle.h include/corbelnib.h $(archive)
	mkdir -p $(sanitized)
	$(compile) $(sanitizers) $< tests/oracle.c $(archive) -o $@

# the programs beside the original Rust are built, so that they do not rot; this needs cargo and the original, which is not in this repository
beside_the_original: $(archive)
ifdef CORBELNIB_RUST
	CORBELNIB_ARCHIVE=$(CURDIR)/$(build) sh bench/run.sh "$(CORBELNIB_RUST)" build
	CORBELNIB_ARCHIVE=$(CURDIR)/$(build) sh compare/run.sh "$(CORBELNIB_RUST)" boards=1 > /dev/null
endif

# where memory is small and where the budget is, and both flags; the usual settings take minutes (check-rising)
rising_settings = '--budget 1500 --memory 8M' '--memory 256K' '--budget 4500 --memory 16M --partial'
at_once = COMMAND=$(CURDIR)/$(build)/corbelnib STRAIGHT=$(CURDIR)/$(straight)/corbelnib

check: $(build)/corbelnib $(build)/lent $(build)/mismatch $(build)/terminal $(build)/wrong $(straight)/corbelnib $(oracles:%=$(build)/%) beside_the_original
	$(build)/lent
	$(build)/mismatch | sed 's/$(version)/VERSION/' | diff tests/mismatch.out -
	sh tests/archive.sh
	MAKE="$(MAKE)" sh tests/installed.sh
	sh tests/oracles.sh $(build)
	$(build)/wrong 4
	$(at_once) sh tests/rising.sh 1 100 $(rising_settings)
	COMMAND=$(CURDIR)/$(straight)/corbelnib sh tests/run.sh judge
	CORBELNIB_ARCHIVE=$(CURDIR)/$(build) CC="$(CC)" sh tests/for-tables.sh
	COMMAND=$(CURDIR)/$(build)/corbelnib sh tests/papers.sh
	COMMAND=$(CURDIR)/$(build)/corbelnib TERMINAL=$(CURDIR)/$(build)/terminal sh tests/run.sh
	CORBELNIB_ARCHIVE=$(CURDIR)/$(build) CC="$(CC)" sh tests/house.sh

check-house: $(build)/corbelnib
	CORBELNIB_ARCHIVE=$(CURDIR)/$(build) CC="$(CC)" sh tests/house.sh

check-sanitized: $(sanitized)/corbelnib $(sanitized)/damage $(sanitized)/lent $(build)/terminal $(oracles:%=$(sanitized)/%)
	$(no_leaks) $(sanitized)/lent
	$(no_leaks) sh tests/oracles.sh $(sanitized)
	$(no_leaks) SANITIZED=yes COMMAND=$(CURDIR)/$(sanitized)/corbelnib TERMINAL=$(CURDIR)/$(build)/terminal sh tests/run.sh
	$(no_leaks) $(sanitized)/damage 100000 1 tests/seeds/*

check-rising: $(build)/corbelnib $(straight)/corbelnib
	$(at_once) FORMS=json sh tests/rising.sh 1 100 '--budget 20000 --memory 64M' '--budget 100000 --memory 95M --partial' ''

check-masters: $(build)/masters $(build)/wrong
	$(build)/masters 40 100
	$(build)/wrong 40

check-fc-solve: $(build)/corbelnib
	COMMAND=$(CURDIR)/$(build)/corbelnib sh tests/fc-solve.sh

install: $(build)/corbelnib
	@! grep -q corbelnib_not_proved $(archive) || { echo 'corbelnib is not installed: its library is NOT PROVED (make unproved)' >&2; exit 1; }
	$(INSTALL) -d $(DESTDIR)$(BINDIR) $(DESTDIR)$(LIBDIR)/pkgconfig $(DESTDIR)$(INCLUDEDIR) $(DESTDIR)$(MANDIR)/man1
	$(INSTALL) -m 755 $(build)/corbelnib $(DESTDIR)$(BINDIR)/corbelnib
	$(INSTALL) -m 644 $(archive) $(DESTDIR)$(LIBDIR)/libcorbelnib.a
	$(INSTALL) -m 644 include/corbelnib.h include/corbelnib_says.h $(DESTDIR)$(INCLUDEDIR)/
	sed -e 's|@PREFIX@|$(PREFIX)|' -e 's|@LIBDIR@|$(LIBDIR)|' -e 's|@INCLUDEDIR@|$(INCLUDEDIR)|' -e 's|@VERSION@|$(version)|' command/corbelnib.pc.in > $(DESTDIR)$(LIBDIR)/pkgconfig/corbelnib.pc
	sed -e 's|@VERSION@|$(version)|' command/corbelnib.1 > $(DESTDIR)$(MANDIR)/man1/corbelnib.1

uninstall:
	rm -f $(DESTDIR)$(BINDIR)/corbelnib $(DESTDIR)$(LIBDIR)/libcorbelnib.a $(DESTDIR)$(INCLUDEDIR)/corbelnib.h $(DESTDIR)$(INCLUDEDIR)/corbelnib_says.h
	rm -f $(DESTDIR)$(LIBDIR)/pkgconfig/corbelnib.pc $(DESTDIR)$(MANDIR)/man1/corbelnib.1

clean:
	rm -rf $(build) $(sanitized) $(straight) $(unproved) target/unproved target/staticlib corbelnib corbelnib-unproved

.PHONY: all unproved syntax check check-house beside_the_original check-sanitized check-rising check-masters check-fc-solve install uninstall clean
