# make run      plays a business day through the host program
# make test     the whole gate: every proof, every must-fail edit, every test
# make bench    times and instructions per call, beside plain C
# make shared   the library as a shared object, target/libcrz.so
# make install  headers, archive, pkg-config file, host program and its man page under PREFIX
# Each of them first looks for what it needs (tools/need) and, as root on Debian, installs what is missing.
PREFIX ?= /usr/local
DESTDIR ?=
CFLAGS ?= -O2
WARNINGS = -std=c99 -Wall -Wextra -Wpedantic -Wconversion
LIBS = -lsqlite3 -lcrypto
VERSION = $(shell sed -n 's/^\#define CRZ_VERSION "\(.*\)"/\1/p' include/crz.h)

.PHONY: run need lib host shared install bench test audit

run: host
	@rm -f target/day.crz target/day.crz-journal
	@target/crz new target/day.crz
	@target/crz play target/day.crz host/day.txt
	@echo
	@target/crz show target/day.crz
	@echo
	@target/crz verify target/day.crz

need:
	@tools/need run

# the archive for C, proved
lib: need
	tools/lib

host: lib
	$(CC) $(WARNINGS) $(CFLAGS) -o target/crz host/*.c target/staticlib/libcrz.a $(LIBS)

shared: lib
	CC="$(CC)" tools/shared target

install: host
	install -d $(DESTDIR)$(PREFIX)/include $(DESTDIR)$(PREFIX)/lib/pkgconfig $(DESTDIR)$(PREFIX)/bin
	install -d $(DESTDIR)$(PREFIX)/share/man/man1
	install -m 644 include/crz.h include/crz_records.h $(DESTDIR)$(PREFIX)/include
	install -m 644 target/staticlib/libcrz.a $(DESTDIR)$(PREFIX)/lib/libcrz.a
	sed 's|@PREFIX@|$(PREFIX)|; s|@VERSION@|$(VERSION)|' host/crz.pc.in >$(DESTDIR)$(PREFIX)/lib/pkgconfig/crz.pc
	install -m 755 target/crz $(DESTDIR)$(PREFIX)/bin/crz
	install -m 644 host/crz.1 $(DESTDIR)$(PREFIX)/share/man/man1/crz.1

bench: lib
	@tools/need bench
	@tools/bench

test:
	@tools/need test
	@tools/test

# after `make lib`: it tries the must-fail edits once more and reads what is said of them
audit:
	@tools/edits
	@tools/audit
