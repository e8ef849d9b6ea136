# For those who use it. The crates are proved and built by `rt`, the gate is .ci/run; what is made here lies in target/demo.
#
#   make demo                 the loader over the sample archive, compared with examples/expected.txt
#   make whichline            the command-line program; bin/whichline runs it
#   make archives             libfidshore.a, and libtestcalls.a for the outside tests, into target/staticlib
#   make test                 the gate
#   make bench                times beside git and fnmatch: tables, and a picture in target/bench; whichline beside git over a listing
#   make install PREFIX=...   the archive, the header, a pkg-config file and whichline
#   make clean                removes what `make demo` made

VERSION = 0.1.0
PREFIX ?= /usr/local
CFLAGS ?= -O2
WARNINGS = -std=c99 -pedantic -Wall -Wextra -Werror
# Another folder to take the archive from, as in tests/run.
FIDSHORE_ARCHIVE_DIR ?= target/staticlib

archive = $(FIDSHORE_ARCHIVE_DIR)/libfidshore.a
program = target/bin/whichline
made = target/demo
prefix = $(abspath $(PREFIX))
place = $(DESTDIR)$(prefix)

.PHONY: demo whichline archives test bench install clean

# Compiled each time, so that it is never the loader of another archive. One path of the listing is refused, so it must end with status 1.
demo: $(archive)
	@mkdir -p $(made)
	$(CC) $(CFLAGS) $(WARNINGS) -Iinclude -o $(made)/loader examples/loader.c $(archive)
	@status=0; $(made)/loader examples/archive > $(made)/out.txt || status=$$?; \
	cat $(made)/out.txt; \
	diff -u examples/expected.txt $(made)/out.txt && test $$status -eq 1
	@echo "demo: as expected"

whichline: $(program)

# Proved and built in its crate's folder, and copied from there, since `rt ci` empties those folders.
archive_of = cd crates/$(1) && rt lib && install -D -m 644 out/lib$(1).a ../../target/staticlib/lib$(1).a

archives:
	$(call archive_of,fidshore)
	$(call archive_of,testcalls)

test:
	.ci/run

bench: $(archive) $(program)
	ARCHIVE=$(archive) bench/run

install: $(archive) $(program)
	install -d $(place)/lib/pkgconfig $(place)/include $(place)/bin $(place)/libexec/fidshore
	install -m 755 bin/whichline $(place)/bin/whichline
	install -m 755 $(program) $(place)/libexec/fidshore/whichline
	install -m 644 $(archive) $(place)/lib/libfidshore.a
	install -m 644 include/fidshore.h $(place)/include/fidshore.h
	sed -e 's|@PREFIX@|$(prefix)|' -e 's|@VERSION@|$(VERSION)|' fidshore.pc.in > $(place)/lib/pkgconfig/fidshore.pc
	chmod 644 $(place)/lib/pkgconfig/fidshore.pc

# The archive and the program stay, since they would have to be proved again. To start from nothing, remove target/.
clean:
	rm -rf $(made)

# Only if they are not there; after a change of the crates `make archives` and `make -B whichline`, or `make test`.
target/staticlib/libfidshore.a:
	$(call archive_of,fidshore)

# `rt run` proves, builds and then runs: here it asks for help.
$(program):
	cd crates/whichline && rt run -- --help > /dev/null && install -D -m 755 out/whichline ../../$(program)
