# Builds, checks and installs the handover checker. Needs rt (to build), python3 (for `make examples`) and GNU make.

PREFIX = /usr/local
DESTDIR =
PYTHON = python3
INSTALL = install

dest = $(DESTDIR)$(PREFIX)
programs = judge mend walk
archive = target/staticlib/libhandover_c.a
# pkg-config takes a backslash before a blank for a part of the path; the other backslashes are for sed.
written_prefix = $(shell printf '%s' '$(PREFIX)' | sed 's/[&|\\]/\\&/g; s/ /\\\\ /g')
installed = $(programs:%=bin/%) lib/libhandover_c.a lib/pkgconfig/handover.pc include/handover.h \
	$(programs:%=share/man/man1/%.1) share/man/man3/handover.3

.PHONY: all check built install uninstall examples clean

# rt proves what changed since the last time, so it is always asked. A program that it has built it also runs: here where no file is, and on no input.
all:
	mkdir -p target/bin target/staticlib
	for p in $(programs); do (cd crates/$$p && rt run < /dev/null > /dev/null) && cp crates/$$p/out/$$p target/bin/ || exit 1; done
	cd crates/handover_c && rt lib
	cp crates/handover_c/out/libhandover_c.a target/staticlib/

# The gate: proves everything from nothing, tries the wrong edits, runs the programs and the tests from outside.
check:
	.ci/run

# Installing builds nothing, so that it can run as another user.
built:
	@for f in $(programs:%=target/bin/%) $(archive); do test -f $$f || { echo "$$f is missing: run make first" >&2; exit 1; }; done

install: built
	$(INSTALL) -d "$(dest)/bin" "$(dest)/lib/pkgconfig" "$(dest)/include" "$(dest)/share/man/man1" "$(dest)/share/man/man3"
	$(INSTALL) -m 755 $(programs:%=target/bin/%) "$(dest)/bin"
	$(INSTALL) -m 644 $(archive) "$(dest)/lib"
	$(INSTALL) -m 644 include/handover.h "$(dest)/include"
	$(INSTALL) -m 644 $(programs:%=man/%.1) "$(dest)/share/man/man1"
	$(INSTALL) -m 644 man/handover.3 "$(dest)/share/man/man3"
	sed 's|@prefix@|$(written_prefix)|' handover.pc.in > "$(dest)/lib/pkgconfig/handover.pc"
	chmod 644 "$(dest)/lib/pkgconfig/handover.pc"

# Folders stay: others may use them.
uninstall:
	@for f in $(installed); do echo "rm $(dest)/$$f"; rm -f "$(dest)/$$f"; done

# Makes every example's files and picture anew, then compares with the stored lines.
examples: built
	PYTHONDONTWRITEBYTECODE=1 $(PYTHON) examples/make.py
	$(PYTHON) examples/picture.py examples/*/
	examples/check

clean:
	rm -rf target crates/*/out
