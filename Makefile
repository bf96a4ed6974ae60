# The archive that C links, and where a compiler looks for it. docs/FIRMWARE.md says the rest.
#
#   make            target/libvilthomm.a; whatever of its crates is not proved yet is proved first
#   make install    the header, the archive and a file for pkg-config, under PREFIX
#
# DESTDIR stands before each place that is written, for whoever makes a package.
PREFIX = /usr/local
INCLUDEDIR = $(PREFIX)/include
LIBDIR = $(PREFIX)/lib
DESTDIR =
INSTALL = install

archive = target/libvilthomm.a
sources = $(shell find crates -name out -prune -o '(' -name '*.rt' -o -name '*.antt' ')' -print)
version = $(shell sed -n 's/^.define VILTHOMM_VERSION "\(.*\)"$$/\1/p' include/vilthomm.h)
below_prefix = $(patsubst $(PREFIX)/%,$${prefix}/%,$(1))

all: $(archive)

$(archive): include/vilthomm.h tools/archive tools/staticlib crates.txt $(sources)
	tools/staticlib firmware
	tools/archive

install: $(archive)
	$(INSTALL) -d '$(DESTDIR)$(INCLUDEDIR)' '$(DESTDIR)$(LIBDIR)/pkgconfig'
	$(INSTALL) -m 644 include/vilthomm.h '$(DESTDIR)$(INCLUDEDIR)/vilthomm.h'
	$(INSTALL) -m 644 $(archive) '$(DESTDIR)$(LIBDIR)/libvilthomm.a'
	sed -e 's|@PREFIX@|$(PREFIX)|' -e 's|@VERSION@|$(version)|' \
	    -e 's|@INCLUDEDIR@|$(call below_prefix,$(INCLUDEDIR))|' -e 's|@LIBDIR@|$(call below_prefix,$(LIBDIR))|' \
	    tools/vilthomm.pc.in > '$(DESTDIR)$(LIBDIR)/pkgconfig/vilthomm.pc'
	chmod 644 '$(DESTDIR)$(LIBDIR)/pkgconfig/vilthomm.pc'

.PHONY: all install
