# The library for C: a shared one made of the proved static archive, and both installed with the headers, for pkg-config and for CMake.
#
#     make                         target/c/libthymebarrel.so.VERSION (proves the archive first, if it is not there)
#     make install PREFIX=/usr     DESTDIR=... puts it under another root
#     make uninstall PREFIX=/usr

PREFIX ?= /usr/local
LIBDIR ?= $(PREFIX)/lib
INCLUDEDIR ?= $(PREFIX)/include
DESTDIR ?=
CC ?= cc
INSTALL ?= install

STATIC ?= target/staticlib/libthymebarrel.a
BUILD ?= target/c

# The header names the version; before 1.0 each of the second number may change what is there, so it is in the soname.
VERSION := $(shell sed -n 's/^.define THYMEBARREL_VERSION "\(.*\)"$$/\1/p' include/thymebarrel.h)
SERIES := $(basename $(VERSION))
SONAME := libthymebarrel.so.$(SERIES)
SHARED := $(BUILD)/libthymebarrel.so.$(VERSION)
HEADERS := include/thymebarrel.h include/thymebarrel_reason.h
CMAKE := $(LIBDIR)/cmake/thymebarrel
FILLED := $(BUILD)/thymebarrel.pc $(BUILD)/thymebarrel-config-version.cmake

all: $(SHARED) $(FILLED)

target/staticlib/libthymebarrel.a:
	tools/prove-library

$(SHARED): $(STATIC) packaging/thymebarrel.map include/thymebarrel.h
	mkdir -p $(BUILD)
	$(CC) -shared -Wl,-soname,$(SONAME) -Wl,--version-script=packaging/thymebarrel.map -Wl,-z,defs -Wl,-z,now -Wl,-Bsymbolic -Wl,--gc-sections $(LDFLAGS) \
	  -Wl,--whole-archive $(STATIC) -Wl,--no-whole-archive -o $@

# PREFIX and the like may differ from one call to the next, so these are filled in anew each time.
$(FILLED): $(BUILD)/%: packaging/%.in force
	mkdir -p $(BUILD)
	sed -e 's|@PREFIX@|$(PREFIX)|' -e 's|@LIBDIR@|$(LIBDIR)|' -e 's|@INCLUDEDIR@|$(INCLUDEDIR)|' -e 's|@VERSION@|$(VERSION)|' -e 's|@SERIES@|$(SERIES)|' $< > $@

install: all
	$(INSTALL) -d $(DESTDIR)$(INCLUDEDIR) $(DESTDIR)$(LIBDIR)/pkgconfig $(DESTDIR)$(CMAKE)
	$(INSTALL) -m 644 $(HEADERS) $(DESTDIR)$(INCLUDEDIR)
	$(INSTALL) -m 644 $(STATIC) $(DESTDIR)$(LIBDIR)
	$(INSTALL) -m 755 $(SHARED) $(DESTDIR)$(LIBDIR)
	ln -sf libthymebarrel.so.$(VERSION) $(DESTDIR)$(LIBDIR)/$(SONAME)
	ln -sf $(SONAME) $(DESTDIR)$(LIBDIR)/libthymebarrel.so
	$(INSTALL) -m 644 $(BUILD)/thymebarrel.pc $(DESTDIR)$(LIBDIR)/pkgconfig
	$(INSTALL) -m 644 packaging/thymebarrel-config.cmake $(BUILD)/thymebarrel-config-version.cmake $(DESTDIR)$(CMAKE)

uninstall:
	rm -f $(addprefix $(DESTDIR)$(INCLUDEDIR)/,$(notdir $(HEADERS)))
	rm -f $(DESTDIR)$(LIBDIR)/libthymebarrel.a $(DESTDIR)$(LIBDIR)/libthymebarrel.so $(DESTDIR)$(LIBDIR)/$(SONAME) $(DESTDIR)$(LIBDIR)/libthymebarrel.so.$(VERSION)
	rm -f $(DESTDIR)$(LIBDIR)/pkgconfig/thymebarrel.pc
	rm -rf $(DESTDIR)$(CMAKE)

force:
.PHONY: all install uninstall force
