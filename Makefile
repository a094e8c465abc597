# Installs the library for C: header, archive, and what pkg-config and CMake need to find them.
#
#   make install PREFIX=/usr/local [DESTDIR=..]      proves and makes the archive first where needed
#   make uninstall PREFIX=/usr/local [DESTDIR=..]
PREFIX ?= /usr/local
INCLUDEDIR ?= $(PREFIX)/include
LIBDIR ?= $(PREFIX)/lib
DOCDIR ?= $(PREFIX)/share/doc/selector
INSTALL ?= install

archive = target/staticlib/libselector.a
# The version is that of the Rust crate.
version = $(shell sed -n 's/^version = "\(.*\)"/\1/p' rust/Cargo.toml)
filled = sed -e 's|@prefix@|$(PREFIX)|' -e 's|@includedir@|$(INCLUDEDIR)|' -e 's|@libdir@|$(LIBDIR)|' \
	-e 's|@version@|$(version)|'
cmakedir = $(DESTDIR)$(LIBDIR)/cmake/selector
pkgconfigdir = $(DESTDIR)$(LIBDIR)/pkgconfig

.PHONY: all install uninstall
all:
	compare/library

install: all
	$(INSTALL) -d '$(DESTDIR)$(INCLUDEDIR)' '$(pkgconfigdir)' '$(cmakedir)' '$(DESTDIR)$(DOCDIR)'
	$(INSTALL) -m 644 include/selector.h '$(DESTDIR)$(INCLUDEDIR)'
	$(INSTALL) -m 644 $(archive) '$(DESTDIR)$(LIBDIR)'
	$(filled) package/selector.pc.in > '$(pkgconfigdir)/selector.pc'
	$(filled) package/selector-config.cmake.in > '$(cmakedir)/selector-config.cmake'
	$(filled) package/selector-config-version.cmake.in > '$(cmakedir)/selector-config-version.cmake'
	$(INSTALL) -m 644 LICENSE NOTICE docs/FORMATS.md '$(DESTDIR)$(DOCDIR)'

uninstall:
	rm -f '$(DESTDIR)$(INCLUDEDIR)/selector.h' '$(DESTDIR)$(LIBDIR)/libselector.a' '$(pkgconfigdir)/selector.pc'
	rm -rf '$(cmakedir)' '$(DESTDIR)$(DOCDIR)'
