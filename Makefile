# The library for C.
#     make lib                       proves the crates and writes target/staticlib/libgarumbott.a (needs the Rattle toolchain)
#     make install PREFIX=/usr/local copies the archive, the header and the pkg-config file; DESTDIR is put before PREFIX
#     make uninstall PREFIX=/usr/local
PREFIX ?= /usr/local
DESTDIR ?=
ARCHIVE = target/staticlib/libgarumbott.a
VERSION = $(shell sed -n 's/^\#define GARUMBOTT_VERSION "\(.*\)"/\1/p' include/garumbott.h)
root = $(DESTDIR)$(PREFIX)

lib:
	tools/archive

# The archive is proved and built here only where there is none.
$(ARCHIVE):
	tools/archive

install: $(ARCHIVE)
	install -d '$(root)/lib/pkgconfig' '$(root)/include'
	install -m 644 $(ARCHIVE) '$(root)/lib/libgarumbott.a'
	install -m 644 include/garumbott.h '$(root)/include/garumbott.h'
	sed -e 's|@PREFIX@|$(PREFIX)|' -e 's|@VERSION@|$(VERSION)|' include/garumbott.pc.in >'$(root)/lib/pkgconfig/garumbott.pc'
	chmod 644 '$(root)/lib/pkgconfig/garumbott.pc'

uninstall:
	rm -f '$(root)/lib/libgarumbott.a' '$(root)/include/garumbott.h' '$(root)/lib/pkgconfig/garumbott.pc'

.PHONY: lib install uninstall
