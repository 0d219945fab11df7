# make                     proves and builds the library and the program levels (a first run takes some minutes), and builds the
#                          program mouldgrey if there is a cargo
# make tool                builds the program mouldgrey alone, over the library that is built
# make install PREFIX=/usr/local    installs header, libraries, mouldgrey.pc, levels and, if it is built, mouldgrey
# make test                runs every test
PREFIX = /usr/local
DESTDIR =
VERSION = 0.1.0

all:
	./build
	@if command -v cargo >/dev/null; then $(MAKE) --no-print-directory tool; else \
		echo "make: there is no cargo, so the program mouldgrey is not built" >&2; fi

tool:
	cd bindings/rust && cargo build --offline --locked --quiet --release --target-dir target --bin mouldgrey
	install -d target/bin
	install -m 755 bindings/rust/target/release/mouldgrey target/bin

install:
	@test -f target/lib/libmouldgrey.a || { echo "make: run make first" >&2; exit 1; }
	install -d $(DESTDIR)$(PREFIX)/include $(DESTDIR)$(PREFIX)/lib/pkgconfig $(DESTDIR)$(PREFIX)/bin
	install -m 644 include/mouldgrey.h $(DESTDIR)$(PREFIX)/include
	install -m 644 target/lib/libmouldgrey.a $(DESTDIR)$(PREFIX)/lib
	install -m 755 target/lib/libmouldgrey.so $(DESTDIR)$(PREFIX)/lib/libmouldgrey.so.0
	ln -sf libmouldgrey.so.0 $(DESTDIR)$(PREFIX)/lib/libmouldgrey.so
	sed -e 's|@PREFIX@|$(PREFIX)|' -e 's|@VERSION@|$(VERSION)|' bindings/c/mouldgrey.pc.in >$(DESTDIR)$(PREFIX)/lib/pkgconfig/mouldgrey.pc
	install -m 755 target/bin/levels $(DESTDIR)$(PREFIX)/bin
	@if test -f target/bin/mouldgrey; then install -m 755 target/bin/mouldgrey $(DESTDIR)$(PREFIX)/bin; else \
		echo "make: the program mouldgrey is not built, so it is not installed" >&2; fi

test:
	./test

.PHONY: all tool install test
