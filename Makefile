# Builds and installs the proved library and the program. `make` alone says how.
PREFIX = /usr/local
BINDIR = $(PREFIX)/bin
LIBDIR = $(PREFIX)/lib
INCLUDEDIR = $(PREFIX)/include
DOCDIR = $(PREFIX)/share/doc/hizgrael
DESTDIR =
# Through the environment, so that a folder's name may have spaces: in a recipe it is "$$LIBDIR".
export PREFIX BINDIR LIBDIR INCLUDEDIR DOCDIR DESTDIR VERSION

HEADER = include/hizgrael.h
LIBRARY = target/staticlib/libhizgrael.a
PROVED = target/staticlib/libengine.a target/staticlib/libbuilder.a
PROGRAM = cli/target/release/hizgrael
DOCUMENTS = docs/SHEETS.md docs/PROGRAM.md docs/BOARDS.md CHANGELOG.md examples/template.txt
VERSION := $(shell sed -n 's/^.define HIZGRAEL_VERSION "\(.*\)"$$/\1/p' $(HEADER))

PROVED_FROM := crates.txt $(shell find crates -name out -prune -o -type f \( -name '*.rt' -o -name '*.antt' \) -print)
PROGRAM_FROM := $(shell find cli tools simulator linked/wrapper -name target -prune -o -type f -print 2> /dev/null)

help:
	@echo "hizgrael $$VERSION"
	@echo "  make library          $(LIBRARY), proved first: some minutes, with Rattle's command rt"
	@echo "  make program          $(PROGRAM), with cargo, linked to the library"
	@echo "  make install          library, header, pkg-config file, program and documents below PREFIX (/usr/local)"
	@echo "  make install-library  the same without the program; needs no cargo"
	@echo "  make uninstall        removes what install put there; give it the same folders"
	@echo "Folders: PREFIX, BINDIR, LIBDIR, INCLUDEDIR, DOCDIR; DESTDIR goes in front of each and into no file."
	@echo "./example runs a sheet, ./test is every test."

library: $(LIBRARY)

program: $(PROGRAM)

# The objects as rt wrote them: what was proved and compiled is what is installed.
$(LIBRARY): $(PROVED) scripts/entries
	@mkdir -p target/objects
	cd target/objects && ar x ../staticlib/libengine.a && ar x ../staticlib/libbuilder.a
	rm -f $@
	cd target/objects && ar rcsD ../staticlib/libhizgrael.a engine_c.o builder_c.o
	@scripts/entries $@ || { rm -f $@; exit 1; }

# By file times this may be asked for in vain; scripts/prove looks at what the files hold, and proves nothing twice.
$(PROVED) &: $(PROVED_FROM)
	@command -v rt > /dev/null || { echo "make: Rattle's command rt is not here, and without it the library cannot be proved and made" >&2; exit 1; }
	@scripts/prove
	@touch $(PROVED)

$(PROGRAM): $(PROVED) $(HEADER) $(PROGRAM_FROM)
	@command -v cargo > /dev/null || { echo "make: cargo is not here, and without it the program cannot be built" >&2; exit 1; }
	cargo build --offline --release --manifest-path cli/Cargo.toml
	@touch $@

install: folders $(LIBRARY) $(PROGRAM) install-library
	install -d "$$DESTDIR$$BINDIR"
	install -m 755 $(PROGRAM) "$$DESTDIR$$BINDIR/hizgrael"

install-library: folders $(LIBRARY)
	install -d "$$DESTDIR$$LIBDIR/pkgconfig" "$$DESTDIR$$INCLUDEDIR" "$$DESTDIR$$DOCDIR"
	install -m 644 $(LIBRARY) "$$DESTDIR$$LIBDIR/libhizgrael.a"
	install -m 644 $(HEADER) "$$DESTDIR$$INCLUDEDIR/hizgrael.h"
	install -m 644 $(DOCUMENTS) "$$DESTDIR$$DOCDIR"
	scripts/pkg-config-file > "$$DESTDIR$$LIBDIR/pkgconfig/hizgrael.pc"
	chmod 644 "$$DESTDIR$$LIBDIR/pkgconfig/hizgrael.pc"

uninstall: folders
	rm -f "$$DESTDIR$$BINDIR/hizgrael" "$$DESTDIR$$LIBDIR/libhizgrael.a" "$$DESTDIR$$INCLUDEDIR/hizgrael.h"
	rm -f "$$DESTDIR$$LIBDIR/pkgconfig/hizgrael.pc"
	for name in $(notdir $(DOCUMENTS)); do rm -f "$$DESTDIR$$DOCDIR/$$name"; done
	rmdir "$$DESTDIR$$DOCDIR" 2> /dev/null || true

# Before anything is built.
folders:
	@scripts/pkg-config-file > /dev/null

.PHONY: help library program install install-library uninstall folders
.DELETE_ON_ERROR:
