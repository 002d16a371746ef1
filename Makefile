# Builds, installs and packs the C library, the program tiffpage and the package for Python.
#
#   make                        builds the C library into out/c, by the Rattle kit, which proves it
#                               first if it isn't proved
#   make program                builds the program into out/c, in the same way
#   make install PREFIX=/usr    installs what is in out/c; it needs no kit. DESTDIR is put before
#                               each path
#   make uninstall PREFIX=/usr  takes that out again
#   make dist [GATE=LOG]        builds both and packs them into out/dist, for machines without the
#                               kit. LOG is the output of a run of ./test: out/dist/PROOF quotes its
#                               result
#
# With OBJECTS=FOLDER, the out/c of another build, each of these copies from there what the kit
# builds, and needs no kit; it works in out/given then, in place of out/c.
#
# Installed are the static and the shared library, the header, files for pkg-config and for CMake, a
# page of the manual and examples; and the program with its page, if it is in out/c.

PREFIX ?= /usr/local
BINDIR ?= $(PREFIX)/bin
LIBDIR ?= $(PREFIX)/lib
INCLUDEDIR ?= $(PREFIX)/include
MANDIR ?= $(PREFIX)/share/man
DOCDIR ?= $(PREFIX)/share/doc/mangohatch_tiff
CC ?= cc
AR ?= ar
STRIP ?= strip

header := crates/tiff_c/include/mangohatch_tiff.h
# the version of the calls for C, with which that of the packages begins
calls := $(shell sed -n 's/^\#define MANGOHATCH_TIFF_VERSION //p' $(header))
version := $(shell sed -n 's/^version = "\(.*\)"/\1/p' python/pyproject.toml)

out := $(if $(OBJECTS),out/given,out/c)
static := $(out)/libmangohatch_tiff.a
shared := $(out)/libmangohatch_tiff.so.$(calls)
program := $(out)/tiffpage
kit := $(out)/KIT
sources := crates.txt \
  $(shell find crates -name out -prune -o -name '*.rt' -print -o -name '*.antt' -print)

library: $(static) $(shared) $(kit) $(out)/mangohatch_tiff.h $(out)/mangohatch_tiff.3

program: $(program) $(out)/tiffpage.1

ifdef OBJECTS
$(static) $(program) $(kit): $(out)/%: $(OBJECTS)/% always
	mkdir -p $(out)
	cp $< $@

always:
else
need_kit = @command -v rt >/dev/null || { \
	echo "make: the Rattle kit, which proves and builds $(notdir $@), is missing:" \
	  "put its command rt on the PATH." >&2; \
	echo "make: The packages that make dist leaves in out/dist, on a machine with the kit," \
	  "need none." >&2; exit 1; }

crates/tiff_c/out/libtiff_c.a: $(sources)
	$(need_kit)
	cd crates/tiff_c && rt lib

# both archives in one, so that a program links one library
$(static): crates/tiff_c/out/libtiff_c.a
	mkdir -p $(out)
	rm -f $@
	of_kit=$$(dirname "$$(readlink -f "$$(command -v rt)")")/../c && \
	printf 'create $@\naddlib $<\naddlib %s/liblibc_c.a\nsave\nend\n' "$$of_kit" | $(AR) -M

# the launcher proves and builds the program if its sources have changed
$(program): $(sources)
	$(need_kit)
	mkdir -p $(out)
	./tiffpage --version
	$(STRIP) -o $@ crates/tiffpage/out/tiffpage

$(kit): $(static)
	rt version > $@
endif

# what the header doesn't name stays inside, and its names are left out
$(shared): $(static) packaging/exports.map
	$(CC) -shared -s -o $@ -Wl,-soname,$(notdir $@) -Wl,-z,now \
	  -Wl,--version-script,packaging/exports.map \
	  -Wl,--whole-archive $(static) -Wl,--no-whole-archive

$(out)/mangohatch_tiff.h: $(header)
	mkdir -p $(out)
	cp $< $@

$(out)/mangohatch_tiff.3: $(header) packaging/manual
	mkdir -p $(out)
	packaging/manual $< > $@

$(out)/tiffpage.1: $(program) packaging/manual
	packaging/manual $< > $@

# With RELOCATABLE=1 the installed tree may be moved: the file for pkg-config names its prefix from
# its own place, as that for CMake always does.
under_prefix = $(patsubst $(PREFIX)/%,$${prefix}/%,$(1))
to_include = $(shell realpath -ms --relative-to=$(cmake) $(INCLUDEDIR))
filled = sed -e 's|@prefix@|$(if $(RELOCATABLE),$${pcfiledir}/../..,$(PREFIX))|' \
	-e 's|@libdir@|$(call under_prefix,$(LIBDIR))|' \
	-e 's|@includedir@|$(call under_prefix,$(INCLUDEDIR))|' -e 's|@to_include@|$(to_include)|' \
	-e 's|@calls@|$(calls)|g' -e 's|@version@|$(version)|g'
cmake = $(LIBDIR)/cmake/mangohatch_tiff

install:
	@test -f $(static) || { echo "make install: there is no $(static): run make first," \
	  "where the Rattle kit is" >&2; exit 1; }
	mkdir -p $(DESTDIR)$(LIBDIR)/pkgconfig $(DESTDIR)$(cmake) $(DESTDIR)$(INCLUDEDIR) \
	  $(DESTDIR)$(MANDIR)/man3 $(DESTDIR)$(DOCDIR)/examples
	install -m 644 $(static) $(DESTDIR)$(LIBDIR)
	install -m 755 $(shared) $(DESTDIR)$(LIBDIR)
	ln -sf $(notdir $(shared)) $(DESTDIR)$(LIBDIR)/libmangohatch_tiff.so
	install -m 644 $(out)/mangohatch_tiff.h $(DESTDIR)$(INCLUDEDIR)
	install -m 644 $(out)/mangohatch_tiff.3 $(DESTDIR)$(MANDIR)/man3
	install -m 644 examples/c/*.c examples/c/CMakeLists.txt $(DESTDIR)$(DOCDIR)/examples
	$(filled) packaging/mangohatch_tiff.pc.in > $(DESTDIR)$(LIBDIR)/pkgconfig/mangohatch_tiff.pc
	for file in config config-version; do \
	  $(filled) packaging/mangohatch_tiff-$$file.cmake.in \
	    > $(DESTDIR)$(cmake)/mangohatch_tiff-$$file.cmake || exit 1; done
	if test -f $(out)/tiffpage.1; then \
	  mkdir -p $(DESTDIR)$(BINDIR) $(DESTDIR)$(MANDIR)/man1 && \
	  install -m 755 $(program) $(DESTDIR)$(BINDIR) && \
	  install -m 644 $(out)/tiffpage.1 $(DESTDIR)$(MANDIR)/man1; fi

uninstall:
	rm -f $(DESTDIR)$(LIBDIR)/libmangohatch_tiff.a $(DESTDIR)$(LIBDIR)/libmangohatch_tiff.so
	rm -f $(DESTDIR)$(LIBDIR)/$(notdir $(shared))
	rm -f $(DESTDIR)$(INCLUDEDIR)/mangohatch_tiff.h $(DESTDIR)$(MANDIR)/man3/mangohatch_tiff.3
	rm -f $(DESTDIR)$(LIBDIR)/pkgconfig/mangohatch_tiff.pc
	rm -rf $(DESTDIR)$(cmake) $(DESTDIR)$(DOCDIR)/examples
	! test -d $(DESTDIR)$(DOCDIR) || rmdir --ignore-fail-on-non-empty $(DESTDIR)$(DOCDIR)
	rm -f $(DESTDIR)$(BINDIR)/tiffpage $(DESTDIR)$(MANDIR)/man1/tiffpage.1

dist: library program
	rm -rf out/stage
	$(MAKE) install DESTDIR=out/stage/tarball PREFIX= RELOCATABLE=1
	$(MAKE) install DESTDIR=out/stage/debian PREFIX=/usr LIBDIR=/usr/lib/x86_64-linux-gnu \
	  DOCDIR=/usr/share/doc/libmangohatch-tiff-dev
	packaging/dist $(out) $(GATE)

.PHONY: always library program install uninstall dist
.DELETE_ON_ERROR:
