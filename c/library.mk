# The library of its assembly: static, shared, and installed. c/Makefile includes it, and in a release of assembly it is
# the Makefile. It takes a C compiler (CC) for x86-64 or aarch64 Linux, with binutils.
#
#   make                                          builds out/libpolyover.a and out/libpolyover.so
#   make install PREFIX=/usr/local [DESTDIR=..]   installs them, headers, a manual, and files of pkg-config and CMake;
#                                                 with PROGRAM=FILE the program in that file and its manual too
#   make uninstall                                with the same words removes what that installs
#   make check                                    runs the example
#   make clean                                    removes what is built

PREFIX ?= /usr/local
LIBDIR ?= $(PREFIX)/lib
INCLUDEDIR ?= $(PREFIX)/include
BINDIR ?= $(PREFIX)/bin
MANDIR ?= $(PREFIX)/share/man
DESTDIR ?=
HERE := $(patsubst %/,%,$(dir $(lastword $(MAKEFILE_LIST))))
# (a release has all in one folder)
HEADER := $(firstword $(wildcard $(HERE)/../include/polyover.h) $(HERE)/polyover.h)
HEADER_OF_CPP := $(HEADER:.h=.hpp)
MANUALS := $(firstword $(wildcard $(HERE)/../docs/man) $(HERE))
# the processor that the compiler makes code for: x86_64 or aarch64
PROCESSOR := $(firstword $(subst -, ,$(shell $(CC) -dumpmachine)))
OUT ?= out
ASSEMBLY ?= $(HERE)/$(PROCESSOR)/polyover.s
OBJCOPY ?= $(shell $(CC) -print-prog-name=objcopy)
ARCHIVER ?= $(shell $(CC) -print-prog-name=ar)

# The version stands in the header alone; the first number of it is that of the shared library, and so is the second one
# while the first is 0.
said = $(shell sed -n 's/^\#define POLYOVER_VERSION_$(1) //p' $(HEADER))
MAJOR := $(call said,MAJOR)
VERSION := $(MAJOR).$(call said,MINOR).$(call said,PATCH)
SHARED := libpolyover.so.$(VERSION)
SONAME := libpolyover.so.$(MAJOR)$(if $(filter 0,$(MAJOR)),.$(call said,MINOR))
IN_C := $(patsubst $(HERE)/%.c,$(OUT)/%.o,$(HERE)/heap.c $(wildcard $(HERE)/library*.c))

.DELETE_ON_ERROR:
.PHONY: library install uninstall check clean

library: $(OUT)/libpolyover.a $(OUT)/libpolyover.so

$(OUT)/code.o: $(ASSEMBLY)
	mkdir -p $(OUT)
	$(CC) -c $< -o $@

# (what takes memory, and the part of the library that is C)
$(OUT)/%.o: $(HERE)/%.c $(HEADER) $(wildcard $(HERE)/library_of_*.h)
	mkdir -p $(OUT)
	$(CC) -std=c11 -O2 -fPIC -I$(dir $(HEADER)) -c $< -o $@

# (the names that the header declares, which are all that the library shows)
$(OUT)/names.txt: $(HEADER)
	mkdir -p $(OUT)
	sed -n 's/^[a-z][a-z_0-9 ]*[ *]\(polyover_[a-z_0-9]*\)(.*/\1/p' $< > $@

$(OUT)/libpolyover.o: $(OUT)/code.o $(IN_C) $(OUT)/names.txt
	$(CC) -r -nostdlib $(OUT)/code.o $(IN_C) -o $@
	$(OBJCOPY) --keep-global-symbols=$(OUT)/names.txt $@

$(OUT)/libpolyover.a: $(OUT)/libpolyover.o
	rm -f $@
	$(ARCHIVER) rcsD $@ $<

$(OUT)/$(SHARED): $(OUT)/libpolyover.o
	$(CC) -shared -Wl,-soname,$(SONAME) -Wl,-z,defs $< -o $@

$(OUT)/libpolyover.so: $(OUT)/$(SHARED)
	ln -sf $(SHARED) $(OUT)/$(SONAME)
	ln -sf $(SONAME) $@

# Files of pkg-config and of CMake find the rest from where they stand, so an installed tree can be moved.
filled = sed -e 's|@VERSION@|$(VERSION)|g' -e 's|@PREFIX@|$(shell realpath -m --relative-to=$(1) $(PREFIX))|g' \
  -e 's|@LIBDIR@|$(patsubst $(PREFIX)/%,%,$(LIBDIR))|g' -e 's|@INCLUDEDIR@|$(patsubst $(PREFIX)/%,%,$(INCLUDEDIR))|g' \
  -e 's|@SHARED@|$(SHARED)|g' -e 's|@SONAME@|$(SONAME)|g'

install: library
	install -d $(DESTDIR)$(INCLUDEDIR) $(DESTDIR)$(LIBDIR)/pkgconfig $(DESTDIR)$(LIBDIR)/cmake/polyover \
	  $(DESTDIR)$(MANDIR)/man3
	install -m 644 $(HEADER) $(HEADER_OF_CPP) $(DESTDIR)$(INCLUDEDIR)
	install -m 644 $(OUT)/libpolyover.a $(DESTDIR)$(LIBDIR)
	install -m 755 $(OUT)/$(SHARED) $(DESTDIR)$(LIBDIR)
	ln -sf $(SHARED) $(DESTDIR)$(LIBDIR)/$(SONAME)
	ln -sf $(SONAME) $(DESTDIR)$(LIBDIR)/libpolyover.so
	$(call filled,$(LIBDIR)/pkgconfig) $(HERE)/polyover.pc.in > $(DESTDIR)$(LIBDIR)/pkgconfig/polyover.pc
	for file in polyoverConfig polyoverConfigVersion; do $(call filled,$(LIBDIR)/cmake/polyover) $(HERE)/$$file.cmake.in \
	  > $(DESTDIR)$(LIBDIR)/cmake/polyover/$$file.cmake || exit 1; done
	install -m 644 $(MANUALS)/polyover.3 $(DESTDIR)$(MANDIR)/man3
	$(if $(PROGRAM),install -d $(DESTDIR)$(BINDIR) $(DESTDIR)$(MANDIR)/man1)
	$(if $(PROGRAM),install -m 755 $(PROGRAM) $(DESTDIR)$(BINDIR)/polyover)
	$(if $(PROGRAM),install -m 644 $(MANUALS)/polyover.1 $(DESTDIR)$(MANDIR)/man1)

uninstall:
	rm -f $(DESTDIR)$(INCLUDEDIR)/polyover.h $(DESTDIR)$(INCLUDEDIR)/polyover.hpp $(DESTDIR)$(LIBDIR)/libpolyover.a \
	  $(DESTDIR)$(LIBDIR)/libpolyover.so $(DESTDIR)$(LIBDIR)/$(SONAME) $(DESTDIR)$(LIBDIR)/$(SHARED) \
	  $(DESTDIR)$(LIBDIR)/pkgconfig/polyover.pc $(DESTDIR)$(MANDIR)/man3/polyover.3
	rm -rf $(DESTDIR)$(LIBDIR)/cmake/polyover
	$(if $(PROGRAM),rm -f $(DESTDIR)$(BINDIR)/polyover $(DESTDIR)$(MANDIR)/man1/polyover.1)

$(OUT)/example: $(HERE)/example.c $(HEADER) $(OUT)/libpolyover.a
	$(CC) -std=c11 -O2 -I$(dir $(HEADER)) $< $(OUT)/libpolyover.a -o $@

check: $(OUT)/example
	$(RUN) $(OUT)/example

clean:
	rm -rf $(OUT)
