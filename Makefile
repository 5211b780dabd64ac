# The Potterbeam RMM-EL3 kit as a package.
#
#   make              build/lib: the four archives; build/bin: the command potterbeam. With the Rattle toolchain (rt) on the path the archives are
#                     proved and built from source; without it they are those of a release, in prebuilt/
#   make check        runs the tests from C, the worked examples and the tests of the command on them
#   make install      headers, archives, pkg-config files, the command, its manual page, documents (PREFIX, DESTDIR)
#   make uninstall    removes what install wrote
#   make clean        removes build/
#
# PREFIX   where to install, /usr/local unless given; BINDIR, LIBDIR, INCLUDEDIR, MANDIR, DOCDIR and PKGCONFIGDIR are below it unless given
# DESTDIR  put before each of these, for packagers
# RT       the toolchain's command, rt unless given; RT= takes the archives of prebuilt/ even if it is there
# CC, CFLAGS  for the command
PREFIX ?= /usr/local
BINDIR ?= $(PREFIX)/bin
LIBDIR ?= $(PREFIX)/lib
INCLUDEDIR ?= $(PREFIX)/include
MANDIR ?= $(PREFIX)/share/man
DOCDIR ?= $(PREFIX)/share/doc/potterbeam
PKGCONFIGDIR ?= $(LIBDIR)/pkgconfig
INSTALL ?= install
CC = gcc
CFLAGS ?= -O2
RT ?= $(shell command -v rt)

VERSION := $(shell tools/version)
LIBRARIES := potterbeam potterbeam_pages potterbeam_tpm potterbeam_swtpm
ARCHIVES := $(LIBRARIES:%=build/lib/lib%.a)
CONFIGS := $(LIBRARIES:%=build/pkgconfig/%.pc)
# Archives for other machines are installed if they are there: from a release, or from tools/aarch64 and tools/power.
MACHINES := aarch64 powerpc64le powerpc64
HEADERS := $(wildcard include/*.h)
COMMAND := $(wildcard command/*.c)
DOCUMENTS := $(wildcard docs/*.md) README.md CHANGELOG.md LICENSE

DESCRIPTION_potterbeam := RMM-EL3 interface: EL3 and monitor sides, proved
DESCRIPTION_potterbeam_pages := Manifest pages: diagnosis, packing and mending, proved
DESCRIPTION_potterbeam_tpm := H_TPM_COMM, proved
DESCRIPTION_potterbeam_swtpm := State blobs of swtpm, proved

# The archive of a library, or where there is neither rt nor a release what to do.
ifneq ($(RT),)
archive = RT=$(RT) tools/archives $(1) && cp target/staticlib/lib$(1).a $(2)
else
archive = { [ -f prebuilt/x86_64/lib$(1).a ] || { echo "potterbeam: no archive: unpack a release, which has prebuilt/, or put the Rattle toolchain (rt) on the path" >&2; exit 1; }; } && \
	cp prebuilt/x86_64/lib$(1).a $(2)
endif

.PHONY: all check install uninstall clean
all: $(ARCHIVES) $(CONFIGS) $(if $(COMMAND),build/bin/potterbeam)

# One after the other: two rt in one tree write over each other's notes.
.NOTPARALLEL:
.PHONY: archives
build/lib/lib%.a: archives
	@mkdir -p build/lib
	@$(call archive,$*,$@.new)
	@if cmp -s $@.new $@; then rm $@.new; else mv $@.new $@; fi

build/pkgconfig/%.pc: Makefile include/potterbeam_common.h
	@mkdir -p build/pkgconfig
	@printf '%s\n' 'prefix=$(PREFIX)' 'libdir=$(LIBDIR)' 'includedir=$(INCLUDEDIR)' '' 'Name: $*' 'Description: $(DESCRIPTION_$*)' \
		'Version: $(VERSION)' 'Cflags: -I$${includedir}' 'Libs: -L$${libdir} -l$*' > $@

WARNINGS := -std=c11 -Wall -Wextra -Wpedantic -Wconversion -Werror
build/bin/potterbeam: $(COMMAND) $(wildcard command/*.h) $(HEADERS) build/lib/libpotterbeam.a build/lib/libpotterbeam_pages.a
	@mkdir -p build/bin
	$(CC) $(WARNINGS) $(CFLAGS) -Iinclude $(COMMAND) build/lib/libpotterbeam.a build/lib/libpotterbeam_pages.a -o $@

check: all
	POTTERBEAM_KIT=build/lib/libpotterbeam.a POTTERBEAM_PAGES=build/lib/libpotterbeam_pages.a POTTERBEAM_TPM=build/lib/libpotterbeam_tpm.a \
		POTTERBEAM_SWTPM=build/lib/libpotterbeam_swtpm.a tests/c/run
	$(if $(wildcard tests/command/run),POTTERBEAM=build/bin/potterbeam tests/command/run)

# pkg-config files hold the folders of install, which may differ from those of make.
install: all
	@rm -rf build/pkgconfig && $(MAKE) --no-print-directory $(CONFIGS)
	$(INSTALL) -d $(DESTDIR)$(INCLUDEDIR) $(DESTDIR)$(LIBDIR) $(DESTDIR)$(PKGCONFIGDIR) $(DESTDIR)$(DOCDIR) $(DESTDIR)$(DOCDIR)/changes \
		$(DESTDIR)$(DOCDIR)/examples
	$(INSTALL) -m 644 $(HEADERS) $(DESTDIR)$(INCLUDEDIR)
	$(INSTALL) -m 644 $(ARCHIVES) $(DESTDIR)$(LIBDIR)
	$(INSTALL) -m 644 $(CONFIGS) $(DESTDIR)$(PKGCONFIGDIR)
	$(INSTALL) -m 644 $(DOCUMENTS) $(DESTDIR)$(DOCDIR)
	$(INSTALL) -m 644 $(wildcard docs/changes/*) $(DESTDIR)$(DOCDIR)/changes
	$(INSTALL) -m 644 $(wildcard examples/c/*.c) $(DESTDIR)$(DOCDIR)/examples
	for machine in $(MACHINES); do \
		for folder in prebuilt/$$machine target/$$machine; do \
			for archive in $$folder/lib*.a; do \
				[ -f "$$archive" ] || continue; \
				$(INSTALL) -d $(DESTDIR)$(LIBDIR)/potterbeam/$$machine && \
				$(INSTALL) -m 644 "$$archive" $(DESTDIR)$(LIBDIR)/potterbeam/$$machine || exit 1; \
			done; \
		done; \
	done
ifneq ($(COMMAND),)
	$(INSTALL) -d $(DESTDIR)$(BINDIR) $(DESTDIR)$(MANDIR)/man1
	$(INSTALL) -m 755 build/bin/potterbeam $(DESTDIR)$(BINDIR)
	$(INSTALL) -m 644 command/potterbeam.1 $(DESTDIR)$(MANDIR)/man1
endif

uninstall:
	rm -f $(patsubst include/%,$(DESTDIR)$(INCLUDEDIR)/%,$(HEADERS)) $(patsubst build/lib/%,$(DESTDIR)$(LIBDIR)/%,$(ARCHIVES)) \
		$(patsubst build/pkgconfig/%,$(DESTDIR)$(PKGCONFIGDIR)/%,$(CONFIGS)) $(DESTDIR)$(BINDIR)/potterbeam $(DESTDIR)$(MANDIR)/man1/potterbeam.1
	rm -rf $(DESTDIR)$(LIBDIR)/potterbeam $(DESTDIR)$(DOCDIR)

clean:
	rm -rf build
