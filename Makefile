# hankboulder for C.
#
#   make                              prove the library and write its archive, target/staticlib/libhankboulder.a: needs the Rattle kit, and
#                                     takes half an hour or so the first time
#   make judge                        prove the program and write it, target/bin/judge
#   make install PREFIX=/usr/local    install the archive, the header and a file for pkg-config (DESTDIR is respected)
#   make uninstall PREFIX=/usr/local  remove them
#   make test-install                 install into a temporary folder, and build and run examples/firmware.c from there
#   make test                         everything executed, some minutes after the proofs: tests/run
#   make clean                        remove all that was made, the proved crates too
#   make help                         print this
#
# An archive that was made before is used with HANKBOULDER_LIB_DIR=FOLDER. The version is the header's.

PREFIX ?= /usr/local
LIBDIR ?= $(PREFIX)/lib
INCLUDEDIR ?= $(PREFIX)/include
PKGCONFIGDIR ?= $(LIBDIR)/pkgconfig
INSTALL ?= install

header = include/hankboulder.h
version := $(shell sed -n 's/^\#define HB_VERSION_[MP][A-Z]* \([0-9]*\)$$/\1/p' $(header) | paste -s -d .)
made = target/staticlib/libhankboulder.a
sources := crates.txt $(shell find crates -name out -prune -o \( -name '*.rt' -o -name '*.antt' \) -print)

# An archive that is named has to be there. It is no prerequisite, for its folder may have a space in its name.
ifdef HANKBOULDER_LIB_DIR
archive = $(HANKBOULDER_LIB_DIR)/libhankboulder.a
else
archive = $(made)
needed = $(made)
endif

all: $(needed)
	@test -f "$$hb_archive" || { echo "make: the archive $$hb_archive is missing: $$hb_hint" >&2; exit 1; }

$(made): $(sources)
	@command -v rt >/dev/null || { echo "make: the archive $@ is missing, or older than the crates: $$hb_hint" >&2; exit 1; }
	@bash -c '. tests/script.sh && prove hankboulder' make

judge: target/bin/judge

target/bin/judge: $(sources)
	@bash -c '. tests/script.sh && prove judge' make

# Names are handed to the shell by its environment, so that they may have spaces and quotes in them.
all install $(made): export hb_hint = make writes it with rt of the Rattle kit (rt lib in crates/hankboulder), \
    and HANKBOULDER_LIB_DIR=FOLDER names one made before
all install: export hb_archive = $(archive)
install: export hb_prefix = $(PREFIX)
install: export hb_libdir_named = $(LIBDIR)
install: export hb_includedir_named = $(INCLUDEDIR)
install uninstall: export hb_libdir = $(DESTDIR)$(LIBDIR)
install uninstall: export hb_includedir = $(DESTDIR)$(INCLUDEDIR)
install uninstall: export hb_pkgconfigdir = $(DESTDIR)$(PKGCONFIGDIR)

# below_prefix FOLDER: a folder as the file for pkg-config names it: below ${prefix} where it is
install: all $(header)
	$(INSTALL) -d "$$hb_libdir" "$$hb_includedir" "$$hb_pkgconfigdir"
	$(INSTALL) -m 644 "$$hb_archive" "$$hb_libdir/libhankboulder.a"
	$(INSTALL) -m 644 $(header) "$$hb_includedir/hankboulder.h"
	below_prefix() { case $$1 in "$$hb_prefix"/*) printf '$${prefix}%s' "$${1#"$$hb_prefix"}" ;; *) printf %s "$$1" ;; esac; } && \
	printf '%s\n' \
	    "prefix=$$hb_prefix" \
	    "includedir=$$(below_prefix "$$hb_includedir_named")" \
	    "libdir=$$(below_prefix "$$hb_libdir_named")" \
	    '' \
	    'Name: hankboulder' \
	    'Description: the matrix judge of the range display' \
	    'Version: $(version)' \
	    'Cflags: -I"$${includedir}"' \
	    'Libs: -L"$${libdir}" -lhankboulder' >"$$hb_pkgconfigdir/hankboulder.pc"
	chmod 644 "$$hb_pkgconfigdir/hankboulder.pc"

uninstall:
	rm -f "$$hb_libdir/libhankboulder.a" "$$hb_includedir/hankboulder.h" "$$hb_pkgconfigdir/hankboulder.pc"

test-install: all
	bash tests/c/installed

test:
	bash tests/run

clean:
	rm -rf target reference/target tests/compare/target tests/program/target crates/*/out

help:
	@sed -n -e '/^#/!q' -e 's/^# \{0,1\}//p' Makefile

.PHONY: all judge install uninstall test-install test clean help
