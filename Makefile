# SPDX-License-Identifier: Apache-2.0
#
#   make                    builds the C library, the programs in bin/, the module that splits lines for the command hll, and the
#                           extensions for SQLite and PostgreSQL where their headers are here. It needs a C compiler, and takes seconds
#   make install            installs the C library, the programs and the extension for SQLite into PREFIX (/usr/local), below
#                           DESTDIR if that is set
#   make install-postgresql installs the PostgreSQL extension where the server of PG_CONFIG (pg_config) looks for it
#   make uninstall, uninstall-postgresql
#   make prove              proves the library and the programs, and compares what comes out with prebuilt/. It needs the command
#                           rt, and takes 10 to 25 minutes on four processors
#   make texts              makes the texts for Windows, macOS and RISC-V, which a checkout has not (prebuilt/README.md). It needs the
#                           command rt, and takes a minute or two after ./check proofs or make prove, and else as long as make prove
#   make dist               makes packages for this release of Debian in dist/ (docs/INSTALL.md)
#   make release            makes all files of a release in dist/, of a commit with a tag, as root (docs/RELEASING.md)
#   make html               makes these pages as a site in dist/html. It needs pandoc
#   make page               makes dist/hll.html, a page that opens images in a browser. It needs Python
#   make check              tests everything: ./check
#   make clean              removes what the others built
#
# All is built from prebuilt/, the compiled text of what was proved (prebuilt/README.md). Where a proved source has changed
# since, make says so and proves first.
# The Python package is installed by pip: pip install ./bindings/python

PG_CONFIG ?= pg_config
CC ?= cc

MACHINE := $(shell $(CC) -dumpmachine)
ifeq ($(shell $(CC) -include sqlite3ext.h -fsyntax-only -x c /dev/null 2>/dev/null && echo yes),yes)
SQLITE := $(if $(findstring linux,$(MACHINE)),bindings/sqlite)
endif
ifneq ($(wildcard $(addsuffix /postgres.h,$(shell $(PG_CONFIG) --includedir-server 2>/dev/null))),)
POSTGRESQL := bindings/postgresql
endif
# The programs are for Linux on x86-64 and 64-bit ARM, and the extension for SQLite is for Linux.
PROGRAMS := $(if $(and $(findstring linux,$(MACHINE)),$(filter x86_64-% aarch64-%,$(MACHINE))),programs)
# The module that splits lines is for Linux. pip builds it where it installs the package.
PYTHON := $(if $(findstring linux,$(MACHINE)),bindings/python)
# In this order, so that the last lines of `make install` are those of the C library: what is left to do.
PARTS := $(PROGRAMS) $(SQLITE) bindings/c
# Asked once for all parts, unless a source has changed: then the first part proves, and the next one asks again.
STATE := $(filter fresh,$(shell scripts/prebuilt.sh state))
FOUND := $(STATE:%=STATE=%)

.PHONY: all install uninstall install-postgresql uninstall-postgresql prove texts dist release html page check clean

all clean:
	set -e; for part in $(PARTS) $(PYTHON) $(POSTGRESQL); do $(MAKE) -C $$part $@ $(FOUND); done

install uninstall:
	set -e; for part in $(PARTS); do $(MAKE) -C $$part $@ $(FOUND); done

install-postgresql:
	$(MAKE) -C bindings/postgresql install $(FOUND)

uninstall-postgresql:
	$(MAKE) -C bindings/postgresql uninstall $(FOUND)

prove:
	python3 scripts/prebuilt.py --prove

texts:
	python3 scripts/prebuilt.py --texts

dist:
	python3 packaging/dist.py

release:
	python3 packaging/dist.py --release

html:
	python3 scripts/make_html.py

page:
	python3 bindings/javascript/page/build.py dist/hll.html

check:
	./check
