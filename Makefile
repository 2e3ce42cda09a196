# Builds and installs the programs, the library for C, the extension of SQLite and the Python
# package (docs/INSTALL.md).
#   make            proves and builds all; the extension of SQLite where its headers are, and the
#                   Python package where setuptools, wheel and Python's headers are
#   make check      the full check
#   make install    installs them; DESTDIR goes before each folder
#   make uninstall  removes what `make install` put there with the same variables
#   make man        makes the manual pages anew, of what the programs print for --help
#   make release LOG=..  makes the files of a release (docs/RELEASE.md)

SHELL = /bin/bash
.SHELLFLAGS = -euo pipefail -c
PREFIX ?= /usr/local
prefix = $(PREFIX)
bindir = $(prefix)/bin
libdir = $(prefix)/lib
includedir = $(prefix)/include
datadir = $(prefix)/share
mandir = $(datadir)/man
bashdir = $(datadir)/bash-completion/completions
zshdir = $(datadir)/zsh/site-functions
fishdir = $(datadir)/fish/vendor_completions.d
SHORT_NAMES = yes  # each program by its short name, too: common words, so a system may do without

# The Python package goes where this Python looks below the prefix: the first that can build it.
PYTHON := $(or $(shell for it in python3 /usr/bin/python3; do \
  "$$it" -c 'import setuptools, wheel' 2> /dev/null && echo "$$it" && break; done),python3)
pythondir := $(shell command -v '$(PYTHON)' > /dev/null && $(PYTHON) -c "import site, sys; \
  below, all = '$(prefix)/lib/', [site.getusersitepackages(), *site.getsitepackages()]; \
  usual = below + 'python%d.%d/site-packages' % sys.version_info[:2]; \
  print(next((it for it in all if it.startswith(below)), usual))")

export CC CFLAGS LDFLAGS  # for the library: CC is the compiler with its options
PROGRAMS = bloom duplicates summaries
PAGES = $(PROGRAMS) $(patsubst %,summaries-%,build unite ask info compare)
HEADERS = $(patsubst %,fastbloom%,.h .hpp _blocked.hpp _blocked_shared.hpp _shared.hpp)
RELEASE := $(shell sed -n 's/^\#define FASTBLOOM_RELEASE "\(.*\)"$$/\1/p' include/fastbloom.h)
VERSION = $(firstword $(subst +, ,$(RELEASE)))
MAJOR = $(firstword $(subst ., ,$(VERSION)))
SHARED = libfastbloom_c.so
SONAME = $(SHARED).$(MAJOR)
DESCRIPTIONS = pkgconfig/fastbloom.pc cmake/fastbloom/fastbloom-config.cmake \
  cmake/fastbloom/fastbloom-config-version.cmake

BINARIES = $(foreach it,$(PROGRAMS),crates/$(it)/out/$(it))
PROVED = crates/fastbloom_c/out/libfastbloom_c.a
ARCHIVE = out/c/libfastbloom_c.a
EXTENSION = out/c/fastbloom_sqlite.so
HAS_SQLITE := $(shell $(CC) -include sqlite3ext.h -E -x c /dev/null > /dev/null 2>&1 && echo yes)
MODULE = python/src/fastbloom/_core.abi3.so
HAS_PYTHON := $(shell $(PYTHON) -c 'import os, setuptools, sysconfig, wheel; \
  print("yes" * os.path.exists(sysconfig.get_path("include") + "/Python.h"))' 2> /dev/null)
C_SOURCES = bin/build-c c $(wildcard c/*) include/fastbloom.symbols $(HEADERS:%=include/%)

# What is installed, beside the Python package.
SHORT = $(filter yes,$(SHORT_NAMES))
NAMES = $(PROGRAMS:%=fastbloom-%) $(if $(SHORT),$(PROGRAMS))
PAGE_NAMES = $(PAGES:%=fastbloom-%) $(if $(SHORT),$(PAGES))
LIBRARIES = libfastbloom_c.a $(SHARED) $(SONAME) $(SHARED).$(VERSION) $(DESCRIPTIONS) \
  $(notdir $(EXTENSION))
FILES = $(NAMES:%=$(bindir)/%) $(PAGE_NAMES:%=$(mandir)/man1/%.1) $(NAMES:%=$(bashdir)/%) \
  $(PROGRAMS:%=$(zshdir)/_fastbloom-%) $(NAMES:%=$(fishdir)/%.fish) \
  $(HEADERS:%=$(includedir)/%) $(LIBRARIES:%=$(libdir)/%)
FOLDERS = $(sort $(patsubst %/,%,$(dir $(FILES))))
MODULES = '$(DESTDIR)$(pythondir)'/fastbloom '$(DESTDIR)$(pythondir)'/fastbloom-*.dist-info
# A file by its short name, and the path from one folder to another.
short = $(if $(SHORT),ln -sf fastbloom-$(2) '$(DESTDIR)$(1)'/$(2);)
between = $(shell realpath -ms --relative-to='$(1)' '$(2)')
# The system's own headers have no option -I, so pkg-config has to see where they are.
OF_SYSTEM = $(if $(filter /usr/include,$(includedir)),\
  s|^libdir=.*|libdir=$(libdir)|; s|^includedir=.*|includedir=$(includedir)|)

.PHONY: all check install man names release uninstall
all: $(BINARIES) $(ARCHIVE) $(if $(HAS_SQLITE),$(EXTENSION)) $(if $(HAS_PYTHON),$(MODULE))

# dev/prove knows what is up to date, and writes nothing then.
$(BINARIES) $(PROVED): FORCE
	@dev/prove $(patsubst lib%.a,%,$(@F))
FORCE:

$(ARCHIVE): $(PROVED) $(C_SOURCES)
	bin/build-c
	touch $@

# It has the library in it, and exports nothing but its beginning.
$(EXTENSION): sqlite/fastbloom_sqlite.c $(ARCHIVE)
	$(CC) -std=c99 -O2 -Wall -Wextra $(CFLAGS) -fPIC -fvisibility=hidden -shared -Iout/c/include \
	  $(LDFLAGS) $^ -Wl,--exclude-libs,ALL,--gc-sections,-z,defs,-z,relro,-z,now -o $@

# So that the package can be used where it lies.
$(MODULE): python/src/core.c python/setup.py $(ARCHIVE)
	cd python && FASTBLOOM_LIB='$(CURDIR)/out/c' $(PYTHON) setup.py -q build_ext --inplace \
	  --build-temp ../out/python
	touch $@

check: ; .ci/run
release: ; dev/release '$(LOG)'

# help2man runs a link by the long name, which it takes for the program's. The pages have no date.
MAN = man
man: $(BINARIES)
	mkdir -p '$(MAN)'; work=$$(mktemp -d); trap 'rm -rf "$$work"' EXIT; \
	for page in $(PAGES); do \
	  IFS=- read -r name command <<< "$$page"; run=$$work/fastbloom-$$name; \
	  ln -sf "$$PWD/crates/$$name/out/$$name" "$$run"; \
	  about=$$("$$run" $$command --help | sed -n 1p); \
	  printf '[name]\nfastbloom-%s \\- %s\n' "$$page" "$$about" > "$$work/name"; \
	  help2man --no-info --manual=fastbloom --version-string=$(VERSION) --include="$$work/name" \
	    --include=man/common.h2m --help-option="$$command --help" "$$run" | \
	    sed '/^\.TH/s/"1" "[^"]*"/1 ""/; /^\.\\" DO NOT/s/ [0-9.]*$$/./' > "$$work/$$page.1"; \
	done; cp "$$work"/*.1 '$(MAN)'

# The names of folders have no blanks, at which make parts words, and stand in quotes. A program of
# another's that has a short name stays as it is.
PLACES = DESTDIR prefix bindir libdir includedir datadir mandir bashdir zshdir fishdir pythondir
names:
	$(foreach it,$(PLACES),$(if $(word 2,x$(subst ', ,$($(it)))x),\
	  $(error $(it) has a blank or a quote: $($(it)))))
	for name in $(if $(SHORT),$(PROGRAMS)); do \
	  file='$(DESTDIR)$(bindir)'/$$name; \
	  [[ ! -e $$file || $$(readlink -- "$$file") = fastbloom-$$name ]] || \
	    { echo "make: $$file is another program: set SHORT_NAMES=no" >&2; exit 1; }; \
	done

install: names all
	install -d $(FOLDERS:%='$(DESTDIR)%')
	for name in $(PROGRAMS); do \
	  install crates/$$name/out/$$name '$(DESTDIR)$(bindir)'/fastbloom-$$name; \
	  install -m 644 completions/$$name.bash '$(DESTDIR)$(bashdir)'/fastbloom-$$name; \
	  install -m 644 completions/_$$name '$(DESTDIR)$(zshdir)'/_fastbloom-$$name; \
	  install -m 644 completions/$$name.fish '$(DESTDIR)$(fishdir)'/fastbloom-$$name.fish; \
	  $(call short,$(bindir),$$name)$(call short,$(bashdir),$$name)\
	  $(call short,$(fishdir),$$name.fish)done
	for name in $(PAGES); do \
	  install -m 644 man/$$name.1 '$(DESTDIR)$(mandir)'/man1/fastbloom-$$name.1; \
	  $(call short,$(mandir)/man1,$$name.1)done
	install -m 644 $(HEADERS:%=out/c/include/%) '$(DESTDIR)$(includedir)'
	install -m 644 $(ARCHIVE) '$(DESTDIR)$(libdir)'
	if [ -e out/c/$(SHARED) ]; then \
	  install out/c/$(SHARED).$(VERSION) '$(DESTDIR)$(libdir)'; \
	  ln -sf $(SHARED).$(VERSION) '$(DESTDIR)$(libdir)'/$(SONAME); \
	  ln -sf $(SONAME) '$(DESTDIR)$(libdir)'/$(SHARED); \
	fi
	[ ! -e $(EXTENSION) ] || install -m 644 $(EXTENSION) '$(DESTDIR)$(libdir)'
	for file in $(DESCRIPTIONS); do \
	  sed -e "s|@RELEASE@|$(RELEASE)|; s|@VERSION@|$(VERSION)|; s|@MAJOR@|$(MAJOR)|" \
	    -e 's|@INCLUDE@|$(call between,$(libdir),$(includedir))|; $(OF_SYSTEM)' c/$${file##*/}.in | \
	    install -m 644 /dev/stdin '$(DESTDIR)$(libdir)'/$$file; \
	done
ifneq ($(pythondir),)
	[ -n '$(HAS_PYTHON)' ] || { echo 'make: $(PYTHON) lacks setuptools, wheel or its headers, so' \
	  'there is no Python package' >&2; exit; }; \
	work=$$(mktemp -d); trap 'rm -rf "$$work"' EXIT; umask 022; \
	cp -R python LICENSE NOTICE "$$work"; cd "$$work/python"; \
	FASTBLOOM_LIB='$(CURDIR)/out/c' $(PYTHON) -W ignore setup.py -q bdist_wheel -d "$$work"; \
	$(PYTHON) -m zipfile -e "$$work"/*.whl "$$work/unpacked"; \
	rm -rf $(MODULES); install -d '$(DESTDIR)$(pythondir)'; \
	cp -R "$$work"/unpacked/* '$(DESTDIR)$(pythondir)'
endif

# Folders that are empty then go too: below the system's own prefix just one of our name.
uninstall: names
	rm -f $(FILES:%='$(DESTDIR)%')
	$(if $(pythondir),rm -rf $(MODULES))
	$(if $(filter-out /usr /usr/local,$(prefix)),{ cd '$(DESTDIR)$(prefix)' && \
	  rmdir -p --ignore-fail-on-non-empty $(foreach it,$(FOLDERS) $(pythondir),\
	  '$(call between,$(prefix),$(it))'); } 2> /dev/null,rmdir \
	  '$(DESTDIR)$(libdir)'/cmake/fastbloom 2> /dev/null) || :
