# Builds and installs the command-line tool, the library for C, and what goes with them.
#
#   make                             builds; the engine is proved first where its library is missing or stale
#   make install PREFIX=/usr/local   puts in place what was built, and builds only what is not there at all
#   make uninstall                   removes what install put in place: give it the same variables
#
# DESTDIR stands before every path, for those who make packages. TOOL and LIBRARY may be others that were built before.
PREFIX = /usr/local
DESTDIR =
BINDIR = $(PREFIX)/bin
LIBDIR = $(PREFIX)/lib
INCLUDEDIR = $(PREFIX)/include
DATADIR = $(PREFIX)/share

TOOL = host/target/release/mivrozh
LIBRARY = crates/capi/out/libcapi.a
# What is made of the tool's own texts.
MADE = host/target/install
TEXTS = $(MADE)/mivrozh.1 $(MADE)/mivrozh.bash $(MADE)/mivrozh.zsh $(MADE)/mivrozh.fish

VERSION = $(shell sed -n 's/^version = "\(.*\)"/\1/p' host/Cargo.toml)

PROGRAM = $(DESTDIR)$(BINDIR)/mivrozh
ARCHIVE = $(DESTDIR)$(LIBDIR)/libmivrozh.a
HEADER = $(DESTDIR)$(INCLUDEDIR)/mivrozh.h
PKGCONFIG = $(DESTDIR)$(LIBDIR)/pkgconfig/mivrozh.pc
MANUAL = $(DESTDIR)$(DATADIR)/man/man1/mivrozh.1
BASH_COMPLETION = $(DESTDIR)$(DATADIR)/bash-completion/completions/mivrozh
ZSH_COMPLETION = $(DESTDIR)$(DATADIR)/zsh/site-functions/_mivrozh
FISH_COMPLETION = $(DESTDIR)$(DATADIR)/fish/vendor_completions.d/mivrozh.fish

INSTALL = install

.PHONY: all build install uninstall
.DELETE_ON_ERROR:

all: build
	@$(MAKE) --no-print-directory $(TEXTS)

build:
	cargo build --release --manifest-path host/Cargo.toml --package mivrozh-cli

$(TOOL) $(LIBRARY):
	cargo build --release --manifest-path host/Cargo.toml --package mivrozh-cli

$(MADE)/mivrozh.1: $(TOOL)
	@mkdir -p $(MADE)
	"$(TOOL)" manual > $@

$(MADE)/mivrozh.%: $(TOOL)
	@mkdir -p $(MADE)
	"$(TOOL)" completions $* > $@

install: $(TOOL) $(LIBRARY) $(TEXTS)
	@case "$(PREFIX)" in /*) ;; *) echo "make: PREFIX must begin with /" >&2; exit 1 ;; esac
	$(INSTALL) -D -s -m 755 "$(TOOL)" "$(PROGRAM)"
	$(INSTALL) -D -m 644 "$(LIBRARY)" "$(ARCHIVE)"
	$(INSTALL) -D -m 644 host/include/mivrozh.h "$(HEADER)"
	$(INSTALL) -D -m 644 host/mivrozh.pc.in "$(PKGCONFIG)"
	sed -i -e 's|@PREFIX@|$(PREFIX)|' -e 's|@LIBDIR@|$(LIBDIR)|' -e 's|@INCLUDEDIR@|$(INCLUDEDIR)|' \
		-e 's|@VERSION@|$(VERSION)|' "$(PKGCONFIG)"
	$(INSTALL) -D -m 644 $(MADE)/mivrozh.1 "$(MANUAL)"
	$(INSTALL) -D -m 644 $(MADE)/mivrozh.bash "$(BASH_COMPLETION)"
	$(INSTALL) -D -m 644 $(MADE)/mivrozh.zsh "$(ZSH_COMPLETION)"
	$(INSTALL) -D -m 644 $(MADE)/mivrozh.fish "$(FISH_COMPLETION)"

uninstall:
	rm -f "$(PROGRAM)" "$(ARCHIVE)" "$(HEADER)" "$(PKGCONFIG)" "$(MANUAL)" "$(BASH_COMPLETION)" "$(ZSH_COMPLETION)" \
		"$(FISH_COMPLETION)"
