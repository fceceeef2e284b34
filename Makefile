# Builds and installs the program, its manual, what shells complete, the library, and the Python package.
#
#   make              proves and builds the program and the library, if a file of theirs is newer than what is built
#   make install      puts them below PREFIX (/usr/local), libraries into LIBDIR (lib below it), the package into PYTHONDIR (where
#                     python3 looks below PREFIX), all in DESTDIR if there is one
#   make uninstall    removes what that put there
#   make dist         what is built, and its sources, as mdmp-VERSION.tar.gz
#   make deb          Debian packages of what is built, in deb/
#
# The toolchain's command is `rt` (README). The others take what stands in out/ of the crates, but they ask `rt` where the kit's
# C archive is, and take cc, ar and python3.
PREFIX ?= /usr/local
LIBDIR ?= $(PREFIX)/lib
PYTHONDIR ?= $(shell python3 -c 'import site, sysconfig; print(next((it for it in site.getsitepackages() if it.startswith("$(PREFIX)/lib/")), sysconfig.get_path("purelib", "posix_prefix", vars={"base": "$(PREFIX)"})))')
VERSION = $(shell sed -n 's/^version = "\(.*\)"$$/\1/p' bindings/interface.toml)
PROGRAM = crates/mdmp/out/mdmp
ARCHIVE = crates/mdmp_c/out/libmdmp_c.a
# The crates of both, and what their proofs read. A folder is newer if a file went.
PRODUCT = $(shell sed -n '/^. The product/,/^$$/s|^\([a-z_]*\).*:.*|crates/\1|p' crates.txt)
PROVED = crates.txt HANDLES $(shell find $(PRODUCT) \( -name out -o -name must-fail -o -name mutants \) -prune -o \( -type d -o -name '*.rt' -o -name '*.antt' \) -print)
TO = $(DESTDIR)$(PREFIX)
PAGE = share/man/man1/mdmp.1
CALLS = share/man/man3/mdmp.3
BASH = share/bash-completion/completions/mdmp
ZSH_PLACE = share/zsh/site-functions/_mdmp
FISH = share/fish/vendor_completions.d/mdmp.fish
LIBRARIES = libmdmp.a libmdmp.so $(shell cat bindings/soname) pkgconfig/mdmp.pc

.PHONY: all install uninstall dist deb lost

all: crates/mdmp/out/made crates/mdmp_c/out/made

# `rt` needs no file of these names: they are as new as what was built.
crates/mdmp/out/made: $(PROVED) $(if $(wildcard $(PROGRAM)),,lost)
	cd crates/mdmp && rt run -- --version
	touch $@

# This takes what the other left of the crates that both stand on.
crates/mdmp_c/out/made: $(PROVED) $(if $(wildcard $(ARCHIVE)),,lost) | crates/mdmp/out/made
	cd crates/mdmp_c && rt lib
	touch $@

lost:

$(PROGRAM):
	@echo "there is no $(PROGRAM): run make first" >&2; exit 1

install: $(PROGRAM)
	@test -n "$(PYTHONDIR)" || { echo "no python3: say PYTHONDIR=.." >&2; exit 1; }
	install -D -m 755 $(PROGRAM) $(TO)/bin/mdmp
	install -D -m 644 man/mdmp.1 $(TO)/$(PAGE)
	install -D -m 644 man/mdmp.3 $(TO)/$(CALLS)
	install -D -m 644 completions/mdmp.bash $(TO)/$(BASH)
	install -D -m 644 completions/_mdmp $(TO)/$(ZSH_PLACE)
	install -D -m 644 completions/mdmp.fish $(TO)/$(FISH)
	install -d $(DESTDIR)$(PYTHONDIR)/mdmp/pages/templates
	install -m 644 bindings/python/mdmp/*.py bindings/python/mdmp/py.typed $(DESTDIR)$(PYTHONDIR)/mdmp/
	install -m 644 bindings/python/mdmp/pages/*.py $(DESTDIR)$(PYTHONDIR)/mdmp/pages/
	install -m 644 bindings/python/mdmp/pages/templates/* $(DESTDIR)$(PYTHONDIR)/mdmp/pages/templates/
	PREFIX="$(PREFIX)" LIBDIR="$(LIBDIR)" DESTDIR="$(DESTDIR)" bindings/install

uninstall:
	@test -n "$(PYTHONDIR)" || { echo "no python3: say PYTHONDIR=.." >&2; exit 1; }
	cd $(TO) && rm -f bin/mdmp $(PAGE) $(CALLS) $(BASH) $(ZSH_PLACE) $(FISH) include/mdmp.h
	cd $(DESTDIR)$(LIBDIR) && rm -f $(LIBRARIES)
	rm -rf $(DESTDIR)$(PYTHONDIR)/mdmp

# below usr/ what `install` puts there, and beside it the files of the last commit
dist: $(PROGRAM)
	@git rev-parse -q --verify HEAD >/dev/null || { echo "make dist needs the repository" >&2; exit 1; }
	rm -rf dist && mkdir -p dist/mdmp-$(VERSION)
	git archive HEAD | tar -x -C dist/mdmp-$(VERSION)
	$(MAKE) install DESTDIR=$(CURDIR)/dist/mdmp-$(VERSION) PREFIX=/usr
	tar -C dist --sort=name --owner=0 --group=0 -czf mdmp-$(VERSION).tar.gz mdmp-$(VERSION)
	rm -rf dist

deb: $(PROGRAM)
	packaging/deb deb
