# Builds, tests and installs the program, the scripts and the C library.
#
#     make                              proves and builds program and library, with `rt`, where anything has changed, and
#                                       reports how far it is
#     make try                          lists an example by the library call, compiled without a proof, in half a minute
#     make check                        installs what the tests take (tests/setup), or prints the line that does, and runs
#                                       those of the gate without the proofs (tests/run)
#     make version                      writes the program's version into header, man page, Python module and docs/C.md
#     make page                         builds the page, page/out/port1.html: the analyser as one file for a browser
#     make install PREFIX=$HOME/.local  all of the following
#     make install-program              the program, its man page and completions, and what install-scripts does
#     make install-scripts              the scripts, with links to them in bin, the documents, examples and definitions
#     make install-library              the C library, static and shared, its header, files for pkg-config and CMake, and
#                                       examples; with PYTHONDIR=FOLDER also the Python module that calls it
#     make install-library TARGET=aarch64-unknown-linux-gnu    the same for another of c/targets/build's targets
#     make uninstall PREFIX=$HOME/.local
#     make dist GATE=FILE TOOLCHAIN=FILE MAINTAINER='NAME <ADDRESS>'
#                                       packs what was built last into dist: a tarball and Debian packages, the
#                                       library for 64-bit ARM too, where that TARGET was built;
#                                       `packages/dist --help` says what these variables are
#
# PREFIX is /usr/local unless given. EXTCAPDIR is Wireshark's folder of extcap, for a link to port1-extcap. DESTDIR
# stands before them, for packages. The installing targets build only what was never built, so that they need no
# toolchain; else they install what was built last. `uninstall` takes away what any of them put in place, with all that
# is in share/port1 and share/doc/port1, and the folders that are empty then. With a TARGET, or an empty SHARED, there
# is no shared library; CC links it.

PREFIX = /usr/local
DESTDIR =
TARGET =
BINDIR = $(PREFIX)/bin
LIBDIR = $(PREFIX)/lib
INCLUDEDIR = $(PREFIX)/include
PKGCONFIGDIR = $(LIBDIR)/pkgconfig
CMAKEDIR = $(LIBDIR)/cmake/port1
PYTHONDIR =
DATADIR = $(PREFIX)/share
MANDIR = $(DATADIR)/man/man1
BASHDIR = $(DATADIR)/bash-completion/completions
ZSHDIR = $(DATADIR)/zsh/site-functions
FISHDIR = $(DATADIR)/fish/vendor_completions.d
OWNDIR = $(DATADIR)/port1
OWNDOCDIR = $(DATADIR)/doc/port1
EXTCAPDIR =
EXAMPLEDIR = $(OWNDOCDIR)/examples

PROGRAM = crates/port1/out/port1
SAMPLER = crates/port1_sample/out/port1_sample
PAGE = page/out/port1.html
LIBRARY = crates/port1_c/out/$(if $(TARGET),$(TARGET)/)libport1_c.a
SONAME = libport1.so.3
SHARED = $(if $(TARGET),,$(dir $(LIBRARY))$(SONAME))
C_EXAMPLES = c/examples/Makefile $(wildcard c/examples/*.c)
FIRMWARE = $(addprefix c/examples/mcu/,Makefile board.ld) $(wildcard c/examples/mcu/*.[ch])
VERSION = $(shell sed -n 's/.*\.version("\(.*\)").*/\1/p' crates/bus_arguments/src/arguments.rt)

# What finds the examples but for those in C, the commands among the scripts, and the definitions, which one of the
# scripts runs; what `rt` builds has copies of these.
EXAMPLES = find examples -name __pycache__ -prune -o -name .pytest_cache -prune -o -type f
COMMANDS = find scripts -maxdepth 1 -type f -perm -u+x ! -name self-test -printf '%f\n'
SPECS = find crates -name out -prune -o -path '*/specs/*.antt' -type f

# The folders that may be empty in the end, inner ones first. Folders of the system itself stay.
FOLDERS = "$(MANDIR)" "$(BASHDIR)" "$(DATADIR)/bash-completion" "$(ZSHDIR)" "$(DATADIR)/zsh" "$(FISHDIR)" \
	"$(DATADIR)/fish" "$(PKGCONFIGDIR)" "$(CMAKEDIR)" "$(LIBDIR)/cmake" \
	$(if $(PYTHONDIR),"$(PYTHONDIR)") $(if $(SYSTEM),,$(COMMON_FOLDERS))
COMMON_FOLDERS = "$(DATADIR)/man" "$(DATADIR)/doc" "$(DATADIR)" "$(LIBDIR)" "$(INCLUDEDIR)" "$(BINDIR)"
SYSTEM = $(if $(DESTDIR),,$(filter /usr /usr/local,$(PREFIX)))

# `rt` knows what has changed.
all:
	packages/build port1 run -- --version
	packages/build port1_sample run -- --version
	packages/build port1_c lib

# These three only make what is not there.
$(PROGRAM):
	packages/build port1 run -- --version

$(SAMPLER):
	packages/build port1_sample run -- --version

crates/port1_c/out/libport1_c.a:
	packages/build port1_c lib

crates/port1_c/out/%/libport1_c.a:
	c/targets/build crates/port1_c/out '$*'

# The linker refuses an archive that is not position independent.
%/$(SONAME): %/libport1_c.a c/package/libport1.map
	$(CC) -shared -o $@ -Wl,-soname,$(SONAME) -Wl,-z,text -Wl,--version-script=c/package/libport1.map \
		-Wl,--whole-archive $< -Wl,--no-whole-archive

try:
	@packages/try

check: $(PROGRAM) $(SAMPLER)
	tests/setup
	tests/run --all

page:
	packages/build port1_c lib
	page/build

version:
	packages/version

install: install-program install-library

install-program: $(PROGRAM) $(SAMPLER) install-scripts
	install -d "$(DESTDIR)$(BINDIR)" "$(DESTDIR)$(MANDIR)" "$(DESTDIR)$(BASHDIR)" "$(DESTDIR)$(ZSHDIR)" \
		"$(DESTDIR)$(FISHDIR)"
	install -m 755 $(PROGRAM) "$(DESTDIR)$(BINDIR)/port1"
	install -m 755 $(SAMPLER) "$(DESTDIR)$(BINDIR)/port1-sample"
	for name in port1 port1-sample; do \
		install -m 644 cli/$$name.1 "$(DESTDIR)$(MANDIR)/$$name.1" && \
		install -m 644 cli/completions/$$name.bash "$(DESTDIR)$(BASHDIR)/$$name" && \
		install -m 644 cli/completions/_$$name "$(DESTDIR)$(ZSHDIR)/_$$name" && \
		install -m 644 cli/completions/$$name.fish "$(DESTDIR)$(FISHDIR)/$$name.fish" || exit 1; done

# Puts the files of a folder into one of share/port1/contrib, whose names are older than those here; tests, and what
# `make` put together there, stay here.
put-in-contrib = find $(1) -mindepth 1 -name tests -prune -o -name __pycache__ -prune -o -name out -prune -o \
	! -name self-test -type f -printf '%P\n' | while read -r file; do \
		mode=644; test ! -x "$(1)/$$file" || mode=755; \
		install -D -m $$mode "$(1)/$$file" "$(DESTDIR)$(OWNDIR)/contrib/$(2)$$file" || exit 1; done

# The documents' commands run in share/port1, which has `examples` and the definitions as this folder has.
install-scripts:
	install -d "$(DESTDIR)$(BINDIR)" "$(DESTDIR)$(OWNDIR)/docs"
	$(EXAMPLES) -exec install -D -m 644 '{}' "$(DESTDIR)$(OWNDOCDIR)/{}" ';'
	install -m 644 $(wildcard *.md) "$(DESTDIR)$(OWNDIR)"
	install -m 644 $(wildcard docs/*.md docs/*.toml docs/*.png) "$(DESTDIR)$(OWNDIR)/docs"
	$(call put-in-contrib,scripts)
	$(call put-in-contrib,bindings/python,python/)
	$(call put-in-contrib,bindings/sigrok,sigrok/)
	install -D -m 755 c/targets/build "$(DESTDIR)$(OWNDIR)/contrib/mcu/build"
	$(SPECS) -exec install -D -m 644 '{}' "$(DESTDIR)$(OWNDIR)/{}" ';'
	test ! -e $(PAGE) || install -D -m 644 $(PAGE) "$(DESTDIR)$(OWNDIR)/page/port1.html"
	ln -sfnr "$(DESTDIR)$(EXAMPLEDIR)" "$(DESTDIR)$(OWNDIR)/examples"
	$(COMMANDS) | while read -r name; do \
		ln -sfr "$(DESTDIR)$(OWNDIR)/contrib/$$name" "$(DESTDIR)$(BINDIR)" || exit 1; done
ifneq ($(EXTCAPDIR),)
	install -d "$(DESTDIR)$(EXTCAPDIR)"
	ln -sfr "$(DESTDIR)$(OWNDIR)/contrib/port1-extcap" "$(DESTDIR)$(EXTCAPDIR)"
endif

# A file of packages, where it is installed: its paths are relative, so that all of it may be moved.
from-there = $$(realpath -ms --relative-to="$(2)" "$(1)")
fill-in = sed -e "s|@PREFIX@|$(call from-there,$(PREFIX),$(2))|; s|@LIBDIR@|$(call from-there,$(LIBDIR),$(2))|" \
	-e "s|@INCLUDEDIR@|$(call from-there,$(INCLUDEDIR),$(2))|; s|@VERSION@|$(VERSION)|; s|@SONAME@|$(SONAME)|" \
	c/package/$(1).in > "$(DESTDIR)$(2)/$(1)"

install-library: $(LIBRARY) $(SHARED)
	install -d "$(DESTDIR)$(LIBDIR)" "$(DESTDIR)$(INCLUDEDIR)" "$(DESTDIR)$(PKGCONFIGDIR)" "$(DESTDIR)$(CMAKEDIR)" \
		"$(DESTDIR)$(EXAMPLEDIR)/c/mcu"
	install -m 644 $(LIBRARY) "$(DESTDIR)$(LIBDIR)/libport1_c.a"
	install -m 644 c/include/port1.h "$(DESTDIR)$(INCLUDEDIR)/port1.h"
	$(call fill-in,port1.pc,$(PKGCONFIGDIR))
	$(call fill-in,port1Config.cmake,$(CMAKEDIR))
	$(call fill-in,port1ConfigVersion.cmake,$(CMAKEDIR))
	install -m 644 $(C_EXAMPLES) "$(DESTDIR)$(EXAMPLEDIR)/c"
	install -m 644 $(FIRMWARE) "$(DESTDIR)$(EXAMPLEDIR)/c/mcu"
ifneq ($(SHARED),)
	install -m 644 $(SHARED) "$(DESTDIR)$(LIBDIR)/$(SONAME)"
	ln -sf $(SONAME) "$(DESTDIR)$(LIBDIR)/libport1.so"
endif
ifneq ($(PYTHONDIR),)
	install -d "$(DESTDIR)$(PYTHONDIR)/port1"
	install -m 644 bindings/python/port1/*.py bindings/python/port1/py.typed "$(DESTDIR)$(PYTHONDIR)/port1"
endif

# make hands the variables of its command line on.
dist:
	VERSION=$(VERSION) packages/dist

# The links are those of the installed scripts, which need not be the scripts of today.
uninstall:
	for script in "$(DESTDIR)$(OWNDIR)"/contrib/*; do link="$(DESTDIR)$(BINDIR)/$${script##*/}"; \
		test ! "$$link" -ef "$$script" || rm -f "$$link"; done
	for name in port1 port1-sample; do \
		rm -f "$(DESTDIR)$(BINDIR)/$$name" "$(DESTDIR)$(MANDIR)/$$name.1" "$(DESTDIR)$(BASHDIR)/$$name" \
			"$(DESTDIR)$(ZSHDIR)/_$$name" "$(DESTDIR)$(FISHDIR)/$$name.fish"; done
	rm -f "$(DESTDIR)$(LIBDIR)/libport1_c.a" \
		"$(DESTDIR)$(INCLUDEDIR)/port1.h" "$(DESTDIR)$(PKGCONFIGDIR)/port1.pc" "$(DESTDIR)$(LIBDIR)/$(SONAME)" \
		"$(DESTDIR)$(LIBDIR)/libport1.so" "$(DESTDIR)$(CMAKEDIR)/port1Config.cmake" \
		"$(DESTDIR)$(CMAKEDIR)/port1ConfigVersion.cmake" \
		$(if $(EXTCAPDIR),"$(DESTDIR)$(EXTCAPDIR)/port1-extcap")
	rm -rf "$(DESTDIR)$(OWNDIR)" "$(DESTDIR)$(OWNDOCDIR)" $(if $(PYTHONDIR),"$(DESTDIR)$(PYTHONDIR)/port1")
	for folder in $(FOLDERS); do rmdir "$(DESTDIR)$$folder" 2> /dev/null || true; done
	test -z "$(DESTDIR)" || { cd "$(DESTDIR)" 2> /dev/null && rmdir -p ".$(PREFIX)" 2> /dev/null; } || true

.PHONY: all try check page version install install-program install-scripts install-library dist uninstall
