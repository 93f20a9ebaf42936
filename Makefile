# Builds and installs. crates.txt is the graph of the crates. The toolchain proves what isn't proved before it builds.
#
#   make              the program, the library for C, the session keeper and the player
#   make program      crates/vt220/out/vt220, which ./vt220 runs
#   make unproved     out/unproved/vt220, the same without a proof, which ./vt220 runs until `make program` is done
#   make try          prints the screen that the bytes of standard input leave, or those of a small example. The core runs without a proof
#   make screen       crates/screen/out/screen, the smallest program over the core, which is proved first
#   make xterms       crates/cells/out/cells and three others, which print for tests what an xterm has
#   make lib          the library for C in out/: libvt220.a, libvt220.so and vt220.pc, with its headers
#   make keeper       out/vt220-keep
#   make player       out/vt220-play, over the reader of recordings
#   make python       out/_calls.abi3.so, the extension module of the Python package, with the headers of PYTHON
#   make js           the package for JavaScript in out/js/: vt220.wasm, package/ and vt220-VERSION.tgz; and what apps/page/vt220-page
#                     and the fleet's page need
#   make install      installs these under PREFIX with their manual pages and completions, and prints each file
#   make install-lib  installs the library alone, with its headers and its manual page
#   make install-page installs the command vt220-page under PREFIX, and what `vt220-keep serve` runs, over `make js`
#   make uninstall    removes it, and the directories that are then empty
#   make crates OF=.. prints the crates of this repository that some crates depend on, and themselves, lowest first
#   make version      prints the version
#   make help         prints this text
#
# Variables: PREFIX (/usr/local) and LIBDIR (PREFIX/lib), absolute paths; DESTDIR, which is put before each path; CC (gcc), CFLAGS (-O2)
# and LDFLAGS for the files in C; PYTHON (python3); OUT (out), the directory of what is built here; TARGET (x86_64), the processor of `make lib`.
# `make TARGET=aarch64 lib` builds over the same proofs into out/aarch64/.
MAKEFLAGS += --no-builtin-rules
SHELL := bash
.SHELLFLAGS := -eu -o pipefail -c
.DELETE_ON_ERROR:
.SECONDEXPANSION:

PREFIX ?= /usr/local
LIBDIR ?= $(PREFIX)/lib
TARGET ?= x86_64
CFLAGS ?= -O2
PYTHON ?= python3
NATIVE := crates/vt220_c/out/libvt220_c.a
# What allocates for the proved code: the toolchain's own shim, which is for x86-64, or lib/c/heap.c.
ifeq ($(TARGET),aarch64)
OUT ?= out/aarch64
TOOLS := aarch64-linux-gnu-
ARCHIVE := crates/vt220_c/out/libvt220_c-aarch64.a
HEAP := heap
else ifeq ($(TARGET),x86_64)
OUT ?= out
TOOLS :=
ARCHIVE := $(NATIVE)
HEAP :=
else
$(error TARGET is x86_64 or aarch64)
endif
ifeq ($(origin CC),default)
CC := $(TOOLS)gcc
endif
VERSION := $(shell awk '$$2 == "VT220_VERSION" { printf "%d.%d.%d", $$3 / 10000, $$3 / 100 % 100, $$3 % 100 }' lib/c/include/vt220.h)
SONAME := libvt220.so.$(firstword $(subst ., ,$(VERSION)))
HEADERS := lib/c/include/vt220.h lib/c/include/vt220-keys.h
FILL = sed 's,@PREFIX@,$(PREFIX),; s,@LIBDIR@,$(LIBDIR),; s,@VERSION@,$(VERSION),'

# crates.txt: CRATES, lowest first, and deps_NAME of each.
comma := ,
space := $(subst ,, )
CRATES := $(foreach line,$(shell sed -n 's/ staticlib//; s/^\([a-z0-9_]*\): */\1:=/; /:=/ { s/  */,/g; p }' crates.txt),$(firstword $(subst :=, ,$(line)))$(eval deps_$(subst $(comma),$(space),$(line))))
# The crates that a crate depends on, with itself; and their sources, with the directories, in which files are added and deleted.
below = $(1) $(foreach dep,$(filter $(CRATES),$(deps_$(1))),$(call below,$(dep)))
chain = $(filter $(foreach crate,$(1),$(call below,$(crate))),$(CRATES))
sources = crates.txt $(shell find $(addprefix crates/,$(call chain,$(1))) -mindepth 1 -name out -prune -o -print)

PROGRAM := crates/vt220/out/vt220
READER := crates/recording_c/out/librecording_c.a
SCREEN := crates/screen/out/screen
XTERMS := $(foreach name,cells watched updates rendered,crates/$(name)/out/$(name))
UNPROVED := out/unproved/vt220

# What is needed after the proofs is looked for before them: the compiler with its headers, and the tools of `make js`.
asks = $(filter $(1),$(or $(MAKECMDGOALS),everything))
need = $(if $(shell $(2)),$(error this needs $(1), which isn't here (Debian: apt-get install $(3))))
ifneq ($(call asks,everything lib keeper player js install install-%),)
$(call need,$(CC) with the headers of C,printf '\043include <stdio.h>\n' | $(CC) -E -o /dev/null - >/dev/null 2>&1 || echo none,$(if $(TOOLS),gcc-aarch64-linux-gnu libc6-dev-arm64-cross,gcc libc6-dev))
endif
ifneq ($(call asks,js install-page),)
$(call need,npm and wasm-opt,command -v npm >/dev/null && command -v wasm-opt >/dev/null || echo none,npm binaryen)
endif

.PHONY: everything program unproved try screen xterms lib keeper player python js install install-lib install-page uninstall crates version help
everything: program lib keeper player
program: $(PROGRAM)
unproved: $(UNPROVED)
screen: $(SCREEN)
xterms: $(XTERMS)
# What rt prints besides the screen is shown if it fails.
try:
	@echo 'make try: nothing is proved here; "make screen" proves the core first' >&2
	@if [ -t 0 ]; then exec <crates/screen/stdin; fi; log=$$(mktemp); trap 'rm -f "$$log"' EXIT; \
	  cd crates/screen; rt try 2>"$$log" || { cat "$$log" >&2; exit 1; }
lib: $(OUT)/libvt220.a $(OUT)/libvt220.so $(OUT)/vt220.pc $(addprefix $(OUT)/,$(notdir $(HEADERS)))
keeper: $(OUT)/vt220-keep
player: $(OUT)/vt220-play
python: $(OUT)/_calls.abi3.so

# The time of what the toolchain builds is that of the beginning. So a source that changes meanwhile is newer.
$(PROGRAM) $(SCREEN) $(XTERMS): $$(call sources,$$(notdir $$@))
	@tools/product $(notdir $@) $@ tools/prove $(notdir $@) run -- --help
$(UNPROVED): $$(call sources,$$(notdir $$@))
	@begun=$$(mktemp); trap 'rm -f "$$begun"' EXIT; tools/unproved $(notdir $@) $@; touch -r "$$begun" $@
# The crate of a static library, by its archive.
crate_of = $(patsubst lib%.a,%,$(notdir $(1)))
$(NATIVE) $(READER): $$(call sources,$$(call crate_of,$$@))
	@tools/product $(call crate_of,$@) $@ tools/prove $(call crate_of,$@) lib

crates/vt220_c/out/libvt220_c-aarch64.a: $(NATIVE)
	@tools/product vt220_c $@ tools/compile-core vt220_c aarch64-unknown-linux-gnu $@

# One object, in which only the library's own calls are global: two such libraries then link into one program.
$(OUT)/objects/%.o: lib/c/%.c $(HEADERS)
	@mkdir -p $(@D)
	$(CC) -std=c11 $(CFLAGS) -fPIC -fasynchronous-unwind-tables -Ilib/c/include -c -o $@ $<
$(OUT)/vt220.o: $(addprefix $(OUT)/objects/,$(addsuffix .o,vt220 vt220-keys $(HEAP))) $(ARCHIVE)
	@TOOLS=$(TOOLS) tools/link-object $@ $^
$(OUT)/libvt220.a: $(OUT)/vt220.o
	@rm -f $@
	$(TOOLS)ar rcsD $@ $<
$(OUT)/libvt220.so: $(OUT)/vt220.o packaging/libvt220.map
	@rm -f $@*
	$(CC) $(CFLAGS) $(LDFLAGS) -shared -Wl,-soname,$(SONAME) -Wl,--version-script=packaging/libvt220.map -Wl,-z,defs,-z,relro,-z,now -o $@.$(VERSION) $<
	@ln -s libvt220.so.$(VERSION) $(OUT)/$(SONAME)
	@ln -s $(SONAME) $@
$(OUT)/vt220.pc: packaging/vt220.pc.in lib/c/include/vt220.h
	@$(FILL) $< >$@
$(OUT)/%.h: lib/c/include/%.h
	@cp $< $@
$(OUT)/vt220-keep: $(wildcard apps/keep/*.[ch]) $(HEADERS) $(OUT)/libvt220.a
	$(CC) $(CFLAGS) $(LDFLAGS) -Ilib/c/include -o $@ apps/keep/*.c $(OUT)/libvt220.a
# The proved reader as one object, since it has the same allocation shim as the library.
$(OUT)/recording.o: $(READER)
	@mkdir -p $(@D)
	@TOOLS=$(TOOLS) tools/link-object $@ $<
PLAYER := $(wildcard apps/play/*.c) apps/keep/outer.c
$(OUT)/vt220-play: $(PLAYER) $(wildcard apps/play/*.h) apps/keep/outer.h apps/keep/utf8.h lib/c/recording.h $(HEADERS) $(OUT)/recording.o $(OUT)/libvt220.a
	$(CC) $(CFLAGS) $(LDFLAGS) -Ilib/c/include -o $@ $(PLAYER) $(OUT)/recording.o $(OUT)/libvt220.a
$(OUT)/_calls.abi3.so: lib/python/calls.c lib/c/include/vt220.h
	@mkdir -p $(@D)
	$(CC) -std=c11 $(CFLAGS) $(LDFLAGS) -fPIC -shared -I$$($(PYTHON) -c 'import sysconfig; print(sysconfig.get_paths()["include"])') -Ilib/c/include -o $@ $<

js: program lib $(READER)
	@lib/js/build

# What is installed: FROM:TO:MODE of each file, and TARGET:TO of each link. vt220.pc comes from standard input, since PREFIX may be another than
# when the library was built.
PAGES := docs/man/vt220.1 docs/man/vt220.3 docs/man/vt220.7 docs/man/vt220-keep.1 docs/man/vt220-play.1
SHARE = $(PREFIX)/share
FILES = $(PROGRAM):$(PREFIX)/bin/vt220:755 $(OUT)/vt220-keep:$(PREFIX)/bin/vt220-keep:755 $(OUT)/vt220-play:$(PREFIX)/bin/vt220-play:755 \
  $(foreach page,$(PAGES),$(page):$(SHARE)/man/man$(subst .,,$(suffix $(page)))/$(notdir $(page)):644) \
  $(foreach name,vt220 vt220-keep vt220-play,packaging/completions/$(name).bash:$(SHARE)/bash-completion/completions/$(name):644 \
    packaging/completions/_$(name):$(SHARE)/zsh/site-functions/_$(name):644 packaging/completions/$(name).fish:$(SHARE)/fish/vendor_completions.d/$(name).fish:644) \
  $(foreach header,$(HEADERS),$(header):$(PREFIX)/include/$(notdir $(header)):644) $(OUT)/libvt220.a:$(LIBDIR)/libvt220.a:644 \
  $(OUT)/libvt220.so.$(VERSION):$(LIBDIR)/libvt220.so.$(VERSION):755 /dev/stdin:$(LIBDIR)/pkgconfig/vt220.pc:644
LINKS = libvt220.so.$(VERSION):$(LIBDIR)/$(SONAME) $(SONAME):$(LIBDIR)/libvt220.so
# The command vt220-page needs the program vt220, which reads recordings. The module that writes a page and the template are next to it. So is
# vt220-keep-serve, which `vt220-keep serve` runs.
PAGE = $(PREFIX)/lib/vt220
PAGE_FILES = $(PROGRAM):$(PREFIX)/bin/vt220:755 apps/page/vt220-page:$(PAGE)/vt220-page:755 apps/keep/serve:$(PAGE)/vt220-keep-serve:755 /dev/null:$(PAGE)/vt220/__init__.py:644 \
  lib/python/vt220/page.py:$(PAGE)/vt220/page.py:644 out/js/page.html:$(PAGE)/vt220/page.html:644 docs/man/vt220-page.1:$(SHARE)/man/man1/vt220-page.1:644
PAGE_LINKS = ../lib/vt220/vt220-page:$(PREFIX)/bin/vt220-page
INSTALLED = $(foreach file,$(LINKS) $(FILES) $(PAGE_LINKS) $(PAGE_FILES),$(word 2,$(subst :, ,$(file))))
# A directory and those above it, up to PREFIX or LIBDIR. The directories that every system has stay.
up = $(if $(filter $(PREFIX)/% $(LIBDIR) $(LIBDIR)/%,$(1)),$(1) $(call up,$(patsubst %/,%,$(dir $(1)))))
STAY = $(if $(DESTDIR),,$(addprefix /usr/local/,bin include lib share share/man) $(if $(filter /usr,$(PREFIX)),/usr/%))
IS_ABSOLUTE = $(if $(filter-out /%,$(PREFIX) $(LIBDIR)),$(error PREFIX and LIBDIR aren't absolute: $(PREFIX) $(LIBDIR)))
LOADER = DESTDIR='$(DESTDIR)' packaging/loader

install: everything
install-lib: lib
install-lib: FILES := $(filter docs/man/vt220.3:% lib/c/include/% $(OUT)/libvt220.% /dev/stdin:%,$(FILES))
install-page: js
install-page: FILES := $(PAGE_FILES)
install-page: LINKS := $(PAGE_LINKS)
install install-lib install-page:
	$(IS_ABSOLUTE)@$(FILL) packaging/vt220.pc.in | for file in $(FILES); do \
	  IFS=: read -r from to mode <<<"$$file"; install -D -m $$mode $$from $(DESTDIR)$$to; echo "installed $(DESTDIR)$$to"; done
	@for link in $(LINKS); do mkdir -p $$(dirname $(DESTDIR)$${link#*:}); ln -sf $${link%:*} $(DESTDIR)$${link#*:}; echo "installed $(DESTDIR)$${link#*:}"; done
	@$(if $(findstring $(SONAME),$(LINKS)),$(LOADER) $(LIBDIR)/$(SONAME))
uninstall:
	$(IS_ABSOLUTE)@for file in $(addprefix $(DESTDIR),$(INSTALLED)); do [ ! -e $$file ] && [ ! -L $$file ] || { rm $$file; echo "removed $$file"; }; done
	@rmdir $(addprefix $(DESTDIR),$(filter-out $(STAY),$(foreach file,$(INSTALLED),$(call up,$(patsubst %/,%,$(dir $(file))))))) 2>/dev/null || true
	@$(LOADER)

crates:
	@printf '%s\n' $(call chain,$(OF))
version:
	@echo $(VERSION)
help:
	@sed -n '/^#/!q; s/^# \{0,1\}//p' Makefile
