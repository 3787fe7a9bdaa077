# Installs the program, the recorder, the viewer, their man pages and completions, and the library for C: docs/INSTALL.md.
#
#    make install PREFIX=/usr/local [DESTDIR=..] [PROGRAM=..] [LIBRARY=..] [LIBDIR=..]
#    make uninstall PREFIX=/usr/local [LIBDIR=..]
#
# PROGRAM is the built program: unless said, the one that ./goodlock runs, which proves and builds it where it has to.
# LIBRARY is the library's archive; where there is none, it isn't installed. The shared library is linked from it.
# Man pages are made where help2man is installed.
PREFIX ?= /usr/local
DESTDIR ?=
OUT := out/install
BIN := $(PREFIX)/bin
LIB := $(PREFIX)/lib/goodlock
SHARE := $(PREFIX)/share
DOC := $(SHARE)/doc/goodlock
LIBRARY ?= prebuilt/libgoodlock.a
# A copy of it, where it is there: make would take a path that has blanks in it for several files.
ARCHIVE := $(if $(shell [ -f "$(LIBRARY)" ] && echo yes),$(OUT)/libgoodlock.a)
LIBDIR ?= $(PREFIX)/lib
# In goodlock.pc: so pkg-config --define-prefix finds both halves of what was moved, or was installed with DESTDIR.
LIBDIR_BELOW_PREFIX = $(patsubst $(PREFIX)/%,$${prefix}/%,$(LIBDIR))
INCLUDE := $(PREFIX)/include
HEADERS := goodlock.h goodlock_debug.h goodlock_names.h goodlock_names_debug.h goodlock.hpp
SHARED := libgoodlock.so.0
VERSION := $(shell sed -n '1s/.*(\(.*\)).*/\1/p' debian/changelog)
MAN := $(SHARE)/man/man1
BASH_COMPLETIONS ?= $(SHARE)/bash-completion/completions
ZSH_COMPLETIONS ?= $(SHARE)/zsh/site-functions
FISH_COMPLETIONS ?= $(SHARE)/fish/vendor_completions.d
RECORDERS := goodlock-record goodlock-confirm goodlock-python
COMMANDS := goodlock $(RECORDERS) goodlock-predict-all goodlock-view
INSTALL ?= install

all: $(OUT)/goodlock man library
	$(MAKE) -C tools $(if $(ARCHIVE),ARCHIVE=../$(ARCHIVE))
	$(MAKE) -C tools/view

$(OUT)/goodlock: FORCE
	mkdir -p $(OUT)
	program="$(PROGRAM)"; cp -f "$${program:-$$(GOODLOCK_WHICH=1 ./goodlock)}" $@

man: $(OUT)/goodlock
	rm -rf $(OUT)/man
	mkdir -p $(OUT)/man
	if command -v help2man >/dev/null; then tools/manpages $(OUT)/man $(OUT)/goodlock tools; \
	else echo "There are no man pages, as help2man isn't installed." >&2; fi

# The library, where its archive is at hand.
library: $(if $(ARCHIVE),$(OUT)/$(SHARED) $(OUT)/goodlock.pc)
	@[ -f "$(LIBRARY)" ] || echo "There is no $(LIBRARY), so the library for C is left out." >&2

$(OUT)/libgoodlock.a: FORCE
	mkdir -p $(OUT)
	cmp -s "$(LIBRARY)" $@ || cp -f "$(LIBRARY)" $@

$(OUT)/$(SHARED): $(OUT)/libgoodlock.a library/goodlock.map
	mkdir -p $(OUT)
	$(CC) -shared -o $@ -Wl,-soname,$(SHARED) -Wl,--version-script,library/goodlock.map \
	    -Wl,--whole-archive $< -Wl,--no-whole-archive -lpthread

$(OUT)/goodlock.pc: library/goodlock.pc.in FORCE
	mkdir -p $(OUT)
	sed -e 's|@PREFIX@|$(PREFIX)|' -e 's|@LIBDIR@|$(LIBDIR_BELOW_PREFIX)|' -e 's|@VERSION@|$(VERSION)|' $< >$@

install-library: library
	$(INSTALL) -d "$(DESTDIR)$(INCLUDE)" "$(DESTDIR)$(LIBDIR)/pkgconfig" "$(DESTDIR)$(DOC)/examples"
	$(INSTALL) -m 644 $(HEADERS:%=library/%) "$(DESTDIR)$(INCLUDE)"
	$(INSTALL) -m 644 $(ARCHIVE) "$(DESTDIR)$(LIBDIR)/libgoodlock.a"
	$(INSTALL) -m 644 $(OUT)/$(SHARED) "$(DESTDIR)$(LIBDIR)"
	ln -sf $(SHARED) "$(DESTDIR)$(LIBDIR)/libgoodlock.so"
	$(INSTALL) -m 644 $(OUT)/goodlock.pc "$(DESTDIR)$(LIBDIR)/pkgconfig"
	$(INSTALL) -m 644 library/examples/* "$(DESTDIR)$(DOC)/examples"

install: all $(if $(ARCHIVE),install-library)
	rm -rf "$(DESTDIR)$(LIB)"
	$(INSTALL) -d "$(DESTDIR)$(BIN)" "$(DESTDIR)$(LIB)" "$(DESTDIR)$(DOC)" "$(DESTDIR)$(MAN)"
	$(INSTALL) -d "$(DESTDIR)$(BASH_COMPLETIONS)" "$(DESTDIR)$(ZSH_COMPLETIONS)" "$(DESTDIR)$(FISH_COMPLETIONS)"
	$(INSTALL) -m 755 $(OUT)/goodlock tools/goodlock-predict-all tools/view/out/goodlock-view "$(DESTDIR)$(BIN)"
	cp -R --preserve=timestamps tools/record tools/python $(RECORDERS:%=tools/%) tools/Makefile "$(DESTDIR)$(LIB)"
	find "$(DESTDIR)$(LIB)" -name __pycache__ -prune -exec rm -rf {} +
	$(INSTALL) -d "$(DESTDIR)$(LIB)/out"
	find tools/out -maxdepth 1 -type f -exec cp --preserve=timestamps {} "$(DESTDIR)$(LIB)/out" \;
	chmod -R u=rwX,go=rX "$(DESTDIR)$(LIB)"
	for name in $(RECORDERS); do ln -sf ../lib/goodlock/$$name "$(DESTDIR)$(BIN)/$$name" || exit 1; done
	find $(OUT)/man -name '*.1' -exec $(INSTALL) -m 644 {} "$(DESTDIR)$(MAN)" \;
	for name in $(COMMANDS); do $(INSTALL) -m 644 tools/completions/goodlock.bash \
	    "$(DESTDIR)$(BASH_COMPLETIONS)/$$name" || exit 1; done
	$(INSTALL) -m 644 tools/completions/_goodlock "$(DESTDIR)$(ZSH_COMPLETIONS)"
	for name in $(COMMANDS); do grep "^#\|^complete -c $$name " tools/completions/goodlock.fish \
	    >"$(DESTDIR)$(FISH_COMPLETIONS)/$$name.fish" && \
	    chmod 644 "$(DESTDIR)$(FISH_COMPLETIONS)/$$name.fish" || exit 1; done
	$(INSTALL) -m 644 README.md docs/*.md docs/*.json docs/*.png "$(DESTDIR)$(DOC)"

uninstall:
	rm -f $(foreach name,$(COMMANDS),"$(DESTDIR)$(BIN)/$(name)" "$(DESTDIR)$(BASH_COMPLETIONS)/$(name)" \
	    "$(DESTDIR)$(FISH_COMPLETIONS)/$(name).fish") "$(DESTDIR)$(ZSH_COMPLETIONS)/_goodlock"
	rm -f "$(DESTDIR)$(MAN)"/goodlock.1 "$(DESTDIR)$(MAN)"/goodlock-*.1
	rm -f $(foreach name,$(HEADERS),"$(DESTDIR)$(INCLUDE)/$(name)") \
	    "$(DESTDIR)$(LIBDIR)/pkgconfig/goodlock.pc" \
	    $(foreach name,libgoodlock.a libgoodlock.so $(SHARED),"$(DESTDIR)$(LIBDIR)/$(name)")
	rm -rf "$(DESTDIR)$(LIB)" "$(DESTDIR)$(DOC)"

clean:
	rm -rf $(OUT)
	$(MAKE) -C tools clean
	$(MAKE) -C tools/view clean

FORCE:

.PHONY: all man library install install-library uninstall clean FORCE
