# For any POSIX make. `make` builds the programs and the library. No other target builds them or needs the kit, except
# `make macho-check`, `make macho-verify`, `make lib` and `make check`.
.POSIX:

PREFIX = /usr/local
BINDIR = $(PREFIX)/bin
LIBDIR = $(PREFIX)/lib
INCLUDEDIR = $(PREFIX)/include
MANDIR = $(PREFIX)/share/man
DOCDIR = $(PREFIX)/share/doc/kesvuot
# Where the shells find their completions.
BASHDIR = $(PREFIX)/share/bash-completion/completions
ZSHDIR = $(PREFIX)/share/zsh/site-functions
FISHDIR = $(PREFIX)/share/fish/vendor_completions.d
# What runs the command kesvuot.
PYTHON = /usr/bin/env python3
# A folder from which python3 imports.
PYTHONDIR = $$(packaging/python-folder "$(PREFIX)")
DESTDIR =
# The folder for the results of `make deb` and `make dist`.
OUT = out

# The programs, each of which has a page.
PROGRAMS = macho-check macho-verify

TO_BIN = "$(DESTDIR)$(BINDIR)"
TO_LIB = "$(DESTDIR)$(LIBDIR)"
TO_INCLUDE = "$(DESTDIR)$(INCLUDEDIR)"
TO_MAN = "$(DESTDIR)$(MANDIR)"
TO_DOC = "$(DESTDIR)$(DOCDIR)"
TO_PYTHON = "$(DESTDIR)$(PYTHONDIR)"
TO_BASH = "$(DESTDIR)$(BASHDIR)"
TO_ZSH = "$(DESTDIR)$(ZSHDIR)"
TO_FISH = "$(DESTDIR)$(FISHDIR)"

# What kesvuot.3 describes: each call is a name of the page.
CALLS = $$(sed -n 's/^\.Nm \(kesvuot_[a-z_]*\).*/\1/p' man/kesvuot.3)
# Writes the version and the folders into what tells pkg-config and CMake of the library. Whatever is below the prefix
# moves with it, and CMake finds the header from the folder of its file.
FILL = sed -e 's|@PREFIX@|$(PREFIX)|; s|@LIBDIR@|$(LIBDIR)|; s|@INCLUDEDIR@|$(INCLUDEDIR)|' \
    -e 's|^\([a-z]*dir\)=$(PREFIX)/|\1=$${prefix}/|' \
    -e "s|@INCLUDE_FROM_HERE@|$$(realpath -ms --relative-to='$(LIBDIR)/cmake/kesvuot' '$(INCLUDEDIR)')|" \
    -e "s|@NUMBERS@|$$(sed 's/-.*//' VERSION)|; s|@MAJOR@|$$(sed 's/[.].*//' VERSION)|"
# The same for the command kesvuot, which finds the package and the library from the folder of its file.
FILL_TOOL = sed -e "1s|@PYTHON@|$(PYTHON)|; s|@LIB_FROM_HERE@|$$(realpath -ms --relative-to='$(BINDIR)' '$(LIBDIR)')|" \
    -e "s|@PACKAGE_FROM_HERE@|$$(realpath -ms --relative-to='$(BINDIR)' "$(PYTHONDIR)")|"

all:
	@packaging/library $$(echo $(PROGRAMS) | tr - _)
	@for program in $(PROGRAMS); do packaging/program $$program || exit; done

# One program alone.
$(PROGRAMS):
	@packaging/program $@

lib:
	@packaging/library

check test:
	./test

bench:
	bench/speed

install: install-programs install-lib

install-programs: built
	install -d $(TO_BIN) $(TO_MAN)/man1 $(TO_BASH) $(TO_ZSH) $(TO_FISH)
	for program in $(PROGRAMS); do \
	    install -m 755 build/programs/$$program $(TO_BIN) && install -m 644 man/$$program.1 $(TO_MAN)/man1 || exit; \
	done
	install -m 644 packaging/completions/macho-verify.bash $(TO_BASH)/macho-verify
	install -m 644 packaging/completions/_macho-verify $(TO_ZSH)
	install -m 644 packaging/completions/macho-verify.fish $(TO_FISH)

# The library alone, which `make lib` builds, with the command kesvuot.
install-lib: built-lib
	install -d $(TO_LIB)/pkgconfig $(TO_LIB)/cmake/kesvuot $(TO_INCLUDE) $(TO_MAN)/man3 $(TO_PYTHON)/kesvuot
	install -d $(TO_DOC)/rules $(TO_DOC)/guide
	install -d $(TO_BIN) $(TO_MAN)/man1 $(TO_BASH) $(TO_ZSH) $(TO_FISH)
	install -m 644 build/lib/libkesvuot.a build/lib/libkesvuot.so.2 $(TO_LIB)
	ln -sf libkesvuot.so.2 $(TO_LIB)/libkesvuot.so
	$(FILL) packaging/kesvuot.pc.in >$(TO_LIB)/pkgconfig/kesvuot.pc
	$(FILL) packaging/kesvuotConfig.cmake.in >$(TO_LIB)/cmake/kesvuot/kesvuotConfig.cmake
	$(FILL) packaging/kesvuotConfigVersion.cmake.in >$(TO_LIB)/cmake/kesvuot/kesvuotConfigVersion.cmake
	chmod 644 $(TO_LIB)/pkgconfig/kesvuot.pc $(TO_LIB)/cmake/kesvuot/*
	install -m 644 bindings/c/kesvuot.h $(TO_INCLUDE)
	install -m 644 bindings/python/kesvuot/*.py bindings/python/kesvuot/map.html bindings/python/kesvuot/py.typed \
	    $(TO_PYTHON)/kesvuot
	install -m 644 man/kesvuot.3 $(TO_MAN)/man3
	for call in $(CALLS); do ln -sf kesvuot.3 $(TO_MAN)/man3/$$call.3 || exit; done
	packaging/pages $(TO_DOC)/rules docs/rules/*.md
	packaging/pages $(TO_DOC)/guide docs/guide/policies.md
	install -m 644 docs/policy.schema.json $(TO_DOC)
	$(FILL_TOOL) packaging/kesvuot.in >$(TO_BIN)/kesvuot
	chmod 755 $(TO_BIN)/kesvuot
	install -m 644 man/kesvuot.1 $(TO_MAN)/man1
	install -m 644 packaging/completions/kesvuot.bash $(TO_BASH)/kesvuot
	install -m 644 packaging/completions/_kesvuot $(TO_ZSH)
	install -m 644 packaging/completions/kesvuot.fish $(TO_FISH)
	@[ "$(DESTDIR)" ] || packaging/where "$(BINDIR)" "$(LIBDIR)" "$(PYTHONDIR)"

uninstall:
	for program in $(PROGRAMS); do rm -f $(TO_BIN)/$$program $(TO_MAN)/man1/$$program.1 || exit; done
	rm -f $(TO_BIN)/kesvuot $(TO_MAN)/man1/kesvuot.1
	for name in kesvuot macho-verify; do \
	    rm -f $(TO_BASH)/$$name $(TO_ZSH)/_$$name $(TO_FISH)/$$name.fish || exit; \
	done
	rm -f $(TO_LIB)/libkesvuot.a $(TO_LIB)/libkesvuot.so.2 $(TO_LIB)/libkesvuot.so $(TO_LIB)/pkgconfig/kesvuot.pc
	rm -f $(TO_INCLUDE)/kesvuot.h
	rm -rf $(TO_LIB)/cmake/kesvuot $(TO_PYTHON)/kesvuot
	rm -f $(TO_MAN)/man3/kesvuot.3
	rm -rf $(TO_DOC)/rules $(TO_DOC)/guide $(TO_DOC)/policy.schema.json
	for call in $(CALLS); do rm -f $(TO_MAN)/man3/$$call.3; done
	rmdir $(TO_DOC) 2>/dev/null || :

# Two Debian packages; and for any other system an archive, and a wheel for Python with the library.
deb: built
	@packages=$$(packaging/pack deb "$(OUT)") && echo "$$packages" && \
	    { ! command -v lintian >/dev/null || echo "$$packages" | tr '\n' '\0' | xargs -0 lintian --fail-on error; }

dist: built
	@packaging/pack dist "$(OUT)"

# The vectors, for those who test another reader. It needs nothing that is built.
vectors:
	@packaging/vectors/pack "$(OUT)"

built:
	@packaging/built $(PROGRAMS) libkesvuot

built-lib:
	@packaging/built libkesvuot

.PHONY: all $(PROGRAMS) lib check test bench install install-programs install-lib uninstall deb dist vectors built built-lib
