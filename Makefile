# For habits' sake: each target is a line or two over what is there.
#
#   make                      proves and builds the program (./fdref build), and builds the library for LD_PRELOAD
#   make test                 runs all tests (.ci/run)
#   make install PREFIX=DIR   installs program, tools, man pages, header, clients and library, and what bash completes
#   make uninstall PREFIX=DIR removes them
#
# PROGRAM names another program to be installed, as out/unproved/fdref, which './fdref build --unproved' makes. That one
# says with each answer that it is not proved, and so do the tools that ask it. The client
# in Python goes where PYTHON looks, if that is under PREFIX, and else where a Python of that PREFIX would.

PREFIX = /usr/local
DESTDIR =
INSTALL = install
CC = cc
CFLAGS = -O2
PYTHON = python3

PROGRAM = crates/fdref/out/fdref
SHIM = out/libfdref_preload.so
TO = $(DESTDIR)$(PREFIX)
FIND_PACKAGES = import site, sys; to = sys.argv[1]; \
    known = [path for path in site.getsitepackages() if path.startswith(to + "/lib")]; \
    print((known + ["%s/lib/python%d.%d/site-packages" % (to, *sys.version_info[:2])])[0])
# asked once, and only where it is wanted
FOUND = $(shell $(PYTHON) -c '$(FIND_PACKAGES)' '$(PREFIX)')
PACKAGES = $(eval PACKAGES := $(or $(FOUND),$(error $(PYTHON) does not tell where it looks for packages)))$(PACKAGES)

# The tools that have a name in bin, and all that they are made of or compile, in share/fdref as it is here.
TOOLS = compare race order judge waiting summary
PARTS = $(filter-out tools/build.py, $(wildcard tools/*.py tools/*.[ch] tools/support/*.py)) clients/c/fdref.h \
    $(wildcard clients/preload/*.[ch])

all: $(PROGRAM) $(SHIM)

crates/fdref/out/fdref: always
	./fdref build

out/unproved/fdref: always
	./fdref build --unproved

$(SHIM): clients/preload/fdref_preload.c $(wildcard clients/preload/*.h) clients/c/fdref.h
	mkdir -p out
	$(CC) $(CFLAGS) -shared -fPIC -o $@ $< -ldl

test:
	bash .ci/run

# the unproved program is called by a script that tells so
ifneq (,$(filter out/unproved/fdref %/out/unproved/fdref,$(PROGRAM)))
INSTALL_PROGRAM = $(INSTALL) -D -m 755 $(PROGRAM) $(TO)/share/fdref/out/unproved/fdref && \
    $(INSTALL) -m 644 tools/telling.sh $(TO)/share/fdref/out/unproved && \
    $(INSTALL) -D -m 755 tools/unproved.sh $(TO)/bin/fdref
else
INSTALL_PROGRAM = rm -rf $(TO)/share/fdref/out && $(INSTALL) -D -m 755 $(PROGRAM) $(TO)/bin/fdref
endif

install: all
	$(INSTALL_PROGRAM)
	$(INSTALL) -D -m 644 tools/fdref.bash $(TO)/share/bash-completion/completions/fdref
	$(INSTALL) -D -m 644 docs/fdref.1 $(TO)/share/man/man1/fdref.1
	$(INSTALL) -D -m 644 docs/fdref_preload.7 $(TO)/share/man/man7/fdref_preload.7
	$(INSTALL) -D -m 644 clients/c/fdref.h $(TO)/include/fdref.h
	$(INSTALL) -d $(TO)/lib/pkgconfig
	sed 's|@PREFIX@|$(PREFIX)|' clients/c/fdref.pc.in >$(TO)/lib/pkgconfig/fdref.pc
	$(INSTALL) -D -m 644 clients/python/fdref/__init__.py $(DESTDIR)$(PACKAGES)/fdref/__init__.py
	$(INSTALL) -D -m 644 clients/python/fdref/py.typed $(DESTDIR)$(PACKAGES)/fdref/py.typed
	$(INSTALL) -D -m 755 $(SHIM) $(TO)/lib/libfdref_preload.so
	for part in $(PARTS); do $(INSTALL) -D -m 644 $$part $(TO)/share/fdref/$$part || exit 1; done
	$(INSTALL) -m 644 docs/fdref-tools.1 $(TO)/share/man/man1/fdref-tools.1
	for tool in $(TOOLS); do \
	    chmod 755 $(TO)/share/fdref/tools/$$tool.py && \
	    ln -sf ../share/fdref/tools/$$tool.py $(TO)/bin/fdref-$$tool && \
	    ln -sf fdref-tools.1 $(TO)/share/man/man1/fdref-$$tool.1 || exit 1; \
	done

uninstall:
	rm -f $(TO)/bin/fdref $(TO)/share/bash-completion/completions/fdref
	rm -f $(TO)/share/man/man1/fdref.1 $(TO)/share/man/man7/fdref_preload.7
	rm -f $(TO)/include/fdref.h $(TO)/lib/pkgconfig/fdref.pc $(TO)/lib/libfdref_preload.so
	rm -rf $(DESTDIR)$(PACKAGES)/fdref $(TO)/share/fdref
	rm -f $(TO)/share/man/man1/fdref-tools.1
	for tool in $(TOOLS); do rm -f $(TO)/bin/fdref-$$tool $(TO)/share/man/man1/fdref-$$tool.1; done

clean:
	rm -f $(SHIM)

always:

.PHONY: all test install uninstall clean always
