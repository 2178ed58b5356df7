# Rigbasen as a package: libraries, header, command and documents, below target/package. 'make help' says what else there is.
# The proved archive and the proved printing program come from the kit; where they stand below target already it is not needed.

PREFIX = /usr/local
DESTDIR =
CC = cc
CFLAGS = -O2
LDFLAGS =
GATE =

VERSION != sed -n 's/^.define RIGBASEN_VERSION "\(.*\)"/\1/p' include/rigbasen.h
MAJOR != sed -n 's/^.define RIGBASEN_VERSION "\([0-9]*\).*"/\1/p' include/rigbasen.h
COMMAND_SOURCES != ls command/*.c 2>/dev/null || true
COMMAND_HEADERS != ls command/*.h 2>/dev/null || true
LINE_SOURCES != ls examples/checklist_lines/*.c

ARCHIVE = target/staticlib/libplanner_c.a
PRINTER = target/bin/region_print
BUILT = target/package
COMPILE = $(CC) -std=c99 -Wall -Wextra -pedantic $(CFLAGS) -Iinclude

SHARED = librigbasen.so.$(VERSION)
SONAME = librigbasen.so.$(MAJOR)
LIBRARIES = $(BUILT)/lib/librigbasen.a $(BUILT)/lib/$(SHARED)
DOC = share/doc/rigbasen
PAGES = README.md examples/README.md docs/FILE.md docs/TRANSCRIPTS.md docs/PROMISES.md docs/DECISIONS.md docs/PERFORMANCE.md docs/CHANGES.md
DOCUMENTS = $(PAGES:%=$(BUILT)/$(DOC)/%)
PACKAGE = $(LIBRARIES) $(BUILT)/lib/pkgconfig/rigbasen.pc $(BUILT)/include/rigbasen.h $(BUILT)/bin/rigbasen \
    $(BUILT)/share/man/man1/rigbasen.1 $(DOCUMENTS)
CHECKLIST = target/bundle/programs/checklist_calls target/bundle/programs/checklist_site
CHECKLIST_HEADERS = examples/region_file.h examples/on_screen.h examples/checklist_lines/site.h include/rigbasen.h

all: $(PACKAGE)

help:
	@echo "make                       the package below $(BUILT)"
	@echo "make install               the package below PREFIX ($(PREFIX)); DESTDIR=DIR puts it below DIR, to be moved later"
	@echo "make uninstall             takes away what install put there"
	@echo "make bundle GATE=FILE      an archive for sites without the kit and without a compiler, below target/bundle;"
	@echo "                           FILE is what a run of .ci/run printed, of which the last lines go with it"
	@echo "make proved                proves and builds what the kit makes: the archives and the printing program, below target"
	@echo "make clean                 takes away $(BUILT) and target/bundle"
	@echo "CC, CFLAGS and LDFLAGS are heeded; LDFLAGS=-static makes programs that need no C library."

# ---- What the kit makes.

$(ARCHIVE):
	@command -v rt > /dev/null || { echo "$@ is missing, and so is the kit that makes it (make proved)" >&2; exit 1; }
	packaging/make_proved planner_c

$(PRINTER):
	@command -v rt > /dev/null || { echo "$@ is missing, and so is the kit that makes it (make proved)" >&2; exit 1; }
	packaging/make_proved region_print

# After a change of a crate; with the archive of the trial that the tests are linked with.
proved:
	packaging/make_proved planner_c line_trial region_print

# ---- The package.

$(BUILT)/lib/librigbasen.a: $(ARCHIVE)
	@mkdir -p $(@D)
	cp $(ARCHIVE) $@

# The archive's code is independent of its position. Of its names only the header's calls are seen from outside.
$(BUILT)/lib/$(SHARED): $(ARCHIVE) packaging/librigbasen.map include/rigbasen.h
	@mkdir -p $(@D)
	$(CC) -shared -Wl,-soname,$(SONAME) -Wl,--version-script=packaging/librigbasen.map -Wl,-z,defs \
	    -Wl,--whole-archive $(ARCHIVE) -Wl,--no-whole-archive -o $@
	ln -sf $(SHARED) $(@D)/$(SONAME)
	ln -sf $(SONAME) $(@D)/librigbasen.so

# Here the paths begin at the file itself, wherever the tree is moved; install writes PREFIX.
$(BUILT)/lib/pkgconfig/rigbasen.pc: packaging/rigbasen.pc.in include/rigbasen.h
	@mkdir -p $(@D)
	sed -e 's|@PREFIX@|$${pcfiledir}/../..|' -e 's|@VERSION@|$(VERSION)|' packaging/rigbasen.pc.in > $@

$(BUILT)/include/rigbasen.h: include/rigbasen.h
	@mkdir -p $(@D)
	cp include/rigbasen.h $@

$(BUILT)/bin/rigbasen: $(COMMAND_SOURCES) $(COMMAND_HEADERS) include/rigbasen.h $(ARCHIVE)
	@[ -n "$(COMMAND_SOURCES)" ] || { echo "command/ has no sources of the command" >&2; exit 1; }
	@mkdir -p $(@D)
	$(COMPILE) $(LDFLAGS) -o $@ $(COMMAND_SOURCES) $(ARCHIVE)

$(BUILT)/share/man/man1/rigbasen.1: command/rigbasen.1
	@mkdir -p $(@D)
	cp command/rigbasen.1 $@

# In their places as they stand here, so that a page finds the others.
$(DOCUMENTS): $(BUILT)/$(DOC)/%: %
	@mkdir -p $(@D)
	cp $< $@

# ---- Where it goes.

PLACE = $(DESTDIR)$(PREFIX)

install: $(PACKAGE)
	install -d "$(PLACE)/bin" "$(PLACE)/lib/pkgconfig" "$(PLACE)/include" "$(PLACE)/share/man/man1"
	install -d "$(PLACE)/$(DOC)/docs" "$(PLACE)/$(DOC)/examples"
	install -m 755 $(BUILT)/bin/rigbasen "$(PLACE)/bin/"
	install -m 644 $(BUILT)/lib/librigbasen.a "$(PLACE)/lib/"
	install -m 755 $(BUILT)/lib/$(SHARED) "$(PLACE)/lib/"
	ln -sf $(SHARED) "$(PLACE)/lib/$(SONAME)"
	ln -sf $(SONAME) "$(PLACE)/lib/librigbasen.so"
	sed -e 's|@PREFIX@|$(PREFIX)|' -e 's|@VERSION@|$(VERSION)|' packaging/rigbasen.pc.in > "$(PLACE)/lib/pkgconfig/rigbasen.pc"
	chmod 644 "$(PLACE)/lib/pkgconfig/rigbasen.pc"
	install -m 644 $(BUILT)/include/rigbasen.h "$(PLACE)/include/"
	install -m 644 $(BUILT)/share/man/man1/rigbasen.1 "$(PLACE)/share/man/man1/"
	for page in $(PAGES); do install -m 644 "$(BUILT)/$(DOC)/$$page" "$(PLACE)/$(DOC)/$$page" || exit 1; done

uninstall:
	cd "$(PLACE)/lib" && rm -f librigbasen.a $(SHARED) $(SONAME) librigbasen.so pkgconfig/rigbasen.pc
	cd "$(PLACE)" && rm -f bin/rigbasen include/rigbasen.h share/man/man1/rigbasen.1
	cd "$(PLACE)/$(DOC)" && rm -f $(PAGES) && rmdir docs examples && cd .. && rmdir rigbasen

# ---- For sites without the kit and without a compiler.

target/bundle/programs/checklist_calls: examples/checklist_calls.c $(CHECKLIST_HEADERS) $(ARCHIVE)
	@mkdir -p $(@D)
	$(COMPILE) $(LDFLAGS) -o $@ examples/checklist_calls.c $(ARCHIVE)

target/bundle/programs/checklist_site: $(LINE_SOURCES) $(CHECKLIST_HEADERS) $(ARCHIVE)
	@mkdir -p $(@D)
	$(COMPILE) -Iexamples $(LDFLAGS) -o $@ $(LINE_SOURCES) $(ARCHIVE)

bundle: $(PACKAGE) $(PRINTER) $(CHECKLIST)
	packaging/make_bundle $(VERSION) '$(GATE)'

clean:
	rm -rf $(BUILT) target/bundle

.DELETE_ON_ERROR:
.PHONY: all help proved install uninstall bundle clean
