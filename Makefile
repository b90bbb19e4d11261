# Builds the libraries and the programs with cc, make and binutils. `make help` lists the targets.
CC ?= cc
OBJCOPY ?= objcopy
CFLAGS ?= -O2 -g
PREFIX ?= /usr/local
BINDIR ?= $(PREFIX)/bin
LIBDIR ?= $(PREFIX)/lib
INCLUDEDIR ?= $(PREFIX)/include
MANDIR ?= $(PREFIX)/share/man
COMPLETIONS ?= $(PREFIX)/share/bash-completion/completions
ifneq ($(filter-out /%,$(PREFIX)),)
$(error PREFIX must be an absolute path)
endif
Q = $(if $(V),,@)
IS_SILENT := $(findstring s,$(firstword -$(MAKEFLAGS)))
say = $(if $(V)$(IS_SILENT),,@printf '  %-4s %s\n' $1 $2)

# rfx and its companions are linked from the objects that Rattle's compiler made of the proved crates.
MACHINE := $(firstword $(subst -, ,$(shell $(CC) -dumpmachine)))
PROGRAMS = rfx rfx-draw rfx-explain rfx-explore rfx-judge
# programs/launch links others, from objects that it had made, or to another place.
OBJECTS_IN ?= programs/$(MACHINE)
LINK_TO ?= bin
OBJECTS := $(wildcard programs/$(MACHINE)/*.o)
VERSION := $(shell sed -n 's/^.define PZ_VERSION "\(.*\)"/\1/p' lib/pazdrig.h)
DATE := $(shell sed -n 's/^DATE = "\(.*\)".*/\1/p' lib/man/pages)
SONAME = libpazdrig.so.$(firstword $(subst ., ,$(VERSION)))

# A jump that crosses 32 bytes costs some processors up to 7% of a lock and an unlock, so the assembler places jumps if it
# knows how.
FIT = -Wa,-mbranches-within-32B-boundaries
JUMPS := $(shell $(CC) $(FIT) -c -x assembler /dev/null -o /dev/null 2>/dev/null && echo $(FIT))
# No LTO: names are taken out of objects.
FLAGS = -std=c11 -D_GNU_SOURCE -Wall -Wextra $(WERROR) -fPIC -fvisibility=hidden -pthread $(CPPFLAGS) $(CFLAGS) -fno-lto $(JUMPS)
SHARED = $(CC) -shared -pthread -Wl,-Bsymbolic-functions $(CFLAGS) $(LDFLAGS) -Wl,-z,nodelete -Wl,-z,defs

LIBRARY := $(patsubst lib/%.c,out/lib/%.o,$(wildcard lib/*.c))
PRELOAD := $(patsubst lib/preload/%.c,out/preload/%.o,$(wildcard lib/preload/*.c)) out/lib/caller.o
RECORDER := $(patsubst record/preloaded/%.c,out/record/preloaded/%.o,$(wildcard record/preloaded/*.c))
RECORD := $(patsubst record/%.c,out/record/%.o,$(wildcard record/*.c))
# The pages of the library and its calls, which are parts of one file.
CALL_PAGES := $(shell sed -n 's/^.\\" file //p' lib/man/all.man)
# The text of each program: its --help and its man page.
TEXTS := $(wildcard programs/help/*.txt record/*.txt)
PRODUCTS = out/libpazdrig.a out/libpazdrig.so out/pazdrig.pc $(if $(wildcard lib/preload/*.c),out/libpazdrig_pthread.so) \
    $(if $(RECORD),bin/pz-record out/libpz_record.so) $(if $(OBJECTS),$(PROGRAMS:%=bin/%)) \
    out/man/pazdrig.7 $(if $(TEXTS),$(patsubst %.txt,out/man/%.1,$(notdir $(TEXTS))) out/completion)

all: $(PRODUCTS)
	$(if $(OBJECTS),,@echo 'make: no objects of rfx and its companions in programs/$(MACHINE): only libraries and pz-record are built')

help:
	@sed -n 's/^#: //p' Makefile

#: make                  builds the programs in bin/ and the libraries in out/
#: make check            runs all tests, within three and a half minutes on four processors
#: make check-all        runs longer ones: 130,000 deaths, about an hour
#: make install          installs in PREFIX=/usr/local (also BINDIR, LIBDIR, INCLUDEDIR, MANDIR,
#:                       COMPLETIONS, DESTDIR)
#: make uninstall        removes what was installed with the same variables
#: make dist             packs programs, libraries, pages and examples: out/pazdrig-VERSION-MACHINE.tar.gz
#: make speed            measures next to the C library; wants an idle machine
#: make clean            removes out/ and bin/
#: Variables: CC, CFLAGS, CPPFLAGS, LDFLAGS; V=1 shows the commands

# What everything is built with, written only if that has changed.
out/with: FORCE
	@mkdir -p bin out/lib out/preload out/record/preloaded out/programs out/help out/man
	@echo '$(CC) $(FLAGS) $(SHARED)' | cmp -s - $@ || echo '$(CC) $(FLAGS) $(SHARED)' >$@

-include $(wildcard out/*/*.d out/*/*/*.d)

out/lib/%.o: lib/%.c out/with
	$(call say,CC,$<)
	$(Q)$(CC) $(FLAGS) -Ilib -MMD -MP -c $< -o $@

out/preload/%.o: lib/preload/%.c out/with
	$(call say,CC,$<)
	$(Q)$(CC) $(FLAGS) -Ilib -MMD -MP -c $< -o $@

out/record/%.o: record/%.c out/with out/help/pz-record.h
	$(call say,CC,$<)
	$(Q)$(CC) $(FLAGS) -Ilib -Irecord -Iout -MMD -MP -c $< -o $@

# One object, in which only the library's calls can be seen.
out/pazdrig.o: $(LIBRARY) lib/pazdrig.map
	$(Q)sed -n 's/^ *\(pz_[a-z_]*\);$$/\1/p' lib/pazdrig.map >out/shown
	$(Q)$(LD) -r -o out/whole.o $(LIBRARY)
	$(Q)$(OBJCOPY) --keep-global-symbols=out/shown out/whole.o $@

out/libpazdrig.a: out/pazdrig.o
	$(call say,AR,$@)
	$(Q)rm -f $@
	$(Q)$(AR) rcs $@ $<

out/libpazdrig.so.$(VERSION): out/pazdrig.o
	$(call say,LD,$@)
	$(Q)$(SHARED) -Wl,-soname,$(SONAME) -Wl,--version-script=lib/pazdrig.map -o $@ $<

out/libpazdrig.so: out/libpazdrig.so.$(VERSION)
	$(Q)ln -f $< out/$(SONAME)
	$(Q)ln -f $< $@

out/libpazdrig_pthread.so: $(PRELOAD) lib/preload/shown.map
	$(call say,LD,$@)
	$(Q)$(SHARED) -Wl,-z,now -Wl,-soname,$(@F) -Wl,--version-script=lib/preload/shown.map -o $@ $(PRELOAD) -ldl

out/libpz_record.so: $(RECORDER) record/preloaded/shown.map
	$(call say,LD,$@)
	$(Q)$(SHARED) -Wl,-soname,$(@F) -Wl,--version-script=record/preloaded/shown.map -o $@ $(RECORDER) -ldl

bin/pz-record: $(RECORD)
	$(call say,LD,$@)
	$(Q)$(CC) -pthread $(CFLAGS) $(LDFLAGS) -o $@ $^

out/programs/%.o: programs/%.c out/with
	$(call say,CC,$<)
	$(Q)$(CC) $(FLAGS) -MMD -MP -c $< -o $@

out/programs/help-%.o: programs/help.c out/help/%.h out/with
	$(call say,CC,$<)
	$(Q)$(CC) $(FLAGS) -Ilib -Iout -DPROGRAM='"$*"' -DHELP='"help/$*.h"' -MMD -MP -c $< -o $@

# Linked again if this file changes, as it has the words for the linker.
$(LINK_TO)/rfx: $(OBJECTS_IN)/rfx.o out/programs/system.o out/programs/hint.o Makefile
	$(call say,LD,$@)
	$(Q)$(CC) -pthread $(CFLAGS) $(LDFLAGS) -Wl,--wrap=_exit,--wrap=write -o $@ $(filter %.o,$^)

$(LINK_TO)/rfx-%: $(OBJECTS_IN)/rfx-%.o out/programs/system.o out/programs/help-rfx-%.o Makefile
	$(call say,LD,$@)
	$(Q)$(CC) -pthread $(CFLAGS) $(LDFLAGS) -o $@ $(filter %.o,$^)

# A text as a string of C.
out/help/%.h: programs/help/%.txt out/with
	$(Q)sed 's/[\\"]/\\&/g; s/.*/"&\\n"/' $< >$@
out/help/%.h: record/%.txt out/with
	$(Q)sed 's/[\\"]/\\&/g; s/.*/"&\\n"/' $< >$@
out/man/pazdrig.7: lib/man/all.man out/with
	$(Q)rm -f out/man/*.[37]
	$(Q)awk '/^\.\\" file / { page = "out/man/" $$3; next } { print >page }' $<

out/man/%.1: programs/help/%.txt programs/pages lib/pazdrig.h out/with
	$(Q)programs/pages man $(VERSION) $(DATE) $< >$@
out/man/%.1: record/%.txt programs/pages lib/pazdrig.h out/with
	$(Q)programs/pages man $(VERSION) $(DATE) $< >$@
out/completion: $(TEXTS) programs/pages out/with
	$(Q)programs/pages completion $(TEXTS) >$@

# Written each time, as PREFIX may have changed.
out/pazdrig.pc: FORCE
	@mkdir -p out
	@printf '%s\n' 'prefix=$(PREFIX)' \
	    'libdir=$(patsubst $(PREFIX)/%,$${prefix}/%,$(LIBDIR))' \
	    'includedir=$(patsubst $(PREFIX)/%,$${prefix}/%,$(INCLUDEDIR))' \
	    'Name: pazdrig' 'Description: robust mutexes and condition variables in shared memory' \
	    'Version: $(VERSION)' 'Cflags: -I$${includedir}' 'Libs: -L$${libdir} -lpazdrig -pthread' >$@

check: all
	CC='$(CC)' tests/run --quick

check-all: all
	CC='$(CC)' tests/run --long

speed:
	tests/speed/run speed
	tests/speed/run load
	tests/speed/run rwlock

TO = $(DESTDIR)$(BINDIR) $(DESTDIR)$(LIBDIR)/pkgconfig $(DESTDIR)$(INCLUDEDIR) \
    $(addprefix $(DESTDIR)$(MANDIR)/,man1 man3 man7) $(DESTDIR)$(COMPLETIONS)
install: all
	install -d $(TO)
	install -m 644 lib/pazdrig.h lib/pazdrig.hpp $(DESTDIR)$(INCLUDEDIR)
	install -m 644 out/libpazdrig.a $(DESTDIR)$(LIBDIR)
	install -m 755 out/libpazdrig.so.$(VERSION) out/libpazdrig_pthread.so out/libpz_record.so $(DESTDIR)$(LIBDIR)
	install -m 755 $(filter bin/%,$(PRODUCTS)) $(DESTDIR)$(BINDIR)
	ln -sf libpazdrig.so.$(VERSION) $(DESTDIR)$(LIBDIR)/$(SONAME)
	ln -sf $(SONAME) $(DESTDIR)$(LIBDIR)/libpazdrig.so
	install -m 644 out/pazdrig.pc $(DESTDIR)$(LIBDIR)/pkgconfig
	install -m 644 $(patsubst bin/%,out/man/%.1,$(filter bin/%,$(PRODUCTS))) $(DESTDIR)$(MANDIR)/man1
	install -m 644 out/completion $(DESTDIR)$(COMPLETIONS)/pazdrig
	for it in $(notdir $(filter bin/%,$(PRODUCTS))); do ln -sf pazdrig $(DESTDIR)$(COMPLETIONS)/$$it; done
	install -m 644 out/man/*.3 $(DESTDIR)$(MANDIR)/man3
	install -m 644 out/man/*.7 $(DESTDIR)$(MANDIR)/man7

uninstall:
	rm -f $(addprefix $(DESTDIR)$(INCLUDEDIR)/,pazdrig.h pazdrig.hpp) \
	    $(addprefix $(DESTDIR)$(LIBDIR)/,libpazdrig.a libpazdrig.so $(SONAME) libpazdrig.so.$(VERSION) \
	        libpazdrig_pthread.so libpz_record.so pkgconfig/pazdrig.pc) \
	    $(addprefix $(DESTDIR)$(BINDIR)/,$(PROGRAMS) pz-record) \
	    $(addprefix $(DESTDIR)$(COMPLETIONS)/,$(PROGRAMS) pz-record pazdrig) \
	    $(patsubst %,$(DESTDIR)$(MANDIR)/man1/%.1,$(PROGRAMS) pz-record) \
	    $(addprefix $(DESTDIR)$(MANDIR)/man3/,$(filter %.3,$(CALL_PAGES))) \
	    $(addprefix $(DESTDIR)$(MANDIR)/man7/,$(filter %.7,$(CALL_PAGES)))

dist:
	programs/dist $(VERSION) $(MACHINE)

clean:
	rm -rf out bin

.PRECIOUS: out/help/%.h out/programs/help-%.o
FORCE:
.PHONY: all help check check-all speed install uninstall dist clean FORCE
