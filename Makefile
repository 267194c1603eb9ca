# The library, the programs and their installation, for GNU make 4.3 or newer. `make help` lists the targets.
# Proofs are rt's (the Rattle toolchain): scripts/prove runs it, and says one line for each crate that is proved.

# One archive is made of these libraries; each has the exports of its own crate.
LIBRARIES = players c_sheet c_search_c c_text c_show c_cart c_walk
PROGRAMS = compare verdict pack unpack import durations cart
VERSION = 0.1.0

PREFIX ?= /usr/local
prefix = $(PREFIX)
exec_prefix = $(prefix)
bindir = $(exec_prefix)/bin
libdir = $(exec_prefix)/lib
includedir = $(prefix)/include
pkgconfigdir = $(libdir)/pkgconfig

INSTALL = install
INSTALL_PROGRAM = $(INSTALL) -m 755
INSTALL_DATA = $(INSTALL) -m 644

archives = $(LIBRARIES:%=target/staticlib/lib%.a)
programs = $(PROGRAMS:%=target/bin/%)

# rt works in crates/NAME/out, and each crate waits for those that it uses: one recipe at a time.
.NOTPARALLEL:
# What a stopped run has made stays; scripts/prove makes each of them whole or not at all.
.PRECIOUS: $(archives) $(programs)
.PHONY: all lib programs test bench install uninstall clean help
unexport CDPATH

all: lib programs ## the library and the programs (the default)

lib: target/lib/libfdfa.a ## target/lib/libfdfa.a, for C

programs: $(programs) ## target/bin/ with compare, verdict, pack, unpack, import, durations, cart

$(archives) &: $(shell scripts/sources $(LIBRARIES))
	@scripts/prove libraries $(LIBRARIES)

target/lib/libfdfa.a: $(archives)
	@mkdir -p $(@D)
	@scripts/archive $@ $(archives)
	@echo 'made $@'

$(programs) &: $(shell scripts/sources $(PROGRAMS))
	@scripts/prove programs $(PROGRAMS)
	@echo 'made $(programs)'

test: ## the gate: proves all from nothing, tries the must-fail edits, runs all tests
	.ci/run

bench: ## the library's speed beside that of the independent implementation
	bench/run

install: all ## to PREFIX (/usr/local), below DESTDIR
	@case '$(prefix)' in /*) ;; *) echo "PREFIX is not an absolute path: '$(prefix)'" >&2; exit 2 ;; esac
	umask 022 && mkdir -p '$(DESTDIR)$(bindir)' '$(DESTDIR)$(libdir)' '$(DESTDIR)$(includedir)' '$(DESTDIR)$(pkgconfigdir)'
	$(INSTALL_DATA) target/lib/libfdfa.a '$(DESTDIR)$(libdir)/libfdfa.a'
	$(INSTALL_DATA) include/fdfa.h '$(DESTDIR)$(includedir)/fdfa.h'
	@echo "writing '$(DESTDIR)$(pkgconfigdir)/fdfa.pc'"
	@umask 022 && printf '%s\n' 'prefix=$(prefix)' \
	    'libdir=$(subst $(prefix)/,$${prefix}/,$(libdir))' \
	    'includedir=$(subst $(prefix)/,$${prefix}/,$(includedir))' '' \
	    'Name: fdfa' \
	    'Description: Verified calls on rule sheets (families of DFAs) and the shows that they admit' \
	    'Version: $(VERSION)' \
	    'Cflags: -I"$${includedir}"' \
	    'Libs: -L"$${libdir}" -lfdfa' >'$(DESTDIR)$(pkgconfigdir)/fdfa.pc'
	for program in $(PROGRAMS); do \
	    $(INSTALL_PROGRAM) target/bin/$$program '$(DESTDIR)$(bindir)'/fdfa-$$program || exit; \
	done
	$(INSTALL_PROGRAM) scripts/fdfa '$(DESTDIR)$(bindir)/fdfa'

uninstall: ## removes what install put there; folders stay
	rm -f '$(DESTDIR)$(libdir)/libfdfa.a' '$(DESTDIR)$(includedir)/fdfa.h' '$(DESTDIR)$(pkgconfigdir)/fdfa.pc'
	rm -f $(PROGRAMS:%='$(DESTDIR)$(bindir)'/fdfa-%) '$(DESTDIR)$(bindir)/fdfa'

clean: ## removes target/, and what rt keeps in crates/*/out
	rm -rf target crates/*/out

help: ## this list
	@sed -n 's/^\([a-z]*\):.*## \(.*\)/\1|\2/p' Makefile | while IFS='|' read -r name text; do printf '%-10s %s\n' "$$name" "$$text"; done
