# Everything is built by the Rattle kit's `rt`, which proves what it builds. See README.md.
PREFIX ?= /usr/local
DESTDIR ?=
export PREFIX DESTDIR

.PHONY: all test install uninstall

# `rt` runs alone in a clone
.NOTPARALLEL:

# half an archive is none
.DELETE_ON_ERROR:

all:
	rt all check
	$(MAKE) $(PROGRAMS:%=target/bin/%)

test: all
	tests/plan/run
	tests/host/run
	tests/install/run
	tests/examples/run
	tests/requests/run

# A program or an archive is built, and what is not proved yet is proved, only where something that it is made of is newer; a folder is newer where
# a file was taken away.
SOURCES := crates.txt $(shell find crates/*/src crates/*/specs crates/*/proofs -type d -o -name '*.rt' -o -name '*.antt' 2> /dev/null)
PROGRAMS := plan superframe fixed

target/staticlib/lib%.a: $(SOURCES)
	tools/build $*

$(PROGRAMS:%=target/bin/%): target/bin/%: $(SOURCES)
	tools/build $*

# What is installed: the programs, the library for C with its header and pkg-config file, a manual page of each.
FILES := $(PROGRAMS:%=bin/%) include/rembasuk.h lib/librembasuk.a lib/pkgconfig/rembasuk.pc $(PROGRAMS:%=share/man/man1/%.1) share/man/man3/rembasuk.3

# The shell gets the prefix from its environment, whatever signs are in it, and begins it at the root: the pkg-config file is read anywhere.
PLACES = set -eu; case "$$PREFIX" in '' | /*) prefix=$$PREFIX ;; *) prefix=$$(pwd)/$$PREFIX ;; esac; to=$$DESTDIR$$prefix

# From a fresh clone: make install PREFIX=..
install: target/staticlib/libplanner.a $(PROGRAMS:%=target/bin/%)
	@$(PLACES); \
	for file in $(FILES); do install -d "$$to/$$(dirname "$$file")"; done; \
	for program in $(PROGRAMS); do \
		install -m 755 "target/bin/$$program" "$$to/bin/$$program"; \
		install -m 644 "man/$$program.1" "$$to/share/man/man1/$$program.1"; \
	done; \
	install -m 644 include/rembasuk.h "$$to/include/rembasuk.h"; \
	install -m 644 target/staticlib/libplanner.a "$$to/lib/librembasuk.a"; \
	install -m 644 man/rembasuk.3 "$$to/share/man/man3/rembasuk.3"; \
	version=$$(sed -n 's/^#define REMBASUK_VERSION_[A-Z]* \([0-9][0-9]*\)$$/\1/p' include/rembasuk.h | paste -s -d . -); \
	quoted=$$(printf '%s\n' "$$prefix" | sed "s/[][ \\\\'\"(){}<>|&;*?~\`#]/\\\\&/g"); \
	{ printf 'prefix=%s\n' "$$quoted"; cat include/rembasuk.pc.in; printf 'Version: %s\n' "$$version"; } > "$$to/lib/pkgconfig/rembasuk.pc"; \
	chmod 644 "$$to/lib/pkgconfig/rembasuk.pc"; \
	echo "installed below $$to: $(FILES)"

# takes away the files of `install`, with the same prefix; folders stay
uninstall:
	@$(PLACES); for file in $(FILES); do rm -f "$$to/$$file"; done
