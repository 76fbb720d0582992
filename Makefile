# Targets of the repository; README.md names the two that a newcomer needs (demo, test).
# The proved library is compiled for x86-64. On another processor the command is built by Debian's cross compiler and run
# under an emulator; build/run is the same word on both.
VERSION = 6.0
PREFIX = /usr/local
DESTDIR =

machine := $(shell uname -m)
tools = tests/tools
ifeq ($(machine),x86_64)
CC_FOR = cc
LINK =
else
CC_FOR = x86_64-linux-gnu-gcc
LINK = -static
endif
CFLAGS = -std=gnu11 -O2 -Wall -Wextra -Wconversion -Iinclude
# what the library is made from: a change of any of these makes it anew
sources = crates.txt $(shell find crates \( -name must-fail -o -name out \) -prune -o -type f -print)
# as many checks at a time as there are processors, and 4 GB for each
checks = $(shell awk -v n="$$(nproc)" '/^MemAvailable/ { m = int($$2 / 4000000); print m < 1 ? 1 : m < n ? m : n }' /proc/meminfo)
command = $(wildcard command/*.c command/*.h) include/brithelva.h

.PHONY: all test quick left-out style reference reference-itself reference-cases cases demo library command safety checked checked-command checked-safety kill steps limits transcript largest example bench fuzz install uninstall clean

all: build/run

# `rt all check` proves several crates at a time; `rt lib` decides, proves one after the other what is left, and compiles
build/libbrithelva.a: $(sources)
	@mkdir -p build
	@echo 'proving the library and compiling it: many minutes the first time'
	@rt all check --jobs $(checks) >build/library.log 2>&1 || true
	@cd crates/brithelva_c && rt lib >>../../build/library.log 2>&1 || { cat ../../build/library.log; exit 1; }
	@cp crates/brithelva_c/out/libbrithelva_c.a $@

build/brithelva: build/libbrithelva.a $(command) Makefile
	@$(tools) $(CC_FOR)
	@$(CC_FOR) $(CFLAGS) $(LINK) -DBRITHELVA_VERSION='"$(VERSION)"' $(filter %.c,$(command)) build/libbrithelva.a -o $@

build/run: build/brithelva
	@$(tools) run $(CURDIR)/build/brithelva >$@
	@chmod +x $@

# ---- the main job: a sample packed, damaged, shuffled with noise, collected, handed out and compared
demo: build/run
	@tests/demo build/run

# ---- tests. `test` is the gate: what shows a fault in seconds, then every proof and every wrong edit (`rt ci`), then what runs on the
# proved library. tests/gate runs these parts one by one, and beside each other what a + joins; its last line counts what passed.
before = style reference
in_c = library command safety+kill limits+transcript example fuzz+largest+steps
ifeq ($(machine),x86_64)
in_c += checked
endif
c_parts = if $(tools) $(CC_FOR) >&2; then echo $(in_c); else echo left-out; fi

test:
	@tests/gate $(before) ci cases $$($(c_parts))

# all that is no proof, in a few minutes once the library is there
quick: $(before)
	@$(MAKE) --no-print-directory $$($(c_parts) | tr + ' ')

left-out:
	@echo 'no C compiler for x86-64 can be had here: the tests in C are left out'

style:
	@tests/style-test
	@tests/gate-test
	@tests/style

# the second program: its own tests, and its output beside that of the program `cases`
reference:
	@$(MAKE) --no-print-directory -j2 reference-itself reference-cases
reference-itself:
	@reference/test.py
reference-cases:
	@reference/compare

# the proved program `cases` on random files of cases, which the second program answers; its own file of cases is run by every `rt ci`
cases: build/cases
	@tests/random-cases build/cases

# where `rt ci` has made it, the gate puts it here
build/cases: $(sources)
	@mkdir -p build
	@cd crates/cases && rt run <stdin >../../build/cases.stdout 2>../../build/cases.log || { cat ../../build/cases.log; exit 1; }
	@cmp build/cases.stdout crates/cases/stdout
	@cp crates/cases/out/cases $@

# the library, and on x86-64 the one that a fuzzer sees into, for which `rt` proves `brithelva_c` itself once more, and nothing below it
library: build/libbrithelva.a
ifeq ($(machine),x86_64)
library: build/watched.a
endif

command: build/run
	@tests/demo build/run
	@tests/command build/run

# the command on a disk that rots and fills up, with closed descriptors, streams and odd outputs
safety: build/run
	@tests/safety build/run

checked: build/checked
	@$(MAKE) --no-print-directory -j2 checked-command checked-safety
checked-command:
	@ASAN_OPTIONS=detect_leaks=0 tests/command build/checked
checked-safety:
	@ASAN_OPTIONS=detect_leaks=0 tests/safety build/checked

# the command with its own faults looked for at run time
build/checked: build/libbrithelva.a $(command)
	@$(CC_FOR) $(CFLAGS) -g -fsanitize=address,undefined -fno-sanitize-recover=all -DBRITHELVA_VERSION='"$(VERSION)"' $(filter %.c,$(command)) build/libbrithelva.a -o $@

kill: build/run
	@tests/kill build/run

limits: build/limits
	@$(tools) here build/limits

# random calls of every function: each has to be answered as it was, and to leave the bytes that it left
transcript: build/transcript
	@$(tools) here build/transcript >build/transcript.txt
	@diff tests/transcript.txt build/transcript.txt || { echo 'transcript: not what version 6.0 answered'; exit 1; }
	@echo "transcript: $$(sed -n 's/^all: \([0-9]*\)\([0-9]\{3\}\) calls.*/\1,\2/p' build/transcript.txt) calls answered as version 6.0 answered them"

# every packet of the largest protected file, beside the second program's
largest: build/limits
	@$(tools) here build/limits packets | reference/largest.py

# one instruction at a time, which the emulator does not offer
ifeq ($(machine),x86_64)
steps: build/steps
	@build/steps
else
steps:
	@echo 'steps: skipped, it needs an x86-64 processor'
endif

build/limits build/transcript build/steps: build/%: tests/%.c include/brithelva.h build/libbrithelva.a
	@$(tools) $(CC_FOR)
	@$(CC_FOR) $(CFLAGS) $(LINK) $< build/libbrithelva.a -o $@

# the README's example against an installed library, and the header as C99 and as C++
example: build/run
	@tests/example $(CC_FOR) "$(LINK)"

# SECONDS and SEED say how long and from where; the same seed makes the same calls
SECONDS = 30
SEED = 1
ifeq ($(machine),x86_64)
fuzz: build/watched.a
endif
fuzz: build/run
	@fuzz/run $(SECONDS) $(SEED)

# empty where it cannot be had
build/watched.a: build/libbrithelva.a fuzz/watched $(sources)
	@fuzz/watched $@ >build/watched.log 2>&1 || { echo 'fuzz: the fuzzer does not see into the library here'; : >$@; }

# ---- times beside other libraries, on this machine's own processor
bench:
	@bench/run

install: build/run
	install -d $(DESTDIR)$(PREFIX)/lib/pkgconfig $(DESTDIR)$(PREFIX)/include $(DESTDIR)$(PREFIX)/bin $(DESTDIR)$(PREFIX)/share/man/man1
	install -d $(DESTDIR)$(PREFIX)/share/bash-completion/completions $(DESTDIR)$(PREFIX)/share/doc/brithelva
	install -m 644 build/libbrithelva.a $(DESTDIR)$(PREFIX)/lib/
	install -m 644 include/brithelva.h $(DESTDIR)$(PREFIX)/include/
	sed -e 's|@PREFIX@|$(PREFIX)|' -e 's|@VERSION@|$(VERSION)|' brithelva.pc.in >build/brithelva.pc
	install -m 644 build/brithelva.pc $(DESTDIR)$(PREFIX)/lib/pkgconfig/
	install -m 644 command/brithelva.1 $(DESTDIR)$(PREFIX)/share/man/man1/
	install -m 644 command/brithelva.bash $(DESTDIR)$(PREFIX)/share/bash-completion/completions/brithelva
	install -m 644 docs/ARCHIVE.md $(DESTDIR)$(PREFIX)/share/doc/brithelva/
ifeq ($(machine),x86_64)
	install -m 755 build/brithelva $(DESTDIR)$(PREFIX)/bin/
else
	install -d $(DESTDIR)$(PREFIX)/libexec/brithelva
	install -m 755 build/brithelva $(DESTDIR)$(PREFIX)/libexec/brithelva/
	$(tools) run $(PREFIX)/libexec/brithelva/brithelva >build/installed
	install -m 755 build/installed $(DESTDIR)$(PREFIX)/bin/brithelva
endif

uninstall:
	rm -f $(DESTDIR)$(PREFIX)/lib/libbrithelva.a $(DESTDIR)$(PREFIX)/include/brithelva.h $(DESTDIR)$(PREFIX)/lib/pkgconfig/brithelva.pc
	rm -f $(DESTDIR)$(PREFIX)/share/man/man1/brithelva.1 $(DESTDIR)$(PREFIX)/bin/brithelva
	rm -f $(DESTDIR)$(PREFIX)/share/bash-completion/completions/brithelva $(DESTDIR)$(PREFIX)/share/doc/brithelva/ARCHIVE.md
	rm -rf $(DESTDIR)$(PREFIX)/libexec/brithelva

clean:
	rm -rf build crates/*/out
