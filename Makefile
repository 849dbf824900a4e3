# The commands of this repository; `make help` lists them. They need the Rattle kit's `rt` on the path, and gcc and g++ for the C side.
# The version of the delivery; include/gm.h and what the programs print for `--version` say it again, and tests/archive.sh and arguments-test hold them equal.
VERSION = 0.4.0
PREFIX = /usr/local
ARCHIVE = target/staticlib/libgm.a
GROUPRUN = target/bin/grouprun
QUIETRUN = target/bin/quietrun
BUILD = target/c
TABLETEXT = $(BUILD)/tabletext
TABLEGEN = $(BUILD)/table
PLAIN = $(BUILD)/plainrun
PLAINLIB = $(BUILD)/libplain.a
MEASURE = $(BUILD)/measure
C99 = $(call needs,gcc)gcc -std=c99 -Wall -Wextra -Werror -pedantic -O2 -Iinclude

SHELL = bash
.SHELLFLAGS = -euo pipefail -c
.DEFAULT_GOAL = help

# what is made by the kit, in a crate's out/, is no source
SOURCES = crates.txt $(shell find crates -name out -prune -o \( -name '*.rt' -o -name '*.antt' \) -print)

# what `make install` places, and where below PREFIX; of the documents those that the header and the manual pages send a reader to, and what these link to
PROGRAMS = $(GROUPRUN) $(QUIETRUN) $(TABLETEXT)
HEADERS = $(wildcard include/*.h)
MANUALS = man/grouprun.1 man/quietrun.1 man/tabletext.1
LIBRARY_MANUALS = man/gm.3
PACKAGES = lib/pkgconfig/gm.pc lib/cmake/gm/gm-config.cmake lib/cmake/gm/gm-config-version.cmake
DOCUMENTS = CHANGELOG.md $(addprefix docs/,CLAIMS.md DECISIONS.md DEMANDS.md LIMITS.md SAFETY.md)
HOSTS = host card
EXAMPLES = $(foreach host,$(HOSTS),examples/$(host).c examples/$(host).out) $(wildcard examples/p* examples/quiet.*)
below = $(addprefix $(1)/,$(notdir $(2)))
INSTALLED = $(call below,bin,$(PROGRAMS)) lib/libgm.a $(HEADERS) $(PACKAGES) $(call below,share/man/man1,$(MANUALS)) \
    $(call below,share/man/man3,$(LIBRARY_MANUALS)) $(call below,share/doc/gm,$(DOCUMENTS)) $(call below,share/doc/gm/examples,$(EXAMPLES))
TO = $(DESTDIR)$(PREFIX)

# in the order of `make help`: first the commands, then the parts of `test` and of `load`; the line above a target is what `make help` says of it
.PHONY: help run archive host test tests evidence trace edits install uninstall compare bench stack load load-full
.PHONY: format trace-test commands-test archive-test series-test heartbeats-test quiet-test vectors-test badinput-test examples-test text-test arguments-test install-test compare-test load-test load-program load-archive

# a command that is needed and not there is named in one sentence, before anything is done
called_rt = the Rattle kit
without_rt = ; an installed grouprun or libgm.a needs no kit
needs = $(foreach command,$(1),$(if $(shell command -v $(command) || true),,\
    $(error this needs $(or $(called_$(command)),$(command)): there is no command $(command) on the path$(without_$(command)))))
# what these use only after minutes, when the archive or the program is made
asked = $(if $(filter $(1),$(MAKECMDGOALS)),$(2))
$(call needs,$(call asked,run host stack archive-test series-test heartbeats-test quiet-test bench install,gcc) $(call asked,archive-test,g++) $(call asked,compare compare-test bench,cargo))

# this list
help:
	@awk '/^\.PHONY:/ { name[++n] = ""; for (i = 2; i <= NF; i++) name[++n] = $$i } \
	    /^# / { text = substr($$0, 3); next } \
	    match($$0, /^[a-z-]+:/) && text != "" { said[substr($$0, 1, RLENGTH - 1)] = text } \
	    { text = "" } \
	    END { for (i = 2; i <= n; i++) print name[i] == "" ? "" : sprintf("make %-15s %s", name[i], said[name[i]]) }' Makefile

# build the program grouprun, and print the run of the product paper: its table is made from a text, its lines must be the paper's
run: $(GROUPRUN) $(TABLETEXT)
	@$(TABLETEXT) table <examples/p1.txt >$(BUILD)/p1.tab
	@$(GROUPRUN) <$(BUILD)/p1.tab | tee $(BUILD)/p1.out
	@diff examples/p1.out $(BUILD)/p1.out
	@echo "make run: this is the run of examples/p1.txt, line by line the paper's; a text of your own:" \
	    "$(TABLETEXT) table <my.txt >my.tab && $(GROUPRUN) <my.tab" >&2

# what `make test` runs after the gate: what needs no archive, then what the archive and the programs are tested by, last what takes longest
FIRST_TESTS = format trace-test commands-test
BUILT_TESTS = archive-test series-test heartbeats-test quiet-test host run examples-test vectors-test badinput-test text-test arguments-test install-test
LONG_TESTS = compare-test load-test
# whether make was given an option of one letter
option = $(findstring $1,$(filter-out -%,$(firstword $(MAKEFLAGS))))

# the gate, `rt ci` (everything proved, every wrong edit tried, every program run), and then all tests; the last line is 'N passed, 0 failed'
test:
	@$(if $(call option,i),$(error make test ends with the first test that fails: run it without -i))\
	    $(call needs,rt cargo gcc g++ git script).ci/run

# those tests of `test` that come after its gate; archive and programs are built first where they are not there
tests:
	@$(MAKE) --no-print-directory --silent -j2 --output-sync $(FIRST_TESTS)
	@$(MAKE) --no-print-directory --silent archive $(PROGRAMS)
	@$(MAKE) --no-print-directory -j2 --output-sync $(BUILT_TESTS)
	@$(MAKE) --no-print-directory -j2 --output-sync $(LONG_TESTS) | $(if $(call option,n),cat,tee log/compared.log)
	@tools/evidence.sh passed "$(FIRST_TESTS) $(BUILT_TESTS) $(LONG_TESTS)" $(ARCHIVE) $(HEADERS) $(PROGRAMS)

# one text, evidence.txt, for the record of a delivery: kit, commit, sums, and what the last `make test` tested, proved, refused and compared
evidence: $(if $(wildcard log/gate.log),$(ARCHIVE) $(PROGRAMS))
	@$(call needs,rt git)tools/evidence.sh $(VERSION) $(ARCHIVE) $(HEADERS) $(PROGRAMS)

# five units run the example of the paper through frames with drive bytes on both channels, beside gm_cycle and over a bus with damage; then drive cards on register blocks; both in both modes
host: archive
	@mkdir -p $(BUILD)
	@for host in $(HOSTS); do $(C99) examples/$$host.c $(ARCHIVE) -o $(BUILD)/$$host && $(BUILD)/$$host | tee $(BUILD)/$$host.out && \
	    diff examples/$$host.out $(BUILD)/$$host.out || exit 1; done
	@for host in $(HOSTS); do $(C99) -DMODE=GM_MODE_QUIET examples/$$host.c $(ARCHIVE) -o $(BUILD)/$$host.quiet && \
	    diff <(grep -v damaged examples/$$host.out) <($(BUILD)/$$host.quiet | grep -v damaged) || exit 1; done

# prove the library, and build the archive that a host links with include/gm.h, for every x86-64 processor
archive: $(ARCHIVE)

$(ARCHIVE): $(SOURCES)
	@$(call needs,rt)tools/kit.sh archive "up to 30 minutes on two cores" crates/gm_c rt lib --cpu x86-64
	@install -D -m 644 crates/gm_c/out/libgm_c.a $@

# header and archive agree
archive-test: archive
	@tests/archive.sh $(ARCHIVE) $(BUILD)

# the stored series of steps on register blocks give their stored statuses, values and blocks
series-test: archive
	@mkdir -p $(BUILD)
	@$(C99) tests/series.c $(ARCHIVE) -o $(BUILD)/series
	@$(BUILD)/series tests/vectors/t01/series.txt

# the stored calls that write, send, read and receive heartbeats give their stored statuses, results, frames and drive bytes
heartbeats-test: archive
	@mkdir -p $(BUILD)
	@$(C99) tests/heartbeats.c $(ARCHIVE) -o $(BUILD)/heartbeats
	@$(BUILD)/heartbeats tests/vectors/t02/heartbeats.txt

# the stored votes, decisions, cycles of a row and heartbeats in both modes give their stored statuses, results and bytes
quiet-test: archive
	@mkdir -p $(BUILD)
	@$(C99) tests/quiet.c $(ARCHIVE) -o $(BUILD)/quiet
	@$(BUILD)/quiet $(addprefix tests/vectors/t03/,decide.txt cycle.txt heartbeat.txt)

# the programs that print the run of a table, of a press that votes in every cycle and of a quiet one
$(GROUPRUN) $(QUIETRUN): $(SOURCES)
	@$(call needs,rt)tools/kit.sh $(@F) "up to 40 minutes on two cores" crates/$(@F) rt run >/dev/null </dev/null
	@install -D -m 755 -t $(@D) crates/$(@F)/out/$(@F)

# tables as readable text, and back
$(TABLETEXT): tools/tabletext.c include/gm.h
	@mkdir -p $(BUILD)
	@$(C99) $< -o $@

$(TABLEGEN): bench/table.c
	@mkdir -p $(BUILD)
	@$(C99) $< -o $@

$(MEASURE): bench/measure.c
	@mkdir -p $(BUILD)
	@$(C99) $< -o $@

$(PLAIN): $(wildcard bench/plain/*)
	@mkdir -p $(BUILD)
	@$(C99) -O3 $(addprefix bench/plain/,grouprun.c cluster.c records.c) -o $@

# the entries of gm.h in plain C
$(PLAINLIB): $(wildcard bench/plain/*)
	@mkdir -p $(BUILD)/plain
	@for part in frames node registers cluster records rows; do $(C99) -O3 -c bench/plain/$$part.c -o $(BUILD)/plain/$$part.o || exit 1; done
	@rm -f $@ && ar rcs $@ $(addprefix $(BUILD)/plain/,frames.o node.o registers.o cluster.o records.o rows.o)

# the stored tables give their stored runs
vectors-test: $(GROUPRUN) $(QUIETRUN)
	@tests/vectors.sh $(GROUPRUN) $(QUIETRUN)

# cut, changed and random input is answered as by plain C
badinput-test: $(GROUPRUN) $(QUIETRUN) $(PLAIN) $(TABLEGEN) $(TABLETEXT)
	@tests/badinput.sh $(GROUPRUN) $(TABLEGEN) $(BUILD) $(PLAIN)
	@tests/badinput.sh $(QUIETRUN) $(TABLEGEN) $(BUILD) $(PLAIN) quiet

# the examples of the product paper and of a quiet press print their runs
examples-test: $(GROUPRUN) $(QUIETRUN) $(TABLETEXT)
	@tests/examples.sh $(GROUPRUN) $(QUIETRUN) $(TABLETEXT)

# texts and tables turn into each other and back
text-test: $(TABLETEXT)
	@tests/text.sh $(TABLETEXT) $(BUILD)

# arguments are answered, and read no table; on a terminal there is a hint; the manual pages' examples print what stands there
arguments-test: $(GROUPRUN) $(QUIETRUN) $(TABLETEXT)
	@tests/arguments.sh $(GROUPRUN) $(TABLETEXT) $(VERSION) $(BUILD)
	@tests/arguments.sh $(QUIETRUN) $(TABLETEXT) $(VERSION) $(BUILD)
	@tests/pages.sh $(GROUPRUN) $(QUIETRUN) $(TABLETEXT) $(BUILD)

# the program with slow, closed, full and failing ends and a table of BYTES bytes; the archive in threads and under memory checkers
load: load-program load-archive

# load in less time
load-test: export BYTES = 16777216
load-test: export CYCLES = 200
load-test: load

# load with more bytes than 32 bits count, where every part must run
load-full: export BYTES = 4300000000
load-full: export ALL = 1
load-full: load

# load of the program alone
load-program: $(GROUPRUN) $(PLAIN) $(TABLEGEN) $(TABLETEXT) $(MEASURE)
	@tests/load.sh $(GROUPRUN) $(PLAIN) $(TABLEGEN) $(BUILD)

# load of the archive alone
load-archive: archive $(TABLEGEN)
	@tests/memory.sh $(ARCHIVE) $(TABLEGEN) $(BUILD)

# every entry, the printed runs, demand 3 and presses of the node entries, in both modes, beside an implementation of the paper in plain Rust (needs cargo)
compare: archive $(GROUPRUN) $(QUIETRUN)
	@tests/host.sh

# a share of compare, in less time
compare-test: export CALLS = 500000
compare-test: export PRESSES = 500
compare-test: export TABLES = 500
compare-test: compare

# one table of times: archive and programs beside that implementation in Rust and beside plain C at -O3 (needs cargo)
bench: archive $(GROUPRUN) $(QUIETRUN) $(PLAIN) $(PLAINLIB) $(TABLEGEN) $(MEASURE)
	@bench/speed.sh $(GROUPRUN) $(QUIETRUN) $(PLAIN) $(TABLEGEN) $(MEASURE) $(BUILD)

# the deepest stack of an entry, in bytes: as a walk of the archive's code finds it, with the functions that go so deep, and as sampled
stack: archive
	@tests/stack.sh $(ARCHIVE) $(BUILD) -v

# lays out every file by `rt fmt`, and fails if one was not so already, as the gate does
format:
	@$(call needs,rt)said=$$(for crate in crates/*/; do (cd $$crate && rt fmt) | sed -n "s|^rt: formatted |$$crate|p" || exit 1; done); \
	    [ -z "$$said" ] || { printf 'these files were not in the layout, and now are:\n%s\n' "$$said" >&2; exit 1; }

# docs/TRACE.html, TRACE for a browser: every name is a link to its file and line
trace:
	@tools/trace.sh

# TRACE names what is there, every wrong edit what refuses it, and its page leads there; DEMANDS quotes what is there; what is listed by hand is whole
trace-test: trace
	@tests/trace.sh
	@tests/links.sh
	@tests/lists.sh
	@tests/demands.sh

# It reads what the gate said and proves nothing; no part of `test`: the gate asks that each edit is refused, and this where.
# after `make test`: each wrong edit was refused first by the law or contract that it names
edits:
	@tests/edits.sh

# programs, library, manual pages, documents and examples below PREFIX; DESTDIR stands before it where a package is made
install: $(PROGRAMS) $(ARCHIVE)
	@case "$(PREFIX)" in /*) ;; *) echo "PREFIX is '$(PREFIX)', not an absolute path" >&2; exit 1 ;; esac
	install -D -m 755 -t "$(TO)/bin" $(PROGRAMS)
	install -D -m 644 -t "$(TO)/lib" $(ARCHIVE)
	install -D -m 644 -t "$(TO)/include" $(HEADERS)
	install -D -m 644 -t "$(TO)/share/man/man1" $(MANUALS)
	install -D -m 644 -t "$(TO)/share/man/man3" $(LIBRARY_MANUALS)
	install -D -m 644 -t "$(TO)/share/doc/gm" $(DOCUMENTS)
	install -D -m 644 -t "$(TO)/share/doc/gm/examples" $(EXAMPLES)
	for file in $(PACKAGES); do install -D -m 644 "packages/$${file##*/}.in" "$(TO)/$$file" && \
	    sed -i -e 's|@PREFIX@|$(PREFIX)|' -e 's|@VERSION@|$(VERSION)|' "$(TO)/$$file" || exit 1; done

# takes away the files that install places, and the folders that are its own
uninstall:
	rm -f $(foreach file,$(INSTALLED),"$(TO)/$(file)")
	for folder in share/doc/gm/examples share/doc/gm lib/cmake/gm; do \
	    [ ! -d "$(TO)/$$folder" ] || rmdir --ignore-fail-on-non-empty "$(TO)/$$folder"; done

# these commands as a new user meets them: help, progress, what is missing, evidence
commands-test:
	@tests/commands.sh

# an installation is whole, is enough for a host, and goes away again
install-test: $(PROGRAMS) $(ARCHIVE)
	@tests/install.sh
