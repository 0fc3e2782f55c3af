# `make run` and `make test` set up all that they need; the first build proves every crate. `make help` says what each target does.
SHELL := /bin/bash
.SHELLFLAGS := -eu -o pipefail -c
.DELETE_ON_ERROR:
.DEFAULT_GOAL := help
.NOTPARALLEL:
.PHONY: help build run demo quick recipes test gate wrong install deb dist bench clean

PREFIX ?= /usr/local
DESTDIR ?=
# any: another kit than RATTLE_KIT's is told of, and taken
KIT ?=

# the program, and the tools of the tests and measurements, which aren't installed
program := crates/pgsess/out/pgsess
trials := crates/trials/out/trials
scram_parts := crates/scram_parts/out/scram_parts
tools := $(trials) crates/oom_probe/out/oom_probe crates/view_dump/out/view_dump $(scram_parts)
sources := crates.txt $(shell find crates -name out -prune -o -name must-fail -prune -o \( -name '*.rt' -o -name '*.antt' \) -print)

define help_text
pgsess: what make does, and what it costs on four processors. Where the kit keeps what it proved, what is unchanged takes seconds the next
time; else all is proved anew. RT_JOBS=N says how many are proved side by side, KIT=any takes another Rattle kit than RATTLE_KIT names.

  make demo       shows the pool before a PostgreSQL, by a program that is built and NOT proved      2 to 5 minutes
  make quick      the layout, and every test before any proof; CRATES="base_tests .." some           5 to 15 minutes
  make run        shows it before a stand-in server, by the proved program; KEEP=1 leaves it up      proves first
  make build      proves and builds build/pgsess                                                     an hour and a half of processor time, once
  make install    that, and puts it in PREFIX, /usr/local, with its pages; DESTDIR as usual          proves first
  make deb        that, and makes a Debian package in build/                                         proves first
  make dist       a release in build/dist: the package, a tar, their checksums                       proves first
  make test       the gate: every proof, edits that must be refused, every test                      three hours of processor time
  make wrong      the wrong versions that the gate leaves out; CRATES="mini_sql .." some             hours for all, minutes for a crate
  make recipes    the recipes that install HAProxy and stunnel; PROGRAM=build/pgsess                 some 2 minutes; proves first
  make bench      measurements beside PgBouncer, which it installs                                   proves first
  make clean      takes away build/ and what crates keep
endef

help:
	@: $(info $(help_text))

# each as `rt ci` or an earlier build left it; else proved and built now
$(program) $(tools): $(sources)
	@tools/kit.sh $(KIT)
	@tools/prove.py $(notdir $@)
	@touch $@
	@echo "built $@ ($$(date +%T))"

build/pgsess: $(program)
	@mkdir -p build
	@cp $(program) $@.new
	@mv $@.new $@
	@echo "$@ is there"

build: build/pgsess

# the product: a pool before a stand-in server, and two clients one after the other over one link. KEEP=1 leaves it running
run: build/pgsess
	@shows/show.py build/pgsess $(if $(KEEP),--keep)

# the same over a real PostgreSQL, by a program that is built and not proved
demo:
	@tools/kit.sh any
	@shows/demo.py

# all that can be tried before a proof
quick:
	@tools/kit.sh any
	@tools/quick.py $(CRATES)

# the recipes that need HAProxy and stunnel, which they install; the others are in the gate
recipes: $(or $(PROGRAM),build/pgsess)
	@tests/run recipes --pgsess $< -- --installed

# the whole gate, what each crate took, and what all of it took: by the clock, and of processor time in user and system
test:
	@TIMEFORMAT='make test took %lR by the clock, and %lU + %lS of processor time'; time $(MAKE) --no-print-directory gate

# its steps, what is written from a table and what wrong versions quote first; rt ci leaves the programs that it proved and built. Its own guess of a check's memory is four times what the largest
# crate's takes, and would let that crate wait until nothing else runs; so it is told how many checks run side by side
gate:
	@tools/kit.sh any
	@tools/settings.py
	@tools/wrong.py --fits
	RT_JOBS=$$(tools/jobs.sh) tools/times.py rt ci
	@$(MAKE) --no-print-directory $(program) $(tools)
	tests/run

# the wrong versions of functions that aren't tried by the gate; CRATES names some crates. It is no part of `test`: on top of the
# gate it would need each library built once more, which takes longer than all edits. Run it before a crate lands
wrong:
	@tools/kit.sh $(KIT)
	@tools/wrong.py $(CRATES)

install: build/pgsess
	install -d "$(DESTDIR)$(PREFIX)/bin"
	install -m 755 build/pgsess packaging/pgsess-run "$(DESTDIR)$(PREFIX)/bin"
	install -D -m 644 man/pgsess.1 "$(DESTDIR)$(PREFIX)/share/man/man1/pgsess.1"
	install -D -m 644 man/pgsess-run.1 "$(DESTDIR)$(PREFIX)/share/man/man1/pgsess-run.1"
	install -D -m 644 man/pgsess.ini.5 "$(DESTDIR)$(PREFIX)/share/man/man5/pgsess.ini.5"
	install -D -m 644 packaging/pgsess.bash "$(DESTDIR)$(PREFIX)/share/bash-completion/completions/pgsess"

# a Debian package of the built program, in build/
deb: build/pgsess
	tools/deb.sh build/pgsess build

# what a release is: the package, a tar, and their checksums, in build/dist
dist: build/pgsess
	tools/dist.sh build/pgsess build/dist

# all run; the status says whether a bound was missed
bench: build/pgsess $(trials) $(scram_parts)
	@status=0; \
	bench/replay.py build/pgsess || status=$$?; \
	bench/tables.py build/pgsess || status=$$?; \
	bench/relay.py $(trials) || status=$$?; \
	bench/book.py $(trials) || status=$$?; \
	tests/program/calls.py build/pgsess || status=$$?; \
	bench/derivations.py build/pgsess || status=$$?; \
	bench/scram.py build/pgsess || status=$$?; \
	bench/restart.py build/pgsess || status=$$?; \
	bench/shows.py build/pgsess || status=$$?; \
	bench/pool.py build/pgsess || status=$$?; \
	tests/program/scram.py $(scram_parts) --whole || status=$$?; \
	exit $$status

clean:
	rm -rf build crates/*/out
