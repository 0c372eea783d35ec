# make demo               runs check, fill, rects and the deck on examples/ and tells how many windows are low and high (by the
#                         built program, or where there is none unproved, by rt try)
# make quick              builds without proofs, and runs all cases and tests that need none: green before lunch
# make build              proves the program and leaves it, optimized, at bin/densfill
# make install PREFIX=..  installs the built program, its deck, its arrays, manual pages and formats below PREFIX (by default /usr/local)
# make check CRATE=name   proves one crate over what earlier runs kept: for work on it
# make plants CRATE=name  tries the planted bugs that the gate leaves out, of one crate, or without CRATE of all
# make test               the gate: every proof from nothing, the must-fail edits, the tests, the programs, the cases, and the
#                         program with its deck and its arrays run as users do
# make test-klayout       what the deck does in KLayout, in a window on a display of its own and without one
# make test-cluster       a chip of 16 million shapes in parts on a Slurm of two nodes that is set up for it (as root)
# make bench              times the program on generated input and prints tables

.PHONY: demo quick build install check plants test test-klayout test-cluster bench

PREFIX ?= /usr/local
BUILT := crates/densfill/out/densfill

demo:
	@tools/demo.py

quick:
	@tools/quick.py

build:
	@tools/build.py

install: $(if $(wildcard bin/densfill),,build)
	install -D -m 755 bin/densfill $(DESTDIR)$(PREFIX)/bin/densfill
	install -D -m 644 -t $(DESTDIR)$(PREFIX)/share/man/man1 docs/densfill.1 docs/densfill-deck.1 docs/densfill-array.1
	install -D -m 644 -t $(DESTDIR)$(PREFIX)/share/doc/densfill docs/FORMATS.md docs/DECK.md docs/CLUSTER.md
	install -D -m 755 deck/densfill-deck $(DESTDIR)$(PREFIX)/bin/densfill-deck
	install -D -m 644 -t $(DESTDIR)$(PREFIX)/lib/densfill/densfill_deck deck/densfill_deck/*.py
	install -D -m 644 -t $(DESTDIR)$(PREFIX)/lib/densfill/klayout deck/klayout/*
	install -D -m 755 cluster/densfill-array $(DESTDIR)$(PREFIX)/bin/densfill-array
	install -D -m 644 -t $(DESTDIR)$(PREFIX)/lib/densfill/densfill_array cluster/densfill_array/*.py

check:
	cd crates/$(CRATE) && rt check

plants:
	@tools/plants.py $(CRATE)

test:
	tools/count_plants.py
	RT_JOBS=$$(tools/lanes.py) rt ci
	tools/demo.py
	tools/test_designs.py
	tools/test_cases.py $(BUILT)
	tools/test_program.py $(BUILT)
	tools/refuse.py $(BUILT)
	tools/test_layers.py $(BUILT)
	tools/test_parts.py $(BUILT)
	tools/test_verify.py $(BUILT)
	tools/storm.py $(BUILT)
	deck/test_deck.py $(BUILT)
	cluster/test_array.py $(BUILT)

test-klayout:
	deck/test_klayout.py $(wildcard bin/densfill $(BUILT))

test-cluster:
	cluster/test/test_cluster.py $(firstword $(wildcard bin/densfill $(BUILT)))

bench: build
	bench/check/run.sh
	bench/fill/run.sh
	bench/fill/late.sh
	bench/book/run.sh
