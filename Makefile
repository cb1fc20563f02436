# Roostcord. `make` alone says what there is.

IMAGE ?= samples/ddr5-4800.bin
IMAGES ?= 10000000
PREFIX ?= /usr/local
DESTDIR ?=
ARCHIVES ?=

.PHONY: help lint station install uninstall test judge bench list strength cited surface trace fmt

help:
	@echo 'make lint       lint an image: make lint IMAGE=path (samples/ddr5-4800.bin if none is named); the first one proves for some minutes.'
	@echo '                Its last line has the status: 0 nothing of severity error, 1 a finding of that severity, 2 the image was refused or'
	@echo '                could not be read, 3 misuse. make ends with 0 or with its own 2: in scripts call tools/lint IMAGE, which ends with it'
	@echo 'make station    build the C library and the host program, target/station/station'
	@echo 'make install    install the C library, its header and pkg-config file, and the host program: make install PREFIX=.. DESTDIR=..'
	@echo '                (PREFIX is /usr/local if not given); make uninstall with the same two takes them away'
	@echo 'make test       prove every crate, try every must-fail edit, run every program and test (minutes); STRICT=1 fails if one did not run'
	@echo 'make judge      compare with the Rust linter spdr: make judge IMAGES=number SPDR=place of its sources (a minute)'
	@echo 'make bench      time it against spdr, as Markdown: make bench SPDR=place (half a minute)'
	@echo 'make strength   change the code in some 540 small ways and have the prover judge each (an hour or two; tools/strength.txt)'
	@echo 'make cited      have the prover judge anew what docs/PROMISES.md cites of functions that have changed since (minutes)'
	@echo 'make surface    check docs/PROMISES.md against the public calls (a second)'
	@echo 'make list       check the list that replay runs on against the Rust linter, where that is at hand (SPDR=place)'
	@echo 'make trace      check docs/TRACE.md and docs/TRUST.md against the files that they cite (a second)'
	@echo 'make fmt        lay every Rattle and antt file out'

lint:
	@tools/lint '$(IMAGE)'

station:
	@tools/station

# ARCHIVES: the archive that is at hand, for a test; without it it is proved and built
install:
	@PREFIX='$(PREFIX)' DESTDIR='$(DESTDIR)' tools/install $(ARCHIVES)

uninstall:
	@PREFIX='$(PREFIX)' DESTDIR='$(DESTDIR)' tools/install --uninstall

test:
	@tools/test

judge:
	@tools/judge '$(IMAGES)'

bench:
	@tools/bench

surface:
	@tools/surface

list:
	@tools/replay-list

trace:
	@tools/trace

fmt:
	@for crate in crates/*/; do (cd "$$crate" && rt fmt) || exit; done

strength:
	@tools/strength run
	@tools/strength report

cited:
	@tools/strength run --cited
	@tools/surface
