# make quick                  builds strsolve and strcheck without their proofs, in minutes: build/quick/strsolve, build/quick/strcheck
# make run [SCRIPT=path]      answers a script, by the proved program where there is one, else by a quick one
# make prove                  builds the proved programs, crates/strsolve/out/strsolve and crates/strcheck/out/strcheck
# make install [PREFIX=path]  builds them, and puts them into PREFIX/bin; with QUICK=1 the quick ones
# make test                   the gate: proves everything, and runs the tests, the programs and the examples
# make wrong-rules            tries wrong rules of proofs against the laws of sb_sound
# make bench                  times the programs
SHELL := /bin/bash
SCRIPT ?= examples/first.smt2
PREFIX ?= /usr/local
QUICK ?=
export SCRIPT PREFIX DESTDIR

PROVED := crates/strsolve/out/strsolve crates/strcheck/out/strcheck
MADE := build/quick/strsolve build/quick/strcheck
PROGRAMS := $(if $(QUICK),$(MADE),$(PROVED))

.PHONY: quick run prove install test wrong-rules bench has-rt

has-rt:
	@command -v rt > /dev/null || { echo "make: the Rattle toolchain's rt is not on the path" >&2; exit 1; }

quick: has-rt
	@tools/quick strsolve & first=$$!; tools/quick strcheck; second=$$?; wait $$first && exit $$second

run:
	@exec < "$$SCRIPT" || exit 2; program=crates/strsolve/out/strsolve; \
	if [ -x $$program ] && [ -z "$$(find crates/*/src -newer $$program -print -quit)" ]; then \
		echo "make run: by the proved program, $$program" >&2; \
	else \
		program=$$(tools/quick strsolve) || exit 1; \
		echo "make run: by $$program, which has the same code and is not proved; 'make prove' proves it" >&2; \
	fi; \
	exec $$program

prove: has-rt
	@cd crates/strsolve && rt run < /dev/null
	@cd crates/strcheck && rt run -- data/apart.smt2 data/apart.proof
	@echo "$(PROVED)"

install: $(if $(QUICK),quick,prove)
	@mkdir -p "$$DESTDIR$$PREFIX/bin"
	@install -m 755 $(PROGRAMS) "$$DESTDIR$$PREFIX/bin"
	@echo "$$DESTDIR$$PREFIX/bin/strsolve $$DESTDIR$$PREFIX/bin/strcheck"

test: has-rt
	@.ci/run

wrong-rules: has-rt
	@.ci/wrong-rules

bench:
	@bench/run.sh
