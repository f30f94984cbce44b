# The two commands: `make run` shows the software at work, `make test` proves and tests everything. `make` alone lists all targets.
.PHONY: help run test lib install install-only bench fuzz
.DEFAULT_GOAL := help

help: ## this list
	@sed -n 's/^\([a-z]*\):.*## /  make \1\t/p' $(MAKEFILE_LIST)

run: ## shows card at work on a small feed: seconds unproved, then proved (some minutes the first time)
	@tools/run

test: ## proves every crate and runs every test; what rt ci passed on this machine is not proved again
	@tools/test

lib: ## proves the C interface and makes target/lib/liblipsync.a and .so
	@tools/library

PREFIX ?= /usr/local
INSTALL = PREFIX='$(PREFIX)' LIBDIR='$(LIBDIR)' DESTDIR='$(DESTDIR)' tools/install
install: lib ## header, libraries and lipsync.pc under PREFIX (/usr/local) below DESTDIR
	@$(INSTALL)

# What `make lib` made, as it is.
install-only:
	@$(INSTALL)

bench: ## speed beside plain Rust programs (docs/PERFORMANCE.md)
	@tools/need rt "proving and compiling what is measured"
	@tools/need rustc "the programs beside it"
	bench/video.sh
	bench/audio.sh
	bench/session.sh
	bench/transport.sh
	bench/mend.sh

N ?= 100
fuzz: ## card beside the second program on N (100) new random feeds of each kind; one on which they differ is kept under target/fuzz/
	@tools/need rt "proving card, inspect, mend, receive and judge"
	@tools/need cargo "the second program"
	@tools/need python3 "the comparison"
	cargo build --quiet --release --offline --manifest-path second/Cargo.toml --target-dir target/second
	programs=$$(tools/program card inspect mend receive judge) && set -- $$programs && \
	tools/compare "$$1" --inspect "$$2" --mend "$$3" --receive "$$4" --judge "$$5" --random $(N)
