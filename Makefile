# demo and test do all the set-up that a fresh machine needs. What stands behind ## is what `make help` says of a target.
.PHONY: help demo test wrong curve archive shared install crosscheck bench triangle
CALLS = 200000
ROUNDS ?= 21
CASES ?= .*
PREFIX = /usr/local
ARCHIVE = target/staticlib/libgorvlime.a
SHARED = target/shared/libgorvlime.so

help: ## lists the targets
	@sed -n 's/^\([a-z]*\):.*## /make \1\t/p' Makefile | expand -t 18

demo: ## proves fieldlist and lists samples/drives.dump with it: seven fields, one of them damaged
	@echo 'Proves fieldlist (some minutes the first time, seconds later on) and lists samples/drives.dump:' >&2
	@tools/prove fieldlist
	@tools/run fieldlist <samples/drives.dump

test: ## proves every crate, tries every wrong build and runs every test
	@tests/run-all $(CALLS)

wrong: ## tries the wrong builds of CRATE=.. alone, or of all crates, over what is proved of them
	@tools/setup
	@tools/prove $(CRATE)
	@tools/wrong --all $(CRATE)

curve: ## makes a table and a picture of samples/year, target/year.csv and year.png; installs matplotlib if it is missing
	@tools/setup-curve
	@tools/prove fieldlist
	@examples/curve.py --new --csv target/year.csv --picture target/year.png --label 'brake travel in micrometres' \
	    samples/year/*.dump
	@echo target/year.csv target/year.png

archive: $(ARCHIVE) ## proves the library and makes the archive, target/staticlib/libgorvlime.a, for x86-64

shared: $(SHARED) ## makes target/shared/libgorvlime.so from the archive

install: $(ARCHIVE) $(wildcard $(SHARED)) ## installs the library, its header and gorvlime.pc under PREFIX=/usr/local
	@tools/install "$(PREFIX)" "$(DESTDIR)"

crosscheck: $(ARCHIVE) ## holds CALLS=200000 seeded calls against the second program
	@tools/setup
	@cd second && cargo build --release --offline --quiet
	@tools/prove answers
	@tests/crosscheck $(CALLS)

bench: $(ARCHIVE) ## compares the archive with plain C in instructions and time; CASES='read|walk' counts those alone
	@tools/setup
	@bench/run --rounds $(ROUNDS) --cases '$(CASES)'

triangle: ## prints the stored binomials, C(n, 0) to C(n, n) in row n
	@tools/prove handbook
	@tools/run handbook

$(ARCHIVE): crates.txt $(shell find crates -name out -prune -o \( -name '*.rt' -o -name '*.antt' \) -print)
	@tools/archive

$(SHARED): $(ARCHIVE) include/gorvlime.h tools/shared
	@tools/setup
	@tools/shared
