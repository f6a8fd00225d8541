# make imgcopy    proves what the program stands on, the program and the library for C, builds them, and leaves them at
#                 build/imgcopy, build/libimgcopy.a and build/libimgcopy.so.0
# make library    proves and builds that library alone
# make quick      a first look: runs the tests from the sources, unproved, side by side, and plays the demo's day, in less
#                 than ten minutes where nothing is built; nothing is proved, and no wrong body is tried
# make demo       plays a day of a small database with image copies, loses its volume and restores it, and shows its
#                 pages; if the program is not built, rt runs the sources unproved; then, if build/demo_bank is built, a day
#                 of a bank with many threads, whose files imgcopy audits and restores
# make bank       proves and builds that bank, and plays its day
# make test       all tests: the gate, which proves every crate and tries its tests, its programs and the wrong bodies that
#                 stand for a promise, then what make check does, on the program that the gate has built, and then a sample
#                 of the other wrong bodies; it prints how long each phase took
# make check      compares the program's answers to the examples and to spoiled logs with the expected ones, and those
#                 to scripts with a model of the engine, also with each of its allocations refused in turn;
#                 if rt is used, those of read_log and of the engine too, by a program of their own; and checks
#                 that what the documents name is there
# make crate      with NAME=CRATE, for a change to one crate: proves it and its tests, tries all of its wrong bodies, and
#                 runs the checks on build/imgcopy, if that is there
# make simulate   plays the databases of SEEDS=10000 seeds, from FIRST=1 on: an engine and an open database each, whose power
#                 is cut again and again; it compares what each cut leaves, and proves and builds the program first
# make plants     tries all wrong bodies, those of the gate too; with SAMPLE=20 so many, which hang on the commit's hash,
#                 and with CRATES="NAME NAME" those of some crates; it works on a copy of the crates
# make bench      measures the program beside a plain Rust program, prints a table, and draws bench/times.svg; it measures
#                 the program alone on inputs that are chosen to cost much; it measures how time and memory grow, and
#                 draws bench/growth.svg; if rt is used, it then measures copies of a shared engine by many workers, and
#                 draws bench/copies.svg, sessions beside a plain engine behind a mutex, and commits on files beside
#                 those of SQLite, where sqlite3 is there
# make examples   makes the example logs and their expected answers again
# make contracts  writes the contract of each public item to build/contracts/, from the sources; its README.md is the index
# make install    puts the program, its manual page, the completions of bash, zsh and fish, the guide and the formats below
#                 PREFIX, by default /usr/local, and the library for C with its header, if it is built
# make clean      removes build/, and keeps the proofs that rt keeps for itself
#
# IMGCOPY=PROGRAM has demo, check, bench and install take that program, and builds none.

SHELL := /bin/bash
BUILT := build/imgcopy
BENCH_PROGRAMS := build/bench/release
ROUNDS ?= 5
SEEDS ?= 10000
FIRST ?= 1
PREFIX ?= /usr/local

# A program that is named is taken as it is, also one in build/.
ifeq ($(origin IMGCOPY),undefined)
IMGCOPY := $(BUILT)
PROGRAM := imgcopy
GIVEN :=
else
PROGRAM := need-imgcopy
GIVEN := --given
endif

need = @command -v "$(1)" > /dev/null || { echo "make: the program '$(1)' is missing: $(2)" >&2; exit 1; }

.DEFAULT_GOAL := imgcopy
.PHONY: imgcopy library quick demo bank test check crate simulate plants bench examples contracts bench-programs install clean
.PHONY: need-rt need-python3 need-cargo need-rustc need-imgcopy

imgcopy: need-rt
	@tools/build.sh imgcopy imgcopy_c

library: need-rt
	@tools/build.sh imgcopy_c

quick: need-rt
	@tools/quick.sh

demo: need-python3
	@tools/demo.sh $(GIVEN) "$(IMGCOPY)" build/day
	@tools/bank.sh build/demo_bank "$(IMGCOPY)" build/bank-day

bank: need-rt need-python3
	@tools/build.sh demo_bank
	@tools/bank.sh build/demo_bank "$(IMGCOPY)" build/bank-day

# The last line must be that of the script, so nothing follows it.
test:
	@tools/run_tests.sh --gate

check: $(PROGRAM)
	@tools/run_tests.sh $(GIVEN) "$(IMGCOPY)"

crate: need-rt need-python3
	@tools/crate.sh "$(NAME)"

simulate: need-rt need-python3
	@tools/build.sh check_power
	@python3 -m checks.power build/check_power "$(SEEDS)" "$(FIRST)"

plants: need-rt need-python3
	@python3 tools/plants.py $(if $(SAMPLE),--sample $(SAMPLE)) $(CRATES)

bench: need-python3 bench-programs $(PROGRAM)
	@python3 bench/run.py --imgcopy "$(IMGCOPY)" --tools $(BENCH_PROGRAMS) --rounds $(ROUNDS) > build/bench.md
	@cat build/bench.md
	@python3 bench/draw.py build/bench.md bench/times.svg
	@python3 bench/extremes.py --imgcopy "$(IMGCOPY)" --tools $(BENCH_PROGRAMS) --rounds $(ROUNDS) > build/extremes.md
	@cat build/extremes.md
	@python3 bench/growth.py --imgcopy "$(IMGCOPY)" --tools $(BENCH_PROGRAMS) --rounds $(ROUNDS) bench/growth.svg \
		> build/growth.md
	@cat build/growth.md
ifeq ($(GIVEN),)
	@tools/build.sh bench_copies
	@python3 bench/copies.py build/bench_copies $(ROUNDS) bench/copies.svg > build/copies.md
	@cat build/copies.md
	@python3 bench/sessions.py build/bench_copies $(BENCH_PROGRAMS)/plain_sessions $(ROUNDS) > build/sessions.md
	@cat build/sessions.md
	@python3 bench/commits.py build/bench_copies $(ROUNDS) > build/commits.md
	@cat build/commits.md
endif

examples: need-python3
	@python3 -m model.samples

contracts: need-python3
	@python3 tools/contracts.py

bench-programs: need-cargo need-rustc
	@cargo build --quiet --release --offline --locked --manifest-path bench/Cargo.toml --target-dir build/bench

install: $(PROGRAM)
	@install -d "$(DESTDIR)$(PREFIX)/bin" "$(DESTDIR)$(PREFIX)/share/man/man1" \
		"$(DESTDIR)$(PREFIX)/share/doc/imgcopy"
	@install -m 755 "$(IMGCOPY)" "$(DESTDIR)$(PREFIX)/bin/imgcopy"
	@install -m 644 docs/imgcopy.1 "$(DESTDIR)$(PREFIX)/share/man/man1/imgcopy.1"
	@install -d "$(DESTDIR)$(PREFIX)/share/bash-completion/completions" \
		"$(DESTDIR)$(PREFIX)/share/zsh/site-functions" "$(DESTDIR)$(PREFIX)/share/fish/vendor_completions.d"
	@install -m 644 completions/imgcopy.bash "$(DESTDIR)$(PREFIX)/share/bash-completion/completions/imgcopy"
	@install -m 644 completions/_imgcopy "$(DESTDIR)$(PREFIX)/share/zsh/site-functions/_imgcopy"
	@install -m 644 completions/imgcopy.fish "$(DESTDIR)$(PREFIX)/share/fish/vendor_completions.d/imgcopy.fish"
	@install -m 644 docs/GUIDE.md docs/FORMATS.md "$(DESTDIR)$(PREFIX)/share/doc/imgcopy"
	@tools/install_library.sh "$(DESTDIR)" "$(PREFIX)"

clean:
	@rm -rf build

need-rt:
	$(call need,rt,the kit that proves and builds imgcopy)

need-python3:
	$(call need,python3,it runs the examples and the benchmark)

need-cargo:
	$(call need,cargo,it builds the programs of the benchmark)

need-rustc:
	$(call need,rustc,it builds the programs of the benchmark)

need-imgcopy:
	$(call need,$(IMGCOPY),the program that IMGCOPY names)
