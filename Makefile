# The gate, and what it leaves in place.
PREFIX ?= /usr/local
PROGRAM := crates/ocfexec/out/ocfexec
AGENTS := crates/ocf_agents/out/ocf_agents
# in C; it is missing where there is no C compiler
LAUNCHER := crates/ocfexec/out/ocfexec-run-agent
# of the client
MODULES := $(addprefix examples/,agents.py alerts.py calls.py control.py kept.py orders.py output.py resources.py targets.py)

.PHONY: run program test check mutants bench plots costs counts statement soak fuzz sanitize install install-python modules deb source release guide clean

# Compiles every crate without proving it, and answers the example's commands with the example's agent.
run:
	@cd crates/ocfexec && rt try -- run --memory --root $(CURDIR)/examples < ../../examples/first.jsonl

# Compiles an optimised program without proving it, in minutes, into build/ with the launcher of agents; its --version says so.
program:
	@package/program.sh build

# The gate: proves every crate, tries the wrong bodies whose stamps are old, and then runs the checks of the programs that it built.
test:
	@tools/gate.sh

# Runs only the tests of the built programs: all of them, or the named ones, as make check NAMES="serve cli"; a name is that of a module or
# of a directory. FAST=1 leaves out the slow ones, and JOBS=n runs n at once (default: two per processor). They run by pytest
# (python3-pytest, python3-pytest-xdist), or without it one by one.
check:
	@tests/check.sh $(NAME) $(NAMES)

# Tries the wrong bodies of one crate, make mutants NAME=recurring; without a name those that the gate tries. NAME=every tries, for all
# crates, those that were not seen refused in their present state, JOBS=n crates at once. NAME=show lists these and tries nothing. NAME=CRATE/EDIT is one edit.
# NAME=random tries COUNT=m random edits of one line, of the product or of CRATES="a b", drawn with SEED=n, by the proofs; with TESTS=1 also
# by the fast checks of one program that has all those which no proof refuses.
mutants:
	@$(if $(filter random,$(NAME)),tools/random_edits.py --seed $(or $(SEED),1) --count $(or $(COUNT),20) $(if $(TESTS),--tests) \
		$(if $(JOBS),-j $(JOBS)) $(CRATES),tools/wrong_bodies.py $(if $(JOBS),-j $(JOBS)) $(if $(filter show,$(NAME)),show every,$(if $(filter every,$(NAME)),check every,all $(NAME))))

# Measures the rate of each benchmark. This call proves their programs, since the gate has no benchmarks.
bench:
	@bench/rates.sh

# Draws docs/pictures/performance.svg from one run of the comparison with pacemaker-execd and the floor, and docs/pictures/scale.svg: how the
# program grows with resources and monitors. What they draw is kept beside them, as JSON. Nothing else should run meanwhile.
# It needs python3-matplotlib and the needs of bench/against_execd.sh. ROUNDS=1 is a trial, and the pictures say so.
plots: $(PROGRAM)
	@figures=$$(mktemp) && FIGURES=$$figures bench/against_execd.sh $(PROGRAM) $(or $(ROUNDS),7) rates waits answers && \
		bench/plots.py $$figures docs/pictures/performance.svg; status=$$?; rm -f $$figures; exit $$status
	@bench/scale.py $(PROGRAM) docs/pictures/scale.svg $(or $(ROUNDS),7)

# Measures the cost of each crate in a gate from scratch, and writes the table of docs/ARCHITECTURE.md. Nothing else should run meanwhile. A
# kit whose gate keeps what it proved is asked to begin from scratch; any other always does.
costs:
	@tools/costs.py --into docs/ARCHITECTURE.md -- rt ci $$(rt help 2>&1 | grep -o -m 1 -e --anew)

# Counts the tests of each kind, and writes the tables of docs/TESTING.md, with the seconds of the last `make check` of this copy.
counts:
	@tools/count.py --into docs/TESTING.md

# Writes the laws of whole histories, and each definition that they depend on, into docs/STATEMENT.antt.txt.
statement:
	@tools/statement.py

# Plays thirty days on a simulated clock, twice: a history with a crash in each hour, of scripted agents and a disk in memory; and one
# executor with 2,048 monitors, by the program itself with real agents. `make check` plays a day and two days of them. With REAL=1: the
# program serves real agents for an hour, while it is killed and its disk fills.
soak: $(PROGRAM)
	@export TIME_LIMIT=0; $(if $(REAL),LENGTH=3600 tests/lib/one_by_one.py tests/load/real_soak.py,DAYS=30 tests/lib/one_by_one.py tests/crash/soak.py tests/load/days.py)

# Fuzzes each reader of bytes from outside for five minutes, two at a time. It needs the package afl++.
fuzz:
	@tests/fuzz/run.sh 300

# Refuses each growth of memory of the program, which is built with AddressSanitizer.
sanitize:
	@tests/sanitize.sh

# Installs the programs that the gate proved and built, or proves and builds them first; also the launcher of agents beside the program,
# ocfctl, the manual pages, README.md, the clients with their library, and the unit.
install: $(PROGRAM) $(AGENTS) $(LAUNCHER) install-python
	install -D $(PROGRAM) $(DESTDIR)$(PREFIX)/bin/ocfexec
	[ ! -e $(LAUNCHER) ] || install -D $(LAUNCHER) $(DESTDIR)$(PREFIX)/bin/ocfexec-run-agent
	install -D $(AGENTS) $(DESTDIR)$(PREFIX)/bin/ocf_agents
	install -D examples/ocfctl.py $(DESTDIR)$(PREFIX)/bin/ocfctl
	install -D -m 644 docs/ocfexec.8 $(DESTDIR)$(PREFIX)/share/man/man8/ocfexec.8
	install -D -m 644 docs/ocfctl.8 $(DESTDIR)$(PREFIX)/share/man/man8/ocfctl.8
	install -D -m 644 docs/ocfexec-client.8 $(DESTDIR)$(PREFIX)/share/man/man8/ocfexec-client.8
	install -D -m 644 package/ocfctl.bash $(DESTDIR)$(PREFIX)/share/bash-completion/completions/ocfctl
	install -d $(DESTDIR)$(PREFIX)/share/doc/ocfexec
	install examples/client.py examples/client.sh examples/with-*.sh $(DESTDIR)$(PREFIX)/share/doc/ocfexec
	install -m 644 README.md examples/ocfexec.service package/ocfexec.logrotate docs/CONTROL.md $(DESTDIR)$(PREFIX)/share/doc/ocfexec
	install -m 644 $(MODULES) $(DESTDIR)$(PREFIX)/share/doc/ocfexec

# Installs the Python package `ocfexec` alone, and makes the `python3` of PATH find it, if that looks for packages below PREFIX.
install-python:
	@package/python.sh "$(DESTDIR)" "$(PREFIX)"

# Prints the modules of the client.
modules:
	@echo $(MODULES)

# Builds Debian packages of the programs that the gate proved, and of no others but the launcher of agents, and of the Python library.
deb:
	@package/deb.sh

# Writes the files of a release into out/VERSION: the packages, the source, the notes from CHANGELOG.md, and the sums.
release:
	@package/files.sh

# Builds a Debian source package of the last commit. dpkg-buildpackage builds the package from it on a machine with `rt`.
source:
	@package/source.sh

# Tests the first hour on this machine: builds the package, installs it, runs each command of docs/GUIDE.md, and removes the package.
guide:
	@ON_MACHINE=1 tests/lib/one_by_one.py tests/system/guide.py

$(PROGRAM): $(shell find crates -name out -prune -o -name README.md -o -type f -print)
	cd crates/ocfexec && rt run -- --help > /dev/null
	touch $@

$(AGENTS): $(shell find crates/ocf_types crates/ocf_codes crates/ocf_agents -name out -prune -o -name README.md -o -type f -print)
	cd crates/ocf_agents && OCF_RESOURCE_TYPE=Dummy rt run -- meta-data > /dev/null
	touch $@

$(LAUNCHER): launcher/run_agent.c launcher/build.sh
	launcher/build.sh $@

clean:
	rm -rf crates/*/out tests/out tests/*/out tests/failed
