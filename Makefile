.PHONY: help build demo try install test prove edits compare fuzz sizes refuse pages bench explore months cluster

help:
	@echo 'make demo     make the statements of the example in about a minute, with a build that is not proved'
	@echo "make try      run such a build on files of your own: make try WORDS='check --tis t.csv --cwr w.cwr --usage u.csv'"
	@echo 'make build    prove and build the program, leave it as out/royalty_run'
	@echo 'make install  put the program that was built, its man page and its completions below PREFIX (/usr/local), or below DESTDIR and PREFIX; prove and build it first where it was not'
	@echo 'make test     run every test over builds that are not proved, also with memory and threads refused: some minutes; make test NAME=cwr_share runs what stands on that crate'
	@echo 'make prove    the proof: prove every crate from nothing, refuse wrong bodies, and run the programs as they were proved; a kit that keeps what has passed on this machine leaves it out, but for make prove ANEW=1'
	@echo 'make edits    refuse the wrong bodies that the gate leaves out, of every crate or of one: make edits CRATE=mail_box; an hour for all'
	@echo 'make compare  run the program and a plain Rust one on made-up inputs, good and bad, and compare'
	@echo 'make fuzz     the same on 200000 damaged inputs, half of them of several submitters; some twenty minutes on four cores'
	@echo 'make sizes    run both at each limit and one beyond it, print times and peak memory; a minute, 2 GB of memory'
	@echo 'make refuse   run the program with each allocation, thread, read, write and file refused in turn, kill it as it writes a file or a folder, and refuse each call as make test does; two minutes once both are built'
	@echo 'make pages    open the documents of an example in chromium, which has to be installed, at three widths, and leave pictures of them in out/pages; half a minute'
	@echo 'make bench    run both on a million usage lines, print the tables and the aims of bench/README.md, of one CWR file and of eight submitters; an import of 5,000,000 rows beside python3 and awk; an adjustment of 1 GB of statements beside a merge and sort; runs beside busy loops; and a mailbox alone and pools'
	@echo 'make explore  go through every state of a small mailbox and of a small pool, with the model in Python, and find each wrong one out; a minute'
	@echo 'make months   run small months in parts, with stand-ins for Slurm; kill parts, change files, and compare with the plain program; a minute'
	@echo 'make cluster  run a month under Slurm, which is started for it on this machine alone and has to be installed: 1,600,000 usage lines, or make cluster LINES=10000000'
	@echo 'make help     this list'
	@echo 'compare, fuzz, sizes, refuse, pages, bench, months and cluster build and prove the program first, unless they are given one: make bench PROGRAM=out/royalty_run'
	@echo 'All but explore need the command rt of the Rattle kit on the path; compare, fuzz, sizes, pages, bench, explore, months and cluster also'
	@echo 'python3, test, compare, fuzz, sizes, bench and months cargo, and test, prove and refuse a C compiler.'

PROGRAM = out/royalty_run
PREFIX = /usr/local
ifeq ($(origin PROGRAM),file)
compare fuzz sizes refuse pages bench months: build
endif

build:
	cd crates/royalty_run && rt run -- --help > /dev/null
	mkdir -p out
	cp crates/royalty_run/out/royalty_run out/royalty_run

# A program that stands built is not built anew.
out/royalty_run:
	$(MAKE) build

install: $(PROGRAM)
	install/pages.sh $(PROGRAM) out/pages
	install -D -m 755 $(PROGRAM) $(DESTDIR)$(PREFIX)/bin/royalty_run
	install -D -m 644 out/pages/royalty_run.1 $(DESTDIR)$(PREFIX)/share/man/man1/royalty_run.1
	install -D -m 644 out/pages/royalty_run.bash $(DESTDIR)$(PREFIX)/share/bash-completion/completions/royalty_run
	install -D -m 644 out/pages/_royalty_run $(DESTDIR)$(PREFIX)/share/zsh/site-functions/_royalty_run
	install -D -m 644 out/pages/royalty_run.fish $(DESTDIR)$(PREFIX)/share/fish/vendor_completions.d/royalty_run.fish

demo:
	@echo 'This build proves nothing; make build proves the program and leaves it as out/royalty_run.'
	python3 -m tools.unproved royalty_run
	cd examples && ../out/unproved/royalty_run run --tis territories.csv --cwr works.cwr --usage usage.csv \
		--workers 2 --readers 1 --nodes 16 > ../out/statements.csv
	cat out/statements.csv
	cmp out/statements.csv examples/statements.csv

# The build is told of on standard error, so that the answer alone is what comes out.
try:
	@python3 -m tools.unproved royalty_run >&2
	@echo 'This build proves nothing.' >&2
	@out/unproved/royalty_run $(WORDS)

test:
	python3 -m tools.suite $(NAME)

prove:
	python3 -m tools.prove $(if $(ANEW),--anew)
	tests/program.sh crates/royalty_run/out/royalty_run
	tests/documents.sh crates/royalty_run/out/royalty_run
	tests/imports.sh crates/royalty_run/out/royalty_run
	tests/install.sh crates/royalty_run/out/royalty_run
	tests/refuse.sh crates/royalty_run/out/royalty_run quick
	tests/refuse_calls.sh crates/refusal_runs/out/refusal_runs

edits:
	tests/edits.sh $(CRATE)

compare:
	python3 -m bench.compare --program $(PROGRAM) --cases 2000
	python3 -m bench.compare --program $(PROGRAM) --cases 2000 --submitters
	python3 -m bench.properties --program $(PROGRAM)
	python3 -m bench.merges --program $(PROGRAM) --cases 2000
	python3 -m bench.adjustments --program $(PROGRAM) --cases 2000
	python3 -m bench.imports --program $(PROGRAM) --cases 2000 --largest

fuzz:
	python3 -m bench.fuzz --program $(PROGRAM) --cases 100000 --jobs 4
	python3 -m bench.fuzz --program $(PROGRAM) --cases 100000 --jobs 4 --submitters

sizes:
	python3 -m bench.sizes --program $(PROGRAM)
	python3 -m bench.sizes --program $(PROGRAM) --submitters

refuse:
	tests/refuse.sh $(PROGRAM)
	tests/kill.sh $(PROGRAM)
	cd crates/refusal_runs && rt run < stdin > /dev/null
	tests/refuse_calls.sh crates/refusal_runs/out/refusal_runs

pages:
	tests/pages.sh $(PROGRAM)

bench:
	python3 -m bench.bench --program $(PROGRAM) --lines 1000000 --works 20000 --parties 400 16000 --repeats 5
	python3 -m bench.bench --program $(PROGRAM) --lines 1000000 --works 20000 --parties 400 --repeats 3 --submitters
	python3 -m bench.large_import --program $(PROGRAM)
	python3 -m bench.large_adjustment --program $(PROGRAM)
	python3 -m bench.busy --program $(PROGRAM)
	cd crates/mail_bench && rt run < stdin > /dev/null
	python3 -m bench.mail --program crates/mail_bench/out/mail_bench

explore:
	python3 -m model.explore 2 1 1
	python3 -m model.explore 1 1 2 --mailboxes 2
	python3 -m model.explore 1 1 2 --mailboxes 2 --wrong all

months:
	cluster/test.sh $(PROGRAM)

# What is missing is said before an hour of proving.
cluster:
	cluster/one_machine.sh --needs
ifeq ($(origin PROGRAM),file)
	$(MAKE) build
endif
	cluster/one_machine.sh $(PROGRAM) $(LINES)
