# Thin targets over the commands of the Rattle kit, which has to be on the PATH as `rt`, and over the scripts that are
# here. `make help` lists them by the first lines of the comments above them.

PREFIX ?= /usr/local
PROGRAM = crates/fdr_prog
PAIR_PROGRAM = crates/fdr_pair_prog
SOURCES = crates.txt $(shell find crates -name out -prune -o -type f \( -name '*.rt' -o -name '*.antt' \) -print)

.PHONY: build demo check walk compare laws streams crash-test live-test power-test fleet-test check-real check-memory fail-io calls count verify wrong-bodies bench tools-test drawn-dumps undamaged test install stage install-tools dist dist-test clean help

# Proves both programs and everything below them, and puts them at bin/fdr and bin/fdrpair.
# After `make test` they are there already.
build: bin/fdr bin/fdrpair

bin/fdr: $(SOURCES)
	cd $(PROGRAM) && rt run -- listbits data/t1.csv < stdin
	mkdir -p bin
	cp $(PROGRAM)/out/fdr_prog bin/fdr

# Without words the program ends with 1, and so does a refused proof, which leaves no program.
bin/fdrpair: $(SOURCES)
	rm -f $(PAIR_PROGRAM)/out/fdr_pair_prog
	cd $(PAIR_PROGRAM) && rt run || test $$? -eq 1
	mkdir -p bin
	cp $(PAIR_PROGRAM)/out/fdr_pair_prog bin/fdrpair

# Builds the first program without its proofs and runs each command on the cases of examples/.
# It is built once. The output is compared: images are made, recorded in and listed, and one is listed again as a cut
# of the power left it.
demo:
	cd $(PROGRAM) && rt try --cases ../../examples/cases --data t1.csv=../../examples/t1.csv \
		--data ordinary.csv=../../examples/ordinary.csv --data fresh.csv=../../examples/fresh.csv \
		--data ring.img=../../examples/ring.img --data recorded.img=../../examples/recorded.img \
		--data cut.img=../../examples/cut.img --data again.img=../../examples/again.img \
		--data damaged.img=../../examples/damaged.img --data headless.img=../../examples/headless.img \
		--data old.img=../../examples/old.img

# Checks the documents, the images of examples/ and the cases against what they are made from, does the cases by a
# second reader, and checks the types of all Python: twenty seconds.
check:
	tools/documents.py check
	examples/make_images.py --check
	tests/case_tables.py --check
	tests/cases.py
	@if [ -x /usr/bin/mypy ]; then /usr/bin/mypy; else echo "check: the types weren't checked: there is no /usr/bin/mypy"; fi

# Goes the walk of examples/ with the built programs, and compares what they print with what the three pages show.
walk: build
	tests/walk.py bin/fdr bin/fdrpair

# Compares the first program with a reader that was written from docs/FORMATS.md alone, on drawn inputs.
compare: build
	tests/compare.py --program bin/fdr

# Tries the laws that go through the whole on small cases by the built programs.
laws: build
	tests/laws.py bin/fdr bin/fdrpair

# Runs the first program with each of its standard streams closed.
streams: build
	tests/streams.sh bin/fdr

# Kills recordings of the built programs at random moments, and looks at what the images hold then.
crash-test: build
	tests/crashes.py bin/fdr
	tests/pair.py bin/fdrpair bin/fdr --kills

# Kills live recordings, source and recorder together, and looks at what the images hold then and in the end: three minutes.
live-test: build
	tests/live_kills.py bin/fdr bin/fdrpair

# Cuts the power below real file systems while the built programs record, and looks at what the images hold then, as root: three minutes.
power-test: build
	tests/power.py bin/fdr bin/fdrpair

# Reads fleets of many tiny flights by the built program, and kills workers, clients and schedulers: five minutes.
fleet-test: build
	tests/fleet.py bin/fdr

# Runs the built programs on real files, devices and streams, and on what goes wrong with them.
check-real: build
	tests/files.py bin/fdr
	tests/pair.py bin/fdrpair bin/fdr --cases
	tests/fail_io.py bin/fdr bin/fdrpair --built

# Refuses the built programs their memory, one request at a time.
check-memory: build
	tests/memory.py bin/fdr bin/fdrpair

# Has each call on a file or a stream of the cases fail in turn, or end early, with the built programs and the trial build.
fail-io: build
	tests/fail_io.py bin/fdr bin/fdrpair

# Compares what the built programs ask of the system, call by call, with what is stored in tests/calls/.
calls: build
	tests/calls.py bin/fdr bin/fdrpair --check

# Compares how many instructions the built programs take with what is stored in bench/counts.csv.
count: build
	bench/count.py bin/fdr bin/fdrpair --check

# Runs all that the gate leaves out, says what wasn't run, and writes the table in docs/TESTS.md.
verify: build
	tests/verify.py bin/fdr bin/fdrpair

# Measures the built programs on large inputs, beside `cat` of the same bytes.
# It takes under a minute after the build, and 1.5 GB for the inputs.
bench: build
	bench/commands.py bin/fdr bin/fdrpair

# Tests the tools beside the program, in a browser too, and fails where a package is missing that they all need.
tools-test:
	tests/flight/run

# Draws foreign dumps in many forms and files that are none, looks at them, and reads each by the line that look prints.
drawn-dumps: build
	FDR=bin/fdr tests/drawn_dumps.py

# Draws a million frames that nothing damaged, of which no tool may take one for doubtful: half a minute.
undamaged: build
	FDR=bin/fdr tests/flight/undamaged.py 1000000

# Tries the wrong bodies that the gate leaves out, each of which the check has to refuse: an hour or more.
wrong-bodies: build
	tests/wrong_bodies.py

# The gate: every proof, must-fail edit, test and program, and the tests of the tools.
test:
	./.ci/run
	mkdir -p bin
	cp $(PROGRAM)/out/fdr_prog bin/fdr
	cp $(PAIR_PROGRAM)/out/fdr_pair_prog bin/fdrpair

# Puts the programs, the tools, their man pages and the pages below PREFIX, which is /usr/local where it isn't given.
install: build stage

# Puts the same there of programs that are built already.
stage: install-tools
	install -d $(DESTDIR)$(PREFIX)/bin $(DESTDIR)$(PREFIX)/share/man/man1
	install -m 755 bin/fdr bin/fdrpair $(DESTDIR)$(PREFIX)/bin
	install -m 644 docs/fdr.1 docs/fdrpair.1 $(DESTDIR)$(PREFIX)/share/man/man1
	install -d $(DESTDIR)$(PREFIX)/share/doc/fdr
	cp -R README.md CONTRIBUTING.md CHANGELOG.md CITATION.cff docs examples $(DESTDIR)$(PREFIX)/share/doc/fdr

# Puts the tools beside the program below PREFIX, which needs no build: `flight` and its man page.
install-tools:
	install -d $(DESTDIR)$(PREFIX)/bin $(DESTDIR)$(PREFIX)/share/man/man1 $(DESTDIR)$(PREFIX)/lib/fdr/flight_recorder
	install -m 755 tools/flight $(DESTDIR)$(PREFIX)/lib/fdr
	install -m 644 VERSION $(DESTDIR)$(PREFIX)/lib/fdr
	install -m 644 $(wildcard tools/flight_recorder/*.*) $(DESTDIR)$(PREFIX)/lib/fdr/flight_recorder
	ln -sf ../lib/fdr/flight $(DESTDIR)$(PREFIX)/bin/flight
	install -m 644 docs/flight.1 $(DESTDIR)$(PREFIX)/share/man/man1

# Makes an archive and a Debian package of the built programs, the tools and the pages, with their sums, in dist/.
dist: build
	tools/dist.py

# Tries both in a fresh Debian, which takes root, debootstrap and a way to Debian's packages.
dist-test: dist
	tests/installed.py dist

# Removes what was built.
clean:
	rm -rf bin dist crates/*/out

# Lists the targets.
help:
	@awk '/^#/ { if (!said) said = substr($$0, 3); next } \
		/^[a-z-]+:/ { printf "make %-13s %s\n", substr($$1, 1, index($$1, ":") - 1), said } \
		{ said = "" }' $(MAKEFILE_LIST)
