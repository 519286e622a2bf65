# wm, a verified store of version-enabled tables.
#
#   make try     plays the examples without a proof, in three minutes, for a first look, and leaves build/wm-unproved
#   make demo    builds the proved program, makes a store with it and plays the examples, one after the other
#   make test    the merge gate: every proof, edit, test and program, and then the cases
#   make wm      the program alone, at build/wm
#   make cases   plays the demo, cases/ and what the documents show through the built program, and tries the tools around it
#   make install puts the program, its manual page and the tools below PREFIX
#   make against compares the program with a second reading of the language, in Python, on random scripts
#   make refuse  refuses each allocation of a run in turn, and looks at the status, the answers and the store
#   make faults  lets each call on the store, the script and the answers go wrong in turn, and the power go at each moment
#   make wrong   tries wrong bodies that the gate leaves out, since the proof of their crates is dear: each must be refused
#   make edge    tries two runs at once, closed and full streams, full disks, scripts without an end, and paths and words that are none
#   make bench   times INSERT, SELECT and UPDATE lines and a join; how much longer lines take behind 1,000 merges than
#                behind one; a load of 100,000 lines, of which the last, played over a store with the others, may take
#                at most half as long again as the first; and figures beside their bounds

RT ?= rt
PYTHON ?= python3
PREFIX ?= /usr/local
# A limit cannot be raised, and the greatest one costs nothing.
LIMIT := 1048576
SOURCES := crates.txt $(shell find crates -path '*/out' -prune -o -type f -print)

.PHONY: try demo test wm install cases against refuse faults wrong edge bench clean

wm: build/wm

# rt leaves the program that it proved, built and ran in the crate's out/. It is run once, to make a store.
build/wm: $(SOURCES)
	mkdir -p build
	rm -f build/made.store
	cd crates/wm && $(RT) run -- "$(CURDIR)/build/made.store" init --limit $(LIMIT) < /dev/null
	cp crates/wm/out/wm build/wm

try:
	$(PYTHON) tools/first_look.py $(RT)

demo: build/wm
	rm -f build/demo.store
	build/wm build/demo.store init --limit $(LIMIT)
	build/wm build/demo.store run --now 2020-01-01 < examples/first.wm | tee build/first.answers
	cmp build/first.answers examples/first.answers
	build/wm build/demo.store run --now 2020-01-02 < examples/again.wm | tee build/again.answers
	cmp build/again.answers examples/again.answers
	build/wm build/demo.store run --now 2024-06-01 < examples/budget.wm | tee build/budget.answers
	cmp build/budget.answers examples/budget.answers
	build/wm build/demo.store run --now 2024-07-01 < examples/survey.wm | tee build/survey.answers
	cmp build/survey.answers examples/survey.answers
	build/wm build/demo.store run --now 2024-08-01 < examples/plans.wm | tee build/plans.answers
	cmp build/plans.answers examples/plans.answers
	build/wm build/demo.store run --now 2024-09-02 < examples/teams.wm | tee build/teams.answers
	cmp build/teams.answers examples/teams.answers

# The gate leaves the program that it proved in the crate's out/: it is taken from there, and not proved a second time.
test:
	$(RT) ci
	test ! -x crates/wm/out/wm || install -D -m 755 crates/wm/out/wm build/wm
	$(MAKE) cases

# The files are in UTF-8, and so is what the tools say, whatever the locale is.
cases: export PYTHONUTF8 = 1
cases: demo
	@if command -v $(PYTHON) > /dev/null; \
	then $(PYTHON) tools/play_cases.py build/wm cases \
	&& $(PYTHON) tools/play_documents.py README.md docs/*.md && $(PYTHON) tools/tests; \
	else echo "cases: skipped, for there is no $(PYTHON)"; fi
	@if command -v $(PYTHON) > /dev/null && command -v $(CC) > /dev/null; then $(PYTHON) tools/faults build/wm --every 25; \
	else echo "faults: skipped, for there is no $(PYTHON) or no C compiler"; fi

against: build/wm
	$(PYTHON) tools/against build/wm --scripts 300

refuse: build/wm
	$(PYTHON) tools/refuse build/wm

faults: build/wm
	$(PYTHON) tools/faults build/wm

wrong:
	$(PYTHON) tools/wrong.py $(RT)

edge: build/wm
	$(PYTHON) tools/edge build/wm

bench: build/wm
	$(PYTHON) bench/statements.py build/wm
	$(PYTHON) bench/merges.py build/wm
	$(PYTHON) bench/load.py build/wm
	$(PYTHON) bench/figures.py build/wm

install: build/wm
	install -D -m 755 build/wm "$(DESTDIR)$(PREFIX)/bin/wm"
	install -D -m 644 docs/wm.1 "$(DESTDIR)$(PREFIX)/share/man/man1/wm.1"
	mkdir -p "$(DESTDIR)$(PREFIX)/share/wm"
	cp -R tools/play tools/show tools/sheet tools/cells tools/storefile tools/insert_lines.py tools/called.py \
	    "$(DESTDIR)$(PREFIX)/share/wm"
	$(PYTHON) tools/called.py > "$(DESTDIR)$(PREFIX)/share/wm/version"
	install -D -m 644 tools/against/tokens.py "$(DESTDIR)$(PREFIX)/share/wm/against/tokens.py"
	find "$(DESTDIR)$(PREFIX)/share/wm" -name __pycache__ -prune -exec rm -rf {} +
	for tool in play show sheet insert_lines.py; do \
	    printf '#!/bin/sh\nexec %s "%s/share/wm/%s" "$$@"\n' "$(PYTHON)" "$(PREFIX)" "$$tool" \
	        | install -m 755 /dev/stdin "$(DESTDIR)$(PREFIX)/bin/wm-$${tool%_lines.py}"; done

clean:
	rm -rf build crates/*/out
