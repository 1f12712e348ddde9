# The gate; the proofs alone; the program; the programs that are services; a server to look at, and one of three requests; the example of a script, proved and
# unproved; the manual pages; the index of the definitions and the table of the crates; what confines services; and what `make bin services` built, installed (DESTDIR,
# PREFIX) and as a package in dist.
.PHONY: test check bin services run demo play try man docs okws-run install dist
PORT ?= 8080
PREFIX ?= /usr/local
# What a program is built of; `-dirty` stands behind it where something isn't committed.
COMMIT = git describe --always --dirty --abbrev=40 --exclude '*'
test:
	rt ci
check:
	rt all check
bin:
	cd crates/okws_program && rt run -- check data/site.okws >out.txt || (cat out.txt; exit 1)
	rm -f crates/okws_program/out.txt
	mkdir -p bin
	cp crates/okws_program/out/okws_program bin/okws
	$(COMMIT) >bin/okws.commit
services:
	cd crates/svc_probe && rt run </dev/null
	cd crates/svc_guest && rt run </dev/null
	mkdir -p bin
	cp crates/svc_probe/out/svc_probe crates/svc_guest/out/svc_guest bin
	$(COMMIT) >bin/services.commit
run: okws-run bin services
	examples/serve.sh $(PORT)
demo: okws-run bin services
	examples/demo.sh $(PORT)
play: bin
	bin/okws play examples/site.okws examples/one_dialog.script
try:
	@echo "-- nothing of this is proved: make run proves it"
	cd crates/okws_program && rt try -- play data/site.okws data/one_dialog.script
man: docs/okws.1 docs/okws-tools.1 docs/okws-config.5 docs/okws-frames.7
docs/%: docs/%.md
	pandoc --standalone --from markdown-smart --columns 66 --to man --output $@ $<
docs:
	docs/definitions.py
	docs/crates.py
okws-run: bin/okws-run
bin/okws-run: $(wildcard tools/okws-run/*)
	mkdir -p bin
	$(CC) -O2 -o $@ tools/okws-run/*.c
install:
	tools/install.sh $(PREFIX)
dist:
	tools/dist.sh dist
