# make run       builds the program, proofs first, and checks examples/double-lock: prints its report and status
# make install   installs the program as $(DESTDIR)$(PREFIX)/bin/rtcheck
# make test      every proof, must-fail edit, test and program from nothing (rt ci), then our own checks
# make clean     removes all that was built, the kept proofs too
.POSIX:

PREFIX = /usr/local
PROGRAM = crates/ck_program/out/ck_program

.PHONY: run build install test ci clean

run: build
	@tools/run_example.sh $(PROGRAM) examples/double-lock

build:
	@tools/build.sh > /dev/null

install: build
	mkdir -p "$(DESTDIR)$(PREFIX)/bin"
	install -m 755 $(PROGRAM) "$(DESTDIR)$(PREFIX)/bin/rtcheck"

test ci:
	rt ci
	tools/own_checks.sh

clean:
	rm -rf crates/*/out
