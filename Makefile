# make demo         prove the library, build and run the C example: a dock and a card
# make rust-demo    the same from Rust
# make test         the gate
# make ctest        the library as C calls it (tests/c/run)
# make differential the original Rust and the library on the same generated calls (oracle/README.md); SEED=, CASES=
# make differential-test  the same with faults made on purpose: does it notice?
# make ct           what depends on a secret, by function, under valgrind (tests/ct/run)
# make fuzz         calls that a fuzzer makes up, for FUZZ_SECONDS (tests/fuzz/run)
# make examples     the examples with strict warnings, held to what they have to print (tests/examples)
# make install      archive, header and pkg-config file under PREFIX, in DESTDIR if that is given; make uninstall takes them away
# make installcheck install to a temporary folder, and build the C example there (tests/install)
# make run-vectors  prove the ciphers and run the published vectors against them
# make vectors      write the vectors' data anew from NIST's files
# make bench        speed, as ratios to other libraries in one run, and instructions; writes docs/BENCH.md
.PHONY: demo rust-demo test ctest differential differential-test examples archive install uninstall installcheck run-vectors vectors bench ct fuzz

SEED = 1
CASES = 100000
PREFIX = /usr/local
DESTDIR =
VERSION := $(shell cat VERSION)
to = $(DESTDIR)$(PREFIX)

demo: archive
	@mkdir -p target/examples
	gcc -std=c99 -Wall -Wextra -pedantic -O2 -Iinclude -o target/examples/dock examples/dock.c target/staticlib/libfelica_secure.a
	@echo
	@target/examples/dock

rust-demo: archive
	bash examples/rust/build
	@echo
	@target/examples/dock-rust

test:
	bash .ci/run

ctest:
	bash tests/c/run

differential:
	oracle/check_standins
	oracle/differential.py --seed $(SEED) --cases $(CASES)

differential-test:
	oracle/differential_test.py

ct:
	bash tests/ct/run

fuzz:
	bash tests/fuzz/run

examples:
	bash tests/examples

archive:
	bash tools/archive

install: archive
	install -d $(to)/include $(to)/lib/pkgconfig
	install -m 644 include/felica_secure.h $(to)/include
	install -m 644 target/staticlib/libfelica_secure.a $(to)/lib
	sed -e 's|@PREFIX@|$(PREFIX)|' -e 's|@VERSION@|$(VERSION)|' felica_secure.pc.in >$(to)/lib/pkgconfig/felica_secure.pc
	chmod 644 $(to)/lib/pkgconfig/felica_secure.pc

uninstall:
	rm -f $(to)/include/felica_secure.h $(to)/lib/libfelica_secure.a $(to)/lib/pkgconfig/felica_secure.pc

installcheck:
	bash tests/install

run-vectors:
	rt ci vectors
	@echo
	@cat crates/vectors/out/stdout

vectors:
	apt-get install -y python3-cryptography python3-cryptography-vectors
	/usr/bin/python3 tools/make_vectors.py

bench:
	bench/run
