# make try     runs examples/first.ntns, or the script that SCRIPT names, without proofs: in a minute or two
# make run     the same by the proved program; the first build proves every crate below it, with a line a crate
# make test    the gate: every proof, every test, and runs of the program and of the library
# make wrong   tries the wrong bodies, each of which a contract or a test must refuse; those of one crate with CRATE=name
# make definitions  the same for the turned definitions, which a law, an example or a function must refuse
# make random  plays COMMANDS random commands, 1,000,000 by default, beside a plain model; the 60 seconds of a test allow some 5,000,000
# make hostile refuses each request for memory of longer scripts in turn, or of the script that SCRIPT names, as the gate does of short ones
# make bench   times the built program and the library, and fails nothing
# make lib     the static library for C and C++, out/libntns.a, and its headers; the first build proves every crate below it
# make shared  the shared library too, out/libntns.so.1
# make install puts both libraries, the headers, and files for pkg-config and CMake below PREFIX, /usr/local by default, and that below DESTDIR
# make install-program  puts the program into bin/ there and its manual page into share/man/man1/; the first build proves every crate below the program,
#              so `make install` leaves both out

SCRIPT ?= examples/first.ntns
COMMANDS ?= 1000000
PREFIX ?= /usr/local
PLACE = $(DESTDIR)$(PREFIX)

.PHONY: try run test wrong definitions random bench hostile build lib shared install install-program

try:
	@echo "make try: compiled without proofs, which takes a minute or two; nothing of it is proved" >&2
	@cd crates/ntns && rt try < "$(abspath $(SCRIPT))"

run: build
	@crates/ntns/out/ntns < "$(SCRIPT)"

test:
	gate/test.sh

wrong:
	gate/wrong.py $(CRATE)

definitions:
	gate/wrong.py --definitions $(CRATE)

random:
	cd crates/ob_random_tests && COMMANDS=$(COMMANDS) rt test

build:
	@gate/build.py ntns

bench: build lib
	@gate/build.py callers viewers
	bench/lines.py crates/ntns/out/ntns
	bench/instructions.py crates/ntns/out/ntns
	bench/growth.py crates/ntns/out/ntns
	bench/journal.py crates/ntns/out/ntns
	bench/threads.py crates/callers/out/callers
	bench/viewers.py crates/viewers/out/viewers
	bench/calls.py 100000
	bench/beside.py

hostile: build
	gate/refusals.py crates/ntns/out/ntns $(if $(filter command environment,$(firstword $(origin SCRIPT))),$(SCRIPT),--long)

lib:
	@gate/library.py

shared:
	@gate/library.py --shared

install: shared
	install -d "$(PLACE)/include" "$(PLACE)/lib/pkgconfig" "$(PLACE)/lib/cmake/ntns"
	install -m 644 include/ntns.h include/ntns_windows.h "$(PLACE)/include/"
	install -m 644 out/libntns.a "$(PLACE)/lib/"
	install -m 755 out/libntns.so.1 "$(PLACE)/lib/"
	ln -sf libntns.so.1 "$(PLACE)/lib/libntns.so"
	install -m 644 lib/ntns.pc "$(PLACE)/lib/pkgconfig/"
	install -m 644 lib/ntns-config.cmake lib/ntns-config-version.cmake "$(PLACE)/lib/cmake/ntns/"

install-program: build
	install -d "$(PLACE)/bin" "$(PLACE)/share/man/man1"
	install -m 755 crates/ntns/out/ntns "$(PLACE)/bin/"
	install -m 644 lib/ntns.1 "$(PLACE)/share/man/man1/"
