# make            proves what the library and the program need, and builds both
# make example    decides case I and two versions of a trimming step, and prints in words the answers and what clashes
# make test       the gate: all crates, every must-fail edit, and the tests through C
# make memcheck   a part of the damaged files under valgrind, on x86-64 only
# make outside    gives clauses to cadical and minisat, and reads back what they print
# make bench      times the library beside cvc5, minisat and cadical, and compares verdicts and cores
# make install    header, archive, program and pkg-config file, below PREFIX (and that below DESTDIR)
# make clean      removes what was built, but what rt keeps in crates/*/out
ifeq ($(shell command -v rt 2>/dev/null),)
$(error The Rattle kit is missing: its command rt is not on the PATH)
endif

PREFIX = /usr/local
VERSION = 1.0
CFLAGS = -std=c99 -O2 -Wall -Wextra

archive = target/staticlib/libsayfudhoum.a
program = target/bin/decide
place = $(DESTDIR)$(abspath $(PREFIX))

.PHONY: all library program example test memcheck outside bench install clean
.NOTPARALLEL:

all: program library

library:
	cd crates/sayfudhoum_c && rt lib
	@mkdir -p target/staticlib
	cp crates/sayfudhoum_c/out/libsayfudhoum_c.a $(archive)

program:
	cd crates/decide && rt run </dev/null >/dev/null
	@mkdir -p target/bin
	cp crates/decide/out/decide $(program)

shared = examples/model.c examples/statement.c
example: library
	@mkdir -p target/c
	@for name in case_i trimming; do echo; \
	    tests/x86-64 cc $(CFLAGS) -Iinclude -o target/c/$$name examples/$$name.c $(shared) $(archive) && \
	    tests/x86-64 run target/c/$$name || exit; \
	done

test:
	.ci/run

memcheck_sources = bad_input clashes damage dimacs files finder heap_slices judging lines models reader rounds \
    solver table
ifeq ($(shell uname -m),x86_64)
memcheck: library
	mkdir -p target/c
	cc -std=c99 -g -O1 -Iinclude -o target/c/memcheck $(memcheck_sources:%=tests/%.c) $(archive)
	valgrind --error-exitcode=1 target/c/memcheck 50
else
memcheck:
	$(error make memcheck needs an x86-64 machine, since valgrind emulates no other processor)
endif

outside_sources = dimacs lines reader solver
outside: library
	@mkdir -p target/c
	tests/x86-64 cc $(CFLAGS) -Iinclude -Itests -o target/c/outside tools/outside.c $(outside_sources:%=tests/%.c) $(archive)
	python3 tools/outside.py tests/x86-64 run target/c/outside

bench: library
	@mkdir -p target/c
	tests/x86-64 cc $(CFLAGS) -Iinclude -o target/c/bench bench/driver.c $(archive)
	python3 bench/run.py tests/x86-64 run target/c/bench

define pkgconfig
prefix=$(abspath $(PREFIX))
includedir=$${prefix}/include
libdir=$${prefix}/lib

Name: sayfudhoum
Description: Decides whether flat statements about elements and sets can all hold
Version: $(VERSION)
Cflags: -I$${includedir}
Libs: -L$${libdir} -lsayfudhoum
endef
export pkgconfig

install: all
	install -d $(place)/include $(place)/lib/pkgconfig $(place)/bin
	install -m 644 include/sayfudhoum.h $(place)/include
	install -m 644 $(archive) $(place)/lib
	install -m 755 $(program) $(place)/bin
	printf '%s\n' "$$pkgconfig" >$(place)/lib/pkgconfig/sayfudhoum.pc

clean:
	rm -rf target
