# make quick  makes bin/hkrep-unproved: the program without any proof, in two to five minutes, which says so at --version and serve
# make try    the same, and runs the first example with it
# make        proves and builds bin/hkrep
# make demo   the same, and runs the first example
# make serve-demo   a node that two feeders fill, with a second node that catches up. This and what follows up to `look` takes bin/hkrep, else
#             bin/hkrep-unproved of make quick, and only where neither is there it proves and builds the first
# make redis-demo   a primary's log through Redis into two nodes, one killed in the middle (apt-get install redis-server python3-redis)
# make nats-demo    200,000 transactions through three nats-servers into two nodes, a leader and a node killed (connectors/nats/get-server)
# make shop-demo    a PostgreSQL with writers through Redis into two nodes, one killed, 20 moments compared (docs/POSTGRESQL.md)
# make engine-lab   the same, and faults of three nats-servers in network namespaces, cut off from each other; as root, with iproute2, for minutes
# make look   a node that two feeders fill, one of them late, with the page to look at it; until Ctrl-C
# make test   the one test command: every proof from nothing, the must-fail edits, the tests, then the end-to-end checks
# make compare CASES=100000 SEED=7   that many random cases beside tests/lib/reference.py, once bin/hkrep is built
# make lib    proves and builds the library for programs in C and other languages: lib/libhekaton.a and .so (docs/EMBEDDING.md)
# make quick-lib  makes it in minutes without any proof, which hk_version and hekaton.pc say
# make install PREFIX=/usr/local DESTDIR=   puts the program, the library, the Python client, manual pages, completions and examples there
# make package   makes a Debian package, a plain tar and a wheel in dist/ (docs/RELEASE.md); for both, make and make lib, or make test, go before
# make crate NAME=hk_store   the verdict on one crate in about a minute: layout, words, that its edits fit, its proof; EDITS=1 tries the edits too
# make fn NAME=hk_store::replace::put   the verdict on one function and what it calls, with nothing below built or proved: minutes (docs/CONTRIBUTING.md)
# make edits NAME=hk_store   the must-fail edits of a crate, all together in as few checks as can be (docs/CONTRIBUTING.md)
# make lint   the Python of clients/python and connectors: layout, style, types (apt-get install black pycodestyle mypy)
# make hooks  puts a check of some seconds before each commit of this checkout (tests/tools/pre-commit)
# make measures   draws the pictures of docs/measures anew from their figures (python3-matplotlib)
# make bench  times the built program (by hand; never part of the gate's verdict)

PREFIX = /usr/local
# what demonstrations take: the proved program, else the one of make quick, where that alone is there
PROGRAM = $(firstword $(wildcard bin/hkrep) $(wildcard bin/hkrep-unproved) bin/hkrep)

.PHONY: all quick quick-lib try test lib install package crate fn edits lint hooks measures demo serve-demo redis-demo nats-demo shop-demo engine-lab look compare bench clean

CASES = 10000
SEED = 1

all: bin/hkrep

SOURCES := $(shell find crates -name out -prune -o -name must-fail -prune -o -name hk_tests -prune -o -type f -print) crates.txt HANDLES

# made anew where a source changed
bin/hkrep: $(SOURCES) tests/tools/build
	tests/tools/build
	touch bin/hkrep

bin/hkrep-unproved: $(SOURCES) VERSION tests/tools/quick tests/tools/plain_build.py tests/tools/plain_module.py
	tests/tools/quick

quick: bin/hkrep-unproved

quick-lib:
	tests/tools/library --unproved

lib:
	tests/tools/library

install:
	deploy/install --prefix "$(PREFIX)" --destdir "$(DESTDIR)"

package:
	deploy/package

try: bin/hkrep-unproved
	bin/hkrep-unproved at --log 7 --streams 1 1 1 5 < examples/first.bin

test:
	tests/all

demo: bin/hkrep
	bin/hkrep at --log 7 --streams 1 1 1 5 < examples/first.bin

serve-demo: $(PROGRAM)
	examples/links/two_feeders.py

redis-demo: $(PROGRAM)
	connectors/redis/demo

nats-demo: $(PROGRAM)
	connectors/nats/demo

shop-demo: $(PROGRAM)
	examples/shop/demo

engine-lab: bin/hkrep
	connectors/lab/run

look: $(PROGRAM)
	examples/links/look.py $(LOOK)

compare:
	tests/checks/compare random $(CASES) $(SEED)

crate:
	tests/tools/crate $(NAME) $(if $(EDITS),--edits)

fn:
	tests/tools/fn $(NAME)

edits:
	tests/tools/edits $(NAME)

lint:
	tests/checks/lint.py

hooks:
	ln -sf ../../tests/tools/pre-commit "$$(git rev-parse --git-common-dir)/hooks/pre-commit"

measures:
	tests/tools/draw

bench: bin/hkrep
	bench/run

clean:
	rm -rf bin lib dist crates/*/out
