# demo, build, try, test, bench and install wreplay; growths refuses it memory, pages runs what its pages show, client asks its adapter,
# table makes the table of crates. PREFIX says where install puts it, JOBS how many processors a check takes.
PREFIX ?= /usr/local
JOBS ?= $(shell nproc)
PROGRAM = crates/wreplay/out/wreplay
BENCH = crates/wreplay_bench/out/wreplay_bench
LOST = examples/lost.wasm examples/lost.plan examples/lost.schedule
# The tests that wait for a refused growth, or hand it on.
REFUSED = log_tests:refused:: log_tests:joining_again log_tests:skipping_with_refused machine_tests:growths \
	log_tests:contradictions:: module_tests:refused_memory module_tests:name_sections:: module_tests:schedules:: \
	replay_tests:refused shared_tests:growths shared_tests:operations:: shared_tests:splitting::

.PHONY: demo build try test pages client table bench growths wrong-bodies install clean

# Records, gathers and replays the lost update of examples/lost with no proof, by the commands in examples/demo: within two minutes.
demo:
	cd crates/worked_rows && rt try --data commands=../../examples/demo $(foreach it,$(LOST),--data $(it)=../../$(it))

# Proves the program and what it stands on, crate by crate, and builds it: minutes the first time, seconds after that.
build: $(PROGRAM)

$(PROGRAM): crates.txt $(wildcard crates/*/src/*.rt crates/*/specs/*.antt)
	cd crates/wreplay && rt check --jobs $(JOBS) && rt run -- gather <stdin >/dev/null

# Runs the program on the shipped pieces with no proof: within two minutes.
try:
	cd crates/wreplay && rt try -- gather <stdin

# Every proof from nothing, the wrong bodies that must be refused, the tests and the program's stored run.
test:
	.ci/run

# The commands that stand in the README, the tutorial and the hunt write what stands behind them, and the table of crates is up to date.
pages: $(PROGRAM)
	python3 scripts/crates.py --check
	mkdir -p build
	python3 bench/pages.py $(PROGRAM) README.md docs/TUTORIAL.md examples/hunt/README.md examples/start/README.md

# Debian's client of the Debug Adapter Protocol (golang-go, golang-github-google-go-dap-dev) goes through the run of the hunt.
client: $(PROGRAM)
	mkdir -p build && cat examples/hunt/east.pieces examples/hunt/west.pieces > build/night.pieces
	GO111MODULE=off GOPATH=/usr/share/gocode go build -o build/client bench/adapter/client.go
	build/client $(PROGRAM) examples/hunt/queue.wasm examples/hunt/queue.plan build/night.pieces

# The table of crates in docs/ARCHITECTURE.md.
table:
	python3 scripts/crates.py

# Speeds as ratios to named peers in the same run; docs/BENCH.md keeps them.
bench: $(PROGRAM) $(BENCH)
	python3 bench/gather.py $(PROGRAM)
	python3 bench/steps.py $(BENCH)
	python3 bench/accesses.py $(BENCH)
	python3 bench/locks.py $(BENCH)
	-python3 bench/decode.py $(BENCH)
	-python3 bench/machine.py $(BENCH)
	python3 bench/record.py $(PROGRAM) $(BENCH)
	python3 bench/view.py $(PROGRAM) $(BENCH)
	python3 bench/long_log.py $(PROGRAM)
	python3 bench/debug.py $(PROGRAM) $(BENCH)
	python3 bench/recordings.py $(PROGRAM)
	python3 bench/hunts.py $(PROGRAM)
	python3 bench/two_changes.py $(PROGRAM)
	python3 bench/threads.py $(PROGRAM)

# Refuses each growth in turn: of the programs, on recordings, replays and listings of the worked rows and on a thread alone; and of
# the tests, once they are proved and built.
growths: $(PROGRAM) $(BENCH)
	python3 bench/growths.py $(PROGRAM)
	python3 bench/growths.py $(BENCH)
	for it in $(REFUSED); do (cd crates/$${it%%:*} && rt test) || exit 1; done
	python3 bench/test_growths.py $(REFUSED:%=crates/%)

# The wrong bodies that the gate leaves out: the prover must refuse each. It takes hours.
wrong-bodies:
	python3 scripts/wrong_bodies.py

$(BENCH): crates.txt $(wildcard crates/*/src/*.rt crates/*/specs/*.antt)
	cd crates/wreplay_bench && rt run -- machine data/sieve.wasm data/sieve.plan >/dev/null

# The program, and its man page from the texts of its help.
install: $(PROGRAM)
	install -D -m 755 $(PROGRAM) $(DESTDIR)$(PREFIX)/bin/wreplay
	install -d $(DESTDIR)$(PREFIX)/share/man/man1
	python3 scripts/man.py $(PROGRAM) > $(DESTDIR)$(PREFIX)/share/man/man1/wreplay.1

clean:
	rm -rf crates/*/out
