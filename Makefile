# demo: builds hall and plays one scenario of one bucket, SCENARIO=.. another. network: builds network and plays a scenario of all machines,
# NETWORK=.. another. scenarios: joins all of them into what the gate gives to the two (what they must write is crates/hall/stdout and
# crates/network/stdout, checked by hand). soak: door, house and office as processes over a bad network, OPTIONS=.. for tests/soak.py. udp: the example
# over UDP, checked. programs: builds these three, if one is missing. test: the gate. fmt: the layout of all sources.
SCENARIO ?= scenarios/08-twice-in-one-second.hall
NETWORK ?= scenarios/network/08-twice-in-one-second.hall
KEHMALGI_BIN ?= target/bin
PROGRAMS = $(addprefix $(KEHMALGI_BIN)/,door house office)
SOURCES = $(shell find crates -name out -prune -o -type f -print) crates.txt

.PHONY: demo network scenarios soak udp programs test fmt

demo: target/bin/hall
	target/bin/hall < $(SCENARIO)

network: target/bin/network
	target/bin/network < $(NETWORK)

target/bin/%: $(SOURCES)
	@echo "proving and building $*: some minutes the first time"
	@mkdir -p target/bin
	@(cd crates/$* && rt run -- --help < /dev/null) > target/$*.log 2>&1 || { tail -n 20 target/$*.log; exit 1; }
	@cp crates/$*/out/$* $@

scenarios:
	cat scenarios/*.hall > crates/hall/stdin
	cat scenarios/network/*.hall > crates/network/stdin

soak: programs
	KEHMALGI_BIN=$(KEHMALGI_BIN) python3 tests/soak.py $(OPTIONS)

udp: programs
	KEHMALGI_BIN=$(KEHMALGI_BIN) python3 tests/udp.py

programs: $(PROGRAMS)

test:
	.ci/run

fmt:
	for crate in crates/*; do (cd $$crate && rt fmt) || exit 1; done
