# make demo    a C host's day, with its tables and its tally, the picture of a channel's next superframe, the listing of the sample bursts,
#              and the sample day replayed
# make test    everything that must hold, as .ci/run runs it; its last line is 'N passed, M failed'
# make bench   the calls beside plain C and plain Rust, how many channels one core serves, the listing and the replay beside two programs each
# make second  builds the second program of tests/second, which test and bench use
# make clean   removes all that was built

archive := target/staticlib/libgemthatch.a
second := target/bin/second
peer := target/bin/peer
programs := target/bin/listing target/bin/replay target/bin/moment
# All that the proofs read, without what a run of rt leaves among it.
proved := crates.txt $(shell find crates -regex 'crates/[^/]*/out' -prune -o -type f -print)

SHELL := /bin/bash

.PHONY: demo test bench clean second

demo: target/host target/draw $(programs)
	@echo 'target/host (examples/host.c)'
	@target/host
	@echo
	@echo 'target/draw target/superframe.svg (examples/draw.c)'
	@target/draw target/superframe.svg
	@echo
	@echo 'The same as a picture for a browser: target/superframe.svg'
	@echo
	@echo 'samples/bursts, nine octets to a burst:'
	@od -An -v -w9 -tx1 samples/bursts
	@echo
	@echo 'target/bin/listing < samples/bursts'
	@target/bin/listing < samples/bursts
	@echo
	@echo 'samples/day, 24 octets to a log record, made by examples/to-log from samples/day.txt:'
	@od -An -v -w24 -tx1 samples/day
	@echo
	@echo 'target/bin/replay < samples/day'
	@target/bin/replay < samples/day
	@echo
	@echo 'target/bin/moment < samples/day'
	@target/bin/moment < samples/day
	@echo
	@echo 'head -c 240 samples/day | target/bin/moment, the moment after ten log records'
	@head -c 240 samples/day | target/bin/moment

test:
	@tests/run

bench: $(programs) second
	@$(second) bench-calls
	@echo
	@$(second) bench-load
	@echo
	@$(second) bench-listing target/bin/listing $(peer)
	@echo
	@$(second) bench-replay target/bin/replay $(peer)

second: $(archive)
	@. tests/x86-64 && cargo build --quiet --release --offline --manifest-path tests/second/Cargo.toml --target-dir target/second && \
		mkdir -p target/bin && cp target/second/$$CARGO_BUILD_TARGET/release/{second,peer} target/bin

target/host target/draw: target/%: examples/%.c include/gemthatch.h $(archive)
	@. tests/x86-64 && gcc -O2 -Iinclude $< $(archive) -o $@

# What is built is built only once it and all below it are proved, which takes some minutes. The archive is for any x86-64 processor, as C
# programs are, and not for the kit's default. A program is built by running it; tests/run hands over those that rt ci built.
$(archive): $(proved)
	@echo 'proving and building the archive ..'
	@mkdir -p $(@D)
	@(cd crates/gemthatch && rt lib --cpu x86-64) > target/archive.log 2>&1 || { cat target/archive.log; exit 1; }
	@cp crates/gemthatch/out/libgemthatch.a $@

$(programs) target/bin/marked: target/bin/%: $(proved)
	@echo 'proving and building $* ..'
	@mkdir -p $(@D)
	@(cd crates/$* && env -u RT_BACKEND rt run) < /dev/null > target/$*.log 2>&1 || { cat target/$*.log; exit 1; }
	@cp crates/$*/out/$* $@

clean:
	rm -rf target crates/*/out
