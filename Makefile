# make help                      this text
# make demo SECONDS=n DOMAINS=n  many domains in threads over the proved archive; prints tables and checks its claims
#   TRACE=file GUEST=name        and writes the log of one domain, whose guest is plain, masking, contested, reopening or hostile
#   BROKEN=name                  the same over a hand-written core with one fault; BROKEN=list names them
# make qemu                      a small kernel with the kernel's archive, under qemu-system-x86_64; ends by itself
# make replay LOG=file PAGES=n   plays a recorded log over n lent pages (default 128): all lines agree, or which is the first that differs
# make test                      the gate: layout, every proof, must-fail edits, programs, host tests
# make lib                       both archives for C, in target/lib: for user space, and for a hypervisor; and the bitcode of both
# make install PREFIX=DIR        archives, headers and pkg-config files below DIR (default /usr/local); make uninstall PREFIX=DIR
# make bench                     what calls cost, whole and inside, against hand-written C and the Rust model; not part of the gate
# make fuzz MINUTES=n            the differential tests for n minutes, from fresh seeds
# make mutants                   every edit under mutants/, which the prover must refuse; not part of the gate
# make setup                     installs what the tests and the benchmark need beside the Rattle toolchain
# make clean                     removes all that was made
.PHONY: help demo qemu replay test lib install uninstall bench fuzz mutants setup clean
PREFIX = /usr/local
MINUTES = 10
SECONDS = 5
DOMAINS = 40
TRACE =
GUEST = plain
BROKEN =
LOG = -
PAGES = 128

archive = target/lib/libevtchn_fifo.a
library = word calls machine cables access_log queue claims evtchn_fifo evtchn_cables interleaving exported replay evtchn_fifo_c evtchn_cables_c replay_c
proved = $(shell find $(library:%=crates/%) -name '*.rt' -o -name '*.antt') crates.txt tools/archives tools/archive-kit

help:
	@sed -n 's/^# //p' Makefile

test:
	@tools/test

# a broken core needs no proved archive
demo: $(if $(BROKEN),,target/demo/demo)
	@tools/demo "$(SECONDS)" "$(DOMAINS)" "$(GUEST)" "$(TRACE)" "$(BROKEN)"

target/demo/demo: $(wildcard host/c/demo/*.c host/c/demo/*.h host/include/*) host/c/world.h tools/build-demo $(archive)
	@tools/build-demo $(archive) $@

qemu: $(archive)
	@tools/qemu

replay:
	@tools/replay "$(LOG)" "$(PAGES)"

lib: $(archive)

$(archive): $(proved)
	@tools/archives

install: $(archive)
	@tools/install "$(PREFIX)"

uninstall:
	@tools/install -u "$(PREFIX)"

bench: $(archive)
	@tools/bench

fuzz: $(archive)
	@MINUTES=$(MINUTES) host/rust/run-tests

mutants:
	@tools/mutants

setup:
	@tools/setup

clean:
	@rm -rf target host/rust/target
