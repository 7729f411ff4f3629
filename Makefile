# Presscurlew: what can be run. Everything that is made lies below target/, but for what rt keeps in crates/*/out.

ARCHIVES := $(patsubst %,target/staticlib/lib%.a,cstack floats host calllog plainhost)
PROVED := crates.txt $(shell find crates -path 'crates/*/out' -prune -o \( -name '*.rt' -o -name '*.antt' \) -print)

help:
	@echo 'make demo    a trailer in a jam: the gate at work, the verdict, and a picture'
	@echo 'make label   the label as a page to print: target/label/label.html'
	@echo 'make test    the merge gate: proofs, archives, Rust tests, C and C++ examples'
	@echo 'make bench   calls, samples and records beside plain Rust, a record beside its call, a burst beside single offers,'
	@echo '             the plain engine beside the gate'
	@echo 'make bench-replay   the program replay beside the same in plain Rust'
	@echo 'make boards  archives for ARM and RISC-V boards, tested under emulation (boards/run install has what it needs)'
	@echo 'make lib       one archive for C, headers, what pkg-config and CMake read: target/package'
	@echo 'make install   the same below PREFIX (/usr/local), in DESTDIR if that is set'
	@echo 'make dist      the release, in target/dist: all of that for x86-64 and the boards, the examples and the Rust package;'
	@echo '               packages for Debian; their check sums'
	@echo 'make measure   what a call takes, written to docs/INTEGRATING.md'
	@echo 'make doxygen   the pages of the headers, by Doxygen: target/doxygen/html'
	@echo 'make picture   the picture of the demo, docs/jam.svg'

# The program that answers: the proved one, or without the Rattle kit the second one, which gives the same output.
REPLAY := $(shell command -v rt >/dev/null && grep -qs '^replay:' crates.txt && echo target/bin/replay || echo target/rust/release/reference-replay)
CARGO_BUILD := cargo build --quiet --release --offline --manifest-path rust/Cargo.toml --target-dir target/rust
CURLEW := target/rust/release/curlew
JAM := examples/logs/jam
JAM_TITLE := 'A jam: the channel is loud throughout'
PLOT = $(CURLEW) plot --title $(JAM_TITLE) $(JAM).log

demo: demo-build
	@mkdir -p target/demo
	@$(REPLAY) <$(JAM).log >target/demo/jam.out
	@echo
	@echo 'A jam. A roadworks trailer wants to warn drivers, but its radio channel is 90 to 100 % busy, and stays so.'
	@echo 'Polite radios back off. Presscurlew does too, and still promises two things, however loud the neighbours are:'
	@echo '  ceiling   it is on air for at most 30 ms in any second, and in any stretch of time for at most 3 % of it and 4 ms'
	@echo '  floor     it never falls silent: a poll that finds a packet 1.001 s or more after the last one sends it'
	@echo
	@echo 'Below, each call that the trailer made and the answer of $(REPLAY).'
	@echo 'Warnings have priority 0. Left out: samples, and polls that found the gate closed.'
	@echo
	@$(CURLEW) show --brief --first 30 $(JAM).log target/demo/jam.out
	@echo
	@echo 'Warning 101 came at 2.001 s and went at 2.050 s: 1.02 s after the packet before it. From there on a warning'
	@echo 'goes each second, as one comes each second. What is less urgent has to wait, or expires. The last line shows a'
	@echo 'full queue: five entries of the diary (priority 3) wait, and the new one displaces the oldest, 501.'
	@echo
	@echo 'Was all of it right? A book of the run, kept from calls and answers alone, and a second program say:'
	@echo
	@$(CURLEW) check $(JAM).log target/demo/jam.out
	@$(PLOT) target/demo/jam.out -o target/demo/jam.svg
	@$(CURLEW) report --title $(JAM_TITLE) $(JAM).log target/demo/jam.out -o target/demo/jam.html
	@echo
	@echo 'See it:      target/demo/jam.svg, in any browser; all of it on one page: target/demo/jam.html'
	@echo 'Guarantees:  docs/LABEL.md, each number with the theorem that proves it'
	@echo 'Your own:    examples/logs/README.md says how to write a log and play it'

demo-build:
	@echo 'Building the tool curlew and $(REPLAY) ..'
	@$(CARGO_BUILD) --package curlew --package reference
ifeq ($(REPLAY),target/bin/replay)
	@echo 'The program is proved before it is compiled: some minutes the first time (in full: target/demo/proof.log).'
	@mkdir -p target/demo
	@{ $(MAKE) target/bin/replay 2>&1; echo $$? >target/demo/status; } | tee target/demo/proof.log | grep --line-buffered '^rt:'; \
	[ "$$(cat target/demo/status)" = 0 ] || { tail -n 40 target/demo/proof.log; exit 1; }
else
	@echo 'The proved program needs the Rattle kit (rt). Without it, the second program answers in its place.'
endif

# The first sheet is what a customer is handed. Chromium makes a PDF of it, where there is one.
label:
	@$(CARGO_BUILD) --package curlew
	@mkdir -p target/label
	@$(CURLEW) label --page docs/LABEL.md -o target/label/label.html
	@echo 'Made target/label/label.html. Printed on A4, its first sheet is the one to hand out.'
	@chromium=$$(command -v chromium || command -v chromium-browser || command -v google-chrome) || exit 0; \
	"$$chromium" --headless --no-sandbox --disable-gpu --no-pdf-header-footer --print-to-pdf=target/label/label.pdf \
	    "file://$(CURDIR)/target/label/label.html" >target/label/print.log 2>&1 && echo 'Made target/label/label.pdf.' \
	    || echo 'No PDF was made: target/label/print.log says why.'

# The demo's picture as README has it. The answers are those of the committed file, which the program is held to.
PICTURE := docs/jam.svg

picture:
	@$(CARGO_BUILD) --package curlew
	@$(PLOT) $(JAM).out -o $(PICTURE)

test:
	@bash .ci/run

CARGO_RUN := cargo run --quiet --release --offline --manifest-path rust/Cargo.toml --target-dir target/rust

bench: $(ARCHIVES)
	@$(CARGO_RUN) --package bench --bin bench
	@echo
	@$(CARGO_RUN) --package bench --bin gate
	@echo
	@$(CARGO_RUN) --package bench --bin sample
	@echo
	@$(CARGO_RUN) --package bench --bin harmonised
	@echo
	@$(CARGO_RUN) --package bench --bin record
	@echo
	@$(CARGO_RUN) --package bench --bin burst
	@echo
	@$(CARGO_RUN) --package bench --bin plain_engine

bench-replay: $(ARCHIVES) target/bin/replay
	@$(CARGO_BUILD) --package bench
	@rust/bench/replay

PREFIX ?= /usr/local
PLACE = $(if $(DESTDIR),$(DESTDIR)/)$(PREFIX)

lib: $(ARCHIVES)
	@package/stage target/package
	@echo 'target/package has include, lib and share; make install PREFIX=.. puts them where you want them'

install: lib
	@mkdir -p '$(PLACE)'
	@tar -C target/package --mode=u+rwX,go+rX,go-w -cf - . | tar -C '$(PLACE)' --no-same-owner --no-overwrite-dir -xf -

# The boards' archives are made and tested, if they were not; if what that needs is missing, the release is without them.
dist: lib
	@boards/run tested >/dev/null || ! boards/run missing || \
	{ echo 'The archives of the boards are made and tested: some ten minutes.'; boards/run; }
	@package/dist target/dist

measure: lib
	@package/measure

boards: $(ARCHIVES)
	@boards/run

VERSION = $(shell sed -n 's/^.define PRESSCURLEW_VERSION "\(.*\)"$$/\1/p' include/presscurlew.h)

doxygen:
	@command -v doxygen >/dev/null || { echo 'make: doxygen is missing: install the package doxygen' >&2; exit 1; }
	@mkdir -p target/doxygen
	@{ cat docs/Doxyfile; echo 'PROJECT_NUMBER = $(VERSION)'; } | doxygen -
	@echo 'Made target/doxygen/html/index.html.'

# rt proves a crate before it writes its archive, and a program before it compiles it.
NEEDS_KIT = @command -v rt >/dev/null || { echo 'make: $@ comes from the Rattle kit, and there is no rt on PATH: install the kit, and put its bin folder there' >&2; exit 1; }

# rt run leaves the program in out/; here it plays a log without a record.
target/bin/replay: $(PROVED)
	$(NEEDS_KIT)
	cd crates/replay && rt run </dev/null
	@mkdir -p target/bin
	@cp crates/replay/out/replay $@

target/staticlib/lib%.a: $(PROVED)
	$(NEEDS_KIT)
	package/archive target/staticlib $*

.PHONY: help demo demo-build label picture test bench bench-replay boards doxygen lib install dist measure
