# `make` alone, or make help: what there is.
.PHONY: help run picture check edits test bench bench-peer lib card install dist demo house clean

help:
	@tools/help.sh

#: what the product does: the simulator's case, then a host in C. SCHEDULE=path: a schedule of your own
run:
	@tools/run.sh "$(SCHEDULE)"

#: the picture of a schedule, an SVG: SCHEDULE=path [OUT=path.svg]
picture:
	@tools/picture.sh "$(SCHEDULE)" "$(OUT)"

#: a host, a desk and a poor line between them, with kills; a plant of two hosts and a lease manager; a lock
demo: lib
	@examples/demo.sh

#: dist/: the library for C, its headers and a pkg-config file; TARGET=aarch64: dist/aarch64/, the same for 64-bit Arm
lib:
	@tools/lib.sh --target "$(TARGET)"

#: dist/mantelorris-card: prints what is on a card, an image or a packet, in words or as JSON, and never writes
card: lib
	@tools/card.sh dist/mantelorris-card

#: the library, its headers, pkg-config and CMake files, and mantelorris-card below PREFIX=/path [DESTDIR=folder] [TARGET=aarch64: without the card reader]
install:
	@tools/lib.sh --target "$(TARGET)" install "$(PREFIX)" "$(DESTDIR)"
	@case "$(TARGET)" in ''|x86-64) tools/card.sh "$(DESTDIR)$(PREFIX)/bin/mantelorris-card" ;; esac

#: dist/mantelorris-VERSION.tar.gz: library, headers, guide, examples, manifest; TARGET=aarch64: in dist/aarch64/, for 64-bit Arm
dist:
	@tools/dist.sh $(TARGET)

#: the proofs of what is changed since it was proved; not the verdict
check:
	@tools/progress.py rt check && echo "no verdict: what was proved before was not proved again; make test is the verdict"

#: the must-fail edits of these crates, CRATES="a b", or of all; not the verdict
edits:
	@tools/edits.sh $(CRATES)

#: the verdict: the toolchain's gate, from nothing, and every test; its last line is 'N passed, 0 failed'
test:
	@tools/test.sh

#: nanoseconds per call of the proved code and of the second program
bench:
	@tools/staticlib.sh >/dev/null
	@cargo run --release --quiet --offline --manifest-path compare/Cargo.toml --bin bench

#: a durable job on the kernel and on SQLite; needs libsqlite3-dev, is skipped without it
bench-peer:
	@tools/bench_peer.py

#: docs/pictures/house.svg: the crates by layer, and which layer rests on which
house:
	@tools/house.py

#: removes all that was made; what was proved must be proved again
clean:
	@rm -rf target dist crates/*/out second/target compare/target tests/schedules/target
