# make help says what there is to make. README says how long each takes the first time. What is proved stays proved until
# its files change.

.PHONY: help run programs test check fuzz bench archive wasm second pads large install uninstall tools clean need-rt need-cargo

PROGRAMS = scoap scoap_cell scoap_open scoap_plan
# For make fuzz; without SEED the time gives it.
SECONDS = 60
SEED = $(shell date +%s%N)
# For make large and make pads: the most lines, where they are not the published 1,000.
LINES =
# For make install. DESTDIR stands before every path, and PREFIX is what scoap.pc names.
PREFIX = /usr/local
DESTDIR =
# The version's one home is the header.
VERSION = $(shell sed -nE 's/^.define SCOAP_VERSION "([0-9.]+)"$$/\1/p' include/scoap.h)
MAJOR = $(firstword $(subst ., ,$(VERSION)))
SHARED = libscoap_c.so
INTO = $(DESTDIR)$(PREFIX)

help:
	@echo 'make run       proves and builds the programs, and runs scoap on a bundled example, C17'
	@echo 'make pads      builds target/bin/scoap_pads, from a netlist of a synthesis tool to its pads'
	@echo '                 it links what make large has built; LINES=4000 builds that one first'
	@echo 'make large     proves and builds the analyser for more lines, under names of its own: LINES=4000'
	@echo 'make archive   proves and builds the archive for C, target/staticlib/libscoap_c.a'
	@echo 'make wasm      the same calls as WebAssembly, target/wasm: scoap.wasm, scoap.js, scoap.d.ts'
	@echo 'make install   installs programs, header, archive, shared library, scoap.pc and the WebAssembly'
	@echo '                 PREFIX=/usr/local DESTDIR= (make uninstall takes them out again)'
	@echo 'make check     the quick loop: proves what has changed, and passes the tests that take seconds'
	@echo "make test      passes all tests, from nothing: its last line is 'N passed, 0 failed'"
	@echo 'make fuzz      compares archive and second implementation on random calls: SECONDS=60 SEED='
	@echo 'make bench     times the archive and the second implementation side by side'
	@echo 'make tools     installs what some tests of scoap_pads need, by apt-get as root, and updates its lists first'
	@echo 'make clean     removes target/ and crates/*/out/, with all that was proved and built'

# What the other targets need, told where it is missing.
need-rt:
	@command -v rt >/dev/null || { echo 'rt is not installed: it proves and builds this repository (the Rattle toolchain)'; exit 1; }
	@command -v $(CC) >/dev/null || { echo '$(CC) is not installed: a C compiler links the programs'; exit 1; }

need-cargo:
	@command -v cargo >/dev/null || { echo 'cargo is not installed: it builds scoap_pads and the second implementation, which are in Rust'; exit 1; }

programs: need-rt
	@echo 'proving the programs and the crates below them, one line for each that has changed:'
	@tools/proved programs $(PROGRAMS)

run: programs
	@echo 'target/bin/scoap on examples/c17:'
	@cd examples/c17 && ../../target/bin/scoap
	@echo
	@echo 'Built: $(PROGRAMS:%=target/bin/%)'
	@echo 'Next: target/bin/scoap in a folder with your lib.txt and net.txt (README, The two texts; examples/built_in has'
	@echo 'cells to begin with); make pads for a netlist out of a synthesis tool; make help for the rest.'

test: need-rt need-cargo
	@tests/run

check: need-rt need-cargo
	@tests/run --quick

# The archive for C. It is proved and built again where a file of crates/ or the toolchain has changed.
ARCHIVE = target/staticlib/libscoap_c.a
archive: need-rt
	@tools/proved archive

# The archive as WebAssembly, and what JavaScript and TypeScript need around it.
wasm: archive
	@pads/wasm

# The programs that compare it with the second implementation.
second: archive need-cargo
	@cd tests/second && cargo build -q --release --offline -j2

bench: second
	@target/cargo/release/bench

fuzz: second
	@target/cargo/release/compare --fuzz $(SECONDS) $(SEED)
	@tests/pads --fuzz $(SECONDS)

# The companion, from a chip's netlist to its pads; it links the archive and those for more lines that make large has built.
pads: $(if $(LINES),large) wasm need-cargo
	@cd pads && large=$$(ls -d ../target/large-*/lib/*.a 2>/dev/null | sed 's|/lib/.*||' | tr '\n' ' '); \
	$${large:+env "SCOAP_LARGE=$$large"} cargo build -q --release --offline -j1
	@mkdir -p target/bin && cp target/pads/release/scoap_pads target/bin/scoap_pads
	@target/bin/scoap_pads page examples/c17 -o target/c17.html
	@target/bin/scoap_pads page examples/recorder/decim.json -l examples/recorder/recorder.lib -o target/decim.html
	@echo
	@echo 'Built: target/bin/scoap_pads'
	@echo 'Next: target/bin/scoap_pads report examples/shift_register/c1.blif'

# The same proofs at a larger size, in a copy of the tree; what is built of it stands under target/.
large: need-rt
	@large/build '$(LINES)'

# The shared library has the archive's calls and no others. scoap_pads is installed where it was built.
install: programs wasm
	@mkdir -p target/install
	@$(CC) -shared -o target/install/$(SHARED).$(VERSION) -Wl,-soname,$(SHARED).$(MAJOR) \
	    -Wl,--whole-archive $(ARCHIVE) -Wl,--no-whole-archive
	@sed 's|@PREFIX@|$(PREFIX)|; s|@VERSION@|$(VERSION)|' include/scoap.pc.in >target/install/scoap.pc
	@install -d $(INTO)/bin $(INTO)/include $(INTO)/lib/pkgconfig
	@install -m 755 $(PROGRAMS:%=target/bin/%) $(wildcard target/bin/scoap_pads) $(INTO)/bin
	@install -m 644 include/scoap.h $(INTO)/include
	@install -m 644 $(ARCHIVE) target/wasm/scoap.wasm target/wasm/scoap.js target/wasm/scoap.d.ts $(INTO)/lib
	@install -m 755 target/install/$(SHARED).$(VERSION) $(INTO)/lib
	@ln -sf $(SHARED).$(VERSION) $(INTO)/lib/$(SHARED).$(MAJOR)
	@ln -sf $(SHARED).$(MAJOR) $(INTO)/lib/$(SHARED)
	@install -m 644 target/install/scoap.pc $(INTO)/lib/pkgconfig
	@echo 'installed in $(INTO): bin/, include/scoap.h, lib/libscoap_c.a, lib/$(SHARED), lib/scoap.wasm, lib/scoap.js, lib/scoap.d.ts, lib/pkgconfig/scoap.pc'
	@test -e $(INTO)/bin/scoap_pads || echo 'without scoap_pads, which make pads builds'

uninstall:
	@rm -f $(PROGRAMS:%=$(INTO)/bin/%) $(INTO)/bin/scoap_pads $(INTO)/include/scoap.h $(INTO)/lib/libscoap_c.a $(INTO)/lib/scoap.wasm $(INTO)/lib/scoap.js $(INTO)/lib/scoap.d.ts \
	    $(INTO)/lib/$(SHARED) $(INTO)/lib/$(SHARED).* $(INTO)/lib/pkgconfig/scoap.pc

# What its tests use beyond the toolchain; without it they say what they skip.
tools:
	apt-get update
	apt-get install -y --no-install-recommends yosys berkeley-abc chromium chromium-driver curl

clean:
	rm -rf target crates/*/out $(shell large/build --trees)
