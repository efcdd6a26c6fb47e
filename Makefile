# make test     the gate: proofs, must-fail edits, host tests
# make test-extra   the host tests that need Debian's tshark, tcpdump, chromium, lintian and uftp, which it installs where it may
# make lib      proves the library and builds target/staticlib/libsaratoga.a
# make engine   proves the engine and builds target/staticlib/libsaratoga_engine.a, over which the link program is (docs/ENGINE.md)
# make shared   links it as target/shared/libsaratoga.so too, over which host/python/saratoga.py is (docs/PYTHON.md)
# make replay   proves and builds replay, and runs it on the pass of page 611, or on PASS=file (docs/REPLAY.md)
# make compare  compares the archive with the codec, receivers, planner, merging and settings of host/paper; SEED=N, CALLS=N optional
# make soak     the same over 4.2 x 10^8 calls, an hour or more; or for SECONDS=N seconds
# make simulate runs a shell over the engine on a model disk and network, 10^8 events, and 10^7 calls beside a second engine (docs/ENGINE.md);
#               SEED=N, EVENTS=N, CALLS=N optional
# make stack    prints the stack that each function needs
# make bench    measures the library beside plain C and prints the ratios; docs/BENCHMARKS.md
# make bench-instructions   the same in instructions, by callgrind
# make bench-engine  the engine: nanoseconds a call, packets a second with and without writes, and its share of a packet's time in the link program
# make bench-link   the link program and saratoga-send beside uftp on loopback, some 15 minutes and 2 GB of disk; SIZE=octets, RATES=100,0,
#               LOSSES=0,1,5 and REPEATS=N optional
# make bench-descriptors    reading a descriptor, beside plain C, in time and instructions
# make link     builds the link program, target/link/saratoga-link (docs/LINK.md)
# make merge    builds the program that merges two plants' directories, target/merge/saratoga-merge (docs/LINK.md)
# make gigabyte a page of a gigabyte through the link program, its MD5 against Python's; half a minute, two gigabytes of disk
# make kills    kills the link program 2,000 times over a bad link and a bad disk, and compares every page that it reports; some minutes. KILLS=N, SEED=N
#               optional; the seed is printed (docs/LINK.md)
# make scale    1, 10 and 100 link programs and as many senders on this machine: memory, CPU time and octets a second (docs/LINK.md); COUNTS="1 10"
# make plan     builds the sender's planner, target/plan/saratoga-plan (docs/PLAN.md)
# make send     builds the sender, target/send/saratoga-send (docs/SEND.md)
# make settings builds the program for a plant's settings file, target/settings/saratoga-settings (docs/SETTINGS.md)
# make install  header, archive, shared library, pkg-config file, Python module, replay, the tools, the link program, the sender, the planner,
#               saratoga-merge, the program for settings, the dissector, the schema of the link program's lines, and a systemd unit with an example of its
#               options, with man pages, below PREFIX (default /usr/local; PREFIX=$HOME/.local needs no root); make uninstall takes them away
# make deb      a Debian package of all that make install puts, target/deb/saratoga_VERSION_amd64.deb; DEB_MAINTAINER= names who makes it
PREFIX ?= /usr/local
VERSION = 0.1
ARCHIVE = target/staticlib/libsaratoga.a
ENGINE = target/staticlib/libsaratoga_engine.a
PLAN_SOURCES = $(addprefix host/plan/,plan.c input.c reason.c)
SEND_SOURCES = $(addprefix host/send/,send.c options.c page.c transfer.c round.c run.c wire.c lines.c)
LINK_SOURCES = $(addprefix host/link/,link.c options.c source.c udp.c peers.c packets.c answers.c shell.c sync.c worker.c area.c pages.c closing.c \
	start.c files.c disk.c meta.c check.c sheet.c onair.c control.c settings.c text.c output.c json.c progress.c live.c counters.c \
	metrics.c log.c config.c hook.c notify.c)
MERGE_SOURCES = $(addprefix host/merge/,merge.c octets.c) $(addprefix host/link/,area.c files.c disk.c meta.c text.c output.c log.c)
SIMULATE_SOURCES = $(addprefix host/simulate/,simulate.c disk.c network.c judge.c listen.c shell.c first.c second.c)
SETTINGS_SOURCES = $(addprefix host/settings/,settings.c fault.c store.c)
BENCH_FLAGS = -O2 -Wall -Wextra -Iinclude

PASS ?= host/passes/page611.pass

.PHONY: test test-extra lib shared engine simulate replay-program front replay compare soak stack bench-program bench bench-instructions bench-descriptors
.PHONY: bench-engine bench-link
.PHONY: link gigabyte kills scale send plan merge settings install uninstall deb clean help

help:
	@sed -n '/^[^#]/q; s/^# //p' Makefile

test:
	bash .ci/run

test-extra: lib
	host/test-extra

# rt writes to the crate's out/
lib:
	host/archive saratoga
	@install -D -m 644 crates/saratoga/out/libsaratoga.a $(ARCHIVE)

engine:
	host/archive saratoga_engine
	@install -D -m 644 crates/saratoga_engine/out/libsaratoga_engine.a $(ENGINE)

# Exported is what the header declares, and nothing else. The soname changes where a struct or a function of the header changes.
SONAME = libsaratoga.so.0
SHARED = $(SONAME).1
DECLARED = s/^struct saratoga_[a-z0-9_]* \(saratoga_[a-z0-9_]*\)(.*/    \1;/p

shared: lib
	@mkdir -p target/shared
	@(echo 'SARATOGA_0 { global:'; sed -n '$(DECLARED)' include/saratoga.h; echo 'local: *; };') >target/shared/exports
	$(CC) -shared -nostartfiles -Wl,-soname,$(SONAME) -Wl,--version-script=target/shared/exports -Wl,-z,defs,-z,relro,-z,now \
		-Wl,--whole-archive $(ARCHIVE) -Wl,--no-whole-archive -o target/shared/$(SHARED)
	@ln -sf $(SHARED) target/shared/$(SONAME)
	@ln -sf $(SONAME) target/shared/libsaratoga.so

SIMULATE_FLAGS = -std=c11 -Wall -Wextra -pedantic -O2 -Iinclude

simulate: lib engine
	mkdir -p target/simulate
	$(CC) $(SIMULATE_FLAGS) $(SIMULATE_SOURCES) $(ENGINE) $(ARCHIVE) -o target/simulate/simulate
	$(CC) $(SIMULATE_FLAGS) $(addprefix host/simulate/,compare.c first.c second.c) $(ENGINE) $(ARCHIVE) -o target/simulate/compare
	target/simulate/simulate --events $(if $(EVENTS),$(EVENTS),100000000) $(if $(SEED),--seed $(SEED))
	target/simulate/compare --calls $(if $(CALLS),$(CALLS),10000000) $(if $(SEED),--seed $(SEED))

compare: lib
	cd host && CARGO_TARGET_DIR=../target/host cargo build --offline --locked --release --quiet
	target/host/release/compare $(if $(SEED),--seed $(SEED)) $(if $(CALLS),--calls $(CALLS) --receiver-calls $(CALLS) \
		--plan-calls $(CALLS) --bitmap-calls $(CALLS) --merge-calls $(CALLS) --settings-calls $(CALLS))

soak: lib
	cd host && CARGO_TARGET_DIR=../target/host cargo build --offline --locked --release --quiet
	target/host/release/compare $(if $(SEED),--seed $(SEED)) \
		$(if $(SECONDS),--seconds $(SECONDS),--calls 100000000 --receiver-calls 200000000 --plan-calls 50000000 --bitmap-calls 10000000 \
		--merge-calls 10000000 --settings-calls 50000000)

stack: lib
	$(CC) -std=c99 -O2 -Iinclude host/ctest/stack.c $(ARCHIVE) -lpthread -o target/stack
	target/stack

# OpenSSL's MD5 is measured too where a program can be linked with it.
OPENSSL_PROBE = printf '\#include <openssl/md5.h>\nint main(void) { return MD5_Init(0); }\n'
OPENSSL_FLAGS = $$($(OPENSSL_PROBE) | $(CC) -w -x c - -lcrypto -o target/bench/probe 2>target/bench/probe.log && echo -DWITH_OPENSSL -lcrypto)

bench-program: lib
	mkdir -p target/bench
	$(CXX) -std=c++17 $(BENCH_FLAGS) -c host/bench/plain_map.cc -o target/bench/plain_map.o
	$(CC) -std=c99 $(BENCH_FLAGS) host/bench/*.c target/bench/plain_map.o $(ARCHIVE) -lstdc++ -o target/bench/bench
	$(CC) -std=c99 $(BENCH_FLAGS) host/bench/md5/*.c $(ARCHIVE) $(OPENSSL_FLAGS) -o target/bench/md5

bench: bench-program
	@echo "(A), (B), (C): $$($(CC) --version | head -n 1), $(BENCH_FLAGS)"
	target/bench/bench $(if $(REPEATS),--repeats $(REPEATS))
	@echo
	target/bench/md5 $(if $(REPEATS),--repeats $(REPEATS))

bench-instructions: bench-program
	host/bench/instructions

bench-descriptors:
	CC='$(CC)' REPEATS='$(REPEATS)' host/bench/descriptors/run

WRAPPED = $(foreach name,read try_record engine_look engine_stored engine_next engine_sync engine_synced engine_tell,-Wl,--wrap=saratoga_$(name))

bench-engine: lib engine send
	mkdir -p target/bench
	$(CC) -std=c11 $(BENCH_FLAGS) host/bench/engine/engine.c $(ENGINE) $(ARCHIVE) -o target/bench/engine
	$(CC) $(LINK_FLAGS) host/bench/link/share.c $(LINK_SOURCES) $(ENGINE) $(ARCHIVE) $(WRAPPED) -o target/bench/saratoga-link-counted
	target/bench/engine target/bench
	host/bench/link/share.py

bench-link: link send
	mkdir -p target/bench
	$(CC) -O2 -Wall -Wextra -fPIC -shared host/bench/link/lossy.c -o target/bench/lossy.so -ldl
	host/bench/link/bench.py $(if $(SIZE),--size $(SIZE)) $(if $(RATES),--rates $(RATES)) $(if $(LOSSES),--losses $(LOSSES)) $(if $(REPEATS),--repeats $(REPEATS))

LINK_FLAGS = -std=c11 -Wall -Wextra -pedantic -O2 -pthread -Iinclude

link: lib engine
	mkdir -p target/link
	$(CC) $(LINK_FLAGS) $(LINK_SOURCES) $(ENGINE) $(ARCHIVE) -o target/link/saratoga-link

gigabyte: lib engine
	host/link/gigabyte.py

kills: lib engine
	host/link/kills.py $(if $(KILLS),--kills $(KILLS)) $(if $(SEED),--seed $(SEED))

scale: link send
	host/link/scale.py $(COUNTS)

plan: lib
	mkdir -p target/plan
	$(CC) -std=c99 -Wall -Wextra -pedantic -O2 -Iinclude $(PLAN_SOURCES) $(ARCHIVE) -o target/plan/saratoga-plan

send: lib
	mkdir -p target/send
	$(CC) -std=c99 -Wall -Wextra -pedantic -O2 -Iinclude $(SEND_SOURCES) $(ARCHIVE) -o target/send/saratoga-send

merge: lib
	mkdir -p target/merge
	$(CC) -std=c11 -Wall -Wextra -pedantic -O2 -Iinclude -Ihost/link $(MERGE_SOURCES) $(ARCHIVE) -o target/merge/saratoga-merge

settings: lib
	mkdir -p target/settings
	$(CC) -std=c99 -Wall -Wextra -pedantic -O2 -Iinclude $(SETTINGS_SOURCES) $(ARCHIVE) -o target/settings/saratoga-settings

# rt builds a program only to run it: here on nothing
replay-program:
	@cd crates/replay && rt run </dev/null >&2
	@install -D -m 755 crates/replay/out/replay target/bin/replay

# The program that a user runs, in the folders in which it is installed; it starts the proved one.
FRONT_FLAGS = -std=c99 -Wall -Wextra -pedantic -O2 -DVERSION='"$(VERSION)"'

front: replay-program
	@mkdir -p target/front/bin target/front/libexec/saratoga
	@ln -sf ../../../bin/replay target/front/libexec/saratoga/replay
	@$(CC) $(FRONT_FLAGS) host/replay/replay.c -o target/front/bin/replay

replay: front
	@target/front/bin/replay -- "$(PASS)"

# All that a user runs, with man pages. Nothing is written outside of PREFIX, and no owner is changed: below a PREFIX of
# one's own it needs no root. The tools stand beside their modules, with links in bin.
AT = $(DESTDIR)$(PREFIX)
TOOLS = pcap2pass passtext passplot marks sheet
MODULES = $(addprefix host/tools/,saratoga_pass.py saratoga_svg.py saratoga_tool.py) host/python/saratoga.py
# Where Python looks for modules, on Debian below /usr; elsewhere PYTHONPATH names it.
PYTHON_DIR ?= $(PREFIX)/lib/python3/dist-packages
PAGES = replay pcap2pass passtext passplot marks sheet saratoga-link saratoga-send saratoga-plan saratoga-merge saratoga-settings

install: lib engine shared front link send plan merge settings
	install -d "$(AT)/include" "$(AT)/lib/pkgconfig" "$(AT)/bin" "$(AT)/libexec/saratoga" "$(AT)/share/man/man1" "$(AT)/share/man/man3"
	install -d "$(DESTDIR)$(PYTHON_DIR)" "$(AT)/share/saratoga" "$(AT)/share/man/man7" "$(AT)/lib/systemd/system"
	install -m 644 include/saratoga.h "$(AT)/include/saratoga.h"
	install -m 644 include/saratoga_engine.h "$(AT)/include/saratoga_engine.h"
	install -m 644 $(ARCHIVE) "$(AT)/lib/libsaratoga.a"
	install -m 644 $(ENGINE) "$(AT)/lib/libsaratoga_engine.a"
	install -m 644 target/shared/$(SHARED) "$(AT)/lib/$(SHARED)"
	ln -sf $(SHARED) "$(AT)/lib/$(SONAME)"
	ln -sf $(SONAME) "$(AT)/lib/libsaratoga.so"
	install -m 644 host/python/saratoga.py "$(DESTDIR)$(PYTHON_DIR)/saratoga.py"
	sed 's|@PREFIX@|$(PREFIX)|;s|@VERSION@|$(VERSION)|' host/saratoga.pc.in >"$(AT)/lib/pkgconfig/saratoga.pc"
	chmod 644 "$(AT)/lib/pkgconfig/saratoga.pc"
	install -m 755 target/front/bin/replay target/link/saratoga-link target/plan/saratoga-plan "$(AT)/bin"
	install -m 755 target/send/saratoga-send target/merge/saratoga-merge target/settings/saratoga-settings "$(AT)/bin"
	install -m 755 target/bin/replay $(TOOLS:%=host/tools/%) "$(AT)/libexec/saratoga"
	install -m 644 $(MODULES) "$(AT)/libexec/saratoga"
	for tool in $(TOOLS); do ln -sf "../libexec/saratoga/$$tool" "$(AT)/bin/$$tool" || exit 1; done
	install -m 644 $(PAGES:%=host/man/%.1) "$(AT)/share/man/man1"
	install -m 644 host/man/saratoga.3 "$(AT)/share/man/man3"
	install -m 644 host/man/saratoga-wireshark.7 "$(AT)/share/man/man7"
	install -m 644 host/wireshark/saratoga.lua docs/link.schema.json host/systemd/saratoga-link.conf.example "$(AT)/share/saratoga"
	sed 's|@PREFIX@|$(PREFIX)|' host/systemd/saratoga-link@.service >"$(AT)/lib/systemd/system/saratoga-link@.service"
	chmod 644 "$(AT)/lib/systemd/system/saratoga-link@.service"

DEB_MAINTAINER ?= Storhnipa maintainers <maintainers@users.noreply.storhnipa.example>

deb: lib engine shared front link send plan merge settings
	@host/deb/build '$(VERSION)' '$(DEB_MAINTAINER)' target/deb/saratoga_$(VERSION)_amd64.deb

uninstall:
	rm -f "$(AT)/include/saratoga_engine.h" "$(AT)/lib/libsaratoga_engine.a"
	rm -f "$(AT)/include/saratoga.h" "$(AT)/lib/libsaratoga.a" "$(AT)/lib/pkgconfig/saratoga.pc" "$(AT)/share/man/man3/saratoga.3"
	rm -f "$(AT)/share/man/man7/saratoga-wireshark.7" "$(AT)/share/saratoga/saratoga.lua" "$(AT)/share/saratoga/link.schema.json"
	rm -f "$(AT)/share/saratoga/saratoga-link.conf.example" "$(AT)/lib/systemd/system/saratoga-link@.service"
	rm -f "$(AT)/lib/libsaratoga.so" "$(AT)/lib/$(SONAME)" "$(AT)/lib/$(SHARED)" "$(DESTDIR)$(PYTHON_DIR)/saratoga.py"
	for file in replay saratoga-link saratoga-send saratoga-plan saratoga-merge saratoga-settings $(TOOLS); do rm -f "$(AT)/bin/$$file" || exit 1; done
	for page in $(PAGES); do rm -f "$(AT)/share/man/man1/$$page.1" || exit 1; done
	for file in replay $(TOOLS) $(notdir $(MODULES)); do rm -f "$(AT)/libexec/saratoga/$$file" || exit 1; done
	if [ -d "$(AT)/libexec/saratoga" ]; then rmdir "$(AT)/libexec/saratoga"; fi
	if [ -d "$(AT)/share/saratoga" ]; then rmdir "$(AT)/share/saratoga"; fi

clean:
	rm -rf target crates/*/out
