# `make` builds bin/mqtt and shows it at work, `make test` tests it, `make prove` proves it.
# `make help` lists every target. RT names the kit's command, CC a C compiler.

RT ?= rt
PREFIX ?= /usr/local
ARGS ?= --help
STREAMS ?= small publish16 publish1024 publish65536 mixed
export RT

.PHONY: all help test prove lib lib-test program interop refusals install install-lib try bench-c bench-lib bench-client bench-loopback bench-brokers clean

# Stops with one line if the kit's command, or a C compiler, is missing.
need_kit = $(if $(shell command -v $(RT) 2>/dev/null),,$(error $(RT) is not on the path: README explains it under "Requirements"))
need_cc = $(if $(shell command -v $(CC) 2>/dev/null),,$(error there is no C compiler $(CC): name one, as CC=clang))

# bin/mqtt.proved exists only for a proved bin/mqtt, and has its checksum.
is_proved = sha256sum --status -c bin/mqtt.proved 2>/dev/null
note_unproved = $(is_proved) || echo 'bin/mqtt is not proved. It checks at run time what a proof shows, so it may be slower.' >&2

# Builds bin/mqtt as it is written, which proves nothing, and runs a demonstration.
all: bin/mqtt
	@.ci/demo bin/mqtt
	@if $(is_proved); then echo 'bin/mqtt is proved: bin/mqtt.proved has its checksum.'; \
	else echo 'Nothing was proved: bin/mqtt is built as it is written. `make test` tests it, and `make prove` proves it.'; fi

bin/mqtt: $(shell .ci/build --sources mqtt)
	$(need_kit)
	@.ci/build mqtt bin/mqtt
	@rm -f bin/mqtt.proved

# Builds the library for C as it is written, or from its proved archive if `rt lib` has made one.
lib: lib/libposkvari.a lib/pkgconfig/poskvari.pc

lib_proved = crates/mq_ffi/out/libmq_ffi.a
lib/libposkvari.a: $(shell .ci/lib --sources) $(wildcard $(lib_proved))
	$(need_kit)
	$(need_cc)
	@.ci/lib $(if $(wildcard $(lib_proved)),--proved) lib/libposkvari.a

lib/pkgconfig/poskvari.pc: Makefile
	@mkdir -p lib/pkgconfig
	@printf '%s\n' 'prefix=$(PREFIX)' 'Name: poskvari' 'Description: MQTT 3.1.1 packets, topics and client' \
	    'Version: 0' 'Libs: -L$${prefix}/lib -lposkvari' 'Cflags: -I$${prefix}/include' >$@

# Tests the library and its examples.
lib-test: lib
	.ci/lib-test

help:
	@echo 'make                  builds bin/mqtt without a proof, and runs a demonstration'
	@echo 'make test             runs every test and stored run, and proves nothing'
	@echo 'make prove            proves every crate, and leaves the proved program in bin/mqtt'
	@echo 'make lib              builds the library for C in lib/'
	@echo 'make lib-test         tests the library and its examples'
	@echo 'make install          installs the proved program below PREFIX, and the library if it is built;'
	@echo '                      with UNPROVED=1 any bin/mqtt'
	@echo 'make install-lib      installs the library for C and its header below PREFIX'
	@echo 'make program          runs bin/mqtt on the rows of .ci/printed.py and the snippets of README'
	@echo 'make interop          runs bin/mqtt against mosquitto, if that is installed'
	@echo 'make refusals         makes each allocation of worked sections fail in turn; needs a C compiler'
	@echo 'make try ARGS=..      runs mqtt compiled with checks of each access to memory'
	@echo 'make bench-c          measures plain C over streams of packets'
	@echo 'make bench-lib        compares libposkvari with plain C over these streams'
	@echo 'make bench-client     measures its client'
	@echo 'make bench-loopback   measures `mqtt serve` over 127.0.0.1'
	@echo 'make bench-brokers    compares `mqtt broker` with mosquitto'
	@echo 'make clean            removes bin/ and lib/'

# Every test and stored run of the code as it is written.
test: bin/mqtt
	$(need_kit)
	@.ci/test

# Every proof, mutant, test and program; leaves the proved bin/mqtt and bin/mqtt.proved.
prove:
	$(need_kit)
	@.ci/prove

program: bin/mqtt
	.ci/program bin/mqtt

interop: bin/mqtt
	.ci/interop bin/mqtt
	.ci/pub_sub.py bin/mqtt

bin/mq_hub_runs: $(shell .ci/build --sources mq_hub_runs)
	$(need_kit)
	@.ci/build mq_hub_runs bin/mq_hub_runs

# Makes each allocation fail in turn, each in a run of its own, by a library that is loaded before
# the C library.
refusals: bin/mq_hub_runs bin/mqtt
	$(need_cc)
	$(CC) -std=gnu11 -O2 -shared -fPIC -o bin/refuse.so bench/refuse.c
	.ci/refusals bin/mq_hub_runs bin/mqtt bin/refuse.so

install: $(if $(filter 1,$(UNPROVED)),bin/mqtt)
	@$(is_proved) || test '$(UNPROVED)' = 1 || { echo 'make install installs only a proved program, and there is none in bin/. Run `make prove` first, or set UNPROVED=1 to install the program without a proof.' >&2; exit 1; }
	mkdir -p $(DESTDIR)$(PREFIX)/bin
	install -m 755 bin/mqtt $(DESTDIR)$(PREFIX)/bin/mqtt
	mkdir -p $(DESTDIR)$(PREFIX)/share/man/man1 $(DESTDIR)$(PREFIX)/share/bash-completion/completions
	bin/mqtt manual >$(DESTDIR)$(PREFIX)/share/man/man1/mqtt.1
	bin/mqtt completion bash >$(DESTDIR)$(PREFIX)/share/bash-completion/completions/mqtt
	if test -f lib/libposkvari.a; then $(MAKE) install-lib; fi

# Installs the library for C and its header.
install-lib: lib
	mkdir -p $(DESTDIR)$(PREFIX)/lib/pkgconfig $(DESTDIR)$(PREFIX)/include
	install -m 644 lib/libposkvari.a $(DESTDIR)$(PREFIX)/lib/libposkvari.a
	if test -f lib/libposkvari.so; then install -m 755 lib/libposkvari.so $(DESTDIR)$(PREFIX)/lib/; fi
	install -m 644 include/poskvari.h $(DESTDIR)$(PREFIX)/include/poskvari.h
	sed 's|^prefix=.*|prefix=$(PREFIX)|' lib/pkgconfig/poskvari.pc >$(DESTDIR)$(PREFIX)/lib/pkgconfig/poskvari.pc

# Runs the program with checks of each access to memory: make try ARGS='show c000'
try:
	$(need_kit)
	@echo 'This proves nothing. It compiles the program with checks, in two minutes or so, and runs it.' >&2
	cd crates/mqtt && $(RT) try -- $(ARGS)

# Measures plain C over streams of packets, which it looks at, owns and encodes:
# make bench-c STREAMS=small
bench-c:
	$(need_cc)
	mkdir -p bin
	$(CC) -std=c11 -O3 -o bin/same_tests bench/same_tests.c
	bin/same_tests $(STREAMS)

# The same, and the library over the same streams: make bench-lib STREAMS=small
bench-lib: lib
	$(need_cc)
	mkdir -p bin
	$(CC) -std=c11 -O3 -DWITH_LIBRARY -Iinclude -o bin/same_tests_lib bench/same_tests.c lib/libposkvari.a
	bin/same_tests_lib $(STREAMS)

# Messages through a client of the library, and its memory.
bench-client: lib
	$(need_cc)
	mkdir -p bin
	$(CC) -std=c11 -O3 -Iinclude -o bin/client_lib bench/client.c lib/libposkvari.a
	bin/client_lib

# Loads the program's broker, and mosquitto's if that is installed, over 127.0.0.1. Prints the
# messages that each delivers in a second, and the latency: make bench-loopback DELIVERIES=10000
bench-loopback: bin/mqtt
	$(need_cc)
	@$(note_unproved)
	CC='$(CC)' bench/loopback.sh bin/mqtt $(DELIVERIES)

# Compares `mqtt broker` with mosquitto in one run, each alone on processor 0:
# make bench-brokers ROWS='1 to 32'
bench-brokers: bin/mqtt
	$(need_cc)
	@$(note_unproved)
	CC='$(CC)' bench/brokers.py bin/mqtt --rows '$(ROWS)'

clean:
	rm -rf bin lib
