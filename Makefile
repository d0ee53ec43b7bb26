# `make demo` shows the model at work on a sample script, without proving anything; `make replay` proves and builds the program that ran
# it; `make test` runs all tests, the same as the gate; `make clients` runs the programs in C and Rust that use the library;
# `make vm` boots Linux in QEMU with the adapter in it and tests that; `make vm-shell DRIVER=my.ko` boots it with a driver of one's own;
# `make waves` writes the waves of two sample scripts, and `make waves-check` has GTKWave read them and makes docs/waves.png;
# `make edges` proves and prints the table of edges;
# `make speed` measures the library against plain Rust; `make install` puts the library, its header and its pkg-config file under PREFIX.
.PHONY: demo replay edges test speed clients vm vm-setup vm-shell waves waves-check install kit
SHELL := bash
PREFIX ?= /usr/local
VERSION := 4.0.0
ECGSLOPE_LIB_DIR ?= target/staticlib
LIBRARY := $(ECGSLOPE_LIB_DIR)/libecgslope.a
ECGSLOPE_REPLAY ?= target/bin/replay

demo: kit
	@tools/demo

replay: kit
	@tools/build replay
	@echo 'target/bin/replay is proved and built. On a script of your own: target/bin/replay < my.script (README.md has the format)'

edges: kit
	@tools/build print_edge_table
	@target/bin/print_edge_table

test: kit
	@bash .ci/run

speed: $(LIBRARY)
	@cd clients/rust && ECGSLOPE_LIB_DIR=$(abspath $(ECGSLOPE_LIB_DIR)) cargo run --release --offline --quiet --bin bench
	@cd clients/rust && ECGSLOPE_LIB_DIR=$(abspath $(ECGSLOPE_LIB_DIR)) ./instructions

clients: $(LIBRARY)
	@tools/clients

# The set-up comes first: whether it can be done is known in a minute.
vm: vm-setup $(LIBRARY) $(ECGSLOPE_REPLAY)
	@tools/vm

vm-setup:
	@tools/vm --setup

vm-shell: vm-setup $(LIBRARY)
	@PROPERTIES='$(PROPERTIES)' ARGS='$(ARGS)' tools/vm --shell $(DRIVER)

install: $(LIBRARY)
	@install -d $(DESTDIR)$(PREFIX)/include $(DESTDIR)$(PREFIX)/lib/pkgconfig
	@install -m 644 include/ecgslope.h $(DESTDIR)$(PREFIX)/include
	@install -m 644 $(LIBRARY) $(DESTDIR)$(PREFIX)/lib
	@printf '%s\n' 'prefix=$(PREFIX)' 'includedir=$${prefix}/include' 'libdir=$${prefix}/lib' '' 'Name: ecgslope' \
	    'Description: A proved software model of the control side of the JingZhao RDMA adapter' 'Version: $(VERSION)' \
	    'Cflags: -I$${includedir}' 'Libs: -L$${libdir} -lecgslope' > $(DESTDIR)$(PREFIX)/lib/pkgconfig/ecgslope.pc

waves: kit
	@tools/waves

waves-check: kit
	@tools/waves-check

# Proved and built only where it is missing: after a change, `tools/build library` brings it up to date.
target/staticlib/libecgslope.a:
	@$(MAKE) -s kit
	@tools/build library

target/bin/replay:
	@$(MAKE) -s replay

kit:
	@command -v rt >/dev/null || { echo "rt is missing: install the Rattle kit and put its rt on the PATH" >&2; exit 1; }
