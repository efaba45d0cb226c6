# Logins to other programs and by them, over sockets of the loopback, through the bindings for C, Rust and Python. The
# repository's Makefile includes this file. It needs the archive of `make lib`, a C compiler and Python 3. It uses cargo
# and Debian's packages if they are installed.
#
#   make interop                      runs all cells, and fails if a login does not end as expected
#   make interop INTEROP='--only X'   the cells of one peer; interop/run.py lists the other options
INTEROP ?=

.PHONY: interop build/interop/rust

build/interop/lines: interop/lines.c interop/channel.c interop/channel.h $(HEADER) build/libfe2o3_sasl.a
	@mkdir -p $(@D)
	$(CC) -std=c99 $(WARNINGS) -O2 -Ibindings/c -o $@ interop/lines.c interop/channel.c build/libfe2o3_sasl.a $(LDLIBS)

build/interop/client build/interop/server: build/interop/%: bindings/c/%.c $(HEADER) build/libfe2o3_sasl.a
	@mkdir -p $(@D)
	$(CC) -std=c99 $(WARNINGS) -O2 -o $@ $< build/libfe2o3_sasl.a $(LDLIBS)

# (cargo knows what to rebuild)
build/interop/rust: build/libfe2o3_sasl.a
	@if command -v cargo > /dev/null; then cd interop/rust && FE2O3_SASL_LIB=$(abspath build) \
	    CARGO_TARGET_DIR=$(abspath build/interop/rust) cargo build --offline --release --quiet; fi

build/interop/cyrus: interop/cyrus.c
	@mkdir -p $(@D)
	@if [ -e /usr/include/sasl/sasl.h ]; then $(CC) -std=c99 $(WARNINGS) -O2 -o $@ $< -lsasl2; fi

interop: build/interop/lines build/interop/client build/interop/server build/interop/rust build/interop/cyrus \
    build/libfe2o3_sasl.so
	python3 interop/run.py $(INTEROP)
