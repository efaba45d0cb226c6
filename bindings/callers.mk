# The library for callers in C, Rust and Python; the repository's Makefile includes this. `lib` needs `rt`, and what is
# built of it ar, ld, nm, objcopy, a C compiler and Python 3.
#
#   make lib       proves crates/sasl_c, and builds build/libfe2o3_sasl.a, .so and the file for pkg-config. HEAP=plain links
#                  the heap of the kit, which does not wipe what it frees
#   make header    writes the C header, the wrappers, and the declarations of Rust and Python, from the sources
#   make callers   compares these, and builds and runs the programs of bindings/c: plain, shared and sanitized, and under
#                  valgrind (Debian's package valgrind)
#   make depths    measures the stack of each export, and writes bindings/wiping/depths.h
#   make rust      tests the crate of bindings/rust, which needs cargo and no other crate, and checks its docs; with rustfmt
#                  and clippy, where cargo has them, also its format and lints
#   make python    tries the package of bindings/python over the shared library
#   make install   PREFIX, LIBDIR, INCLUDEDIR, DOCDIR and DESTDIR as usual. DOCDIR also gets pages, examples, and NOTICES,
#                  the notices of the kit's code that the library contains, which need the kit
#   make dist      what `install` installs, into build/fe2o3_sasl-VERSION-CPU.tar.gz, whose bytes depend only on the files
PREFIX ?= /usr/local
LIBDIR ?= $(PREFIX)/lib
INCLUDEDIR ?= $(PREFIX)/include
DOCDIR ?= $(PREFIX)/share/doc/fe2o3_sasl
CPU ?= x86-64-v2
KIT ?= $(abspath $(dir $(shell readlink -f "$$(command -v rt)"))/..)

# The number of the shared object rises when a struct or the signature of an export changes.
SONAME = libfe2o3_sasl.so.3
# The version: that of a release, or 0.5.0-dev of the sources before it. tools/gate/versions.py compares the other places.
VERSION = $(shell sed -n 's/^version = "\(.*\)"$$/\1/p' bindings/rust/Cargo.toml)
PROVED_ARCHIVE ?= crates/sasl_c/out/libsasl_c.a
LIBRARY = build/libfe2o3_sasl.a build/libfe2o3_sasl.so build/fe2o3_sasl.pc
HEADER = bindings/c/fe2o3_sasl.h
PC_PREFIX = $(PREFIX)
CMAKE_FILES = build/cmake/fe2o3_sasl-config.cmake build/cmake/fe2o3_sasl-config-version.cmake
DIST = fe2o3_sasl-$(VERSION)-$(CPU)

# (`wiping` is bindings/wiping/heap.c)
HEAP ?= wiping
HEAP_wiping = build/wiping/heap.o
HEAP_plain = $(KIT)/c/liblibc_c.a
$(if $(HEAP_$(HEAP)),,$(error HEAP is wiping or plain))

WARNINGS = -Wall -Wextra -Wpedantic
SANITIZERS = -g -O1 -fsanitize=address,undefined -fno-sanitize-recover=all
PROGRAMS = fits inits nulls guide_logins scram bodies connections channels threads random $(SALTED)
CXX_STANDARDS = c++11 c++17 c++20
# salted.c salts with OpenSSL, and is left out where there is none to compile with.
SALTED := $(shell printf '\043include <openssl/evp.h>\n' | $(CC) -E -x c - > /dev/null 2>&1 && echo salted)
KINDS = plain shared sanitized

.PHONY: lib header header-check callers depths rust python install dist build/fe2o3_sasl.pc FORCE

lib: kit
	cd crates/sasl_c && rt lib --cpu $(CPU)
	@rm -f build/fe2o3_sasl.o
	@$(MAKE) --no-print-directory $(LIBRARY) build/notices/sasl_c

# (if there is none yet; `lib` always builds it)
$(PROVED_ARCHIVE):
	@$(NEEDS_KIT)
	cd crates/sasl_c && rt lib --cpu $(CPU)

# The proved functions, named proved_fe2o3_.. in place of fe2o3_.., which are the names of their wrappers.
build/proved.o: $(PROVED_ARCHIVE)
	mkdir -p build
	ld -r -o $@ --whole-archive $<
	nm --defined-only $@ | sed -n 's/.* T \(fe2o3_.*\)/\1 proved_\1/p' > build/renamed
	objcopy --redefine-syms=build/renamed $@

# Without optimization over files, by which a compiler could move the wiping of a stack into another frame.
WIPING = $(HEADER) bindings/wiping/wipe.h bindings/wiping/depths.h
COMPILED = $(CC) -std=c99 $(WARNINGS) -g -ffile-prefix-map=$(CURDIR)=. -O2 -fPIC -fno-lto -c -o $@ $<
build/wiping/%.o: bindings/wiping/%.c $(WIPING)
	@mkdir -p $(@D)
	$(COMPILED)

# One object in which all but the exports is local, so that another library of the kit can be linked beside it.
define ONE_OBJECT
ld -r -o $@ --whole-archive $^
objcopy --wildcard --keep-global-symbol='fe2o3_*' $@
endef
build/fe2o3_sasl.o: build/proved.o build/wiping/exports.o build/wiping/wipe.o $(HEAP_$(HEAP))
	$(ONE_OBJECT)

# Only for tests: the library that wipes neither its heap nor its stack.
build/unwiped/%.o: bindings/wiping/%.c $(WIPING)
	@mkdir -p $(@D)
	$(COMPILED) -DLEAVE_STACK

build/unwiped/fe2o3_sasl.o: build/proved.o build/unwiped/exports.o build/unwiped/wipe.o $(HEAP_plain)
	$(ONE_OBJECT)

build/libfe2o3_sasl.a build/unwiped/libfe2o3_sasl.a: %/libfe2o3_sasl.a: %/fe2o3_sasl.o
	rm -f $@
	ar rcsD $@ $<
	objcopy -D --strip-debug $@

# The debug symbols, of the wrappers and the heap, are in a file of their own.
build/libfe2o3_sasl.so: build/libfe2o3_sasl.a
	$(CC) -shared -Wl,-soname,$(SONAME) -Wl,-z,defs -Wl,-z,now -Wl,--build-id -o $@ build/fe2o3_sasl.o $(LDLIBS)
	objcopy --only-keep-debug $@ $@.debug
	objcopy --strip-debug $@
	ln -sf $(@F) build/$(SONAME)

# The notices of the kit's crates that a crate of crates.txt links.
build/notices/%: tools/generate/notices.py crates.txt $(wildcard $(KIT)/KIT-ID)
	@mkdir -p $(@D)
	$< write $* $@

# Written each time, since PREFIX may be another one.
in_prefix = $(patsubst $(PREFIX)/%,$${prefix}/%,$(1))
build/fe2o3_sasl.pc:
	@mkdir -p build
	@printf '%s\n' 'prefix=$(PC_PREFIX)' 'libdir=$(call in_prefix,$(LIBDIR))' \
	    'includedir=$(call in_prefix,$(INCLUDEDIR))' '' 'Name: fe2o3_sasl' \
	    'Description: SCRAM, and SASL as AMQP 1.0 has it' 'Version: $(VERSION)' \
	    'Cflags: -I$${includedir}' 'Libs: -L$${libdir} $(PC_LINKS)-lfe2o3_sasl' > $@

# What CMake's `find_package` reads.
build/cmake/%.cmake: bindings/packages/%.cmake FORCE
	@mkdir -p $(@D)
	@sed -e 's|@VERSION@|$(VERSION:-dev=)|' -e 's|@SONAME@|$(SONAME)|g' \
	    -e "s|@INCLUDE@|$$(realpath -ms --relative-to=$(LIBDIR) $(INCLUDEDIR))|" $< > $@
FORCE:

header:
	tools/generate/header.py write

header-check:
	tools/generate/header.py check

build/callers/%_plain: bindings/c/%.c $(HEADER) build/libfe2o3_sasl.a
	@mkdir -p $(@D)
	$(CC) -std=c99 $(WARNINGS) $(CPPFLAGS) -O2 -pthread -o $@ $< build/libfe2o3_sasl.a $(LDLIBS)

build/callers/%_shared: bindings/c/%.c $(HEADER) build/libfe2o3_sasl.so
	@mkdir -p $(@D)
	$(CC) -std=c99 $(WARNINGS) $(CPPFLAGS) -O2 -pthread -o $@ $< -Lbuild -lfe2o3_sasl $(LDLIBS)

build/callers/%_sanitized: bindings/c/%.c $(HEADER) build/libfe2o3_sasl.a
	@mkdir -p $(@D)
	$(CC) -std=c99 $(WARNINGS) $(CPPFLAGS) $(SANITIZERS) -pthread -o $@ $< build/libfe2o3_sasl.a $(LDLIBS)

$(KINDS:%=build/callers/guide_logins_%): bindings/c/guide.c

# `INIT(NAME, STRUCT)` for each struct of the header.
build/callers/inits.h: $(HEADER)
	@mkdir -p $(@D)
	sed -n 's/^struct fe2o3_\(.*\) {$$/INIT(\U\1\E, struct fe2o3_\1)/p' $< > $@
$(KINDS:%=build/callers/inits_%): build/callers/inits.h
$(KINDS:%=build/callers/inits_%): CPPFLAGS += -Ibuild/callers

build/callers/salted_plain build/callers/salted_shared build/callers/salted_sanitized: LDLIBS += -lcrypto

# (the requests for memory of the library go to functions of the program)
build/callers/memory_plain build/callers/memory_sanitized: LDLIBS += $(foreach name,malloc realloc free,-Wl,--wrap=$(name))

# Programs about secrets in memory: what they find in the library, and in one that does not wipe.
build/callers/secrets.h: bindings/c/secrets.py
	@mkdir -p $(@D)
	python3 $< > $@

SECRETS = $(CC) -std=c99 $(WARNINGS) -O2 -Ibuild/callers -pthread -o $@ $<
build/callers/secrets_plain: bindings/c/secrets.c bindings/c/every_call.h build/callers/secrets.h build/libfe2o3_sasl.a
	$(SECRETS) build/libfe2o3_sasl.a $(LDLIBS)

build/callers/secrets_shared: bindings/c/secrets.c bindings/c/every_call.h build/callers/secrets.h build/libfe2o3_sasl.so
	$(SECRETS) -Lbuild -lfe2o3_sasl

build/callers/secrets_unwiped: bindings/c/secrets.c bindings/c/every_call.h build/callers/secrets.h \
    build/unwiped/libfe2o3_sasl.a
	$(SECRETS) build/unwiped/libfe2o3_sasl.a $(LDLIBS)

depths: build/callers/depths
	LD_BIND_NOW=1 $< write > build/depths.h
	mv build/depths.h bindings/wiping/depths.h

build/callers/depths: bindings/c/depths.c bindings/c/every_call.h build/callers/secrets.h bindings/wiping/depths.h \
    build/unwiped/libfe2o3_sasl.a
	$(SECRETS) build/unwiped/libfe2o3_sasl.a $(LDLIBS)

# What a wrapper leaves on the stack, where the function that it calls has filled its frame.
build/callers/frames build/callers/frames_unwiped: bindings/c/frames.c bindings/wiping/wipe.h
	@mkdir -p $(@D)
	$(CC) -std=c99 $(WARNINGS) -O2 -fno-lto -o $@ $(filter %.c %.o,$^)

build/callers/frames: build/wiping/wipe.o
build/callers/frames_unwiped: build/unwiped/wipe.o

# (at fixed addresses, so that the places that valgrind reports are those of the symbols)
build/callers/constant_time: bindings/c/constant_time.c $(HEADER) build/libfe2o3_sasl.a
	@mkdir -p $(@D)
	$(CC) -std=c99 $(WARNINGS) -O2 -no-pie -o $@ $< build/libfe2o3_sasl.a $(LDLIBS)

# Checks the header by itself and that the library exports exactly what it declares, and runs the programs, those of
# client.c and server.c against each other and against peers in Python; then where the time depends on a secret.
callers: header-check $(foreach kind,$(KINDS),$(PROGRAMS:%=build/callers/%_$(kind)) build/callers/client_$(kind) \
    build/callers/server_$(kind)) \
    build/callers/memory_plain build/callers/memory_sanitized \
    $(foreach kind,plain shared unwiped,build/callers/secrets_$(kind)) build/callers/frames build/callers/frames_unwiped \
    build/callers/depths build/callers/constant_time
	$(CC) -std=c99 $(WARNINGS) -Werror -fsyntax-only -x c $(HEADER)
	@for standard in $(CXX_STANDARDS); do \
	    echo "the header and its initializers as $$standard"; \
	    $(CXX) -std=$$standard $(WARNINGS) -Werror -fsyntax-only -Ibuild/callers -x c++ bindings/c/inits.c || exit 1; \
	done
	sed -n 's/^[a-z0-9_]* \(fe2o3_[a-z0-9_]*\)(.*/\1/p' $(HEADER) | LC_ALL=C sort > build/callers/declared
	nm -D --defined-only build/libfe2o3_sasl.so | sed 's/.* //' | LC_ALL=C sort | diff build/callers/declared -
	@for program in $(PROGRAMS); do for kind in $(KINDS); do \
	    echo "$$program $$kind"; \
	    LD_LIBRARY_PATH=build build/callers/$${program}_$$kind || exit 1; \
	done; done
	@for kind in plain sanitized; do echo "memory $$kind"; build/callers/memory_$$kind || exit 1; done
	LD_BIND_NOW=1 build/callers/depths
	build/callers/frames
	build/callers/frames_unwiped unwiped
	build/callers/secrets_unwiped unwiped
	build/callers/secrets_plain
	LD_LIBRARY_PATH=build build/callers/secrets_shared
	@for kind in $(KINDS); do \
	    echo "client $$kind"; \
	    LD_LIBRARY_PATH=build python3 bindings/c/tcp.py build/callers/client_$$kind build/callers/server_$$kind || exit 1; \
	done
	python3 -B bindings/c/constant_time.py build/callers/constant_time bindings/c/constant_time.txt

rust: export FE2O3_SASL_LIB = $(abspath build)
rust: export CARGO_TARGET_DIR = $(abspath build/rust)
rust: build/libfe2o3_sasl.a
	cd bindings/rust && cargo test --offline
	cd bindings/rust && RUSTDOCFLAGS='-D warnings' cargo doc --no-deps --offline
	cd bindings/rust && if cargo fmt --version; then cargo fmt --check; fi
	cd bindings/rust && if cargo clippy --version; then cargo clippy --offline --all-targets -- -D warnings; fi

python: build/libfe2o3_sasl.so
	for tests in bindings/python/test_*.py; do \
	    FE2O3_SASL_LIB=$(abspath build/libfe2o3_sasl.so) $(PYTHON_TEST) $$tests || exit 1; \
	done

install: $(LIBRARY) build/notices/sasl_c $(CMAKE_FILES)
	install -d $(DESTDIR)$(LIBDIR)/pkgconfig $(DESTDIR)$(LIBDIR)/cmake/fe2o3_sasl $(DESTDIR)$(INCLUDEDIR) $(DESTDIR)$(DOCDIR)
	install -m 644 $(HEADER) $(DESTDIR)$(INCLUDEDIR)/
	install -m 644 build/libfe2o3_sasl.a $(DESTDIR)$(LIBDIR)/
	install -m 755 build/libfe2o3_sasl.so $(DESTDIR)$(LIBDIR)/$(SONAME)
	ln -sf $(SONAME) $(DESTDIR)$(LIBDIR)/libfe2o3_sasl.so
	install -m 644 build/fe2o3_sasl.pc $(DESTDIR)$(LIBDIR)/pkgconfig/
	install -m 644 $(CMAKE_FILES) $(DESTDIR)$(LIBDIR)/cmake/fe2o3_sasl/
	install -m 644 LICENSE-APACHE LICENSE-MIT $(DESTDIR)$(DOCDIR)/
	install -m 644 build/notices/sasl_c $(DESTDIR)$(DOCDIR)/NOTICES
	bindings/packages/pages.py write $(DESTDIR)$(DOCDIR)

# pkg-config finds the folder from the place of its file, so the tar can be unpacked anywhere, and a program that is linked
# by what pkg-config says finds the shared library there.
dist: $(LIBRARY)
	rm -rf build/dist
	$(MAKE) --no-print-directory install DESTDIR=build/dist/$(DIST) PREFIX= LIBDIR=/lib INCLUDEDIR=/include DOCDIR=/ \
	    PC_PREFIX='$$$${pcfiledir}/../..' PC_LINKS='-Wl,-rpath,$$$${libdir} '
	install -m 644 $(KIT)/KIT-ID build/dist/$(DIST)/
	tar --sort=name --mtime='1980-01-01 00:00Z' --owner=0 --group=0 --numeric-owner --mode=u=rwX,go=rX \
	    --format=ustar -C build/dist -cf build/$(DIST).tar $(DIST)
	gzip -9nf build/$(DIST).tar
