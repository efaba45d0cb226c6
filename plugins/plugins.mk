# Plugins over the static library; the repository's Makefile includes this. They need a C compiler and Debian's
# libsasl2-dev, and the tests what is named at each; the gate needs none of it.
#
#   make plugin         SCRAM for Cyrus SASL, build/plugins/plain/libfe2o3_scram.so
#   make plugin-test    logins through libsasl2 in one program, plain and under the sanitizers, either side also by
#                       Cyrus SASL's own SCRAM, where Debian's libsasl2-modules has it
#   make plugin-logins  logins of programs that use Cyrus SASL, each side ours and theirs, of Debian's sasl2-bin,
#                       python3-qpid-proton, slapd, ldap-utils and openssl; it reports what is missing. PROTON is a folder with a
#                       library of Proton that was built with Cyrus SASL, which Debian's own is not
SASL_PLUGINS ?= $(shell pkg-config --variable=libdir libsasl2)/sasl2
PLUGIN = plugins/cyrus/fe2o3_scram.c plugins/cyrus/prompts.c
PLUGIN_TEST = plugins/cyrus/test_fe2o3_scram.c
PLUGIN_LINK = -fPIC -fvisibility=hidden -shared -Wl,-z,defs -Wl,-z,now -Wl,--exclude-libs,ALL
PLUGINS = $(foreach kind,plain sanitized,build/plugins/$(kind)/libfe2o3_scram.so)

.PHONY: plugin plugin-test plugin-logins

plugin: build/plugins/plain/libfe2o3_scram.so

build/plugins/plain/%: PLUGIN_FLAGS = -O2
build/plugins/sanitized/%: PLUGIN_FLAGS = $(SANITIZERS)

$(PLUGINS): $(PLUGIN) plugins/cyrus/prompts.h $(HEADER) build/libfe2o3_sasl.a
	@mkdir -p $(@D)
	$(CC) -std=c99 $(WARNINGS) $(PLUGIN_FLAGS) $(PLUGIN_LINK) -Ibindings/c -o $@ $(PLUGIN) build/libfe2o3_sasl.a $(LDLIBS)

build/plugins/plain/test build/plugins/sanitized/test: $(PLUGIN_TEST) plugins/cyrus/test_rows.h
	@mkdir -p $(@D)
	$(CC) -std=c99 $(WARNINGS) $(PLUGIN_FLAGS) -o $@ $< -lsasl2

# (libsasl2 takes each .so of a folder)
build/plugins/theirs/libscram.so:
	@mkdir -p $(@D)
	if [ -e $(SASL_PLUGINS)/libscram.so ]; then ln -sf $(SASL_PLUGINS)/libscram.so $@; fi

plugin-test: $(PLUGINS) $(PLUGINS:%/libfe2o3_scram.so=%/test) build/plugins/theirs/libscram.so
	test "$$(nm -D --defined-only build/plugins/plain/libfe2o3_scram.so | sed 's/.* //' | LC_ALL=C sort | xargs)" = \
	    'sasl_client_plug_init sasl_server_plug_init'
	@for kind in plain sanitized; do \
	    at=build/plugins; test=$$at/$$kind/test; ours="$$at/$$kind ours"; theirs="$$at/theirs theirs"; \
	    echo "$$kind"; \
	    $$test $$ours $$ours || exit 1; \
	    if [ -e $$at/theirs/libscram.so ]; then \
	        $$test $$ours $$theirs && $$test $$theirs $$ours && $$test $$theirs $$theirs || exit 1; \
	    else \
	        echo "Cyrus SASL's own SCRAM is not in $(SASL_PLUGINS)"; \
	    fi; \
	done

plugin-logins: $(PLUGINS)
	python3 -B plugins/cyrus/logins.py --plugins $(SASL_PLUGINS) $(if $(PROTON),--proton $(PROTON))
