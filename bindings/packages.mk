# Packages of the built library for machines without the kit; the repository's Makefile includes this. They need binutils,
# GNU tar, gzip and Python 3.
#
#   make dist      also makes, in build/packages, Debian packages, a Python wheel and the crate for Rust with the archive
#                  in it, each with the notices of the kit's code that it contains. Their bytes depend only on the files,
#                  those of the crate and the Debian packages also on SOURCE_DATE_EPOCH, the time of the last commit.
#                  MAINTAINER='NAME <ADDRESS>' is who the Debian packages name; the address of the default is none.
#                  REPOSITORY=URL is what the crate names as its repository, as docs.rs shows it; none by default
#   make packages  makes all of them twice and compares the bytes, and makes a first login with each, outside the
#                  repository and without the kit; then runs what others run over the archive of a release,
#                  bindings/packages/ci.sh. INSTALL=yes also installs the Debian packages, as root, and removes them.
#                  Then lintian, twine and `cargo package` judge the packages, where they are installed, and the links of
#                  all pages are tested
PACKED = build/packages
# (Debian sorts a tilde before the release)
DEB_VERSION = $(VERSION:-dev=~dev)-1
CRATE_NAME = fe2o3-sasl-proved-$(VERSION)
CRATE = $(PACKED)/$(CRATE_NAME).tar.gz
REPOSITORY ?=
MAINTAINER ?= the authors of fe2o3_sasl <nobody@fe2o3-sasl.invalid>
INSTALL ?= no
# (1980 where there is no repository of git)
SOURCE_DATE_EPOCH ?= $(or $(shell git log -1 --format=%ct 2> /dev/null),315532800)

.PHONY: packages deb wheel crate
dist: deb wheel crate

deb: $(LIBRARY)
	rm -rf build/deb
	mkdir -p $(PACKED)
	rm -f $(PACKED)/*.deb
	$(MAKE) --no-print-directory install DESTDIR=build/deb PREFIX=/usr LIBDIR=/usr/lib/x86_64-linux-gnu \
	    INCLUDEDIR=/usr/include DOCDIR=/usr/share/doc/libfe2o3-sasl-dev PC_PREFIX=/usr
	VERSION='$(DEB_VERSION)' SONAME='$(SONAME)' CPU='$(CPU)' MAINTAINER='$(MAINTAINER)' \
	    SOURCE_DATE_EPOCH='$(SOURCE_DATE_EPOCH)' bindings/packages/deb.sh build/deb \
	    build/libfe2o3_sasl.so.debug $(PACKED)

wheel: build/libfe2o3_sasl.so build/notices/sasl_c
	mkdir -p $(PACKED)
	rm -f $(PACKED)/*.whl
	bindings/packages/wheel.py $< $(SONAME) $(CPU) build/notices/sasl_c $(PACKED)

# Without `[workspace]`, so that the crate can be unpacked inside another workspace. `cargo build` sees that another
# archive was unpacked in the place of this one by a file that is named after the bytes, since the times may be older
# than its last build.
crate: build/libfe2o3_sasl.a build/notices/sasl_c
	rm -rf build/crate
	mkdir -p $(PACKED) build/crate/$(CRATE_NAME)/lib
	cd bindings/rust && cp -r build.rs rustfmt.toml src tests examples $(abspath build/crate/$(CRATE_NAME))
	sed -e '/^\[workspace\]$$/d' $(if $(REPOSITORY),-e 's|^documentation = .*|repository = "$(REPOSITORY)"\n&|') \
	    bindings/rust/Cargo.toml > build/crate/$(CRATE_NAME)/Cargo.toml
	cp LICENSE-APACHE LICENSE-MIT build/crate/$(CRATE_NAME)
	cp build/notices/sasl_c build/crate/$(CRATE_NAME)/NOTICES
	bindings/packages/pages.py pages build/crate/$(CRATE_NAME)/doc bindings/rust/README.md=../README.md
	cp $< build/crate/$(CRATE_NAME)/lib
	bindings/packages/stamp.sh build/crate/$(CRATE_NAME)
	tar --sort=name --mtime=@$(SOURCE_DATE_EPOCH) --owner=0 --group=0 --numeric-owner --mode=u=rwX,go=rX --format=ustar \
	    -C build/crate -cf $(CRATE:.gz=) $(CRATE_NAME)
	gzip -9nf $(CRATE:.gz=)

packages:
	bindings/packages/try.sh tools
	$(MAKE) --no-print-directory $(LIBRARY)
	bindings/packages/try.sh twice build/$(DIST).tar.gz $(MAKE) --no-print-directory
	bindings/packages/try.sh logins $(VERSION) $(INSTALL) build/$(DIST).tar.gz
	bindings/packages/try.sh ci build/$(DIST).tar.gz
	bindings/packages/try.sh judged build/$(DIST).tar.gz $(CRATE)
