#!/usr/bin/env bash
# Makes the Debian packages of a library: `deb.sh TREE SYMBOLS FOLDER`, with VERSION, SONAME, CPU, MAINTAINER and
# SOURCE_DATE_EPOCH in the environment. TREE is what `make install` installs under DESTDIR, with the pages in the folder of
# libfe2o3-sasl-dev, and SYMBOLS a file of the debug symbols. The packages are the shared library, these symbols, and the
# files for development.
#
# lintian notes that the static library has a section .comment: it names the compilers, and the logic of the proofs.
#
# By tar and ar in place of dpkg-deb, whose bytes depend on its version, so the bytes depend only on the files and the time.
set -euo pipefail
export LC_ALL=C
tree=$1 symbols=$2 out=$3 here=$(dirname "$0")
runtime=libfe2o3-sasl${SONAME##*.so.}
work=$(mktemp -d)
trap 'rm -rf "$work"' EXIT
umask 022

fail() {
    echo "deb.sh: $*" >&2
    exit 1
}

filled() {
    sed -e "s|@RUNTIME@|$runtime|" -e "s|@VERSION@|$VERSION|" -e "s|@CPU@|$CPU|" -e "s|@MAINTAINER@|$MAINTAINER|" \
        -e "s|@GLIBC@|$glibc|" -e "s|@SIZE@|${size:-}|" -e "s|@BUILD_ID@|$build_id|" "$here/$1"
}

# The files of the folder $1, into $2.gz.
packed() {
    tar --sort=name --mtime='1980-01-01 00:00Z' --owner=0 --group=0 --numeric-owner --mode=u=rwX,go=rX --format=gnu \
        -C "$1" -cf "$2" .
    gzip -9n "$2"
}

# Texts of licences, as fields of the file `copyright` have them.
as_field() {
    sed -e 's/^$/./' -e 's/^/ /'
}

# Who the notices name, each on a line of its own.
holders() {
    sed -nE 's/^ *Copyright( \(c\)| ©)? *([0-9I].*)$/           \2/Ip' "$1" | sort -u
}

# The text of the Apache License in $1, on one line.
apache() {
    sed -n '/^ *Apache License$/,/^ *END OF TERMS AND CONDITIONS$/p' "$1" | tr -s '[:space:]' ' '
}

# Notices, with a reference in the place of each text of the Apache License, which Debian has.
referred() {
    local own rest
    own=$(apache LICENSE-APACHE) rest=$(apache "$1")
    [ "${rest//"${own# }"/}" = ' ' ] || fail "$1 has a text that begins like the Apache License, and is another one"
    sed '/^ *Apache License$/,/^ *END OF TERMS AND CONDITIONS$/c\
The text of the Apache License, Version 2.0, is in /usr/share/common-licenses/Apache-2.0.' "$1"
}

copyright() {
    cat "$here/copyright"
    sed -e '1,2d' LICENSE-MIT | as_field
    printf '\nFiles: usr/lib/*\nCopyright: 2026 the authors of fe2o3_sasl\n'
    holders "$1"
    printf 'License: kit-notices\nComment: The libraries contain code of crates of the Rattle kit.\n'
    printf '\nLicense: kit-notices\n'
    referred "$1" | as_field
}

# An entry of changelog.Debian: a version and its time. The changes are in the change log of the library.
entry() {
    printf 'fe2o3-sasl (%s) unstable; urgency=medium\n\n  * What changed is in changelog.gz.\n\n -- %s  %s\n\n' \
        "$1" "$MAINTAINER" "$(date -u -R -d "$2")"
}

# This version, and the releases before it that CHANGELOG.md dates.
debian_changelog() {
    local release day
    entry "$VERSION" "@$SOURCE_DATE_EPOCH"
    sed -nE 's/^## ([0-9.]+) \(([0-9-]+)\)$/\1-1 \2/p' CHANGELOG.md | while read -r release day; do
        [ "$release" = "$VERSION" ] || entry "$release" "$day"
    done
}

# The documents that every package has, in the folder $1.
documents() {
    mkdir -p "$1"
    cp "$work/copyright" "$1"
    gzip -9nc CHANGELOG.md > "$1/changelog.gz"
    debian_changelog | gzip -9n > "$1/changelog.Debian.gz"
}

# The package $1 of the folder $work/$2, described by control.$2. More files of its control archive are in $work/$2.control.
package() {
    local file=$out/$1_${VERSION}_amd64.deb size
    size=$(find "$work/$2" -type f -printf '%s\n' | awk '{kib += int(($1 + 1023) / 1024)} END {print kib}')
    mkdir -p "$work/$2.control"
    filled "control.$2" > "$work/$2.control/control"
    (cd "$work/$2" && find usr -type f | sort | xargs md5sum) > "$work/$2.control/md5sums"
    packed "$work/$2.control" "$work/control.tar"
    packed "$work/$2" "$work/data.tar"
    rm -f "$file"
    (cd "$work" && ar rcSD package.deb debian-binary control.tar.gz data.tar.gz && rm control.tar.gz data.tar.gz)
    mv "$work/package.deb" "$file"
    chmod 644 "$file"
}

echo 2.0 > "$work/debian-binary"
libraries=usr/lib/x86_64-linux-gnu shared=$tree/usr/lib/x86_64-linux-gnu/$SONAME
# The newest version of the C library that a symbol of the shared library needs.
glibc=$(objdump -T "$shared" | sed -n 's/.*GLIBC_\([0-9.]*\).*/\1/p' | sort -V | tail -n 1)
[ -n "$glibc" ] || fail "objdump -T finds no version of glibc in $shared"
build_id=$(readelf -n "$shared" | sed -n 's/^ *Build ID: //p')
[ -n "$build_id" ] || fail "$shared has no build ID"
sed '/^#/d; s/ .*//' "$here/symbols" | diff - <(nm -D --defined-only "$shared" | sed 's/.* //' | sort) >&2 ||
    fail "the library's exports (>) differ from bindings/packages/symbols (<)"
copyright "$tree/usr/share/doc/libfe2o3-sasl-dev/NOTICES" > "$work/copyright"

# The shared library, without the names of what it does not export.
mkdir -p "$work/runtime/$libraries" "$work/runtime.control"
strip --strip-unneeded --remove-section=.comment -o "$work/runtime/$libraries/$SONAME" "$shared"
chmod 644 "$work/runtime/$libraries/$SONAME"
documents "$work/runtime/usr/share/doc/$runtime"
echo "${SONAME%.so.*} ${SONAME##*.so.} $runtime" > "$work/runtime.control/shlibs"
echo 'activate-noawait ldconfig' > "$work/runtime.control/triggers"
{
    printf '%s %s #MINVER#\n* Build-Depends-Package: libfe2o3-sasl-dev\n' "$SONAME" "$runtime"
    sed -n 's/^\([a-z].*\) \(.*\)/ \1@Base \2/p' "$here/symbols"
} > "$work/runtime.control/symbols"
package "$runtime" runtime

# Those names, and what else debuggers read.
debug=$work/symbols/usr/lib/debug/.build-id/${build_id:0:2}
mkdir -p "$debug" "$work/symbols/usr/share/doc"
install -m 644 "$symbols" "$debug/${build_id:2}.debug"
ln -s "$runtime" "$work/symbols/usr/share/doc/$runtime-dbgsym"
package "$runtime-dbgsym" symbols

cp -a "$tree" "$work/dev"
rm "$work/dev/$libraries/$SONAME" "$work/dev"/usr/share/doc/libfe2o3-sasl-dev/{NOTICES,CHANGELOG.md,LICENSE-*}
documents "$work/dev/usr/share/doc/libfe2o3-sasl-dev"
mkdir -p "$work/dev/usr/share/man/man3"
filled fe2o3_sasl.3 | gzip -9n > "$work/dev/usr/share/man/man3/fe2o3_sasl.3.gz"
package libfe2o3-sasl-dev dev
