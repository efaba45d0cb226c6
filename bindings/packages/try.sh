#!/usr/bin/env bash
# The steps of `make packages`:
#
#   try.sh tools                      fails if a tool is missing
#   try.sh twice ARCHIVE MAKE..       makes the packages twice, and compares the bytes
#   try.sh logins VERSION INSTALL ARCHIVE
#                                     makes a first login with each package outside the repository, without the kit;
#                                     INSTALL is yes or no: whether to install the Debian packages and remove them again
#   try.sh ci ARCHIVE                 runs ci.sh without the kit
#   try.sh judged ARCHIVE CRATE       runs lintian, twine and `cargo package` over the packages, names those of these
#                                     tools that are not installed, and tests the links of all pages
set -euo pipefail
export LC_ALL=C
PACKED=build/packages
LIMIT=60    # seconds for a first login
WANTED='SCRAM-SHA-256: user is logged in, and the server is authenticated'

fail() {
    echo "packages: $*" >&2
    exit 1
}

# PATH without the folders that have the kit's command.
path_without_kit() {
    local folder kept=
    while read -r -d : folder; do
        [ -e "$folder/rt" ] || kept=$kept${kept:+:}$folder
    done <<< "$PATH:"
    echo "$kept"
}

tools() {
    local tool missing=()
    PATH=$(path_without_kit)
    for tool in cc ar ld nm objcopy objdump readelf addr2line strip pkg-config python3 cargo dpkg tar gzip md5sum sha256sum cmp; do
        command -v "$tool" > /dev/null || missing+=("$tool")
    done
    ! command -v python3 > /dev/null || python3 -c 'import ensurepip, venv' 2> /dev/null ||
        missing+=("the module venv of Python (Debian: python3-venv)")
    [ ${#missing[@]} = 0 ] || fail "missing on the PATH without the kit: $(printf '%s, ' "${missing[@]}" | sed 's/, $//')"
}

# The second time from the proved archive again, with another umask and time zone.
twice() {
    local archive=$1 first file
    shift
    first=$(mktemp -d)
    # shellcheck disable=SC2064
    trap "rm -rf '$first'" EXIT
    rm -rf "$PACKED"
    "$@" dist > "$first/log" 2>&1 || { cat "$first/log"; fail "make dist failed"; }
    mkdir "$first/packages"
    cp "$archive" "$PACKED"/* "$first/packages"
    rm -f "$archive" "$PACKED"/* build/*.o build/libfe2o3_sasl.*
    (umask 002; TZ=Asia/Tokyo "$@" dist > "$first/log" 2>&1) || { cat "$first/log"; fail "make dist failed"; }
    for file in "$first"/packages/*; do
        cmp "$file" "$([ "${file##*/}" = "${archive##*/}" ] && echo "$archive" || echo "$PACKED/${file##*/}")"
        echo "made twice with equal bytes: ${file##*/}, $(stat -c %s "$file") bytes"
    done
}

# Runs a command with a clean environment and without the kit; `hidden FOLDERS COMMAND..` also empties the folders (a word)
# for the command, if the system has mount namespaces for this user.
hidden() {
    local folders=$1 kit name root=() space
    shift
    kit=$(dirname "$(dirname "$(readlink -f "$(command -v rt || echo /none/none)")")")
    [ ! -e "$kit/KIT-ID" ] || folders="$folders $kit"
    local clean=(env -i HOME="$HOME" PATH="$(path_without_kit)" LC_ALL=C TMPDIR="${TMPDIR:-/tmp}")
    for name in CARGO_HOME RUSTUP_HOME PYENV_ROOT; do
        [ -z "${!name:-}" ] || clean+=("$name=${!name}")
    done
    [ "$(id -u)" = 0 ] || root=(--map-root-user)
    space=(unshare "${root[@]}" --mount)
    # shellcheck disable=SC2016
    if "${space[@]}" sh -c 'mount -t tmpfs none "$HOME"' 2> /dev/null; then
        "${space[@]}" sh -c 'for one in $1; do mount -t tmpfs none "$one" || exit; done; shift; exec "$@"' \
            hidden "$folders" "${clean[@]}" "$@"
    else
        echo "note: no mount namespaces for this user, so these are only off the PATH: $folders" >&2
        "${clean[@]}" "$@"
    fi
}

logins() {
    local outside
    [ "$2" = no ] || [ "$(id -u)" = 0 ] || fail "INSTALL=yes needs root"
    outside=$(mktemp -d "${TMPDIR:-/tmp}/fe2o3_packages.XXXXXX")
    # shellcheck disable=SC2064
    trap "rm -rf '$outside'" EXIT
    cp -r "$PACKED" bindings/packages/first_login bindings/packages/try.sh "$3" "$outside"
    (cd "$outside" && hidden "$OLDPWD" bash "$outside/try.sh" outside "$@" "$OLDPWD")
}

# Runs a function that prints the result of a login as its last line, and compares it.
timed() {
    local what=$1 begun said status took
    shift
    begun=$(date +%s%N)
    set +e      # (bash would ignore `set -e` inside a command that `||` follows)
    said=$(set -e; "$@" 2> log)
    status=$?
    set -e
    [ $status = 0 ] || { cat log >&2; fail "$what failed"; }
    took=$((($(date +%s%N) - begun) / 100000000))
    [ "$said" = "$WANTED" ] || fail "$what printed: $said"
    [ "$took" -le $((LIMIT * 10)) ] || fail "$what took $((took / 10)) s, and the limit is $LIMIT s"
    printf '%4d.%d s  %s\n' $((took / 10)) $((took % 10)) "$what"
}

# Everything in the folder `packages` of the current one. Nothing of the repository.
outside() {
    local version=$1 install=$2 repository=$4 package
    [ ! -e "$repository/Makefile" ] || echo "note: the repository can be read, but nothing names its folder" >&2
    ! command -v rt > /dev/null || fail "rt is on the PATH"
    unset LD_LIBRARY_PATH PYTHONPATH FE2O3_SASL_LIB
    DEV=$(echo "$PWD"/packages/*-dev_*.deb) WHEEL=$(echo "$PWD"/packages/*.whl)
    RUNTIME=$(echo "$PWD"/packages/*-sasl[0-9]_*.deb) SYMBOLS=$(echo "$PWD"/packages/*-dbgsym_*.deb)
    VERSION=$version CRATE=fe2o3-sasl-proved-$version
    UNPACKED=$PWD/anywhere
    mkdir "$UNPACKED" prefix
    tar -xf fe2o3_sasl-*.tar.gz -C "$UNPACKED" --strip-components=1
    for package in "$RUNTIME" "$DEV" "$SYMBOLS"; do dpkg -x "$package" prefix; done
    notices
    symbols
    timed 'C, shared library of the Debian packages' c_shared
    timed 'C, static library of the Debian packages' c_static
    timed 'C, tar.gz where it is unpacked, by what pkg-config says' c_unpacked
    if command -v cmake > /dev/null; then
        timed 'C, tar.gz, by find_package of CMake' by_cmake "$UNPACKED"
        timed 'C, Debian packages, by find_package of CMake' by_cmake "$PWD/prefix/usr"
    else
        echo 'not tried, since cmake is not installed: find_package'
    fi
    [ "$install" = no ] || timed 'C, Debian packages installed by dpkg -i' c_installed
    timed 'Python, wheel in a fresh venv' in_python
    typed
    timed 'Rust, crate with its archive' in_rust packed
    timed 'Rust, crate with the archive that pkg-config finds' in_rust pkg-config
    rust_without_archive
}

# Each package has the notices of the kit's code that it contains; this name is in those of a crate that each links.
notices() {
    local name='Copyright (c) 2018 Carl Lerche' package
    python3 -m zipfile -e "$WHEEL" unzipped
    tar -xOf "packages/$CRATE.tar.gz" "$CRATE/NOTICES" > crate_notices
    for package in "${RUNTIME##*/}" "${DEV##*/}"; do
        grep -qF "$name" "prefix/usr/share/doc/${package%%_*}/copyright" || fail "$package has no notices"
    done
    grep -qF "$name" unzipped/*.dist-info/NOTICES || fail "$WHEEL has no notices"
    grep -qF "$name" crate_notices || fail "the crate has no notices"
    echo "the packages have the notices of the kit's code"
}

# The package of debug symbols has those of the library, by its build ID: the names of its functions, and the lines of the
# wrappers.
symbols() {
    local id file at
    id=$(readelf -n prefix/usr/lib/x86_64-linux-gnu/libfe2o3_sasl.so | sed -n 's/^ *Build ID: //p')
    file=prefix/usr/lib/debug/.build-id/${id:0:2}/${id:2}.debug
    nm "$file" > names
    grep -q ' t proved_fe2o3_version$' names || fail "$SYMBOLS has no names of the library's functions"
    at=$(sed -n 's/ T fe2o3_version$//p' names)
    [[ $(addr2line -e "$file" "$at") = *exports.c:* ]] || fail "$SYMBOLS has no lines of the wrappers"
    echo "the debug symbols are those of the library"
}

# What pkg-config says of the Debian packages, unpacked into a prefix.
unpacked() {
    export PKG_CONFIG_SYSROOT_DIR=$PWD/prefix PKG_CONFIG_PATH=$PWD/prefix/usr/lib/x86_64-linux-gnu/pkgconfig
    LIBRARIES=$PWD/prefix/usr/lib/x86_64-linux-gnu
    # (so that the folders below it are not left out like those of the system)
    export PKG_CONFIG_ALLOW_SYSTEM_CFLAGS=1 PKG_CONFIG_ALLOW_SYSTEM_LIBS=1
}

c_shared() {
    unpacked
    # shellcheck disable=SC2046
    cc -o login_c first_login/login.c $(pkg-config --cflags --libs fe2o3_sasl) -Wl,-rpath,"$LIBRARIES"
    ./login_c
}

c_static() {
    unpacked
    # shellcheck disable=SC2046
    cc -o login_c first_login/login.c $(pkg-config --cflags fe2o3_sasl) "$LIBRARIES/libfe2o3_sasl.a"
    ./login_c
}

# Also each example in C of the tar.gz.
c_unpacked() {
    local example
    export PKG_CONFIG_PATH=$UNPACKED/lib/pkgconfig
    for example in first_login/login.c "$UNPACKED"/examples/*.c; do
        # shellcheck disable=SC2046
        cc -pthread -o "$(basename "$example" .c)_unpacked" "$example" $(pkg-config --cflags --libs fe2o3_sasl)
    done
    ./login_unpacked
}

# Both libraries of the folder $1, of the version that it has, the shared one last.
by_cmake() {
    cmake -S first_login -B "${1}_cmake" -DCMAKE_PREFIX_PATH="$1" -DWANTED="${VERSION%-dev}" >&2
    cmake --build "${1}_cmake" >&2
    "${1}_cmake/login_static" >&2
    "${1}_cmake/login_shared"
}

c_installed() {
    trap 'dpkg -r libfe2o3-sasl-dev "$(basename "$RUNTIME" | cut -d _ -f 1)" >&2' EXIT
    dpkg -i "$RUNTIME" "$DEV" >&2
    # shellcheck disable=SC2046
    cc -o login_c first_login/login.c $(pkg-config --cflags --libs fe2o3_sasl)
    ./login_c
}

in_python() {
    python3 -m venv venv >&2
    venv/bin/pip --disable-pip-version-check install --no-index "$WHEEL" >&2
    venv/bin/python -c 'import fe2o3_sasl.asyncio, fe2o3_sasl._native as native, sys; sys.exit(not native._library._name.startswith(sys.prefix))'
    # (the examples are where the wheel puts them)
    (cd venv/share/doc/fe2o3_sasl/examples && ../../../../bin/python -B -c 'import broker, channel, client, login')
    venv/bin/python first_login/login.py
}

# A program in Python with types, of which those of the wheel have to be known.
typed() {
    if ! command -v mypy > /dev/null; then
        echo 'not tried, since mypy is not installed: the types of the wheel'
    elif mypy --strict --python-version 3.11 --python-executable venv/bin/python --cache-dir typed first_login/typed.py \
        > log 2>&1; then
        echo 'Python, a program over the wheel passes mypy --strict'
    else
        cat log >&2
        fail 'mypy finds a fault in a program over the wheel'
    fi
}

# A program in the folder $1 that depends on the unpacked crate.
rust_program() {
    mkdir -p "$1/src"
    tar -xf "packages/$CRATE.tar.gz" -C "$1"
    cp first_login/login.rs "$1/src/main.rs"
    printf '%s\n' '[package]' 'name = "login"' 'version = "0.0.0"' 'edition = "2021"' '[dependencies]' \
        "fe2o3-sasl-proved = { path = \"$CRATE\" }" '[workspace]' > "$1/Cargo.toml"
}

in_rust() {
    local folder=rust_$1
    rust_program "$folder"
    if [ "$1" = pkg-config ]; then
        rm -r "${folder:?}/$CRATE/lib"
        unpacked
    fi
    (cd "$folder" && cargo build --offline --quiet) >&2
    "$folder/target/debug/login"
}

# What build.rs says if there is no archive. The documentation is made without one, as docs.rs makes it.
rust_without_archive() {
    local way
    rust_program rust_without
    rm -r "rust_without/$CRATE/lib"
    ! (cd rust_without && PKG_CONFIG_LIBDIR=$PWD cargo build --offline) > log 2>&1 || fail "the crate links without an archive"
    for way in 'FE2O3_SASL_LIB: not set' 'packed with this crate: ' 'pkg-config: ' 'the repository: '; do
        grep -qF -e "- $way" log || { cat log >&2; fail "the error of build.rs does not say: $way"; }
    done
    (cd rust_without && DOCS_RS=1 PKG_CONFIG_LIBDIR=$PWD cargo doc --offline --no-deps -p fe2o3-sasl-proved) > log 2>&1 ||
        { cat log >&2; fail 'the documentation of the crate needs an archive'; }
    echo 'Rust, crate without an archive: the error names the four places, and the documentation is made'
}

ci() {
    hidden '' bindings/packages/ci.sh "$1"
}

# `judge WHAT TOOL ARGUMENTS..`: runs a tool over packages, if it is installed. Fails if it finds a fault.
judge() {
    local what=$1 tool=$2
    shift
    if ! command -v "$tool" > /dev/null; then
        echo "not judged, since $tool is not installed: $what"
    elif "$@"; then
        echo "$tool finds no fault: $what"
    else
        fail "$tool finds a fault: $what"
    fi
}

judged() {
    local outside
    outside=$(mktemp -d "${TMPDIR:-/tmp}/fe2o3_packages.XXXXXX")
    # shellcheck disable=SC2064
    trap "rm -rf '$outside'" EXIT
    judge 'the Debian packages' lintian --allow-root --fail-on error,warning "$PACKED"/*.deb
    judge 'the wheel' twine check --strict "$PACKED"/*.whl
    mkdir "$outside/tar" "$outside/crate"
    tar -xf "$1" -C "$outside/tar"
    tar -xf "$2" -C "$outside/crate"
    judge 'the crate' cargo package --quiet --offline --allow-dirty --target-dir "$outside/target" \
        --manifest-path "$outside/crate/$(basename "$2" .tar.gz)/Cargo.toml"
    judge 'the pages of the repository, the tar.gz and the crate' \
        bindings/packages/pages.py check . "$outside"/tar/* "$outside"/crate/*
}

[ $# -gt 0 ] || { sed -n 's/^# \{0,1\}//p' "$0" >&2; exit 2; }
[ "$1" = outside ] || cd "$(dirname "$0")/../.."
"$@"
