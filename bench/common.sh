# Shared by the measurements of this folder, tests/boundary and tests/udp: compilers for x86-64, the archive of proved functions, and how a program is run.
# Sourced by a script of bash that has set `name`. Everything made goes to target/bench/NAME, but the archive of crate mis, which rt puts into crates/mis/out.

set -eu
root=$(cd "$(dirname "${BASH_SOURCE[0]}")/.." && pwd -P)
work=$root/target/bench/$name
mkdir -p "$work"

command -v rt >"$work/log" || { echo "$name: rt is not on the path" >&2; exit 2; }

# An archive of proved functions is for x86-64, as the kit is.
kind=native
gcc=gcc
rustc=rustc
packages="gcc libc6-dev rustc"

install_compilers() {
    if command -v "$gcc" >"$work/log" && command -v "$rustc" >"$work/log"; then return; fi
    {
        apt-get update
        # shellcheck disable=SC2086
        DEBIAN_FRONTEND=noninteractive apt-get install -y --no-install-recommends $packages
    } >"$work/log" 2>&1 || { tail "$work/log" >&2; exit 2; }
}

# need COMMAND PACKAGE: a command that a script calls, from Debian's package where it is missing
need() {
    command -v "$1" >"$work/log" && return
    { apt-get update && DEBIAN_FRONTEND=noninteractive apt-get install -y --no-install-recommends "$2"; } >"$work/log" 2>&1 || {
        tail "$work/log" >&2
        exit 2
    }
}

# archive CRATE DEPS: the functions that the source on standard input exports, proved over copies of the crates of this repository, as target/bench/NAME/libCRATE.a.
# The copies stand outside the repository, where `rt ci` would refuse them.
archive() {
    local room crate part
    room=$(mktemp -d)
    mkdir -p "$room/crates/$1/src"
    cat >"$room/crates/$1/src/lib.rt"
    for crate in "$root"/crates/*; do
        for part in src specs proofs; do
            [ ! -d "$crate/$part" ] || { mkdir -p "$room/crates/${crate##*/}" && cp -R "$crate/$part" "$room/crates/${crate##*/}/"; }
        done
    done
    { cat "$root/crates.txt"; echo "$1 staticlib: $2"; } >"$room/crates.txt"
    (cd "$room/crates/$1" && rt lib) >"$work/log" 2>&1 || { tail "$work/log" >&2; rm -rf "$room"; exit 1; }
    cp "$room/crates/$1/out/lib$1.a" "$work/lib$1.a"
    rm -rf "$room"
}

# mis_archive: the proved calls, all of them, as target/bench/NAME/libmis.a. ARCHIVE names one that is built already.
mis_archive() {
    if [ -z "${ARCHIVE:-}" ]; then
        (cd "$root/crates/mis" && rt lib) >"$work/log" 2>&1 || { tail "$work/log" >&2; exit 1; }
    fi
    cp "${ARCHIVE:-$root/crates/mis/out/libmis.a}" "$work/libmis.a"
}

# plain_rust FILE [MADE [WORDS..]]: Rust with no library but core, as target/bench/NAME/libMADE.a, libplain.a unless told otherwise
plain_rust() {
    local file=$1 made=${2:-plain}
    shift
    [ $# -eq 0 ] || shift
    "$rustc" --edition 2021 --target x86_64-unknown-linux-gnu --crate-type staticlib --crate-name "$made" \
        -C opt-level=3 -C panic=abort -C lto "$@" -o "$work/lib$made.a" "$root/bench/$file"
}

# program FILES..: C sources of this folder and archives of the work folder, linked as target/bench/NAME/run
program() {
    (cd "$work" && "$gcc" -O3 -Wall -static -I"$root/bench" -o run "$@")
}

# c_program MADE FILES..: a program over the header, linked as target/bench/NAME/MADE
c_program() {
    local made=$1
    shift
    (cd "$work" && "$gcc" -O2 -Wall -Wextra -Werror -static -I"$root/include" -I"$root/bench" -o "$made" "$@")
}

# started PROGRAM WORDS..: becomes that program of the work folder, so call it in a subshell.
started() {
    local made=$work/$1
    shift
    exec "$made" "$@"
}

run() { (started run "$@"); }
