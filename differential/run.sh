#!/usr/bin/env bash
# The runs beside Rust: builds one x86-64 program out of the proved archives of crates probe, probe_record and dock_c, of
# Rust's own library and of the Rust that is ported, and runs it, and beside it the proved program of crate probe_setters.
#   differential/run.sh small   what `make test` runs: where the tools can't be had it says so, and succeeds
#   differential/run.sh large   what `make differential` runs: there the same is a failure
#   differential/run.sh vectors writes crates/replay/stdin, a sample of the Rust's answers, and what the program owes for it
#   SEED=n          another seed for what is chosen freely (default 1)
#   DOCS_SRC=dir    where the Rust that is ported lies (default: ../shared/docs/src beside the repository)
#   RUSTC=command   another Rust compiler
# The last line is 'differential: N compared, D differ', and the exit status is 0 only where D is 0. On aarch64 the program is
# cross-built and run by qemu-user. What is missing is installed by Debian's packages.
set -euo pipefail
cd "$(dirname "$0")/.."
size=${1:-}
seed=${SEED:-1}
config=${DOCS_SRC:-../shared/docs/src}/src/api/client/config.rs
config_sum=79bdf1f6bfabaf5bbb9aea67c7d7a4101d8bed03f2ab6d5ddb01aa50a1a9feca # pgwire 0.41.0
build=differential/build

case $size in
small | large | vectors) ;;
*) echo "usage: differential/run.sh small|large|vectors" >&2 && exit 2 ;;
esac

# The tools or the Rust can't be had: the small run is left out, the large one fails.
cannot() {
    if [ "$size" = small ]; then
        echo "differential: skipped ($1)"
        exit 0
    fi
    echo "differential: cannot run ($1)" >&2
    exit 2
}

fail() {
    [ -z "${2:-}" ] || tail -n 20 "$2" >&2
    echo "differential: $1" >&2
    exit 1
}

. scripts/tools.sh
. scripts/kept.sh

case $(uname -m) in
x86_64)
    linker=${CC:-gcc} linker_packages='gcc libc6-dev' rust_packages='rustc' run=()
    ;;
aarch64)
    # no -L for qemu: the C library comes with libstd-rust-dev:amd64, and a mix of two of them dies
    linker=x86_64-linux-gnu-gcc linker_packages='gcc-x86-64-linux-gnu libc6-dev-amd64-cross'
    rust_packages='rustc libstd-rust-dev:amd64' run=(qemu-x86_64)
    ;;
*) cannot "no way is known to run an x86-64 program on $(uname -m)" ;;
esac

missing() {
    find_rustc >/dev/null || echo "$rust_packages"
    find_percent >/dev/null || echo librust-percent-encoding-dev
    command -v "$linker" >/dev/null || echo "$linker_packages"
    [ ${#run[@]} = 0 ] || command -v "${run[0]}" >/dev/null || echo qemu-user
}

rust() {
    "$rustc" --edition 2021 -O --target $target -C linker="$linker" --out-dir "$build" -L "$build" "$@" \
        >"$build/rustc.log" 2>&1 || fail 'the Rust side does not compile' "$build/rustc.log"
}

# The Rust that is ported, byte for byte.
build_original() {
    if [ ! -e "$config" ]; then
        [ "$size" = small ] || cannot "no $config: set DOCS_SRC"
        echo "differential: the Rust that is ported is left out (no $config: set DOCS_SRC)"
        return 0
    fi
    echo "$config_sum  $config" | sha256sum --check --status || fail "$config is not the one of pgwire 0.41.0"
    mkdir -p "$build/original/api/client"
    cp differential/original/lib.rs "$build/original/lib.rs"
    cat "$config" differential/original/told.rs >"$build/original/api/client/config.rs"
    cmp -s -n "$(wc -c <"$config")" "$config" "$build/original/api/client/config.rs" || fail 'config.rs was changed'
    rust --crate-type rlib --crate-name original --extern percent_encoding --cap-lints allow "$build/original/lib.rs"
    with_original=(--cfg original --extern original)
}

command -v rt >/dev/null || cannot 'no rt: the Rattle kit is missing'
mkdir -p "$build"
install_missing differential "$build/install.log"
rustc=$(find_rustc)
with_original=()
rust --crate-type rlib --crate-name percent_encoding --cap-lints allow --cfg 'feature="alloc"' --cfg 'feature="std"' "$(find_percent)"
build_original
if [ "$size" = vectors ]; then
    rust --crate-name vectors "${with_original[@]}" --cap-lints allow differential/beside/vectors.rs
    "${run[@]}" "$build/vectors" crates/replay/stdin "$seed" | tee "$build/vectors.log"
    sed -n 's/ vectors, .*/ as they should be, 0 differ/p' "$build/vectors.log" >crates/replay/stdout
    exit 0
fi
scripts/archive.sh all
rust --crate-name beside --extern percent_encoding "${with_original[@]}" -L native=build \
    -l static=probe -l static=probe_record -l static=nyimbrak differential/beside/main.rs
"${run[@]}" "$build/beside" calls "$size" "$seed" "$build/calls"
"${run[@]}" build/probe_setters <"$build/calls" >"$build/answers"
"${run[@]}" "$build/beside" "$size" "$seed" "$build/answers"
