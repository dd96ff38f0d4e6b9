#!/usr/bin/env bash
# What one text costs, the proved archive beside the Rust that is ported: builds one x86-64 program out of both, counts its
# instructions under qemu-user, and writes the figures and the plot of docs/PERFORMANCE.md. No time is measured: on one machine with one Rust
# and one C library the figures are the same at every run. What is missing is installed by Debian's packages.
#   DOCS_SRC=dir    where the Rust that is ported lies (default: ../shared/docs/src beside the repository)
#   RUSTC=command   another Rust compiler
set -euo pipefail
cd "$(dirname "$0")/.."
config=${DOCS_SRC:-../shared/docs/src}/src/api/client/config.rs
config_sum=79bdf1f6bfabaf5bbb9aea67c7d7a4101d8bed03f2ab6d5ddb01aa50a1a9feca # pgwire 0.41.0
out=build/bench

cannot() {
    echo "bench: cannot run ($1)" >&2
    exit 2
}

. scripts/tools.sh

case $(uname -m) in
x86_64) linker=${CC:-gcc} linker_packages='gcc libc6-dev' rust_packages='rustc' run=() ;;
aarch64)
    linker=x86_64-linux-gnu-gcc linker_packages='gcc-x86-64-linux-gnu libc6-dev-amd64-cross'
    rust_packages='rustc libstd-rust-dev:amd64' run=(qemu-x86_64)
    ;;
*) cannot "no way is known to run an x86-64 program on $(uname -m)" ;;
esac

missing() {
    find_rustc >/dev/null || echo "$rust_packages"
    find_percent >/dev/null || echo librust-percent-encoding-dev
    command -v "$linker" >/dev/null || echo "$linker_packages"
    command -v gcc >/dev/null || echo gcc libc6-dev
    command -v qemu-x86_64 >/dev/null || echo qemu-user
    command -v python3 >/dev/null || echo python3
}

mkdir -p "$out/original/api/client"
install_missing bench "$out/install.log"
rustc=$(find_rustc)
echo "$config_sum  $config" | sha256sum --check --status || cannot "$config is not the one of pgwire 0.41.0: set DOCS_SRC"
scripts/archive.sh

rust() {
    "$rustc" --edition 2021 -C opt-level=3 --target $target -C linker="$linker" --out-dir "$out" -L "$out" --cap-lints allow "$@"
}

cp differential/original/lib.rs "$out/original/lib.rs"
cat "$config" differential/original/told.rs >"$out/original/api/client/config.rs"
rust --crate-type rlib --crate-name percent_encoding --cfg 'feature="alloc"' --cfg 'feature="std"' "$(find_percent)"
rust --crate-type rlib --crate-name original --extern percent_encoding "$out/original/lib.rs"
rust --crate-name bench --extern original -L native=build -l static=nyimbrak bench/main.rs
gcc -O2 -shared -fPIC -Wall -Wextra -Werror bench/count.c -o "$out/count.so"

# the plugin's lines are counts, in the order of the program's lines
qemu-x86_64 -cpu Nehalem -plugin "$out/count.so" "$out/bench" count >"$out/calls.txt" 2>"$out/counts.txt"
[ "$(wc -l <"$out/calls.txt")" = "$(wc -l <"$out/counts.txt")" ] || { cat "$out/counts.txt" >&2 && cannot 'a count is missing'; }
{
    paste "$out/calls.txt" "$out/counts.txt"
    "${run[@]}" "$out/bench" stack
    size -A build/libnyimbrak.a | awk '/^\.text/ { text += $2 } /^\.rodata/ { data += $2 } END { print "size\ttext\t" text "\nsize\trodata\t" data }'
    printf 'size\tarchive\t%s\n' "$(wc -c <build/libnyimbrak.a)"
    printf 'rustc\t%s\n' "$("$rustc" --version)"
} >"$out/figures.txt"
python3 bench/page.py "$out/figures.txt" docs/PERFORMANCE.md docs/performance.svg
