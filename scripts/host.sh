#!/usr/bin/env bash
# Builds the example host in C over the proved archive, runs it on examples/host.stdin, and holds what it prints to
# examples/host.stdout. On aarch64 it is cross-built and run by qemu-user. Where the tools are missing it says so, and succeeds.
set -euo pipefail
cd "$(dirname "$0")/.."
case $(uname -m) in
x86_64) compiler=${CC:-cc} run=() static=() ;;
aarch64) compiler=x86_64-linux-gnu-gcc run=(qemu-x86_64) static=(-static) ;;
*) echo "host: skipped (no way is known to run an x86-64 program on $(uname -m))" && exit 0 ;;
esac
for tool in "$compiler" "${run[@]}"; do
    command -v "$tool" >/dev/null || { echo "host: skipped (no $tool)" && exit 0; }
done
scripts/archive.sh
"$compiler" -std=c11 -O2 -Wall -Wextra -Werror "${static[@]}" -Iinclude examples/host.c build/libnyimbrak.a -o build/host
"${run[@]}" build/host <examples/host.stdin >build/host.stdout
diff -u examples/host.stdout build/host.stdout
echo 'host: as expected'
