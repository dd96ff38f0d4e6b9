#!/usr/bin/env bash
# Every proof, every must-fail edit, every test and every program, by rt ci; build/ci.log has what it says. An edit that is bad fails too.
set -euo pipefail
cd "$(dirname "$0")/.."
mkdir -p build
rt ci | tee build/ci.log
ok=$(grep '^rt: ok' build/ci.log) || { echo 'ci: rt ci said no ok' >&2; exit 1; }
if grep -qE ', [1-9][0-9]* bad' <<<"$ok"; then
    echo 'ci: a must-fail edit is bad' >&2
    exit 1
fi
